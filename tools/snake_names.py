#!/usr/bin/env python3
"""Brings the repository's own definitions, lemmas, fields and variables from `two-words` to `two_words`, in crates/, once.

usage: tools/snake_names.py [--look]      --look tells what would be renamed and what would fall together, and writes nothing

A name is the repository's own if a file of specs/ or proofs/ (not of a function's folder below proofs/) has it and no library's `use` brings
it in. Strings stay, and comments but for names in backticks. Goals, which the toolchain names, stay.
"""
import collections
import os
import re
import sys

TOKEN = re.compile(r'"(?:[^"\\]|\\.)*"|`[^`\n]*`|[^\s(){}\[\],;.λ⌜⌝"`]+')
KEBAB = re.compile(r"[A-Za-z_][\w']*(?:-[\w']+)+")
USE = re.compile(r"^(?:ghost |pub )*use ([^\s{;]+?)(?:\.\{([^}]*)\})?;?\s*$", re.M)
RULESET = re.compile(r"^(?:pub )?ruleset (\S+) =", re.M)
HEAD = re.compile(r"^\s*(?:(?:unfoldable|abbrev|pub|reducible|constructor)\s+)*([^\s(){}:;]+)\s*:(?:\s|$)", re.M)

def spelled(name):
    return name.replace("-", "_")


def files(root):
    for folder, dirs, names in os.walk(root):
        dirs[:] = sorted(d for d in dirs if d != "out")
        for name in sorted(names):
            yield os.path.join(folder, name)


def of_function(path):
    """Whether a file is of a function's folder below proofs/."""
    parts = path.split(os.sep)
    return "proofs" in parts and parts.index("proofs") < len(parts) - 2


def comment_at(line):
    m = re.search(r"(^|\s)--(\s|$)", line)
    return m.start() if m else len(line)


def imported(text, crates):
    """The names that a file has from libraries."""
    found = set()
    for m in USE.finditer(text):
        if m.group(1).split(".")[:1] == ["Rattle"] and m.group(1).split(".")[1] in crates:
            continue
        found |= {w.strip().split(" as ")[0] for w in (m.group(2) or "").split(",")}
    return found


def scan(root):
    crates = set(os.listdir(root))
    library, own, heads = set(), collections.Counter(), set()
    for path in files(root):
        if not path.endswith((".antt", ".rt")):
            continue
        text = open(path, encoding="utf-8").read()
        library |= imported(text, crates)
        if path.endswith(".antt") and not of_function(path):
            heads |= {h for h in HEAD.findall(text) + RULESET.findall(text) if KEBAB.fullmatch(h)}
            for line in text.splitlines():
                for t in TOKEN.findall(line[: comment_at(line)]):
                    if KEBAB.fullmatch(t):
                        own[t] += 1
    return library, own, heads


def renamed(text, names, comments):
    """The text with each of the names respelled; in comments (of `--` or `//`) only in backticks."""

    def one(t):
        if t[0] == '"':
            return t
        if t[0] == "`":
            return re.sub(r"[^\s(){}\[\],;.`]+", lambda m: spelled(m.group()) if m.group() in names else m.group(), t)
        return spelled(t) if t.strip("◌") in names else t  # `◌` stands where an operator's arguments go

    lines = []
    for line in text.split("\n"):
        at = comment_at(line) if comments == "--" else len(line)
        if comments == "//":
            m = re.search(r"(^|\s)//", line)
            at = m.start() if m else len(line)
        code = TOKEN.sub(lambda m: one(m.group()), line[:at])
        rest = re.sub(r"`[^`\n]*`", lambda m: one(m.group()), line[at:])
        lines.append(code + rest)
    return "\n".join(lines)


def main(argv):
    root = "crates"
    crates = set(os.listdir(root))
    library, own, heads = scan(root)
    both = sorted(n for n in own if n in library and n in heads)
    names = {n for n in own if n not in library or n in heads}
    fall = collections.Counter(n.replace("-", "_") for n in names)
    print(f"{len(names)} names, of which {len(heads)} are declared; the library has too: {both}")
    print("fall together:", sorted(s for s, k in fall.items() if k > 1))
    for path in files(root):
        if not path.endswith((".antt", ".rt", ".edit")):
            continue
        text = open(path, encoding="utf-8").read()
        if argv == ["--look"]:
            if path.endswith(".antt") and not of_function(path):
                ids = set(re.findall(r"[A-Za-z_][\w']*", text))
                kebabs = {t for t in TOKEN.findall(text) if t in names}
                for k in sorted(kebabs):
                    if k.replace("-", "_") in ids:
                        print(f"look: {path}: {k} beside {k.replace('-', '_')}")
            continue
        here = names & heads - library if of_function(path) else names - imported(text, crates)
        if path.endswith(".rt"):
            new = renamed(text, here, "//")
        else:
            new = renamed(text, here, "--")
        if path.startswith(os.path.join(root, "read_meaning")):
            new = new.replace("after_head", "AfterHead")  # a predicate: its type ends in Type 0
        if new != text:
            open(path, "w", encoding="utf-8").write(new)
    return 0


if __name__ == "__main__":
    raise SystemExit(main(sys.argv[1:]))
