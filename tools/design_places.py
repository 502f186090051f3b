#!/usr/bin/env python3
"""Lists the places of docs/DESIGN-PASS.md in crates/*/src, point by point: `tools/design_places.py [POINT]`, with the count of each row last."""
import collections, glob, os, re, sys

os.chdir(os.path.join(os.path.dirname(os.path.abspath(__file__)), ".."))
FILES = {path: open(path).read() for path in sorted(glob.glob("crates/*/src/*.rt"))}


def lines(pattern):
    """The lines of src/ in which the pattern stands, comments left out."""
    for path, text in FILES.items():
        for number, line in enumerate(text.split("\n"), 1):
            if not line.lstrip().startswith("//") and re.search(pattern, line):
                yield f"{path}:{number}: {line.strip()}"


def functions():
    """Each function of src/: its path, line, name, parameters, clauses and body."""
    for path, text in FILES.items():
        for found in re.finditer(r"^( *)(?:pub )?fn (\w+)([^{]*?)\{?$", text, re.M):
            start = found.start()
            body = text.find("\n" + found.group(1) + "{\n", start)
            close = text.find("\n" + found.group(1) + "}\n", start)
            if 0 <= start < close:
                cut = body if start < body < close else text.find("{\n", start)
                yield path, text.count("\n", 0, start) + 1, found.group(2), text[start:cut], text[cut:close]


def twins():
    """Functions whose bodies have one shape: the same text but for names that differ, numbers and types."""
    shapes = collections.defaultdict(list)
    for path, line, name, head, body in functions():
        names = {}
        shape = re.sub(r"\w+", lambda w: w.group() if w.group() in KEPT else names.setdefault(w.group(), f"n{len(names)}"), body)
        if body.count("\n") > 4:
            shapes[re.sub(r"\s+", " ", shape)].append(f"{path}:{line}: {name}")
    return [" ~ ".join(group) for group in shapes.values() if len(group) > 1]


KEPT = set("let mut if else while for in return match true false loop break as".split())


def repeated(kind):
    """Clauses of this kind that stand in three or more functions, with how often."""
    count = collections.Counter()
    for path, line, name, head, body in functions():
        count.update(set(re.findall(kind + r"(?: \w+)? \{ (.*) \}$", head, re.M)))
    return [f"{often} functions: {clause}" for clause, often in count.most_common() if often > 2]


def together(*names):
    """Functions that take all these parameters."""
    return [f"{p}:{l}: {n}" for p, l, n, head, body in functions() if all(re.search(r"\b" + name + r": &", head) for name in names)]


POINTS = {
    "1 own enums": lambda: lines(r"^\s*(pub )?enum "),
    "1 flags with a value": lambda: lines(r"^\s+pub \w+: bool,"),
    "1 comparisons as numbers": lambda: [f"{p}:{l}: {n}" for p, l, n, head, body in functions() if re.search(r"-> u8\b", head) and re.search("compare|by_size", n)],
    "1 kinds as numbers": lambda: lines(r"^\s*(pub )?kind: u|^pub const [A-Z_]+: u(8|32) = (\d+|roles::\w+ as u8);"),
    "2 functions of one shape": twins,
    "3 loops that count by hand": lambda: lines(r"^\s*(while|loop)\b"),
    "4 equality, order, copies, conversions by name": lambda: lines(r"fn (same_|compare|copy_|bit\b|lesser\b|zero_|by_size|\w+_not_after|byte_at|is_digit)"),
    "5 requires in three functions or more": lambda: repeated("requires"),
    "5 library and text": lambda: together("library", "text"),
    "6 buffers with a length": lambda: lines(r"^\s*(pub )?\w+: \[u(8|32); \d+\],"),
    "7 switches on a step": lambda: lines(r"^\s*(pub )?enum (Test|Table|Order|Facet)\b|while pass\b|^\s*match (mode|kind|test|table|order|facet)\b"),
    "8 answers that only search the usual rules": lambda: [
        f"{path}: {line}" for path in sorted(glob.glob("crates/*/proofs/**/Answers.antt", recursive=True))
        for line in open(path).read().split("\n") if re.search(r"= search rules$", line)
    ],
}

for title, places in POINTS.items():
    if len(sys.argv) < 2 or title.startswith(sys.argv[1]):
        found = list(places())
        if len(sys.argv) > 1:
            print("\n".join(found))
        print(f"{title}: {len(found)}")
