//! The command `asf`, run as people run it: what it prints is compared whole with what stands in `tests/golden`.
//! With ASF_BLESS set these files are written anew, to be read before they are kept.

use std::collections::BTreeSet;
use std::env;
use std::fs::{self, File};
use std::io::{Read, Write};
use std::os::unix::io::FromRawFd;
use std::path::{Path, PathBuf};
use std::process::{Command, Stdio};

const SHEET: &str = include_str!("../../../docs/ANSWERS.md");
const CONSOLES: &str = include_str!("../../../examples/consoles.asf");

/// The program, behind the emulator where cargo uses one.
fn program() -> Command {
    let runner = env::var("CARGO_TARGET_X86_64_UNKNOWN_LINUX_GNU_RUNNER").unwrap_or_default();
    let words: Vec<&str> = runner.split_whitespace().collect();
    let mut command = match words.split_first() {
        None => Command::new(env!("CARGO_BIN_EXE_asf")),
        Some((first, rest)) => {
            let mut command = Command::new(first);
            command.args(rest).arg(env!("CARGO_BIN_EXE_asf"));
            command
        }
    };
    command.env_remove("NO_COLOR").env("TERM", "xterm");
    command
}

/// A folder with files, and what was said in it so far.
struct Desk {
    folder: PathBuf,
    name: String,
    transcript: String,
}

impl Desk {
    fn new(name: &str, files: &[(&str, &[u8])]) -> Desk {
        let folder = Path::new(env!("CARGO_TARGET_TMPDIR")).join(name);
        let _ = fs::remove_dir_all(&folder);
        fs::create_dir_all(&folder).expect("a folder");
        for (file, bytes) in files {
            fs::write(folder.join(file), bytes).expect("a file");
        }
        Desk {
            folder,
            name: name.to_string(),
            transcript: String::new(),
        }
    }

    /// Runs `asf` with these words; gives what it prints on standard output, and its exit status.
    fn run(&mut self, words: &[&str]) -> (String, i32) {
        self.fed(words, b"")
    }

    fn fed(&mut self, words: &[&str], input: &[u8]) -> (String, i32) {
        let mut child = program()
            .args(words)
            .current_dir(&self.folder)
            .stdin(Stdio::piped())
            .stdout(Stdio::piped())
            .stderr(Stdio::piped())
            .spawn()
            .expect("it runs");
        let mut stdin = child.stdin.take().expect("standard input");
        let _ = stdin.write_all(input); // not all commands read it
        drop(stdin);
        let output = child.wait_with_output().expect("it ends");
        let text = |bytes: Vec<u8>| String::from_utf8(bytes).expect("UTF-8");
        let (out, error) = (text(output.stdout), text(output.stderr));
        let status = output.status.code().expect("a status");
        self.transcript.push_str(&format!(
            "$ {}\n{}",
            [&["asf"], words].concat().join(" "),
            out
        ));
        if !error.is_empty() {
            self.transcript
                .push_str(&format!("on standard error:\n{}", error));
        }
        self.transcript
            .push_str(&format!("exit status {}\n\n", status));
        (out, status)
    }

    fn keep(&self, file: &str, bytes: &str) {
        fs::write(self.folder.join(file), bytes).expect("a file");
    }

    /// Compares all that was said with the golden file.
    fn compare(self) {
        let path = golden().join(format!("{}.txt", self.name));
        if env::var_os("ASF_BLESS").is_some() {
            fs::write(&path, &self.transcript).expect("a golden file");
        }
        let expected = fs::read_to_string(&path).unwrap_or_default();
        assert!(
            self.transcript == expected,
            "{} has:\n{}\nprinted was:\n{}",
            path.display(),
            expected,
            self.transcript
        );
    }
}

fn golden() -> PathBuf {
    Path::new(env!("CARGO_MANIFEST_DIR")).join("tests/golden")
}

/// The examples of the help sheet, each with the number that it stands under and its own number there.
fn examples() -> Vec<(u32, usize, String)> {
    let mut found: Vec<(u32, usize, String)> = Vec::new();
    let mut number = 0;
    let mut parts = SHEET.split("```\n");
    while let Some(prose) = parts.next() {
        for heading in prose.lines().filter(|line| line.starts_with('#')) {
            let words = heading.trim_start_matches('#').trim();
            number = words
                .split(':')
                .next()
                .and_then(|word| word.parse().ok())
                .unwrap_or(number);
        }
        if let Some(example) = parts.next() {
            let count = found.iter().filter(|(other, ..)| *other == number).count() + 1;
            found.push((number, count, example.to_string()));
        }
    }
    found
}

fn sheet_name(number: u32, count: usize) -> String {
    format!("sheet-{:02}-{}", number, count)
}

/// Each example of the help sheet gives the number that it stands under, in the words of its heading and with its advice.
#[test]
fn the_help_sheet() {
    let mut numbers = BTreeSet::new();
    for (number, count, example) in examples() {
        let mut desk = Desk::new(
            &sheet_name(number, count),
            &[("example.asf", example.as_bytes())],
        );
        if number == 21 {
            let (_, status) = desk.run(&["diff", "example.asf", "example.asf"]);
            assert_eq!(status, 2);
        } else {
            let (out, status) = desk.run(&["check", "example.asf"]);
            assert_eq!(status, (number > 0) as i32, "{}", out);
            let told = format!(": {}: ", number);
            assert!(
                number == 0 || out.lines().next().expect("a line").contains(&told),
                "{}",
                out
            );
        }
        desk.compare();
        numbers.insert(number);
    }
    // no short input gives 19
    let all: BTreeSet<u32> = (0..=15).chain([17, 18, 21]).chain(22..=27).collect();
    assert_eq!(numbers, all);
}

/// No golden file is left over.
#[test]
fn golden_files() {
    let sheet = examples()
        .into_iter()
        .map(|(number, count, _)| sheet_name(number, count));
    let others = [
        "places",
        "files",
        "every-module",
        "two-files",
        "framed",
        "list",
        "diff",
        "diff-hidden",
        "keep",
        "keep-libraries",
        "explain",
        "help",
        "wrong-use",
        "colour",
        "json",
    ];
    let expected: BTreeSet<String> = sheet
        .chain(others.map(String::from))
        .map(|name| name + ".txt")
        .collect();
    let entries = fs::read_dir(golden()).expect("the golden files");
    let found: BTreeSet<String> = entries
        .map(|entry| {
            entry
                .expect("an entry")
                .file_name()
                .into_string()
                .expect("a name")
        })
        .collect();
    assert_eq!(found, expected);
}

const GOOD: &str = "module Bits begin exports begin sorts Bit end end Bits\n";

/// Lines and columns as editors count: behind tabs, in lines that end in CR LF, behind characters of many bytes, in long lines, at the end.
#[test]
fn places() {
    let long = format!(
        "module Bits begin{}$ end Bits{}\n",
        " ".repeat(200),
        " ".repeat(200)
    );
    let long_end = format!("module Bits{} $", " ".repeat(200));
    let mut desk = Desk::new(
        "places",
        &[
            (
                "lines.asf",
                b"module Bits begin\r\n  exports begin\r\n    sorts Bit.1 end\r\nend Bits\r\n",
            ),
            (
                "tabs.asf",
                b"module Bits begin\n\texports begin\tsorts\tBit.1 end\nend Bits\n",
            ),
            (
                "characters.asf",
                "module Bits begin -- für die Löschung -- sorts Bit.1 end Bits\n".as_bytes(),
            ),
            (
                "wide.asf",
                "module Bits begin -- 模块 e\u{301} -- sorts Bit.1 end Bits\n".as_bytes(),
            ),
            ("name.asf", "module Größe begin end Größe\n".as_bytes()),
            (
                "latin.asf",
                b"module Bits begin -- f\xfcr -- sorts B\xfct end Bits\n",
            ),
            ("controls.asf", b"module Bits begin\x1b[31m end Bits\n"),
            ("returns.asf", b"module Bits begin\r$ end Bits\n"),
            ("mark.asf", b"\xef\xbb\xbfmodule Bits begin end Bits\n"),
            ("open.asf", b"module Bits begin\n"),
            ("open-line.asf", b"module Bits begin"),
            ("open-lines.asf", b"module Bits begin\r\n\r\n"),
            ("end.asf", b"module Bits begin end Bits"),
            ("long.asf", long.as_bytes()),
            ("long-end.asf", long_end.as_bytes()),
        ],
    );
    for file in [
        "lines",
        "tabs",
        "characters",
        "wide",
        "name",
        "latin",
        "controls",
        "returns",
        "mark",
        "open",
        "open-line",
        "open-lines",
        "end",
        "long",
        "long-end",
    ] {
        desk.run(&["check", &format!("{}.asf", file)]);
    }
    desk.compare();
}

/// Files that are empty, larger than a text may be, directories, and none at all.
#[test]
fn files() {
    let large = format!(
        "module Bits begin\n{}end Bits\n",
        "  -- forty KB\n".repeat(40 * 1024 / 14)
    );
    let mut desk = Desk::new(
        "files",
        &[
            ("empty.asf", b""),
            ("blank.asf", b"\n\n"),
            ("large.asf", large.as_bytes()),
            ("good.asf", GOOD.as_bytes()),
        ],
    );
    fs::create_dir(desk.folder.join("folder")).expect("a folder");
    for file in [
        "empty.asf",
        "blank.asf",
        "large.asf",
        "folder",
        "missing.asf",
    ] {
        desk.run(&["check", file]);
    }
    desk.run(&["check", "good.asf", "--library", "missing.asf"]);
    desk.run(&["list", "folder", "Bits"]);
    let huge = File::create(desk.folder.join("huge.asf")).expect("a file");
    huge.set_len(16 * 1024 * 1024 + 1).expect("so many bytes");
    desk.run(&["check", "huge.asf"]);
    desk.run(&["diff", "missing.asf", "good.asf"]);
    desk.fed(&["check", "-"], GOOD.as_bytes());
    desk.fed(&["check", "-"], b"module Bits end Bits");
    desk.fed(
        &["check", "good.asf", "--library", "-"],
        b"module Words begin end Words",
    );
    desk.compare();
}

/// Words is refused by itself, Lists since it needs Bits; both mistakes are told once.
const FOUR: &str = "module Bits
begin
  exports begin sorts Bit functions zero : -> Bit flip : Bit -> Flag end
end Bits

module Words
begin
  imports Letters
end Words

module Lists
begin
  imports Bits
end Lists

module Roles
begin
  exports begin sorts ROLE end
end Roles
";

#[test]
fn every_module() {
    let files: [(&str, &[u8]); 2] = [("four.asf", FOUR.as_bytes()), ("good.asf", GOOD.as_bytes())];
    let mut desk = Desk::new("every-module", &files);
    desk.run(&["check", "four.asf"]);
    desk.run(&["check", "four.asf", "--quiet"]);
    desk.run(&["check", "four.asf", "Lists"]);
    desk.run(&["check", "four.asf", "Roles"]);
    desk.run(&["check", "four.asf", "roles"]);
    desk.run(&["check", "good.asf"]);
    desk.run(&["check", "--", "good.asf"]);
    let (out, status) = desk.run(&["check", "-q", "good.asf"]);
    assert_eq!((out, status), (String::new(), 0));
    desk.compare();
}

/// A library in a file of its own: places in either file, modules of both.
#[test]
fn two_files() {
    let library = "module Bits begin exports begin sorts Bit end end Bits\n\nmodule Pairs begin exports begin sorts Pair, Pair end end Pairs\n";
    let mut desk = Desk::new(
        "two-files",
        &[
            ("library.asf", library.as_bytes()),
            ("good.asf", b"module Words begin imports Bits end Words\n"),
            ("bad.asf", b"module Words begin imports Pairs end Words\n"),
            ("broken.asf", b"module Words\nbegin\nexport end Words\n"),
            ("same.asf", b"\nmodule Bits begin end Bits\n"),
        ],
    );
    desk.run(&["check", "good.asf"]);
    desk.run(&["check", "good.asf", "--library", "library.asf"]);
    desk.run(&["check", "good.asf", "Bits", "--library=library.asf"]);
    desk.run(&["check", "bad.asf", "--library", "library.asf"]);
    desk.run(&["check", "bad.asf", "Bit", "--library", "library.asf"]);
    desk.run(&["check", "good.asf", "--library", "broken.asf"]);
    desk.run(&["check", "broken.asf", "--library", "good.asf"]);
    desk.run(&["check", "same.asf", "--library", "library.asf"]);
    desk.run(&["visible", "good.asf", "Words", "--library", "library.asf"]);
    desk.compare();
}

/// An input of `asfnorm` as it is: its first line asks, and lines are counted from it.
#[test]
fn framed() {
    let framed = format!("normalise=Lists\n{}", FOUR);
    let returns = framed.replace('\n', "\r\n");
    let long = format!("normalise={}\n{}", "x".repeat(41), GOOD);
    let with_library = format!(
        "normalise=Words\nlibrary={}\n{}module Words begin imports Bits end Words\n",
        GOOD.len(),
        GOOD
    );
    let mut desk = Desk::new(
        "framed",
        &[
            ("framed.asf", framed.as_bytes()),
            ("returns.asf", returns.as_bytes()),
            ("long.asf", long.as_bytes()),
            ("library.asf", with_library.as_bytes()),
            ("good.asf", GOOD.as_bytes()),
        ],
    );
    desk.run(&["check", "framed.asf"]);
    desk.run(&["check", "framed.asf", "Words"]);
    desk.run(&["check", "returns.asf"]);
    desk.run(&["check", "long.asf"]);
    desk.run(&["visible", "library.asf"]);
    desk.run(&["check", "library.asf", "--library", "good.asf"]);
    desk.compare();
}

/// Listings, whole and visible, in lines and as JSON.
#[test]
fn list() {
    let rights = include_bytes!("../../../examples/rights.asf");
    let mut desk = Desk::new(
        "list",
        &[
            ("consoles.asf", CONSOLES.as_bytes()),
            ("rights.asf", rights),
            ("four.asf", FOUR.as_bytes()),
        ],
    );
    desk.run(&["list", "consoles.asf"]);
    desk.run(&["list", "consoles.asf", "Rights"]);
    desk.run(&["visible", "consoles.asf", "Rights"]);
    desk.run(&["list", "--json", "consoles.asf", "Rights"]);
    desk.run(&["visible", "--json", "consoles.asf", "Rights"]);
    desk.run(&["visible", "rights.asf", "ShopRoles"]);
    desk.run(&["list", "four.asf", "Words"]);
    desk.run(&["visible", "--json", "four.asf", "Words"]);
    desk.compare();
}

/// One object for every answer.
#[test]
fn json() {
    let mut desk = Desk::new(
        "json",
        &[
            ("four.asf", FOUR.as_bytes()),
            ("good.asf", GOOD.as_bytes()),
            (
                "broken.asf",
                b"module Bits\nbegin\n\tsorts Bit.1 end Bits\n",
            ),
        ],
    );
    desk.run(&["check", "--json", "four.asf"]);
    desk.run(&["check", "--json", "good.asf"]);
    desk.run(&["check", "--json", "broken.asf"]);
    desk.run(&["check", "--json", "good.asf", "\"\\\u{1}é"]);
    desk.compare();
}

/// The consoles with a setting renamed, a function and a hidden function more, and an equation changed.
fn next_consoles() -> String {
    let edits = [
        ("volume", "loudness"),
        (
            "true : -> BOOL\n",
            "true : -> BOOL\n      or : BOOL # BOOL -> BOOL\n",
        ),
        (
            "trusted : ROLE -> BOOL\n",
            "trusted : ROLE -> BOOL\n    above : ROLE # ROLE -> BOOL\n",
        ),
        (
            "trusted(clerk) = false",
            "trusted(clerk) = above(manager, clerk)",
        ),
        ("tax-rate : -> NAME", "tax-rate : NAME -> NAME"),
        ("open(tax-rate)", "open(tax-rate(loudness))"),
        (
            "adjustable : SETTING -> BOOL",
            "adjustable : SETTING -> BOOL\n      fixed : SETTING -> BOOL",
        ),
        ("adjustable -> open", "adjustable -> open, fixed -> open"),
    ];
    edits.iter().fold(CONSOLES.to_string(), |text, (old, new)| {
        assert!(text.contains(old), "{}", old);
        text.replace(old, new)
    })
}

#[test]
fn diff() {
    let next = next_consoles();
    let mut desk = Desk::new(
        "diff",
        &[
            ("old.asf", CONSOLES.as_bytes()),
            ("new.asf", next.as_bytes()),
        ],
    );
    for module in ["Console", "Rights", "Booleans"] {
        for version in ["old", "new"] {
            let (listing, _) = desk.run(&["list", &format!("{}.asf", version), module]);
            desk.keep(&format!("{}-{}.txt", version, module), &listing);
        }
    }
    desk.transcript.clear();
    desk.run(&["diff", "old-Console.txt", "new-Console.txt"]);
    desk.run(&["diff", "new-Console.txt", "old-Console.txt"]);
    desk.run(&["diff", "old-Rights.txt", "new-Rights.txt"]);
    desk.run(&["diff", "old-Rights.txt", "old-Booleans.txt"]);
    desk.run(&["diff", "old-Rights.txt", "old-Rights.txt"]);
    let listing = fs::read(desk.folder.join("old-Booleans.txt")).expect("a listing");
    desk.fed(&["diff", "-", "old-Booleans.txt"], &listing);
    desk.fed(&["diff", "old-Booleans.txt", "-"], b"answer=0\nmodules=1\n");
    desk.fed(&["diff", "-", "old-Booleans.txt"], b"module=Booleans");
    desk.compare();
}

/// Hidden items of one name, overloaded functions, other origins, and what is only in another order.
#[test]
fn diff_hidden() {
    let old = "module Base begin exports begin sorts A functions f : A -> A end
sorts S functions g : S -> A h : A -> A variables x : -> S y : -> A
equations [e] g(x) = h(y) [e] h(y) = f(y) end Base
module Top begin exports begin functions over : A -> A over : A # A -> A end imports Base end Top\n";
    let edits = [
        ("h : A -> A", "h : A # A -> A"),
        ("h(y)", "h(y, y)"),
        ("over : A # A -> A", "over : A # A # A -> A"),
        ("sorts S ", "sorts R, S "),
    ];
    let new = edits
        .iter()
        .fold(old.to_string(), |text, (was, is)| text.replace(was, is));
    let moved = old.replace("Base", "Ground");
    let mut desk = Desk::new("diff-hidden", &[]);
    for (file, text) in [("old", old), ("new", &new), ("moved", &moved)] {
        let (listing, status) = desk.fed(&["list", "-", "Top"], text.as_bytes());
        assert_eq!(status, 0);
        desk.keep(file, &listing);
    }
    desk.transcript.clear();
    let hidden = "equations [e] g(x) = h(y) [e] h(y) = f(y)";
    let (listing, _) = desk.fed(
        &["list", "-", "Top"],
        old.replace(hidden, "equations [e] g(x) = f(y)").as_bytes(),
    );
    desk.keep("fewer", &listing);
    let mut lines: Vec<&str> = listing.lines().collect();
    let count = lines.len();
    let equation = lines
        .iter()
        .position(|line| line.starts_with("equation="))
        .expect("an equation");
    lines.swap(equation, count - 1);
    desk.keep("moved-lines", &format!("{}\n", lines.join("\n")));
    desk.transcript.clear();
    desk.run(&["diff", "old", "new"]);
    desk.run(&["diff", "old", "moved"]);
    desk.run(&["diff", "old", "fewer"]);
    desk.run(&["diff", "fewer", "moved-lines"]);
    desk.compare();
}

#[test]
fn explain() {
    let mut desk = Desk::new("explain", &[]);
    for words in [
        &["explain"][..],
        &["explain", "13"],
        &["explain", "21"],
        &["explain", "0"],
    ] {
        assert_eq!(desk.run(words).1, 0);
    }
    for words in [
        &["explain", "16"][..],
        &["explain", "two"],
        &["explain", "1", "2"],
    ] {
        assert_eq!(desk.run(words).1, 2);
    }
    desk.compare();
}

/// Whether it says that the part is to be kept; where it does, both editions show the same bytes.
fn keeps(desk: &mut Desk, old: &str, new: &str, module: &str) -> bool {
    let (_, status) = desk.run(&["keep", old, new, module]);
    let said = desk.transcript.len();
    if status == 0 {
        let [old, new] = [old, new].map(|edition| desk.run(&["visible", edition, module]));
        assert_eq!((&old, old.1), (&new, 0));
    }
    desk.transcript.truncate(said);
    status == 0
}

/// Editions of the consoles, each with one thing changed.
const EDITS: [(&str, &str, &str); 8] = [
    ("hidden", "trusted(clerk) = false", "trusted(clerk) = true"),
    ("wrong", "trusted(clerk) = false", "trusty(clerk) = true"),
    (
        "exports",
        "clerk : -> ROLE",
        "clerk : -> ROLE deputy : -> ROLE",
    ),
    (
        "parameters",
        "adjustable : SETTING -> BOOL",
        "adjustable : SETTING -> BOOL fixed : SETTING -> BOOL",
    ),
    ("itself", "to Settings }", "to Settings } sorts EXTRA"),
    ("gone", "Console\n", "Desk\n"),
    (
        "broken",
        "exports begin\n    sorts ROLE",
        "exports\n    sorts ROLE",
    ),
    ("comment", "  [b1]", "  -- the first\n  [b1]"),
];

#[test]
fn keep() {
    let mut desk = Desk::new("keep", &[("old", CONSOLES.as_bytes())]);
    for (name, old, new) in EDITS {
        assert!(CONSOLES.contains(old), "{}", old);
        desk.keep(name, &CONSOLES.replace(old, new));
    }
    let names = EDITS.iter().map(|(name, ..)| *name);
    let kept: Vec<&str> = names
        .filter(|name| keeps(&mut desk, "old", name, "Console"))
        .collect();
    assert_eq!(kept, ["hidden", "comment"]);
    assert!(keeps(&mut desk, "old", "old", "Console"));
    // hidden things of the module itself
    assert!(!keeps(&mut desk, "old", "hidden", "Rights"));
    assert!(!keeps(&mut desk, "gone", "old", "Console"));
    assert!(!keeps(&mut desk, "broken", "old", "Console"));
    // nothing has changed, and nothing was there to store
    assert!(!keeps(&mut desk, "wrong", "wrong", "Console"));
    desk.run(&["keep", "old", "hidden"]);
    desk.fed(&["keep", "old", "-", "Console"], CONSOLES.as_bytes());
    desk.run(&["keep", "--color=always", "old", "wrong", "Console"]);
    for words in [
        &["old"][..],
        &["-", "-", "Console"],
        &["old", "missing", "Console"],
    ] {
        assert_eq!(desk.run(&[&["keep"], words].concat()).1, 2);
    }
    desk.compare();
}

/// New editions of the library: of a hidden part, and of an export.
#[test]
fn keep_libraries() {
    let library = include_str!("../../../examples/library.asf");
    let north = include_bytes!("../../../examples/shop-north.asf");
    let hidden = library.replacen("end Booleans", "  [b7] true = true\nend Booleans", 1);
    let shown = library.replacen("sorts BOOL", "sorts BOOL, BIT", 1);
    let mut desk = Desk::new(
        "keep-libraries",
        &[("north", north), ("library", library.as_bytes())],
    );
    desk.keep("hidden", &hidden);
    desk.keep("shown", &shown);
    for (new, status) in [("library", 0), ("hidden", 0), ("shown", 1)] {
        let words = [
            "keep",
            "north",
            "north",
            "NorthConsole",
            "--old-library",
            "library",
            "--library",
            new,
        ];
        assert_eq!(desk.run(&words).1, status);
    }
    // one library for both, and none
    assert_eq!(
        desk.run(&[
            "keep",
            "north",
            "north",
            "NorthConsole",
            "--library",
            "library"
        ])
        .1,
        0
    );
    assert_eq!(desk.run(&["keep", "north", "north", "NorthConsole"]).1, 1);
    desk.compare();
}

/// The commands that the help text names.
fn commands() -> Vec<String> {
    let output = program().arg("--help").output().expect("it runs");
    let help = String::from_utf8(output.stdout).expect("UTF-8");
    let lines = help.lines().filter_map(|line| line.strip_prefix("  asf "));
    lines
        .map(|line| line.split(' ').next().expect("a word").to_string())
        .collect()
}

#[test]
fn help() {
    let mut desk = Desk::new("help", &[]);
    let mut texts = vec![desk.run(&["--help"]).0];
    assert_eq!(desk.run(&["help"]).0, texts[0]);
    assert_eq!(desk.run(&["-h"]).0, texts[0]);
    for command in commands().iter().filter(|command| *command != "help") {
        let (text, status) = desk.run(&[command, "--help"]);
        assert_eq!(status, 0);
        assert_eq!(desk.run(&["help", command]), (text.clone(), 0));
        texts.push(text);
    }
    desk.run(&["--version"]);
    desk.compare();
    // the manual page has every command and every option
    let page = include_str!("../asf.1").replace('\\', "");
    for command in commands() {
        assert!(page.contains(&format!("asf {}", command)), "{}", command);
    }
    for word in texts
        .iter()
        .flat_map(|text| text.split_whitespace())
        .filter(|word| word.starts_with("--"))
    {
        let option = word.trim_end_matches(&['.', ',', ';'][..]);
        assert!(page.contains(option), "{}", option);
    }
}

#[test]
fn wrong_use() {
    let mut desk = Desk::new("wrong-use", &[("good.asf", GOOD.as_bytes())]);
    for words in [
        &[][..],
        &["frobnicate"],
        &["help", "frobnicate"],
        &["check"],
        &["check", "good.asf", "Bits", "Words"],
        &["check", "--frobnicate", "good.asf"],
        &["check", "--library"],
        &["check", "--json=yes", "good.asf"],
        &["check", "--color", "red", "good.asf"],
        &["check", "-", "--library", "-"],
        &["list", "good.asf"],
        &["list", "--quiet", "good.asf", "Bits"],
        &["visible"],
        &["diff", "good.asf"],
        &["diff", "-", "-"],
    ] {
        let (out, status) = desk.run(words);
        assert_eq!((out, status), (String::new(), 2));
    }
    desk.compare();
}

#[test]
fn colour() {
    let mut desk = Desk::new("colour", &[("four.asf", FOUR.as_bytes())]);
    desk.run(&["check", "--color", "always", "four.asf"]);
    desk.run(&["check", "--color=never", "four.asf", "Words"]);
    desk.compare();
}

extern "C" {
    fn posix_openpt(flags: i32) -> i32;
    fn grantpt(descriptor: i32) -> i32;
    fn unlockpt(descriptor: i32) -> i32;
    fn ptsname_r(descriptor: i32, name: *mut u8, length: usize) -> i32;
}

/// A terminal: the side of who looks, and the name of the other.
fn terminal() -> (File, PathBuf) {
    const READ_WRITE_NO_CONTROL: i32 = 0o402;
    let mut name = [0; 128];
    // SAFETY: the name has its length behind it, and the descriptor is nobody else's.
    let file = unsafe {
        let descriptor = posix_openpt(READ_WRITE_NO_CONTROL);
        assert!(descriptor >= 0 && grantpt(descriptor) == 0 && unlockpt(descriptor) == 0);
        assert_eq!(ptsname_r(descriptor, name.as_mut_ptr(), name.len()), 0);
        File::from_raw_fd(descriptor)
    };
    let length = name.iter().position(|&byte| byte == 0).expect("an end");
    let name = std::str::from_utf8(&name[..length]).expect("UTF-8");
    (file, PathBuf::from(name))
}

/// What a terminal gets; its line ends are CR LF.
fn on_a_terminal(folder: &Path, set: &[(&str, &str)], words: &[&str]) -> String {
    let (mut looks, name) = terminal();
    let open = || {
        File::options()
            .read(true)
            .write(true)
            .open(&name)
            .expect("a terminal")
    };
    let mut command = program();
    command
        .args(words)
        .current_dir(folder)
        .stdout(open())
        .stderr(open())
        .stdin(Stdio::null());
    command.envs(set.iter().copied());
    let mut child = command.spawn().expect("it runs");
    drop(command); // its ends of the terminal
    let mut seen = Vec::new();
    let _ = looks.read_to_end(&mut seen); // fails when nobody has the other end
    child.wait().expect("it ends");
    String::from_utf8(seen)
        .expect("UTF-8")
        .replace("\r\n", "\n")
}

/// On a terminal there are colours, and a line for each module while it is asked; with NO_COLOR there are no colours.
#[test]
fn terminals() {
    let mut desk = Desk::new(
        "terminals",
        &[("four.asf", FOUR.as_bytes()), ("good.asf", GOOD.as_bytes())],
    );
    let progress = "four.asf: Bits refused by 13
four.asf: Words refused by 7
four.asf: Lists refused by 13
four.asf: Roles accepted
";
    let (plain, _) = desk.run(&["check", "four.asf"]);
    let (painted, _) = desk.run(&["check", "--color=always", "four.asf"]);
    assert_ne!(plain, painted);
    let seen = |set: &[(&str, &str)], words: &[&str]| on_a_terminal(&desk.folder, set, words);
    assert_eq!(
        seen(&[], &["check", "four.asf"]),
        format!("{}{}", progress, painted)
    );
    assert_eq!(
        seen(&[("NO_COLOR", "1")], &["check", "four.asf"]),
        format!("{}{}", progress, plain)
    );
    assert_eq!(
        seen(&[("NO_COLOR", "")], &["check", "four.asf"]),
        format!("{}{}", progress, painted)
    );
    assert_eq!(
        seen(&[("TERM", "dumb")], &["check", "four.asf"]),
        format!("{}{}", progress, plain)
    );
    assert_eq!(seen(&[], &["check", "--quiet", "good.asf"]), "");
    assert_eq!(
        seen(&[], &["check", "good.asf"]),
        "good.asf: Bits accepted\ngood.asf: 1 module accepted\n"
    );
}

/// Whoever reads the first lines only does no harm.
#[test]
fn a_reader_that_stops() {
    let desk = Desk::new("stops", &[("consoles.asf", CONSOLES.as_bytes())]);
    let mut command = program();
    command
        .args(["list", "consoles.asf"])
        .current_dir(&desk.folder);
    let mut child = command
        .stdout(Stdio::piped())
        .stderr(Stdio::piped())
        .spawn()
        .expect("it runs");
    drop(child.stdout.take());
    let output = child.wait_with_output().expect("it ends");
    assert_eq!((output.status.code(), output.stderr), (Some(0), Vec::new()));
}

/// README shows what is printed for the example with a mistake, and says how it is mended.
#[test]
fn the_readme() {
    let root = Path::new(env!("CARGO_MANIFEST_DIR")).join("../..");
    let asked = |words: &[&str]| {
        let output = program().args(words).current_dir(&root).output();
        String::from_utf8(output.expect("it runs").stdout).expect("UTF-8")
    };
    let printed = asked(&["check", "examples/mistake.asf"]);
    let shown: String = printed
        .lines()
        .map(|line| format!("    {}\n", line))
        .collect();
    let readme = fs::read_to_string(root.join("README.md")).expect("README");
    assert!(readme.contains(&shown), "{}", shown);
    let mistake = fs::read_to_string(root.join("examples/mistake.asf")).expect("the example");
    let mended = mistake.replace("imports Staff", "imports Staff, Booleans");
    let mut desk = Desk::new("mended", &[("mended.asf", mended.as_bytes())]);
    let library = root.join("examples/library.asf");
    let library = library.to_str().expect("UTF-8");
    let (out, status) = desk.run(&["check", "--library", library, "mended.asf"]);
    assert_eq!((&out[..], status), ("mended.asf: 2 modules accepted\n", 0));
}
