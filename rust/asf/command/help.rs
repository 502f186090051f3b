//! The help texts.

pub const ASF: &str = "\
asf: checks and normalises ASF specifications, by the proved library

usage: asf COMMAND ...

  asf check FILE [MODULE]    is a module accepted, or every module of the file?
  asf list FILE MODULE       the normal form of a module, as a listing
  asf visible FILE MODULE    the part of it that other modules can see
  asf diff OLD NEW           two stored listings compared
  asf keep OLD NEW MODULE    may a stored visible part be kept for a new text?
  asf explain [NUMBER]       what a number means, and what to do about it
  asf help [COMMAND]         this text, or a command's

FILE may be - for standard input. Every command has --help; asf --version
tells the version. Exit status: 0 accepted, 1 refused, 2 wrong use or a file
that cannot be read.
";

pub const CHECK: &str = "\
asf check: is a module accepted?

usage: asf check [options] FILE [MODULE]

Asks for MODULE, or for every module of FILE in turn, and tells each mistake
once: where it is, its number, the line, and what to do about it. Numbers 1 to
5 have a place. From 6 up the heading of the module is shown, and where a scan
of that module meets the name, its place, marked as found by search.

  --library FILE   a file whose modules count as standing before those of FILE
  --json           one object with all answers, for programs
  -q, --quiet      print refusals and nothing else
  --color WHEN     auto (on a terminal, and not with NO_COLOR), always, never
  -h, --help       this text

A file whose first line is normalise=NAME, as asfnorm reads it, asks for NAME
where no MODULE is given; a second line library=N tells of a library in it.

Exit status: 0 accepted, 1 refused, 2 wrong use or a file that cannot be read.
";

pub const LIST: &str = "\
asf list: the normal form of a module, as a listing

usage: asf list [options] FILE MODULE

Prints the listing of MODULE: what it shows, its parameters, what it hides,
and its equations. A refusal goes to standard error, or with --json to
standard output. MODULE may be left out where the first line of FILE is
normalise=NAME.

  --library FILE   a file whose modules count as standing before those of FILE
  --json           one object, for programs
  --color WHEN     auto (on a terminal, and not with NO_COLOR), always, never
  -h, --help       this text

Exit status: 0 accepted, 1 refused, 2 wrong use or a file that cannot be read.
";

pub const VISIBLE: &str = "\
asf visible: the part of a module that other modules can see

usage: asf visible [options] FILE MODULE

Prints the visible part of the listing of MODULE: its sorts, functions and
parameters. A refusal goes to standard error, or with --json to standard
output. MODULE may be left out where the first line of FILE is normalise=NAME.

  --library FILE   a file whose modules count as standing before those of FILE
  --json           one object, for programs
  --color WHEN     auto (on a terminal, and not with NO_COLOR), always, never
  -h, --help       this text

Exit status: 0 accepted, 1 refused, 2 wrong use or a file that cannot be read.
";

pub const DIFF: &str = "\
asf diff: two stored listings compared

usage: asf diff [options] OLD NEW

OLD and NEW are files with listings, or with visible parts of listings. Tells
first whether the visible parts are equal byte for byte; then the sorts,
functions, parameters, hidden items and equations that were added (+), are
gone (-) or have changed (~). Hidden things are compared by their origins and
shown in braces under the names that they were declared with.

  --color WHEN     auto (on a terminal, and not with NO_COLOR), always, never
  -h, --help       this text

Exit status: 0 equal, 1 different, 2 wrong use or a file that cannot be read.
";

pub const KEEP: &str = "\
asf keep: may a stored visible part be kept for a new text?

usage: asf keep [options] OLD NEW MODULE

A visible part of MODULE was stored when the text was OLD; now it is NEW. Tells
whether it may be kept: where only hidden things of modules under MODULE have
changed, these modules are asked of NEW at once, and if all are accepted it may.
Else tells why MODULE must be asked again. docs/CACHE.md says why that is right.
MODULE may be left out where the first line of NEW is normalise=NAME.

  --library FILE       the library of NEW, and of OLD unless another is named
  --old-library FILE   the library of OLD
  --color WHEN         auto (on a terminal, and not with NO_COLOR), always, never
  -h, --help           this text

Exit status: 0 keep it, 1 do not, 2 wrong use or a file that cannot be read.
";

pub const EXPLAIN: &str = "\
asf explain: what a number means, and what to do about it

usage: asf explain [NUMBER]

Prints the help sheet's section of NUMBER, or all numbers with their titles.

  -h, --help       this text
";
