//! Files and what is normalised of them: the text, the library, and places in them as editors count, by line and column.

use asf::{Specification, TEXT_BYTES, TOKEN_BYTES};
use std::ffi::OsStr;
use std::fs;
use std::io::{self, Read};
use std::ops::Range;

/// A file, under the name by which it was given; `-` is standard input.
pub struct File {
    pub name: String,
    pub bytes: Vec<u8>,
}

/// The name that messages have for standard input.
const STANDARD_INPUT: &str = "<stdin>";

/// The most bytes of a file: more than any text or listing has, so that what never ends is not read for ever.
const FILE_BYTES: u64 = 16 * 1024 * 1024;

impl File {
    pub fn read(name: &OsStr) -> Result<File, String> {
        let (told, read) = match name == "-" {
            true => (STANDARD_INPUT.into(), all(io::stdin())),
            false => (name.to_string_lossy(), fs::File::open(name).and_then(all)),
        };
        match read {
            Err(error) => Err(format!("{}: {}", told, cause(&error))),
            Ok(bytes) if bytes.len() as u64 > FILE_BYTES => {
                Err(format!("{}: more than {} bytes", told, FILE_BYTES))
            }
            Ok(bytes) => Ok(File {
                name: told.into_owned(),
                bytes,
            }),
        }
    }

    /// The line that a byte stands in, and where: a byte of a line end, and the end of the file, are behind the line's last character.
    pub fn place(&self, byte: usize) -> Place {
        let byte = byte.min(self.bytes.len());
        let start = match self.bytes[..byte].iter().rposition(|&b| b == b'\n') {
            Some(end) => end + 1,
            None => 0,
        };
        let line = self.bytes[..start].iter().filter(|&&b| b == b'\n').count() + 1;
        let characters = characters(self.line_from(start));
        let before = |&&(offset, _): &&(usize, char)| start + offset <= byte;
        let begun = characters.iter().take_while(before).count();
        let behind = byte >= start + self.line_from(start).len();
        Place {
            line,
            column: if behind { characters.len() + 1 } else { begun },
            start,
        }
    }

    /// The line that begins there, without its LF or CR LF.
    fn line_from(&self, start: usize) -> &[u8] {
        let rest = &self.bytes[start..];
        let line = match rest.iter().position(|&b| b == b'\n') {
            Some(end) => &rest[..end],
            None => rest,
        };
        line.strip_suffix(b"\r").unwrap_or(line)
    }
}

/// All bytes, or one more than a file may have.
fn all(source: impl Read) -> io::Result<Vec<u8>> {
    let mut bytes = Vec::new();
    source.take(FILE_BYTES + 1).read_to_end(&mut bytes)?;
    Ok(bytes)
}

/// What the system says, without its number.
fn cause(error: &io::Error) -> String {
    let words = error.to_string();
    match words.find(" (os error") {
        Some(end) => words[..end].to_string(),
        None => words,
    }
}

/// A place of a file: its line and column, both from 1, and the byte at which the line begins.
pub struct Place {
    pub line: usize,
    pub column: usize,
    start: usize,
}

/// A line as it is shown, with carets under some of its characters.
pub struct Excerpt {
    pub line: String,
    pub carets: String,
}

impl File {
    /// The line of a place, and carets under the characters from there to a byte, one at the least.
    pub fn excerpt(&self, place: &Place, to: usize) -> Excerpt {
        const MOST: usize = 120;
        let characters = characters(self.line_from(place.start));
        let at = place.column - 1;
        let (from, until) = if characters.len() <= MOST {
            (0, characters.len())
        } else {
            let from = at.saturating_sub(MOST / 2).min(characters.len() - MOST);
            (from, from + MOST)
        };
        let cut = |yes: bool| if yes { "..." } else { "" };
        let shown: String = characters[from..until]
            .iter()
            .map(|&(_, c)| pictured(c))
            .collect();
        let pad: String = characters[from..at]
            .iter()
            .map(|&(_, c)| blank(c))
            .collect();
        let under = characters[at..until]
            .iter()
            .take_while(|&&(offset, _)| place.start + offset < to);
        let carets: usize = under.map(|&(_, c)| cells(c)).sum();
        Excerpt {
            line: format!(
                "{}{}{}",
                cut(from > 0),
                shown,
                cut(until < characters.len())
            ),
            carets: format!(
                "{}{}{}",
                " ".repeat(cut(from > 0).len()),
                pad,
                "^".repeat(carets.max(1))
            ),
        }
    }
}

/// The characters of a line, each with the byte at which it begins; what is no UTF-8 is a replacement character.
fn characters(line: &[u8]) -> Vec<(usize, char)> {
    let mut found = Vec::new();
    let mut at = 0;
    while at < line.len() {
        let (valid, skip) = match std::str::from_utf8(&line[at..]) {
            Ok(rest) => (rest, 0),
            Err(error) => {
                let valid = &line[at..at + error.valid_up_to()];
                let rest = line.len() - at - valid.len();
                let skip = error.error_len().unwrap_or(rest);
                (
                    std::str::from_utf8(valid).expect("it is valid so far"),
                    skip,
                )
            }
        };
        found.extend(valid.char_indices().map(|(offset, c)| (at + offset, c)));
        at += valid.len();
        if skip > 0 {
            found.push((at, char::REPLACEMENT_CHARACTER));
            at += skip;
        }
    }
    found
}

/// A character as it is shown: controls by their pictures, since a terminal would obey them.
fn pictured(character: char) -> char {
    match character {
        '\t' => '\t',
        '\0'..='\x1f' => char::from_u32(0x2400 + character as u32).expect("a picture"),
        '\x7f' => '\u{2421}',
        '\u{80}'..='\u{9f}' | '\u{feff}' | '\u{202a}'..='\u{202e}' | '\u{2066}'..='\u{2069}' => {
            char::REPLACEMENT_CHARACTER
        }
        _ => character,
    }
}

/// A name as it is shown.
pub fn readable(name: &[u8]) -> String {
    String::from_utf8_lossy(name)
        .chars()
        .map(pictured)
        .collect()
}

/// The cells that a character takes on a terminal.
fn cells(character: char) -> usize {
    match character {
        '\u{300}'..='\u{36f}' | '\u{200b}'..='\u{200d}' | '\u{fe00}'..='\u{fe0f}' => 0,
        '\u{1100}'..='\u{115f}'
        | '\u{2e80}'..='\u{a4cf}'
        | '\u{ac00}'..='\u{d7a3}'
        | '\u{f900}'..='\u{faff}'
        | '\u{fe30}'..='\u{fe6f}'
        | '\u{ff00}'..='\u{ff60}'
        | '\u{ffe0}'..='\u{ffe6}'
        | '\u{1f300}'..='\u{1f64f}'
        | '\u{1f900}'..='\u{1f9ff}'
        | '\u{20000}'..='\u{3fffd}' => 2,
        _ => 1,
    }
}

/// As much blank as a character takes; a tab stays one, so that carets stand right wherever tabs stop.
fn blank(character: char) -> String {
    match character {
        '\t' => "\t".to_string(),
        _ => " ".repeat(cells(character)),
    }
}

/// A text or a library: the bytes that are handed over, and those of the file that they are.
pub struct Text<'f> {
    pub file: &'f File,
    range: Range<usize>,
    stated: Option<Vec<u8>>,
}

impl<'f> Text<'f> {
    fn new(file: &'f File, range: Range<usize>) -> Text<'f> {
        Text {
            file,
            range,
            stated: None,
        }
    }

    pub fn whole(file: &'f File) -> Text<'f> {
        Text::new(file, 0..file.bytes.len())
    }

    pub fn bytes(&self) -> &[u8] {
        match &self.stated {
            Some(bytes) => bytes,
            None => &self.file.bytes[self.range.clone()],
        }
    }

    /// The byte of the file at which a place of the text is.
    pub fn byte(&self, at: usize) -> usize {
        self.range.start + at.min(self.range.len())
    }
}

/// What a file has to say: an input of `asfnorm` names the asked module in its first line, and may have a library; any other file is a text.
pub struct Input<'f> {
    pub asked: Option<Vec<u8>>,
    pub library: Option<Text<'f>>,
    pub text: Text<'f>,
}

/// Looks for the lines `normalise=NAME` and `library=N` in front. A CR before their LF is none of theirs.
pub fn framed(file: &File) -> Input<'_> {
    let length = file.bytes.len();
    let (asked, start) = match line_behind(file, 0, b"normalise=") {
        Some((name, next)) if name.len() <= TOKEN_BYTES => (file.bytes[name].to_vec(), next),
        _ => {
            return Input {
                asked: None,
                library: None,
                text: Text::whole(file),
            }
        }
    };
    let input = |library, text| Input {
        asked: Some(asked.clone()),
        library,
        text: Text::new(file, text),
    };
    match library_line(file, start) {
        Some((stated, number, next)) if number > TEXT_BYTES => {
            // too long by what the line says, whatever follows: the place is that line's
            let mut library = Text::new(file, stated);
            library.range.end = library.range.start;
            library.stated = Some(vec![b' '; TEXT_BYTES + 1]);
            input(Some(library), next..length)
        }
        Some((_, number, next)) if number <= length - next => {
            let library = Text::new(file, next..next + number);
            input(Some(library), next + number..length)
        }
        _ => input(None, start..length),
    }
}

/// Where the value of a line that begins so stands, and where the next line does.
fn line_behind(file: &File, start: usize, key: &[u8]) -> Option<(Range<usize>, usize)> {
    let value = file.bytes[start..].strip_prefix(key)?;
    let end = value.iter().position(|&byte| byte == b'\n')?;
    let begin = start + key.len();
    let carriage = end > 0 && value[end - 1] == b'\r';
    Some((begin..begin + end - carriage as usize, begin + end + 1))
}

/// Where the number of a library's line stands, the number, and where the next line does.
fn library_line(file: &File, start: usize) -> Option<(Range<usize>, usize, usize)> {
    let (stated, next) = line_behind(file, start, b"library=")?;
    let digits = std::str::from_utf8(&file.bytes[stated.clone()]).ok()?;
    let number: usize = digits.parse().ok()?;
    let exact = digits == number.to_string() && digits.len() <= 9;
    exact.then(|| (stated, number, next))
}

/// What is asked about: a text, and a library or none.
pub struct Question<'f> {
    pub library: Option<Text<'f>>,
    pub text: Text<'f>,
}

impl Question<'_> {
    pub fn specification(&self) -> Specification<'_> {
        let library = self
            .library
            .as_ref()
            .map_or(&[][..], |library| library.bytes());
        Specification::with_library(library, self.text.bytes())
    }

    /// The text or the library.
    pub fn side(&self, in_library: bool) -> &Text<'_> {
        match &self.library {
            Some(library) if in_library => library,
            _ => &self.text,
        }
    }
}
