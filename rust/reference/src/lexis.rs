//! From bytes to tokens ("The text"; the report's section 2.2; document 02, Two).

/// A refusal that has a place: 1 to 5.
#[derive(Clone, Copy, Debug, PartialEq, Eq)]
pub struct Offence {
    pub number: u32,
    pub at: usize,
}

#[derive(Clone, Copy, Debug, PartialEq, Eq)]
pub enum Token {
    Identifier,
    Keyword(&'static str),
    Arrow,
    Equals,
    Implies,
    /// A run of operator symbols, or a dotted identifier.
    Operator,
    Mark(u8),
    EndOfText,
}

/// A token and the bytes it stands on.
#[derive(Clone, Copy, Debug)]
pub struct Lexeme {
    pub token: Token,
    pub start: usize,
    pub stop: usize,
}

const SYMBOLS: &[u8] = b"+-*/&|!@%?~";

const KEYWORDS: [&str; 15] = [
    "begin",
    "end",
    "functions",
    "parameters",
    "to",
    "bound",
    "equations",
    "imports",
    "renamed",
    "variables",
    "by",
    "exports",
    "module",
    "sorts",
    "when",
];

/// The next token from the end of the one before it, behind layout and comments.
pub fn token(text: &[u8], place: usize) -> Result<Lexeme, Offence> {
    let start = skip(text, place)?;
    let Some(&byte) = text.get(start) else {
        return Ok(lexeme(Token::EndOfText, start, 0));
    };
    match byte {
        b':' | b'#' | b',' | b'(' | b')' | b'[' | b']' | b'{' | b'}' | b'_' => {
            Ok(lexeme(Token::Mark(byte), start, 1))
        }
        b'=' => Ok(equals_or_implies(text, start)),
        b'.' => dotted(text, start),
        _ if symbol(byte) => Ok(arrow_or_operator(text, start)),
        _ if identifier_byte(byte) => Ok(word(text, start)),
        _ => Err(no_token(start)),
    }
}

fn lexeme(token: Token, start: usize, length: usize) -> Lexeme {
    Lexeme {
        token,
        start,
        stop: start + length,
    }
}

fn no_token(at: usize) -> Offence {
    Offence { number: 1, at }
}

fn layout(byte: u8) -> bool {
    matches!(byte, b' ' | b'\t' | b'\r' | b'\n' | 0x0c)
}

fn identifier_byte(byte: u8) -> bool {
    byte.is_ascii_alphanumeric() || byte == b'\''
}

fn symbol(byte: u8) -> bool {
    SYMBOLS.contains(&byte)
}

/// Steps over layout and comments, from byte 0 or from a token's end. Two hyphens are a comment behind a layout byte,
/// be it an implication's last, and no token at byte 0 and behind a comment's closing hyphens; behind any other token
/// they begin an operator.
fn skip(text: &[u8], mut place: usize) -> Result<usize, Offence> {
    let mut behind_token = place > 0 && !layout(text[place - 1]);
    while place < text.len() {
        if layout(text[place]) {
            place += 1;
        } else if text[place..].starts_with(b"--") && !behind_token {
            if place == 0 || !layout(text[place - 1]) {
                return Err(no_token(place));
            }
            place = comment_end(text, place)?;
        } else {
            break;
        }
        behind_token = false;
    }
    Ok(place)
}

/// The place behind a comment; a CR or LF that ends one is left to be layout.
fn comment_end(text: &[u8], start: usize) -> Result<usize, Offence> {
    for place in start + 2..text.len() {
        if matches!(text[place], b'\r' | b'\n') {
            return Ok(place);
        }
        if text[place..].starts_with(b"--") {
            return Ok(place + 2);
        }
    }
    Err(no_token(start))
}

/// Two or more `=` and then `>` or LF are an implication; else the first `=` stands alone.
fn equals_or_implies(text: &[u8], start: usize) -> Lexeme {
    let run = text[start..]
        .iter()
        .take_while(|&&byte| byte == b'=')
        .count();
    match text.get(start + run) {
        Some(b'>' | b'\n') if run >= 2 => lexeme(Token::Implies, start, run + 1),
        _ => lexeme(Token::Equals, start, 1),
    }
}

/// A maximal run of operator symbols; one that is a lone `-` is the arrow where `>` follows.
fn arrow_or_operator(text: &[u8], start: usize) -> Lexeme {
    let run = text[start..]
        .iter()
        .take_while(|&&byte| symbol(byte))
        .count();
    match &text[start..start + run] {
        b"-" if text.get(start + run) == Some(&b'>') => lexeme(Token::Arrow, start, 2),
        _ => lexeme(Token::Operator, start, run),
    }
}

/// A dot, an identifier and a dot, with nothing between.
fn dotted(text: &[u8], start: usize) -> Result<Lexeme, Offence> {
    let opened = text
        .get(start + 1)
        .is_some_and(|&byte| identifier_byte(byte));
    let inside = word(text, start + 1);
    let closed = text.get(inside.stop) == Some(&b'.');
    if opened && closed && inside.token == Token::Identifier {
        return Ok(lexeme(Token::Operator, start, inside.stop + 1 - start));
    }
    Err(no_token(start))
}

/// An identifier or keyword: hyphens belong to it only where an identifier byte follows later in the run.
fn word(text: &[u8], start: usize) -> Lexeme {
    let mut length = 0;
    for (offset, &byte) in text[start..].iter().enumerate() {
        if identifier_byte(byte) {
            length = offset + 1;
        } else if byte != b'-' {
            break;
        }
    }
    let bytes = &text[start..start + length];
    match KEYWORDS.iter().find(|keyword| keyword.as_bytes() == bytes) {
        Some(keyword) => lexeme(Token::Keyword(keyword), start, length),
        None => lexeme(Token::Identifier, start, length),
    }
}
