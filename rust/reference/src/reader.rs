//! A listing read line by line ("The listing", the listing reader).

const KEYS: [&str; 12] = [
    "module",
    "sort",
    "function",
    "parameter",
    "parameter-sort",
    "parameter-function",
    "hidden-sort",
    "hidden-function",
    "variable",
    "equation",
    "end",
    "origin",
];

/// What one step of the reader gives.
#[derive(Clone, Debug, PartialEq, Eq)]
pub enum Step {
    /// A line's key and value, and the place behind the line.
    Line {
        key: Vec<u8>,
        value: Vec<u8>,
        next: usize,
    },
    /// The place is the end exactly.
    End,
    /// 21; the place is unmoved.
    Bad,
}

/// The line of a listing that begins at a place.
pub fn next_line(listing: &[u8], place: usize) -> Step {
    let Some(rest) = listing.get(place..) else {
        return Step::Bad;
    };
    if rest.is_empty() {
        return Step::End;
    }
    let Some(length) = rest.iter().position(|&byte| byte == b'\n') else {
        return Step::Bad;
    };
    let line = &rest[..length];
    let Some(equals) = line.iter().position(|&byte| byte == b'=') else {
        return Step::Bad;
    };
    let key = &line[..equals];
    if !KEYS.iter().any(|known| known.as_bytes() == key) {
        return Step::Bad;
    }
    Step::Line {
        key: key.to_vec(),
        value: line[equals + 1..].to_vec(),
        next: place + length + 1,
    }
}
