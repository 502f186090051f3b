//! The proved library held to the reference: the answer, every byte that is lent, the listing read back, and modules fetched. A driver that
//! crashes differs.

use crate::cases::Case;
use crate::driver::{Driver, Places, ReadBack, Reply, Room, FILL, MEMORY_WORDS, NAMES, VALUES};
use crate::engines::{reference, reference_with_short_memory, Difference};
use reference::{fetch, next_line, parts, Answer, Name, Step, Texts, NAME_BYTES};
use std::cell::RefCell;
use std::io;

/// What the driver tells as broken, by its bits.
const BROKEN: [&str; 4] = [
    "the working memory is not zero",
    "the output is changed behind the listing",
    "bytes around what was lent are changed",
    "the name or a text is changed",
];

/// Keeps a driver, and starts another where one has crashed.
pub struct Proved {
    command: Vec<String>,
    driver: RefCell<Option<Driver>>,
}

impl Proved {
    pub fn new(command: &[String]) -> Proved {
        Proved {
            command: command.to_vec(),
            driver: RefCell::new(None),
        }
    }

    pub fn call<R>(&self, request: impl Fn(&mut Driver) -> io::Result<R>) -> io::Result<R> {
        let mut kept = self.driver.borrow_mut();
        if kept.is_none() {
            *kept = Some(Driver::start(&self.command)?);
        }
        let reply = request(kept.as_mut().expect("a driver was started"));
        if reply.is_err() {
            *kept = None;
        }
        reply
    }

    /// All that a call leaves with enough memory and so much output, which is handed over whole, whatever the listing's length.
    pub fn reply(&self, asked: &[u8], texts: Texts, output: usize) -> io::Result<Reply> {
        let room = Room {
            memory: MEMORY_WORDS,
            output,
            values: VALUES,
            names: NAMES,
            listing: output,
        };
        self.call(|driver| driver.normalise(asked, texts, room))
    }

    /// With the working memory whole, and with too little; then the listing, whole and damaged; then some modules' texts.
    pub fn compare(&self, case: &Case) -> Option<Difference> {
        let expected = reference(case);
        let short = reference_with_short_memory(case);
        self.compare_answer(case, &expected, MEMORY_WORDS)
            .or_else(|| self.compare_answer(case, &short, short_memory(case)))
            .or_else(|| self.compare_reading(&expected.listing, 0))
            .or_else(|| self.compare_damaged(&expected.listing, case.text.len()))
            .or_else(|| {
                let mut names = some_names(case).into_iter();
                names.find_map(|name| self.compare_fetching(case, &name))
            })
    }

    fn compare_answer(&self, case: &Case, answer: &Answer, memory: usize) -> Option<Difference> {
        let (values, names) = rooms(case);
        let room = Room {
            memory,
            output: case.output,
            values,
            names,
            listing: answer.listing.len(),
        };
        let found = self.call(|driver| driver.normalise(&case.asked, case.texts(), room));
        differ(&expected_reply(answer, room), found, told)
    }

    fn compare_reading(&self, listing: &[u8], place: usize) -> Option<Difference> {
        let found = self.call(|driver| driver.read_back(listing, place));
        differ(&expected_reading(listing, place), found, |read| {
            format!("{read:?}")
        })
    }

    /// The listing with one byte changed, and read from a place within a line or past the end.
    fn compare_damaged(&self, listing: &[u8], number: usize) -> Option<Difference> {
        if listing.is_empty() {
            return self.compare_reading(listing, number % 3);
        }
        let mut damaged = listing.to_vec();
        let at = number * 31 % damaged.len();
        damaged[at] = b"\n=-x\0"[number % 5];
        damaged.truncate(listing.len() - number % 2);
        self.compare_reading(&damaged, 0)
            .or_else(|| self.compare_reading(listing, number % (listing.len() + 3)))
    }

    fn compare_fetching(&self, case: &Case, name: &[u8]) -> Option<Difference> {
        let (room, _) = rooms(case);
        let found = self.call(|driver| driver.fetch(name, case.texts(), room));
        differ(&expected_part(case, name, room), found, |reply| {
            format!("{} fetched: {}", String::from_utf8_lossy(name), told(reply))
        })
    }
}

/// A module of each text, the asked one, one that is in neither, and the name that no module has.
fn some_names(case: &Case) -> Vec<Name> {
    let mut names = vec![case.asked.clone(), b"Absent'".to_vec(), Name::new()];
    for text in [&case.library, &case.text] {
        let parts = parts(text);
        let some = parts.get(case.text.len() % parts.len().max(1));
        names.extend(some.map(|part| part.name.to_vec()));
    }
    names
}

/// One word too few now and then, since that costs as much as enough; else fewer.
fn short_memory(case: &Case) -> usize {
    if case.text.len() % 16 == 0 {
        MEMORY_WORDS - 1
    } else {
        case.text.len() % 1_000
    }
}

/// Mostly room for all values and names, now and then less or more.
fn rooms(case: &Case) -> (usize, usize) {
    if case.text.len() % 8 == 0 {
        (case.text.len() / 8 % 11, case.text.len() / 8 % 139)
    } else {
        (VALUES, NAMES)
    }
}

pub fn differ<R: PartialEq>(
    expected: &R,
    found: io::Result<R>,
    tell: impl Fn(&R) -> String,
) -> Option<Difference> {
    let found = match found {
        Ok(reply) if reply == *expected => return None,
        Ok(reply) => tell(&reply),
        Err(error) => format!("the driver ended: {error}"),
    };
    Some(Difference {
        expected: tell(expected),
        found,
    })
}

fn expected_reply(answer: &Answer, room: Room) -> Reply {
    let values = [
        u64::from(answer.number),
        u64::from(answer.modules),
        answer.at as u64,
        answer.module.len() as u64,
        answer.name.len() as u64,
        answer.listing.len() as u64,
        u64::from(answer.in_library),
        answer.actual.len() as u64,
    ];
    let names = [&answer.module, &answer.name, &answer.actual];
    let names = names.map(|name| laid(name, 0, NAME_BYTES)).concat();
    Reply {
        number: answer.number,
        broken: 0,
        values: laid_values(&values, room.values),
        names: laid(&names, FILL, room.names),
        listing: answer.listing.clone(),
    }
}

/// 0 with whether it is the library's, its place and its length; or 1, and all that was lent is as it was.
fn expected_part(case: &Case, name: &[u8], room: usize) -> Reply {
    let found = fetch(name, case.texts());
    let values = found.map(|found| {
        let (place, length) = (found.part.place, found.part.bytes.len());
        vec![u64::from(found.in_library), place as u64, length as u64]
    });
    Reply {
        number: u32::from(found.is_none()),
        values: laid_values(&values.unwrap_or_default(), room),
        ..Reply::default()
    }
}

pub fn laid_values(values: &[u64], room: usize) -> Vec<u64> {
    laid(values, u64::from_le_bytes([FILL; 8]), room)
}

/// As many elements as there is room for; behind them what was there.
pub fn laid<E: Copy>(elements: &[E], fill: E, room: usize) -> Vec<E> {
    let mut all = elements.to_vec();
    all.resize(room, fill);
    all
}

fn expected_reading(listing: &[u8], from: usize) -> ReadBack {
    let mut lines = Vec::new();
    let mut place = from;
    loop {
        match next_line(listing, place) {
            Step::Line { key, value, next } => {
                lines.push(places(&key, &value, place, next));
                place = next;
            }
            Step::End => return ended(lines, 1, listing),
            Step::Bad => return ended(lines, 21, listing),
        }
    }
}

fn ended(lines: Vec<Places>, ended: u32, listing: &[u8]) -> ReadBack {
    ReadBack {
        lines,
        ended,
        visible: visible(listing),
    }
}

/// The keys by their numbers, from 1 on ("The listing").
const KEYS: &str = "module sort function parameter parameter-sort parameter-function hidden-sort hidden-function variable equation end origin";

fn key_number(key: &[u8]) -> u64 {
    let known = KEYS.split(' ').position(|known| known.as_bytes() == key);
    known.map_or(0, |index| index as u64 + 1)
}

fn places(key: &[u8], value: &[u8], place: usize, next: usize) -> Places {
    let mark = place + key.len();
    [
        key_number(key),
        mark as u64,
        mark as u64 + 1,
        (mark + 1 + value.len()) as u64,
        next as u64,
    ]
}

/// Up to the first line from `hidden-sort` to `end`.
fn visible(listing: &[u8]) -> u64 {
    let mut place = 0;
    while let Step::Line { key, next, .. } = next_line(listing, place) {
        if (7..=11).contains(&key_number(&key)) {
            break;
        }
        place = next;
    }
    place as u64
}

/// What a reply says; of the output, what was written.
pub fn told(reply: &Reply) -> String {
    let promises: Vec<&str> = (0..BROKEN.len())
        .filter(|bit| reply.broken & (1 << bit) != 0)
        .map(|bit| BROKEN[bit])
        .collect();
    let written = reply.listing.iter().rposition(|&byte| byte != FILL);
    let written = &reply.listing[..written.map_or(0, |last| last + 1)];
    format!(
        "number {} values {:?} names {:?} {}\n{}",
        reply.number,
        reply.values,
        String::from_utf8_lossy(&reply.names),
        promises.join(", "),
        String::from_utf8_lossy(written)
    )
}
