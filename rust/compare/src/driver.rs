//! The proved library behind the driver in C (`c/driver.c`), which runs as a process of its own: the library is compiled for x86-64, and
//! this program may run elsewhere, beside an emulator.

use reference::{Texts, NAME_BYTES};
use std::io::{self, BufReader, BufWriter, Read, Write};
use std::process::{Child, ChildStdin, ChildStdout, Command, Stdio};

/// The words of working memory that the library needs (docs/MEMORY.md).
pub const MEMORY_WORDS: usize = 1_048_576;
/// The values and the bytes of names that an answer has (`c/asf.h`).
pub const VALUES: usize = 8;
pub const NAMES: usize = 3 * NAME_BYTES;
/// The values and names that a decision tells.
pub const DECISION_VALUES: usize = 9;
pub const DECISION_NAMES: usize = 2 * NAME_BYTES;
/// What the driver fills lent memory with.
pub const FILL: u8 = 0xa5;

pub struct Driver {
    process: Child,
    requests: BufWriter<ChildStdin>,
    replies: BufReader<ChildStdout>,
}

/// The lengths of what a call is lent, the memory's in words, and of the listing that is expected.
#[derive(Clone, Copy)]
pub struct Room {
    pub memory: usize,
    pub output: usize,
    pub values: usize,
    pub names: usize,
    pub listing: usize,
}

/// What a call has left; names and listing are those of a normal form, a part of a text has none.
#[derive(Debug, Default, PartialEq, Eq)]
pub struct Reply {
    pub number: u32,
    pub broken: u32,
    pub values: Vec<u64>,
    pub names: Vec<u8>,
    pub listing: Vec<u8>,
}

/// A line's key by its number, and its places: where the key ends, where the value begins and ends, and the place behind the line.
pub type Places = [u64; 5];

/// The lines of a listing from a place on, the number that ended them, and the length of the visible part.
#[derive(Debug, PartialEq, Eq)]
pub struct ReadBack {
    pub lines: Vec<Places>,
    pub ended: u32,
    pub visible: u64,
}

/// The answer's number, and the least time of a call in nanoseconds.
pub struct Times {
    pub number: u32,
    pub least: u64,
}

impl Driver {
    /// The words of a command: the driver, or an emulator and the driver.
    pub fn start(command: &[String]) -> io::Result<Driver> {
        let (program, arguments) = command
            .split_first()
            .ok_or_else(|| io::Error::new(io::ErrorKind::InvalidInput, "no driver named"))?;
        let mut process = Command::new(program)
            .args(arguments)
            .stdin(Stdio::piped())
            .stdout(Stdio::piped())
            .spawn()?;
        let requests = process.stdin.take().expect("the requests are piped");
        let replies = process.stdout.take().expect("the replies are piped");
        Ok(Driver {
            process,
            requests: BufWriter::new(requests),
            replies: BufReader::new(replies),
        })
    }

    pub fn normalise(&mut self, asked: &[u8], texts: Texts, room: Room) -> io::Result<Reply> {
        let rooms = [room.memory, room.output, room.values, room.names];
        self.ask(0, asked, texts, &[&rooms[..], &[room.listing]].concat())?;
        Ok(Reply {
            number: self.word()?,
            broken: self.word()?,
            values: self.longs(room.values)?,
            names: self.bytes(room.names)?,
            listing: self.bytes(room.listing.min(room.output))?,
        })
    }

    /// Whether a part may be kept, with room for so many values and bytes of names, and so many words of memory.
    pub fn decide(
        &mut self,
        asked: &[u8],
        old: Texts,
        new: Texts,
        (values, names): (usize, usize),
        memory: usize,
    ) -> io::Result<Reply> {
        self.ask_both(4, asked, old, new, &[memory, values, names])?;
        Ok(Reply {
            number: self.word()?,
            broken: self.word()?,
            values: self.longs(values)?,
            names: self.bytes(names)?,
            ..Reply::default()
        })
    }

    /// The name of a module by its number, with so many words of memory and room for so many bytes; its length is the reply's number.
    pub fn module_name(
        &mut self,
        texts: Texts,
        number: usize,
        memory: usize,
        names: usize,
    ) -> io::Result<Reply> {
        let lengths = [texts.library.len(), texts.customer.len()];
        self.send(&[&[5], &lengths[..], &[number, memory, names]].concat())?;
        self.send_bytes(&[texts.library, texts.customer])?;
        Ok(Reply {
            number: self.word()?,
            broken: self.word()?,
            names: self.bytes(names)?,
            ..Reply::default()
        })
    }

    /// The least time of a decision in nanoseconds, and what it is.
    pub fn time_decision(
        &mut self,
        asked: &[u8],
        old: Texts,
        new: Texts,
        times: usize,
    ) -> io::Result<Times> {
        self.ask_both(6, asked, old, new, &[times])?;
        Ok(Times {
            number: self.word()?,
            least: self.long()?,
        })
    }

    /// Where the part stands that declares a module, with room for so many values.
    pub fn fetch(&mut self, name: &[u8], texts: Texts, values: usize) -> io::Result<Reply> {
        self.ask(3, name, texts, &[values])?;
        Ok(Reply {
            number: self.word()?,
            broken: self.word()?,
            values: self.longs(values)?,
            ..Reply::default()
        })
    }

    pub fn read_back(&mut self, listing: &[u8], place: usize) -> io::Result<ReadBack> {
        self.send(&[1, listing.len(), place])?;
        self.send_bytes(&[listing])?;
        let mut lines = Vec::new();
        loop {
            let ended = self.word()?;
            if ended != 0 {
                let visible = self.long()?;
                return Ok(ReadBack {
                    lines,
                    ended,
                    visible,
                });
            }
            let mut places = Places::default();
            for place in &mut places {
                *place = self.long()?;
            }
            lines.push(places);
        }
    }

    pub fn time(
        &mut self,
        asked: &[u8],
        texts: Texts,
        output: usize,
        times: usize,
    ) -> io::Result<Times> {
        self.ask(2, asked, texts, &[output, times])?;
        Ok(Times {
            number: self.word()?,
            least: self.long()?,
        })
    }

    /// A request about a module of a specification: the lengths of these come before what else it says.
    fn ask(&mut self, kind: usize, name: &[u8], texts: Texts, more: &[usize]) -> io::Result<()> {
        let lengths = [name.len(), texts.library.len(), texts.customer.len()];
        self.send(&[&[kind], &lengths[..], more].concat())?;
        self.send_bytes(&[name, texts.library, texts.customer])
    }

    /// A request about a module of two specifications.
    fn ask_both(
        &mut self,
        kind: usize,
        name: &[u8],
        old: Texts,
        new: Texts,
        more: &[usize],
    ) -> io::Result<()> {
        let all = [name, old.library, old.customer, new.library, new.customer];
        self.send(&[&[kind], &all.map(<[u8]>::len)[..], more].concat())?;
        self.send_bytes(&all)
    }

    fn send(&mut self, words: &[usize]) -> io::Result<()> {
        for &word in words {
            let word = u32::try_from(word).expect("a length of a request");
            self.requests.write_all(&word.to_le_bytes())?;
        }
        Ok(())
    }

    fn send_bytes(&mut self, parts: &[&[u8]]) -> io::Result<()> {
        for part in parts {
            self.requests.write_all(part)?;
        }
        self.requests.flush()
    }

    fn word(&mut self) -> io::Result<u32> {
        let mut word = [0; 4];
        self.replies.read_exact(&mut word)?;
        Ok(u32::from_le_bytes(word))
    }

    fn long(&mut self) -> io::Result<u64> {
        let mut long = [0; 8];
        self.replies.read_exact(&mut long)?;
        Ok(u64::from_le_bytes(long))
    }

    fn longs(&mut self, count: usize) -> io::Result<Vec<u64>> {
        (0..count).map(|_| self.long()).collect()
    }

    fn bytes(&mut self, length: usize) -> io::Result<Vec<u8>> {
        let mut bytes = vec![0; length];
        self.replies.read_exact(&mut bytes)?;
        Ok(bytes)
    }
}

/// A driver that waits for a request ends with this; one that has crashed is gone already.
impl Drop for Driver {
    fn drop(&mut self) {
        drop(self.process.kill());
        drop(self.process.wait());
    }
}
