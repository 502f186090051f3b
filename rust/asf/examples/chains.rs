//! Holds the store to fresh calls, over chains of editions that `compare chains` writes (rust/compare): `chains < CHAINS`. After each edition
//! every part that the store shows must be what asking its module shows, byte for byte, unless that is answered 18 or 19; and every refusal must
//! be the one that asking gives. The first chain where it is not so is told.

use asf::{Because, Done, Memory, Refusal, Specification, Store};
use std::collections::BTreeMap;
use std::error::Error;
use std::io::{self, BufReader, Read};
use std::process::ExitCode;

/// The modules whose parts are stored, the bytes lent for a listing, and the editions, each a library and a text.
struct Chain {
    seed: u32,
    output: usize,
    names: Vec<Vec<u8>>,
    editions: Vec<(Vec<u8>, Vec<u8>)>,
}

fn word(input: &mut impl Read) -> io::Result<u32> {
    let mut word = [0; 4];
    input.read_exact(&mut word)?;
    Ok(u32::from_le_bytes(word))
}

fn bytes(input: &mut impl Read) -> io::Result<Vec<u8>> {
    let mut bytes = vec![0; word(input)? as usize];
    input.read_exact(&mut bytes)?;
    Ok(bytes)
}

/// The next chain; none where a 0 stands for it.
fn next_chain(input: &mut impl Read) -> io::Result<Option<Chain>> {
    if word(input)? == 0 {
        return Ok(None);
    }
    let (seed, output) = (word(input)?, word(input)? as usize);
    let mut names = Vec::new();
    for _ in 0..word(input)? {
        names.push(bytes(input)?);
    }
    let mut editions = Vec::new();
    for _ in 0..word(input)? {
        editions.push((bytes(input)?, bytes(input)?));
    }
    Ok(Some(Chain {
        seed,
        output,
        names,
        editions,
    }))
}

/// How often what was done, and how often a part was shown that asking would not show for want of room.
type Tally = BTreeMap<&'static str, u64>;

fn kind(done: &Done) -> &'static str {
    match done {
        Done::Kept(asked) if asked.is_empty() => "kept without asking",
        Done::Kept(_) => "kept after asking",
        Done::AskedAgain(Because::NotAccepted(..)) => "asked since another is not accepted",
        Done::AskedAgain(_) => "asked again",
        Done::Refused(Because::NotRead(_), _) => "not read",
        Done::Refused(Because::NotAccepted(..), _) => "refused as another is",
        Done::Refused(..) => "refused",
    }
}

fn is_short_of_room(refusal: &Refusal) -> bool {
    [18, 19].contains(&refusal.number())
}

/// Goes through a chain; tells where the store shows something else than a fresh call.
fn follow(chain: &Chain, fresh: &mut Memory, tally: &mut Tally) -> Result<(), String> {
    let texts = |edition: usize| {
        let (library, text) = &chain.editions[edition];
        Specification::with_library(library, text)
    };
    let mut store = Store::with_memory(Memory::with_output(chain.output), texts(0));
    for name in &chain.names {
        let _ = store.add(name); // a refusal is as good
    }
    for edition in 1..chain.editions.len() {
        for (module, done) in store.change(texts(edition)) {
            *tally.entry(kind(&done)).or_default() += 1;
            let shown = store.show(&module).expect("it was added");
            let asked = fresh.normalise(&module, texts(edition));
            let right = match (shown, &asked) {
                (Ok(part), Ok(listing)) => part == listing.visible(),
                (Ok(_), Err(refusal)) => {
                    let short = is_short_of_room(refusal);
                    *tally.entry("shown where asking is 18 or 19").or_default() += u64::from(short);
                    short
                }
                (Err(refusal), Err(other)) => refusal == other,
                (Err(_), Ok(_)) => false,
            };
            if !right {
                return Err(told(edition, &module, &done, shown, asked.err()));
            }
        }
    }
    Ok(())
}

fn told(
    edition: usize,
    module: &[u8],
    done: &Done,
    shown: Result<&[u8], &Refusal>,
    asked: Option<Refusal>,
) -> String {
    let shown = match shown {
        Ok(part) => String::from_utf8_lossy(part).into_owned(),
        Err(refusal) => refusal.to_string(),
    };
    let asked = asked.map_or("another part".to_string(), |refusal| refusal.to_string());
    let module = String::from_utf8_lossy(module);
    format!(
        "edition {}, {}: {}\n--- shown\n{}\n--- a fresh call\n{}",
        edition, module, done, shown, asked
    )
}

fn main() -> Result<ExitCode, Box<dyn Error>> {
    let mut input = BufReader::new(io::stdin());
    let mut tally = Tally::new();
    let mut count = 0;
    while let Some(chain) = next_chain(&mut input)? {
        let mut fresh = Memory::with_output(chain.output);
        if let Err(difference) = follow(&chain, &mut fresh, &mut tally) {
            println!("chain {}, {}", chain.seed, difference);
            return Ok(ExitCode::FAILURE);
        }
        count += 1;
    }
    let all: Vec<String> = tally
        .iter()
        .map(|(what, times)| format!("{} {}", what, times))
        .collect();
    println!(
        "{} chains of editions: nothing stale; {}",
        count,
        all.join(", ")
    );
    Ok(ExitCode::SUCCESS)
}
