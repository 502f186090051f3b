//! Times of the proved library and of the reference on the same texts, as a table; and times of a decision whether a part may be kept beside
//! those of a call. Nothing is held to a time.

use crate::driver::Driver;
use crate::loads::{loads, Load};
use reference::{normalise, Answer, Lent, Texts, OUTPUT_BYTES};
use std::io;

/// The least time of so many calls for every load.
pub fn table(times: usize, command: &[String]) -> io::Result<()> {
    println!("| Text | Bytes | Answer | Proved, ms | Reference, ms | Ratio |");
    println!("|---|---|---|---|---|---|");
    for load in loads() {
        let mut driver = Driver::start(command)?;
        println!("{}", row(&load, times, &mut driver)?);
    }
    Ok(())
}

/// The least time of so many decisions, beside that of as many calls, for every load that is accepted. The specification is the same before and
/// now but for a line feed behind it, so that it is read again and all of it is compared.
pub fn decisions(times: usize, command: &[String]) -> io::Result<()> {
    println!("| Text | Bytes | A call, ms | A decision, ms | Ratio |");
    println!("|---|---|---|---|---|");
    for load in loads() {
        let (asked, texts) = (load.asked.as_bytes(), load.texts());
        let mut driver = Driver::start(command)?;
        if driver.time(asked, texts, OUTPUT_BYTES, 1)?.number != 0 {
            continue;
        }
        let call = driver.time(asked, texts, OUTPUT_BYTES, times)?;
        let edited = [texts.customer, b"\n"].concat();
        let now = Texts {
            customer: &edited,
            ..texts
        };
        let decision = driver.time_decision(asked, texts, now, times)?;
        let (call, decision) = (call.least as f64 / 1e6, decision.least as f64 / 1e6);
        println!(
            "| {} | {} | {call:.3} | {decision:.3} | {:.2} |",
            load.title,
            texts.library.len() + texts.customer.len(),
            decision / call
        );
    }
    Ok(())
}

fn row(load: &Load, times: usize, driver: &mut Driver) -> io::Result<String> {
    let (asked, texts) = (load.asked.as_bytes(), load.texts());
    let proved = driver.time(asked, texts, OUTPUT_BYTES, times)?;
    let (answer, reference) = least_time(asked, texts, times);
    if proved.number != answer.number {
        let message = format!("{}: {} and {}", load.title, proved.number, answer.number);
        return Err(io::Error::new(io::ErrorKind::InvalidData, message));
    }
    let (proved, reference) = (proved.least as f64 / 1e6, reference as f64 / 1e6);
    Ok(format!(
        "| {} | {} | {} | {proved:.3} | {reference:.3} | {:.2} |",
        load.title,
        texts.library.len() + texts.customer.len(),
        answer.number,
        proved / reference
    ))
}

/// The least time of a call of the reference, in nanoseconds. What it allocates, it allocates within the call.
fn least_time(asked: &[u8], texts: Texts, times: usize) -> (Answer, u64) {
    let answer = normalise(asked, texts, Lent::output(OUTPUT_BYTES));
    let mut least = u64::MAX;
    for _ in 0..times {
        let start = processor_time();
        std::hint::black_box(normalise(asked, texts, Lent::output(OUTPUT_BYTES)));
        least = least.min(processor_time() - start);
    }
    (answer, least)
}

#[repr(C)]
struct Moment {
    seconds: i64,
    nanoseconds: i64,
}

extern "C" {
    fn clock_gettime(clock: i32, moment: *mut Moment) -> i32;
}

/// Linux's clock of the processor's time for this process.
const PROCESS_TIME: i32 = 2;

/// The processor's time for this process, in nanoseconds: other work on the machine does not count.
fn processor_time() -> u64 {
    let mut moment = Moment {
        seconds: 0,
        nanoseconds: 0,
    };
    // SAFETY: the C library, which std links, writes one moment through the pointer.
    let failed = unsafe { clock_gettime(PROCESS_TIME, &mut moment) };
    assert_eq!(failed, 0, "the clock is read");
    moment.seconds as u64 * 1_000_000_000 + moment.nanoseconds as u64
}
