//! A property of the proved library: how the modules of a specification are divided between the two texts, their order
//! kept, changes no answer from 6 up and no listing.

use crate::cases::Case;
use crate::division::divisions;
use crate::engines::Difference;
use crate::proved::{differ, told, Proved};
use reference::Texts;
use std::io;

/// Each way to divide the case's text against all of it as the customer's. Refusals by reading tell places, which are
/// others in other texts.
pub fn compare(proved: &Proved, case: &Case) -> Option<Difference> {
    let ask = |texts: Texts| proved.reply(&case.asked, texts, case.output);
    let undivided = match ask(Texts::alone(&case.text)) {
        Ok(reply) if (1..=5).contains(&reply.number) => return None,
        Ok(reply) => reply,
        Err(error) => return Some(ended(error)),
    };
    divisions(&case.text).into_iter().find_map(|texts| {
        differ(&undivided, ask(texts), |reply| {
            format!("divided at {}: {}", texts.library.len(), told(reply))
        })
    })
}

fn ended(error: io::Error) -> Difference {
    Difference {
        expected: "an answer".to_string(),
        found: format!("the driver ended: {error}"),
    }
}
