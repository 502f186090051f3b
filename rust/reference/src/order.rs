//! The order of names (document 02, Twelve). Types, origins and equations keep the order of their bytes, and names are
//! equal only where their bytes are.

use std::cmp::Ordering;

/// What a name is made of for its order, which is that of the cases and of their fields: a run before any other byte,
/// runs by their numbers and then by their zeros. A number without its leading zeros is the greater the more digits it
/// has, so that one of any length is compared without being formed.
#[derive(PartialEq, Eq, PartialOrd, Ord)]
enum Element<'n> {
    Run {
        digits: usize,
        number: &'n [u8],
        zeros: usize,
    },
    Other(u8),
}

/// Element by element from the left; the end of a name comes before anything.
pub fn of_names(one: &[u8], other: &[u8]) -> Ordering {
    elements(one).cmp(elements(other))
}

fn elements(name: &[u8]) -> impl Iterator<Item = Element<'_>> {
    let in_one_run = |byte: &u8, next: &u8| byte.is_ascii_digit() && next.is_ascii_digit();
    name.chunk_by(in_one_run).map(element)
}

/// A run of digits, or one other byte.
fn element(bytes: &[u8]) -> Element<'_> {
    if !bytes[0].is_ascii_digit() {
        return Element::Other(bytes[0]);
    }
    let zeros = bytes.iter().take_while(|&&digit| digit == b'0').count();
    let number = &bytes[zeros..];
    Element::Run {
        digits: number.len(),
        number,
        zeros,
    }
}

#[cfg(test)]
mod tests {
    use super::*;

    /// Each list ascends.
    const ASCENDING: [&[&str]; 8] = [
        &["role", "role1", "role9", "role10", "role010", "roles"],
        &["a1a", "a1b", "a1z", "a01b", "a001a", "a2"],
        &["a", "a0", "a1", "a01", "a2", "a7", "a'", "a-", "a-b", "aB"],
        &["0", "00", "000", "1", "01", "10"],
        &["role-9", "role-9-9", "role-9-10", "role-10"],
        &["a'1", "a'9", "a'10", "a-1", "aa"],
        &["", "9", "10", "'", "-", "A", "a"],
        &[
            "0000000000000000000000000000000000000001",
            "18446744073709551615",
            "18446744073709551616",
            "0999999999999999999999999999999999999999",
            "1000000000000000000000000000000000000000",
            "1000000000000000000000000000000000000001",
            "9999999999999999999999999999999999999999",
        ],
    ];

    fn assert_ascending<N: AsRef<[u8]>>(names: &[N]) {
        for (index, one) in names.iter().enumerate() {
            for (behind, other) in names.iter().enumerate() {
                let (one, other) = (one.as_ref(), other.as_ref());
                let told = String::from_utf8_lossy(one) + " and " + String::from_utf8_lossy(other);
                assert_eq!(of_names(one, other), index.cmp(&behind), "{told}");
            }
        }
    }

    #[test]
    fn samples() {
        for names in ASCENDING {
            assert_ascending(names);
        }
    }

    /// Every name of at most three bytes: the order is total, and it is that of the numbers themselves.
    #[test]
    fn short_names() {
        let mut names: Vec<Vec<u8>> = vec![Vec::new()];
        for length in 0..3 {
            let shorter = names.clone().into_iter();
            for name in shorter.filter(|name| name.len() == length) {
                names.extend(b"019'-a".map(|byte| [&name[..], &[byte]].concat()));
            }
        }
        names.sort_by_key(|name| numbers(name));
        assert_ascending(&names);
    }

    /// Runs as numbers with their lengths, and other bytes above every number of three digits.
    fn numbers(name: &[u8]) -> Vec<(u32, usize)> {
        let mut numbers: Vec<(u32, usize)> = Vec::new();
        let mut within = false;
        for &byte in name {
            match numbers.last_mut() {
                _ if !byte.is_ascii_digit() => numbers.push((1_000 + u32::from(byte), 1)),
                Some((number, length)) if within => {
                    *number = *number * 10 + u32::from(byte - b'0');
                    *length += 1;
                }
                _ => numbers.push((u32::from(byte - b'0'), 1)),
            }
            within = byte.is_ascii_digit();
        }
        numbers
    }
}
