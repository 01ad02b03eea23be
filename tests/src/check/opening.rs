//! Opens one file by the library and by the independent implementation, and
//! holds the answer to what the library's other calls say of the file.

use super::hex;
use crate::independent::{self, Opened, Refusal, FIELDS};
use crate::library::opening::{open, Opening};
use crate::library::{self, View};

/// Rooms without an element, one too small, just right, one more, and the
/// header's.
pub const ROOMS: [usize; 5] = [0, FIELDS.len() - 1, FIELDS.len(), FIELDS.len() + 1, 64];

/// What the library must answer with so much room.
pub fn expected_opening(file: &[u8], room: usize) -> Opening {
    expected(independent::open(file), room)
}

fn expected(opened: Result<Opened, Refusal>, room: usize) -> Opening {
    match opened {
        Err(refusal) => Opening::Refused(refusal.number()),
        Ok(_) if room < FIELDS.len() => Opening::Refused(25),
        Ok(Opened {
            presence,
            starts,
            lengths,
        }) => Opening::Fields {
            presence,
            starts: starts.to_vec(),
            lengths: lengths.to_vec(),
        },
    }
}

/// Compares both on one file, with every room. Gives its verdict.
pub fn agree_on_opening(file: &[u8]) -> Result<u8, String> {
    let file: Box<[u8]> = file.into();
    let opened = independent::open(&file);
    for room in ROOMS {
        let expected = expected(opened, room);
        let answer = open(&file, room);
        if answer != expected {
            return Err(format!(
                "opened with room {room}: library {answer:?}, expected {expected:?}"
            ));
        }
    }
    Ok(opened.map_or_else(Refusal::number, |_| 0))
}

/// Holds the library's answer to its own other calls: the verdict, and of an
/// accepted file the views of all names and the receipt's number of fields.
pub fn agree_with_views(file: &[u8]) -> Result<u8, String> {
    let verdict = library::verdict(file);
    let (presence, starts, lengths) = match open(file, FIELDS.len()) {
        Opening::Refused(number) if number == verdict => return Ok(number),
        Opening::Fields {
            presence,
            starts,
            lengths,
        } if verdict == 0 => (presence, starts, lengths),
        other => return Err(format!("verdict {verdict}, opened {other:?}")),
    };
    for (place, field) in FIELDS.iter().enumerate() {
        let part = (starts[place], lengths[place]);
        let shown = match library::view(file, field.name().as_bytes()) {
            View::Part { start, length } => (true, (start, length)),
            View::Refused(26) => (false, (0, 0)),
            other => return Err(format!("view of {}: {other:?}", field.name())),
        };
        if (presence >> place & 1 == 1, part) != shown {
            return Err(format!("{}: {part:?}, its view {shown:?}", field.name()));
        }
    }
    if presence >> FIELDS.len() != 0 {
        return Err(format!("a field that there is not: {presence:x}"));
    }
    let (_, numbers) = super::receipts::agree_on_receipt([7, 12], file)?;
    match numbers[8] == presence.count_ones() {
        true => Ok(0),
        false => Err(format!(
            "fields {presence:x}, the receipt has {}",
            numbers[8]
        )),
    }
}

/// Both comparisons, and the bytes if there is a difference.
#[track_caller]
pub fn expect_agreement(file: &[u8], case: &str) -> u8 {
    let agreed = agree_on_opening(file).and_then(|number| {
        let other = agree_with_views(file)?;
        assert_eq!(number, other, "{case}: one verdict");
        Ok(number)
    });
    match agreed {
        Ok(number) => number,
        Err(difference) if file.len() > 100_000 => panic!("{case}: {difference}"),
        Err(difference) => panic!("{case}: {difference}\n{}", hex(file)),
    }
}
