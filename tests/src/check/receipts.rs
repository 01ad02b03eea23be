//! Receipts by both implementations: written for a file, and read.

use super::calls::{alike, given, hold};
use super::watch::{watched, Output};
use crate::generate::receipts::{allowed, not_allowed};
use crate::generate::Rng;
use crate::independent::receipt::{self as own, text, Numbers};
use crate::library::columns::Outcome;
use crate::library::{receipt as library, verdict};

/// The bytes of the longest receipt.
pub const LONGEST: usize = 128;

/// What both give for a receipt by a station and its job, with a buffer of so
/// many bytes.
pub fn agree_on_writing(
    [station, job]: [u32; 2],
    file: &[u8],
    room: usize,
) -> Result<Outcome<Output<u8>>, String> {
    let expected = watched(room, |buffer| {
        given(own::write_receipt(station, job, file, buffer))
    });
    let answer = watched(room, |buffer| {
        library::write_receipt([station, job], file, buffer)
    });
    alike(answer, expected, || {
        format!("receipt by {station}, {job}, room {room}")
    })
}

/// What both give for bytes read as a receipt. Only the one text of its numbers
/// is a receipt.
pub fn agree_on_reading(bytes: &[u8]) -> Result<Outcome<Numbers>, String> {
    let expected = match own::read_receipt(bytes) {
        Ok(numbers) => Outcome::Done(numbers),
        Err(refusal) => Outcome::Refused(refusal.number()),
    };
    let agreed = alike(library::read_receipt(bytes), expected, || {
        format!("reading \"{}\"", bytes.escape_ascii())
    })?;
    match agreed {
        Outcome::Done(numbers) if text(&numbers).as_bytes() != bytes => {
            Err(format!("not the text of {numbers:?}"))
        }
        agreed => Ok(agreed),
    }
}

/// The receipt that both write for a file, and the numbers that both read in it.
pub fn agree_on_receipt(by: [u32; 2], file: &[u8]) -> Result<(Vec<u8>, Numbers), String> {
    let written = agree_on_writing(by, file, LONGEST)?;
    let Outcome::Done(Output { values, .. }) = written else {
        return Err(format!("no receipt by {by:?}: {written:?}"));
    };
    match agree_on_reading(&values)? {
        Outcome::Done(numbers) => Ok((values, numbers)),
        other => Err(format!("what is written is not read: {other:?}")),
    }
}

/// How many calls `agree_on_receipts` compares.
pub const COMPARED: u64 = 12;

/// Runs a file by a station and a job that are allowed, with rooms around the
/// receipt's size, and by some that are not. Gives the numbers of its receipt.
pub fn agree_on_receipts(rng: &mut Rng, file: &[u8]) -> Result<Numbers, String> {
    let by = allowed(rng);
    let (receipt, numbers) = agree_on_receipt(by, file)?;
    let verdict = u32::from(verdict(file));
    if numbers[..2] != by || numbers[2] != verdict {
        return Err(format!("{by:?}, verdict {verdict}: {numbers:?}"));
    }
    let mut compared = 2;
    let size = receipt.len();
    let larger = size + 2 + rng.below(200);
    for room in [0, 1, size - 1, size, size + 1, larger] {
        let expected = match room < size {
            true => Outcome::Refused(25),
            false => Outcome::Done(Output {
                values: receipt.clone(),
                divisor: None,
            }),
        };
        expected_of_both(agree_on_writing(by, file, room)?, expected)?;
        compared += 1;
    }
    for room in [0, size - 1, size, larger] {
        let by = not_allowed(rng);
        expected_of_both(agree_on_writing(by, file, room)?, Outcome::Refused(29))?;
        compared += 1;
    }
    assert_eq!(compared, COMPARED);
    Ok(numbers)
}

fn expected_of_both(
    agreed: Outcome<Output<u8>>,
    expected: Outcome<Output<u8>>,
) -> Result<(), String> {
    match agreed == expected {
        true => Ok(()),
        false => Err(format!("both give {agreed:?}, expected {expected:?}")),
    }
}

/// Holds both to a receipt written down beforehand, with just room for it and
/// with more; and to its being read back.
#[track_caller]
pub fn expect_written(by: [u32; 2], file: &[u8], receipt: &str, case: &str) {
    for room in [receipt.len(), receipt.len() + 1, receipt.len() + 100] {
        let expected = Outcome::Done(Output {
            values: receipt.as_bytes().to_vec(),
            divisor: None,
        });
        hold(agree_on_writing(by, file, room), expected, case);
    }
    match agree_on_reading(receipt.as_bytes()) {
        Ok(Outcome::Done(numbers)) => assert_eq!(numbers[..2], by, "{case}"),
        other => panic!("{case}: read back, {other:?}"),
    }
}

/// Holds both to a number written down beforehand.
#[track_caller]
pub fn expect_not_written(by: [u32; 2], file: &[u8], room: usize, number: u8, case: &str) {
    hold(
        agree_on_writing(by, file, room),
        Outcome::Refused(number),
        case,
    );
}

/// Holds both to numbers written down beforehand.
#[track_caller]
pub fn expect_read(receipt: &str, numbers: Numbers, case: &str) {
    hold(
        agree_on_reading(receipt.as_bytes()),
        Outcome::Done(numbers),
        case,
    );
}

/// Holds both to refusing the bytes with 29.
#[track_caller]
pub fn expect_not_read(bytes: &[u8], case: &str) {
    hold(agree_on_reading(bytes), Outcome::Refused(29), case);
}
