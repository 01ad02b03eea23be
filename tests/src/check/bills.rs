//! Bills of runs of receipts, by both implementations.

use super::calls::{alike, given, hold};
use super::watch::{watched, Output};
use crate::generate::Rng;
use crate::independent::bill as own;
use crate::library::bill as library;
use crate::library::columns::Outcome;

/// Room for every bill: 46 bytes for each station, and 13 for the total.
pub const LONGEST: usize = 99 * 46 + 13;

/// What both give for a run, with a buffer of so many bytes.
pub fn agree_on_bill(run: &[u8], room: usize) -> Result<Outcome<Output<u8>>, String> {
    let expected = watched(room, |buffer| given(own::bill(run, buffer)));
    let answer = watched(room, |buffer| library::bill(run, buffer));
    alike(answer, expected, || format!("bill, room {room}"))
}

/// How many calls `agree_on_bills` compares.
pub const COMPARED: u64 = 7;

/// Runs a run with room for every bill, and with rooms around the bill's size;
/// a refusal is the same with any room. Gives the bill, or the number.
pub fn agree_on_bills(rng: &mut Rng, run: &[u8]) -> Result<Result<String, u8>, String> {
    let run: Box<[u8]> = run.into();
    let whole = agree_on_bill(&run, LONGEST)?;
    let size = match &whole {
        Outcome::Done(bill) => bill.values.len(),
        _ => 1 + rng.below(LONGEST),
    };
    let rooms = [
        0,
        1,
        size - 1,
        size,
        size + 1,
        size + 2 + rng.below(LONGEST),
    ];
    for room in rooms {
        let expected = match whole {
            Outcome::Done(_) if room < size => Outcome::Refused(25),
            _ => whole.clone(),
        };
        let agreed = agree_on_bill(&run, room)?;
        if agreed != expected {
            return Err(format!("room {room}: {agreed:?}, expected {expected:?}"));
        }
    }
    assert_eq!(rooms.len() as u64 + 1, COMPARED);
    match whole {
        Outcome::Done(bill) => text(bill).map(Ok),
        Outcome::Refused(number) | Outcome::Wrote(number, _) => Ok(Err(number)),
    }
}

fn text(bill: Output<u8>) -> Result<String, String> {
    String::from_utf8(bill.values).map_err(|error| format!("no text: {error}"))
}

/// Holds both to a bill written down beforehand, with just room for it and with
/// more.
#[track_caller]
pub fn expect_bill(run: &[u8], bill: &str, case: &str) {
    for room in [bill.len(), bill.len() + 1, LONGEST] {
        expect_bill_in(run, room, bill, case);
    }
}

/// The same with a buffer of so many bytes.
#[track_caller]
pub fn expect_bill_in(run: &[u8], room: usize, bill: &str, case: &str) {
    let expected = Outcome::Done(Output {
        values: bill.as_bytes().to_vec(),
        divisor: None,
    });
    hold(agree_on_bill(run, room), expected, case);
}

/// Holds both to a number written down beforehand.
#[track_caller]
pub fn expect_no_bill(run: &[u8], room: usize, number: u8, case: &str) {
    hold(agree_on_bill(run, room), Outcome::Refused(number), case);
}
