//! The C calls on receipts. What stands in the out parameters is watched, and of
//! the ten numbers what stands around them too; the buffer is watched by the
//! caller.

use super::columns::{outcome, Answer, Outcome, COUNT};
use crate::independent::receipt::{Numbers, LINES};

extern "C" {
    fn mmtf_write_receipt(
        station: u32,
        job: u32,
        file: *const u8,
        n: usize,
        buffer: *mut u8,
        room: usize,
        written: *mut u64,
    ) -> u8;
    fn mmtf_read_receipt(bytes: *const u8, n: usize, numbers: *mut u32) -> u8;
}

/// The call itself, with an out parameter that the caller lends. Gives the
/// number.
pub fn write_receipt_into(
    [station, job]: [u32; 2],
    file: &[u8],
    buffer: &mut [u8],
    written: &mut u64,
) -> u8 {
    // SAFETY: each pointer and length are those of a live slice or variable.
    unsafe {
        mmtf_write_receipt(
            station,
            job,
            file.as_ptr(),
            file.len(),
            buffer.as_mut_ptr(),
            buffer.len(),
            written,
        )
    }
}

/// Writes the receipt of a file.
pub fn write_receipt(by: [u32; 2], file: &[u8], buffer: &mut [u8]) -> Outcome<Answer> {
    let mut written = COUNT;
    let refusal = write_receipt_into(by, file, buffer, &mut written);
    outcome(refusal, written)
}

/// The call itself, with numbers that the caller lends. Gives the number of the
/// refusal.
pub fn read_receipt_into(bytes: &[u8], numbers: &mut Numbers) -> u8 {
    // SAFETY: the pointer and the length are those of a live slice, and there
    // are ten numbers.
    unsafe { mmtf_read_receipt(bytes.as_ptr(), bytes.len(), numbers.as_mut_ptr()) }
}

/// How many numbers stand before those that are lent, and behind them.
const AROUND: usize = 4;

/// How many are lent.
const LENT: usize = LINES.len();

/// What stands at a place before a call; neighbours differ, and none is a number
/// of a receipt.
fn before(place: usize) -> u32 {
    0xa5a5_5a00 + place as u32
}

/// Reads a receipt.
pub fn read_receipt(bytes: &[u8]) -> Outcome<Numbers> {
    let mut all: [u32; LENT + 2 * AROUND] = std::array::from_fn(before);
    let lent = all[AROUND..AROUND + LENT].as_mut().try_into();
    let lent: &mut Numbers = lent.expect("ten numbers");
    let refusal = read_receipt_into(bytes, lent);
    let numbers = *lent;
    let kept = |mut places: std::ops::Range<usize>| places.all(|n| all[n] == before(n));
    if !kept(0..AROUND) || !kept(AROUND + LENT..all.len()) {
        return Outcome::Wrote(refusal, "around the numbers");
    }
    match refusal {
        0 => Outcome::Done(numbers),
        n if kept(AROUND..AROUND + LENT) => Outcome::Refused(n),
        n => Outcome::Wrote(n, "the numbers"),
    }
}
