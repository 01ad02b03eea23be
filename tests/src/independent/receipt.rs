//! Receipts: written for a file, and read.

use std::fmt::Write;

use super::check::accept;
use super::Refusal::{self, *};

/// The names of the lines, in order.
pub const LINES: [&str; 10] = [
    "station", "job", "verdict", "models", "chains", "groups", "atoms", "bonds", "fields", "units",
];

/// The numbers of the lines, in order.
pub type Numbers = [u32; LINES.len()];

/// Writes the receipt of a file to the buffer's start. Gives how many bytes it
/// has.
pub fn write_receipt(
    station: u32,
    job: u32,
    file: &[u8],
    buffer: &mut [u8],
) -> Result<usize, Refusal> {
    if !asked_rightly(station, job) {
        return Err(ReceiptMalformed);
    }
    let text = text(&of_file(station, job, file));
    let lent = buffer.get_mut(..text.len()).ok_or(BufferTooSmall)?;
    lent.copy_from_slice(text.as_bytes());
    Ok(text.len())
}

/// The numbers of a receipt, if the bytes are one and no more.
pub fn read_receipt(bytes: &[u8]) -> Result<Numbers, Refusal> {
    match first_receipt(bytes)? {
        (numbers, []) => Ok(numbers),
        _ => Err(ReceiptMalformed),
    }
}

/// The numbers of the receipt that the bytes begin with, and the bytes after it.
pub fn first_receipt(bytes: &[u8]) -> Result<(Numbers, &[u8]), Refusal> {
    match lines(bytes) {
        Some((numbers, rest)) if agreeing(&numbers) => Ok((numbers, rest)),
        _ => Err(ReceiptMalformed),
    }
}

/// The lines with these numbers, whether they make a receipt or not.
pub fn text(numbers: &Numbers) -> String {
    let mut text = String::new();
    for (name, number) in LINES.iter().zip(numbers) {
        writeln!(text, "{name}={number}").expect("a string takes every line");
    }
    text
}

fn asked_rightly(station: u32, job: u32) -> bool {
    (1..=99).contains(&station) && (1..=999_999).contains(&job)
}

fn of_file(station: u32, job: u32, file: &[u8]) -> Numbers {
    match accept(file) {
        Ok(file) => [
            station,
            job,
            0,
            file.models,
            file.chains,
            file.groups,
            file.atoms,
            file.bonds,
            file.fields,
            1,
        ],
        Err(refusal) => {
            let verdict = u32::from(refusal.number());
            [station, job, verdict, 0, 0, 0, 0, 0, 0, 0]
        }
    }
}

/// The numbers of the ten lines, and the bytes after them.
fn lines(bytes: &[u8]) -> Option<(Numbers, &[u8])> {
    let mut numbers = [0; LINES.len()];
    let mut rest = bytes;
    for (name, number) in LINES.iter().zip(&mut numbers) {
        let value = rest.strip_prefix(name.as_bytes())?.strip_prefix(b"=")?;
        let digits = value.iter().take_while(|byte| byte.is_ascii_digit());
        let (digits, after) = value.split_at(digits.count());
        *number = decimal(digits)?;
        rest = after.strip_prefix(b"\n")?;
    }
    Some((numbers, rest))
}

/// A number in digits, without leading zeros. None that is allowed in a receipt
/// needs more than 32 bits.
fn decimal(digits: &[u8]) -> Option<u32> {
    match digits {
        [] | [b'0', _, ..] => None,
        _ => digits.iter().try_fold(0_u32, |number, digit| {
            let digit = u32::from(digit - b'0');
            number.checked_mul(10)?.checked_add(digit)
        }),
    }
}

/// Whether the numbers are those of a receipt.
fn agreeing(&[station, job, verdict, ref of_file @ ..]: &Numbers) -> bool {
    let &[ref counts @ .., fields, units] = of_file;
    asked_rightly(station, job)
        && match verdict {
            0 => {
                counts.iter().all(|&count| count <= 16_777_216)
                    && (16..=39).contains(&fields)
                    && units == 1
            }
            1..=24 => of_file.iter().all(|&number| number == 0),
            _ => false,
        }
}
