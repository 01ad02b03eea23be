//! The faults of a payload: its size (17), its numbers (18), and how many
//! results it gives (19).

use std::ops::RangeInclusive;

use super::codec::Layout;
use super::header::Column;
use super::width::{runs, Width};
use crate::independent::Refusal::{self, *};

pub fn payload(column: &Column) -> Result<(), Refusal> {
    let Column { payload, .. } = *column;
    match column.codec.layout {
        Layout::Plain8 => fills(column, 1),
        Layout::Plain16 => fills(column, 2),
        Layout::Plain32 => fills(column, 4),
        Layout::Strings => {
            fills(column, column.string_size())?;
            strings_allowed(payload, column.string_size())
        }
        Layout::Runs => {
            multiple(payload, 8)?;
            gives(column, run_results(payload, column.codec.held())?)
        }
        Layout::Packed8 => gives(column, packed_results::<i8>(payload)?),
        Layout::Packed16 => {
            multiple(payload, 2)?;
            gives(column, packed_results::<i16>(payload)?)
        }
    }
}

/// The size of the payload alone (17).
pub fn size(column: &Column) -> Result<(), Refusal> {
    match column.codec.layout {
        Layout::Plain8 => fills(column, 1),
        Layout::Plain16 => fills(column, 2),
        Layout::Plain32 => fills(column, 4),
        Layout::Strings => fills(column, column.string_size()),
        Layout::Runs => multiple(column.payload, 8),
        Layout::Packed8 => Ok(()),
        Layout::Packed16 => multiple(column.payload, 2),
    }
}

fn fills(column: &Column, size: usize) -> Result<(), Refusal> {
    match column.payload.len() == column.length * size {
        true => Ok(()),
        false => Err(PayloadSize),
    }
}

fn multiple(payload: &[u8], size: usize) -> Result<(), Refusal> {
    match payload.len().is_multiple_of(size) {
        true => Ok(()),
        false => Err(PayloadSize),
    }
}

fn gives(column: &Column, results: u64) -> Result<(), Refusal> {
    match results == column.length as u64 {
        true => Ok(()),
        false => Err(LengthDiffers),
    }
}

/// Bytes of names are ASCII, and only 0 bytes follow a 0 byte of a name.
pub fn strings_allowed(bytes: &[u8], size: usize) -> Result<(), Refusal> {
    let padded = match size {
        4 => all_padded::<4>(bytes),
        _ => !bytes.chunks_exact(size).any(resumes),
    };
    match padded && bytes.is_ascii() {
        true => Ok(()),
        false => Err(NumberNotAllowed),
    }
}

/// Whether a byte that is not 0 follows a 0 byte.
#[inline]
fn resumes(name: &[u8]) -> bool {
    name.windows(2)
        .fold(false, |any, pair| any | ((pair[0] == 0) & (pair[1] != 0)))
}

/// The same of names of a fixed size, which the compiler does many at a time.
fn all_padded<const N: usize>(bytes: &[u8]) -> bool {
    let (names, _) = bytes.as_chunks::<N>();
    names.iter().fold(true, |all, name| all & !resumes(name))
}

/// The sum of the counts, which are at least 1.
fn run_results(payload: &[u8], held: Option<RangeInclusive<i32>>) -> Result<u64, Refusal> {
    let held = held.unwrap_or(i32::MIN..=i32::MAX);
    let mut allowed = true;
    let mut results = 0;
    for (value, count) in runs(payload) {
        allowed &= held.contains(&value) & (count >= 1);
        results += u64::from(count as u32);
    }
    match allowed {
        true => Ok(results),
        false => Err(NumberNotAllowed),
    }
}

/// As many results as there are numbers that are no limit of the width.
fn packed_results<W: Width>(payload: &[u8]) -> Result<u64, Refusal> {
    let count = W::numbers(payload).len();
    let limits = W::numbers(payload).filter(|&n| W::is_limit(n)).count();
    if W::numbers(payload).last().is_some_and(W::is_limit) {
        return Err(NumberNotAllowed);
    }
    // So few limits and one number more cannot leave 32 bits.
    let few = (i32::MAX / -W::LEAST - 1) as usize;
    if limits > few {
        sums_fit::<W>(payload)?;
    }
    Ok((count - limits) as u64)
}

/// No running sum of a result leaves 32 bits.
fn sums_fit<W: Width>(payload: &[u8]) -> Result<(), Refusal> {
    let mut sum = 0i32;
    for number in W::numbers(payload) {
        let next = sum.checked_add(number).ok_or(NumberNotAllowed)?;
        sum = if W::is_limit(number) { next } else { 0 };
    }
    Ok(())
}
