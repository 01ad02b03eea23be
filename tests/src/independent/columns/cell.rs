//! One cell of a column.

use super::codec::{Kind, Layout};
use super::decode::{exact, quotient};
use super::header::Column;
use super::width::{runs, Width};
use crate::independent::Refusal::{self, *};

#[derive(Clone, Copy, Debug)]
pub enum Cell {
    Int32(i32),
    Char(u8),
    Float32(f32),
}

/// Floats are compared by their bits, but all NaNs are one.
impl PartialEq for Cell {
    fn eq(&self, other: &Cell) -> bool {
        match (self, other) {
            (Cell::Int32(a), Cell::Int32(b)) => a == b,
            (Cell::Char(a), Cell::Char(b)) => a == b,
            (Cell::Float32(a), Cell::Float32(b)) => {
                a.to_bits() == b.to_bits() || a.is_nan() && b.is_nan()
            }
            _ => false,
        }
    }
}

/// The cell at an index. The column is checked whole.
pub fn cell(column: &[u8], index: u64) -> Result<Cell, Refusal> {
    let column = Column::checked(column, |_| true)?;
    if column.codec.kind == Kind::Strings {
        return Err(CodecUnknown);
    }
    if index >= column.length as u64 {
        return Err(NoSuchEntry);
    }
    let integer = integer_at(&column, index as usize);
    match column.codec.kind {
        Kind::Chars => Ok(Cell::Char(integer as u8)),
        Kind::Float32 => Ok(Cell::Float32(f32::from_bits(integer as u32))),
        Kind::FixedPoint => fixed_point(integer, column.parameter),
        _ => Ok(Cell::Int32(integer)),
    }
}

fn fixed_point(integer: i32, divisor: i32) -> Result<Cell, Refusal> {
    match exact(integer) && exact(divisor) {
        true => Ok(Cell::Float32(quotient(integer, divisor))),
        false => Err(NotExact),
    }
}

/// The integer at an index inside a checked column.
fn integer_at(column: &Column, index: usize) -> i32 {
    let payload = column.payload;
    match (column.codec.layout, column.codec.delta) {
        (Layout::Plain8 | Layout::Strings, _) => plain_at::<i8>(payload, index),
        (Layout::Plain16, _) => plain_at::<i16>(payload, index),
        (Layout::Plain32, _) => plain_at::<i32>(payload, index),
        (Layout::Runs, delta) => run_at(payload, index, delta),
        (Layout::Packed8, delta) => unpacked_at::<i8>(payload, index, delta),
        (Layout::Packed16, delta) => unpacked_at::<i16>(payload, index, delta),
    }
}

fn plain_at<W: Width>(payload: &[u8], index: usize) -> i32 {
    let start = index * W::BYTES;
    W::read(&payload[start..start + W::BYTES])
}

/// The value of the run at an index, or with deltas the sum up to it.
fn run_at(payload: &[u8], index: usize, delta: bool) -> i32 {
    let mut left = index as i32;
    let mut sum = 0i32;
    for (value, count) in runs(payload) {
        if left < count {
            return match delta {
                true => sum.wrapping_add(value.wrapping_mul(left + 1)),
                false => value,
            };
        }
        left -= count;
        sum = sum.wrapping_add(value.wrapping_mul(count));
    }
    unreachable!("the index is inside the column")
}

/// The result at an index of a packed payload, or with deltas the sum up to it.
fn unpacked_at<W: Width>(payload: &[u8], index: usize, delta: bool) -> i32 {
    let mut left = index;
    let mut sum = 0i32;
    for number in W::numbers(payload) {
        sum = sum.wrapping_add(number);
        if W::is_limit(number) {
            continue;
        }
        if left == 0 {
            return sum;
        }
        left -= 1;
        sum = if delta { sum } else { 0 };
    }
    unreachable!("the index is inside the column")
}
