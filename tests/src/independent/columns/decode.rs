//! Decoders by kind.

use super::codec::{Kind, Layout};
use super::header::Column;
use super::width::{runs, Width};
use super::EXACT_LIMIT;
use crate::independent::Refusal::{self, *};

/// Writes the integers of an int32 column. Gives how many.
pub fn decode_int32(column: &[u8], buffer: &mut [i32]) -> Result<usize, Refusal> {
    integers(column, Kind::Int32, buffer)
}

pub fn decode_int8(column: &[u8], buffer: &mut [i32]) -> Result<usize, Refusal> {
    integers(column, Kind::Int8, buffer)
}

pub fn decode_int16(column: &[u8], buffer: &mut [i32]) -> Result<usize, Refusal> {
    integers(column, Kind::Int16, buffer)
}

pub fn decode_chars(column: &[u8], buffer: &mut [u8]) -> Result<usize, Refusal> {
    let column = Column::checked(column, |kind| kind == Kind::Chars)?;
    let out = lent(buffer, column.length)?;
    write(&column, out, |n| n as u8);
    Ok(column.length)
}

/// Writes the names with their padding. Gives how many bytes.
pub fn decode_strings(column: &[u8], buffer: &mut [u8]) -> Result<usize, Refusal> {
    let column = Column::checked(column, |kind| kind == Kind::Strings)?;
    let bytes = column.payload;
    lent(buffer, bytes.len())?.copy_from_slice(bytes);
    Ok(bytes.len())
}

/// Writes the integers. Gives how many, and the divisor.
pub fn decode_fixed_point(column: &[u8], buffer: &mut [i32]) -> Result<(usize, i32), Refusal> {
    let column = Column::checked(column, |kind| kind == Kind::FixedPoint)?;
    let out = lent(buffer, column.length)?;
    write(&column, out, |n| n);
    Ok((column.length, column.parameter))
}

/// Writes the bits of the floats. Gives how many.
pub fn decode_float32(column: &[u8], buffer: &mut [u32]) -> Result<usize, Refusal> {
    let real = |kind| matches!(kind, Kind::Float32 | Kind::FixedPoint);
    let column = Column::checked(column, real)?;
    let divisor = column.parameter;
    let divided = column.codec.kind == Kind::FixedPoint;
    if divided && (!exact(divisor) || !all_exact(&column)) {
        return Err(NotExact);
    }
    let out = lent(buffer, column.length)?;
    match divided {
        true => write(&column, out, |n| quotient(n, divisor).to_bits()),
        false => write(&column, out, |n| n as u32),
    }
    Ok(column.length)
}

/// An integer as a float.
#[inline]
pub fn quotient(integer: i32, divisor: i32) -> f32 {
    integer as f32 / divisor as f32
}

/// Whether a float holds the integer, as the rules judge it.
#[inline]
pub fn exact(integer: i32) -> bool {
    integer.unsigned_abs() <= EXACT_LIMIT
}

fn integers(column: &[u8], kind: Kind, buffer: &mut [i32]) -> Result<usize, Refusal> {
    let column = Column::checked(column, |given| given == kind)?;
    let out = lent(buffer, column.length)?;
    write(&column, out, |n| n);
    Ok(column.length)
}

/// The part of a buffer that takes the answer.
fn lent<T>(buffer: &mut [T], length: usize) -> Result<&mut [T], Refusal> {
    buffer.get_mut(..length).ok_or(BufferTooSmall)
}

/// Whether floats hold all integers of a checked column. Plain ones have 16 bits.
fn all_exact(column: &Column) -> bool {
    let payload = column.payload;
    match (column.codec.layout, column.codec.delta) {
        (Layout::Runs, _) => runs(payload).fold(true, |all, (value, _)| all & exact(value)),
        (Layout::Packed8, _) => all_unpacked_exact::<i8>(payload),
        (Layout::Packed16, false) => all_unpacked_exact::<i16>(payload),
        (Layout::Packed16, true) => all_summed_exact::<i16>(payload),
        _ => true,
    }
}

fn all_unpacked_exact<W: Width>(payload: &[u8]) -> bool {
    let mut all = true;
    unpack::<W>(payload, |n| all &= exact(n));
    all
}

fn all_summed_exact<W: Width>(payload: &[u8]) -> bool {
    let mut all = true;
    unpack_sums::<W>(payload, |n| all &= exact(n));
    all
}

/// Writes what `of` makes of each integer of a checked column.
fn write<T: Copy>(column: &Column, out: &mut [T], of: impl Fn(i32) -> T) {
    let payload = column.payload;
    match (column.codec.layout, column.codec.delta) {
        (Layout::Plain8 | Layout::Strings, _) => write_plain::<i8, T>(payload, out, of),
        (Layout::Plain16, _) => write_plain::<i16, T>(payload, out, of),
        (Layout::Plain32, _) => write_plain::<i32, T>(payload, out, of),
        (Layout::Runs, false) => write_runs(payload, out, of),
        (Layout::Runs, true) => write_run_sums(payload, out, of),
        (Layout::Packed8, _) => write_unpacked::<i8, T>(payload, out, of),
        (Layout::Packed16, false) => write_unpacked::<i16, T>(payload, out, of),
        (Layout::Packed16, true) => write_unpacked_sums::<i16, T>(payload, out, of),
    }
}

fn write_plain<W: Width, T>(payload: &[u8], out: &mut [T], of: impl Fn(i32) -> T) {
    for (slot, number) in out.iter_mut().zip(W::numbers(payload)) {
        *slot = of(number);
    }
}

/// Runs up to this long are written at this length, which needs no branch that
/// depends on the count; the next run begins where it must.
const SHORT: usize = 4;

fn write_runs<T: Copy>(payload: &[u8], mut out: &mut [T], of: impl Fn(i32) -> T) {
    for (value, count) in runs(payload) {
        let value = of(value);
        let count = count as usize;
        match out.first_chunk_mut::<SHORT>() {
            Some(short) if count <= SHORT => *short = [value; SHORT],
            _ => out[..count].fill(value),
        }
        out = &mut out[count..];
    }
}

fn write_run_sums<T>(payload: &[u8], mut out: &mut [T], of: impl Fn(i32) -> T) {
    let mut sum = 0i32;
    for (delta, count) in runs(payload) {
        let (run, rest) = out.split_at_mut(count as usize);
        for slot in run {
            sum = sum.wrapping_add(delta);
            *slot = of(sum);
        }
        out = rest;
    }
}

fn write_unpacked<W: Width, T>(payload: &[u8], out: &mut [T], of: impl Fn(i32) -> T) {
    let mut at = 0;
    unpack::<W>(payload, |n| {
        out[at] = of(n);
        at += 1;
    });
}

fn write_unpacked_sums<W: Width, T>(payload: &[u8], out: &mut [T], of: impl Fn(i32) -> T) {
    let mut at = 0;
    unpack_sums::<W>(payload, |n| {
        out[at] = of(n);
        at += 1;
    });
}

/// Gives each result of a packed payload.
#[inline]
pub fn unpack<W: Width>(payload: &[u8], mut each: impl FnMut(i32)) {
    let mut sum = 0i32;
    for number in W::numbers(payload) {
        sum += number;
        if !W::is_limit(number) {
            each(sum);
            sum = 0;
        }
    }
}

/// Gives the sum of the results so far at each result of a packed payload: the
/// sum of all its numbers so far.
#[inline]
pub fn unpack_sums<W: Width>(payload: &[u8], mut each: impl FnMut(i32)) {
    let mut sum = 0i32;
    for number in W::numbers(payload) {
        sum = sum.wrapping_add(number);
        if !W::is_limit(number) {
            each(sum);
        }
    }
}
