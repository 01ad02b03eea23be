//! The C calls on columns. Each wrapper watches the out parameters; the buffer
//! is watched by the caller, who knows what stood in it and around it.

use crate::independent::columns::Cell;

extern "C" {
    fn mmtf_decode_int32(
        column: *const u8,
        n: usize,
        buffer: *mut i32,
        room: usize,
        count: *mut u64,
    ) -> u8;
    fn mmtf_decode_int8(
        column: *const u8,
        n: usize,
        buffer: *mut i32,
        room: usize,
        count: *mut u64,
    ) -> u8;
    fn mmtf_decode_int16(
        column: *const u8,
        n: usize,
        buffer: *mut i32,
        room: usize,
        count: *mut u64,
    ) -> u8;
    fn mmtf_decode_chars(
        column: *const u8,
        n: usize,
        buffer: *mut u8,
        room: usize,
        count: *mut u64,
    ) -> u8;
    fn mmtf_decode_strings(
        column: *const u8,
        n: usize,
        buffer: *mut u8,
        room: usize,
        count: *mut u64,
    ) -> u8;
    fn mmtf_decode_fixed_point(
        column: *const u8,
        n: usize,
        buffer: *mut i32,
        room: usize,
        count: *mut u64,
        divisor: *mut i32,
    ) -> u8;
    fn mmtf_decode_float32(
        column: *const u8,
        n: usize,
        buffer: *mut u32,
        room: usize,
        count: *mut u64,
    ) -> u8;
    fn mmtf_cell(
        column: *const u8,
        n: usize,
        index: u64,
        kind: *mut u8,
        integer: *mut i32,
        real: *mut f32,
    ) -> u8;
    fn mmtf_encode_int32(
        codec: i32,
        values: *const i32,
        m: usize,
        buffer: *mut u8,
        room: usize,
        written: *mut u64,
    ) -> u8;
    fn mmtf_encode_int8(
        codec: i32,
        values: *const i32,
        m: usize,
        buffer: *mut u8,
        room: usize,
        written: *mut u64,
    ) -> u8;
    fn mmtf_encode_int16(
        codec: i32,
        values: *const i32,
        m: usize,
        buffer: *mut u8,
        room: usize,
        written: *mut u64,
    ) -> u8;
    fn mmtf_encode_chars(
        codec: i32,
        values: *const u8,
        m: usize,
        buffer: *mut u8,
        room: usize,
        written: *mut u64,
    ) -> u8;
    fn mmtf_encode_strings(
        codec: i32,
        size: i32,
        bytes: *const u8,
        m: usize,
        buffer: *mut u8,
        room: usize,
        written: *mut u64,
    ) -> u8;
    fn mmtf_encode_fixed_point(
        codec: i32,
        divisor: i32,
        values: *const i32,
        m: usize,
        buffer: *mut u8,
        room: usize,
        written: *mut u64,
    ) -> u8;
    fn mmtf_encode_float32(
        codec: i32,
        bits: *const u32,
        m: usize,
        buffer: *mut u8,
        room: usize,
        written: *mut u64,
    ) -> u8;
}

/// What a call came to.
#[derive(Clone, Copy, Debug, PartialEq)]
pub enum Outcome<T> {
    Done(T),
    Refused(u8),
    /// It gave this number, and yet wrote what it must leave as it was.
    Wrote(u8, &'static str),
}

/// How many elements were written to the buffer, and the divisor if the call
/// has one.
#[derive(Clone, Copy, Debug, PartialEq, Eq)]
pub struct Answer {
    pub count: u64,
    pub divisor: Option<i32>,
}

/// What stands in the out parameters before a call.
pub(super) const COUNT: u64 = 0xa5a5_5a5a_0f0f_1e1e;
const DIVISOR: i32 = -0x5a5a_0f1f;
const KIND: u8 = 0xa5;
const INTEGER: i32 = 0x5aa5_0ff0;
const REAL: u32 = 0x2d5a_a5f0;

pub fn decode_int32(column: &[u8], buffer: &mut [i32]) -> Outcome<Answer> {
    decode(mmtf_decode_int32, column, buffer)
}

pub fn decode_int8(column: &[u8], buffer: &mut [i32]) -> Outcome<Answer> {
    decode(mmtf_decode_int8, column, buffer)
}

pub fn decode_int16(column: &[u8], buffer: &mut [i32]) -> Outcome<Answer> {
    decode(mmtf_decode_int16, column, buffer)
}

pub fn decode_chars(column: &[u8], buffer: &mut [u8]) -> Outcome<Answer> {
    decode(mmtf_decode_chars, column, buffer)
}

pub fn decode_strings(column: &[u8], buffer: &mut [u8]) -> Outcome<Answer> {
    decode(mmtf_decode_strings, column, buffer)
}

pub fn decode_float32(column: &[u8], buffer: &mut [u32]) -> Outcome<Answer> {
    decode(mmtf_decode_float32, column, buffer)
}

pub fn decode_fixed_point(column: &[u8], buffer: &mut [i32]) -> Outcome<Answer> {
    let mut count = COUNT;
    let mut divisor = DIVISOR;
    // SAFETY: each pointer and length are those of a live slice or variable.
    let refusal = unsafe {
        mmtf_decode_fixed_point(
            column.as_ptr(),
            column.len(),
            buffer.as_mut_ptr(),
            buffer.len(),
            &mut count,
            &mut divisor,
        )
    };
    match (refusal, divisor) {
        (0, _) => Outcome::Done(Answer {
            count,
            divisor: Some(divisor),
        }),
        (n, DIVISOR) => refused(n, count),
        (n, _) => Outcome::Wrote(n, "the divisor"),
    }
}

pub fn cell(column: &[u8], index: u64) -> Outcome<Cell> {
    let mut kind = KIND;
    let mut integer = INTEGER;
    let mut real = f32::from_bits(REAL);
    // SAFETY: each pointer and length are those of a live slice or variable.
    let refusal = unsafe {
        mmtf_cell(
            column.as_ptr(),
            column.len(),
            index,
            &mut kind,
            &mut integer,
            &mut real,
        )
    };
    let real_kept = real.to_bits() == REAL;
    let integer_kept = integer == INTEGER;
    match (refusal, kind) {
        (0, 1) if real_kept => Outcome::Done(Cell::Int32(integer)),
        (0, 2) if real_kept => match u8::try_from(integer) {
            Ok(char) => Outcome::Done(Cell::Char(char)),
            Err(_) => Outcome::Wrote(0, "an integer that is no char"),
        },
        (0, 3) if integer_kept => Outcome::Done(Cell::Float32(real)),
        (0, 1..=3) => Outcome::Wrote(0, "the other out parameter"),
        (0, _) => Outcome::Wrote(0, "a kind that there is not"),
        (n, KIND) if real_kept && integer_kept => Outcome::Refused(n),
        (n, _) => Outcome::Wrote(n, "an out parameter"),
    }
}

pub fn encode_int32(codec: i32, values: &[i32], buffer: &mut [u8]) -> Outcome<Answer> {
    encode(mmtf_encode_int32, codec, values, buffer)
}

pub fn encode_int8(codec: i32, values: &[i32], buffer: &mut [u8]) -> Outcome<Answer> {
    encode(mmtf_encode_int8, codec, values, buffer)
}

pub fn encode_int16(codec: i32, values: &[i32], buffer: &mut [u8]) -> Outcome<Answer> {
    encode(mmtf_encode_int16, codec, values, buffer)
}

pub fn encode_chars(codec: i32, values: &[u8], buffer: &mut [u8]) -> Outcome<Answer> {
    encode(mmtf_encode_chars, codec, values, buffer)
}

pub fn encode_float32(codec: i32, bits: &[u32], buffer: &mut [u8]) -> Outcome<Answer> {
    encode(mmtf_encode_float32, codec, bits, buffer)
}

pub fn encode_strings(codec: i32, size: i32, bytes: &[u8], buffer: &mut [u8]) -> Outcome<Answer> {
    encode_with(mmtf_encode_strings, [codec, size], bytes, buffer)
}

pub fn encode_fixed_point(
    codec: i32,
    divisor: i32,
    values: &[i32],
    buffer: &mut [u8],
) -> Outcome<Answer> {
    encode_with(mmtf_encode_fixed_point, [codec, divisor], values, buffer)
}

type Decode<T> = unsafe extern "C" fn(*const u8, usize, *mut T, usize, *mut u64) -> u8;
type Encode<T> = unsafe extern "C" fn(i32, *const T, usize, *mut u8, usize, *mut u64) -> u8;
type EncodeWith<T> =
    unsafe extern "C" fn(i32, i32, *const T, usize, *mut u8, usize, *mut u64) -> u8;

#[inline]
fn decode<T>(call: Decode<T>, column: &[u8], buffer: &mut [T]) -> Outcome<Answer> {
    let mut count = COUNT;
    // SAFETY: each pointer and length are those of a live slice or variable.
    let refusal = unsafe {
        call(
            column.as_ptr(),
            column.len(),
            buffer.as_mut_ptr(),
            buffer.len(),
            &mut count,
        )
    };
    outcome(refusal, count)
}

#[inline]
fn encode<T>(call: Encode<T>, codec: i32, values: &[T], buffer: &mut [u8]) -> Outcome<Answer> {
    let mut written = COUNT;
    // SAFETY: each pointer and length are those of a live slice or variable.
    let refusal = unsafe {
        call(
            codec,
            values.as_ptr(),
            values.len(),
            buffer.as_mut_ptr(),
            buffer.len(),
            &mut written,
        )
    };
    outcome(refusal, written)
}

#[inline]
fn encode_with<T>(
    call: EncodeWith<T>,
    [codec, parameter]: [i32; 2],
    values: &[T],
    buffer: &mut [u8],
) -> Outcome<Answer> {
    let mut written = COUNT;
    // SAFETY: each pointer and length are those of a live slice or variable.
    let refusal = unsafe {
        call(
            codec,
            parameter,
            values.as_ptr(),
            values.len(),
            buffer.as_mut_ptr(),
            buffer.len(),
            &mut written,
        )
    };
    outcome(refusal, written)
}

pub(super) fn outcome(refusal: u8, count: u64) -> Outcome<Answer> {
    match refusal {
        0 => Outcome::Done(Answer {
            count,
            divisor: None,
        }),
        n => refused(n, count),
    }
}

fn refused(number: u8, count: u64) -> Outcome<Answer> {
    match count {
        COUNT => Outcome::Refused(number),
        _ => Outcome::Wrote(number, "the count"),
    }
}
