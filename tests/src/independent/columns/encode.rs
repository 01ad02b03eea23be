//! Encoders by kind, in the writer's form: the longest runs, and packing by the
//! limit of the value's own sign while the rest reaches it. On refusal the
//! buffer is as it was. Each gives how many bytes were written.

use super::check::strings_allowed;
use super::codec::{Codec, Kind, Layout};
use super::header::{HEADER, LENGTH_LIMIT};
use super::width::Width;
use crate::independent::Refusal::{self, *};

type Written = Result<usize, Refusal>;

pub fn encode_int32(codec: i32, values: &[i32], buffer: &mut [u8]) -> Written {
    encode(Kind::Int32, codec, 0, values.iter().copied(), buffer)
}

pub fn encode_int8(codec: i32, values: &[i32], buffer: &mut [u8]) -> Written {
    encode(Kind::Int8, codec, 0, values.iter().copied(), buffer)
}

pub fn encode_int16(codec: i32, values: &[i32], buffer: &mut [u8]) -> Written {
    encode(Kind::Int16, codec, 0, values.iter().copied(), buffer)
}

pub fn encode_chars(codec: i32, values: &[u8], buffer: &mut [u8]) -> Written {
    let values = values.iter().map(|&byte| i32::from(byte));
    encode(Kind::Chars, codec, 0, values, buffer)
}

pub fn encode_fixed_point(codec: i32, divisor: i32, values: &[i32], buffer: &mut [u8]) -> Written {
    let values = values.iter().copied();
    encode(Kind::FixedPoint, codec, divisor, values, buffer)
}

pub fn encode_float32(codec: i32, bits: &[u32], buffer: &mut [u8]) -> Written {
    let values = bits.iter().map(|&bits| bits as i32);
    encode(Kind::Float32, codec, 0, values, buffer)
}

/// Takes names of `size` bytes, one after the other with their padding.
pub fn encode_strings(codec: i32, size: i32, bytes: &[u8], buffer: &mut [u8]) -> Written {
    let known = encoder(Kind::Strings, codec)?;
    if !known.takes(size) || !bytes.len().is_multiple_of(size as usize) {
        return Err(HeaderRange);
    }
    let length = bytes.len() / size as usize;
    if length > LENGTH_LIMIT {
        return Err(HeaderRange);
    }
    strings_allowed(bytes, size as usize)?;
    let payload = begin([codec, length as i32, size], bytes.len(), buffer)?;
    payload.copy_from_slice(bytes);
    Ok(HEADER + bytes.len())
}

/// The codec of a number, if it is of the kind.
fn encoder(kind: Kind, number: i32) -> Result<Codec, Refusal> {
    Codec::of(number)
        .filter(|codec| codec.kind == kind)
        .ok_or(CodecUnknown)
}

/// Writes the header. Gives the part of the buffer that takes the payload.
fn begin(header: [i32; 3], payload: usize, buffer: &mut [u8]) -> Result<&mut [u8], Refusal> {
    let out = buffer.get_mut(..HEADER + payload).ok_or(BufferTooSmall)?;
    let (head, rest) = out.split_at_mut(HEADER);
    write_plain::<i32>(header.into_iter(), head);
    Ok(rest)
}

fn encode(
    kind: Kind,
    number: i32,
    parameter: i32,
    values: impl ExactSizeIterator<Item = i32> + Clone,
    buffer: &mut [u8],
) -> Written {
    let codec = encoder(kind, number)?;
    if values.len() > LENGTH_LIMIT || !codec.takes(parameter) {
        return Err(HeaderRange);
    }
    if let Some(held) = codec.held() {
        if !values.clone().fold(true, |all, n| all & held.contains(&n)) {
            return Err(NumberNotAllowed);
        }
    }
    let header = [number, values.len() as i32, parameter];
    match codec.delta {
        true => encode_payload(codec.layout, header, deltas(values), buffer),
        false => encode_payload(codec.layout, header, values, buffer),
    }
}

/// Each number less the one before it, the first as it is.
fn deltas(
    values: impl ExactSizeIterator<Item = i32> + Clone,
) -> impl ExactSizeIterator<Item = i32> + Clone {
    let mut before = 0i32;
    values.map(move |n| {
        let delta = n.wrapping_sub(before);
        before = n;
        delta
    })
}

fn encode_payload(
    layout: Layout,
    header: [i32; 3],
    numbers: impl ExactSizeIterator<Item = i32> + Clone,
    buffer: &mut [u8],
) -> Written {
    let all = numbers.clone();
    let size = match layout {
        Layout::Plain8 | Layout::Strings => numbers.len(),
        Layout::Plain16 => 2 * numbers.len(),
        Layout::Plain32 => 4 * numbers.len(),
        Layout::Runs => 8 * run_count(numbers),
        Layout::Packed8 => numbers.map(packed_count::<i8>).sum(),
        Layout::Packed16 => 2 * numbers.map(packed_count::<i16>).sum::<usize>(),
    };
    let payload = begin(header, size, buffer)?;
    match layout {
        Layout::Plain8 | Layout::Strings => write_plain::<i8>(all, payload),
        Layout::Plain16 => write_plain::<i16>(all, payload),
        Layout::Plain32 => write_plain::<i32>(all, payload),
        Layout::Runs => write_runs(all, payload),
        Layout::Packed8 => write_packed::<i8>(all, payload),
        Layout::Packed16 => write_packed::<i16>(all, payload),
    }
    Ok(HEADER + size)
}

/// How many numbers of the width a value is packed to.
#[inline]
fn packed_count<W: Width>(value: i32) -> usize {
    match value {
        _ if is_inside::<W>(value) => 1,
        ..0 => (value / W::LEAST) as usize + 1,
        _ => (value / W::MOST) as usize + 1,
    }
}

/// Whether a value reaches neither limit of the width.
#[inline]
fn is_inside<W: Width>(value: i32) -> bool {
    W::LEAST < value && value < W::MOST
}

fn run_count(mut numbers: impl Iterator<Item = i32>) -> usize {
    let Some(mut value) = numbers.next() else {
        return 0;
    };
    let mut runs = 1;
    for number in numbers {
        runs += usize::from(number != value);
        value = number;
    }
    runs
}

fn write_plain<W: Width>(numbers: impl Iterator<Item = i32>, payload: &mut [u8]) {
    for (slot, number) in payload.chunks_exact_mut(W::BYTES).zip(numbers) {
        W::write(number, slot);
    }
}

fn write_runs(mut numbers: impl Iterator<Item = i32>, payload: &mut [u8]) {
    let mut next = numbers.next();
    for slot in payload.chunks_exact_mut(8) {
        let Some(value) = next else { break };
        let mut count = 1;
        next = numbers.next();
        while next == Some(value) {
            count += 1;
            next = numbers.next();
        }
        i32::write(value, &mut slot[..4]);
        i32::write(count, &mut slot[4..]);
    }
}

fn write_packed<W: Width>(numbers: impl Iterator<Item = i32>, payload: &mut [u8]) {
    let mut slots = payload.chunks_exact_mut(W::BYTES);
    let mut put = |number| {
        if let Some(slot) = slots.next() {
            W::write(number, slot);
        }
    };
    for number in numbers {
        let mut rest = number;
        while rest >= W::MOST {
            put(W::MOST);
            rest -= W::MOST;
        }
        while rest <= W::LEAST {
            put(W::LEAST);
            rest -= W::LEAST;
        }
        put(rest);
    }
}
