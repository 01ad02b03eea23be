//! Faults of a column, in the order in which they are refused.

use super::parts::{limits_of, Parts};
use super::Rng;

#[derive(Clone, Copy, Debug, PartialEq, Eq, PartialOrd, Ord)]
pub enum Fault {
    Short = 14,
    Codec = 15,
    Range = 16,
    Size = 17,
    Number = 18,
    Length = 19,
}

use Fault::*;

impl Fault {
    pub fn number(self) -> u8 {
        self as u8
    }

    /// The faults that a column by this codec can have, in order.
    pub fn of(codec: i32) -> &'static [Fault] {
        match codec {
            1..=4 | 11 => &[Short, Codec, Range, Size],
            5 => &[Short, Codec, Range, Size, Number],
            13 | 15 => &[Short, Codec, Range, Number, Length],
            _ => &[Short, Codec, Range, Size, Number, Length],
        }
    }

    /// Puts the fault into the column. Gives the column's bytes.
    pub fn put(self, rng: &mut Rng, parts: &mut Parts) -> Vec<u8> {
        match self {
            Short => {
                let mut bytes = parts.bytes();
                bytes.truncate(*rng.pick(&[0, 1, 4, 8, 11, 11]));
                return bytes;
            }
            Codec => parts.codec = unknown(rng, parts.codec),
            Range => out_of_range(rng, parts),
            Size => wrong_size(rng, parts),
            Number => not_allowed(rng, parts),
            Length => {
                parts.length += if parts.length == 0 {
                    1
                } else {
                    *rng.pick(&[1, -1])
                }
            }
        }
        parts.bytes()
    }
}

/// A codec that there is not; some are known ones in other bytes of the field.
fn unknown(rng: &mut Rng, codec: i32) -> i32 {
    let shifted = codec << *rng.pick(&[8, 16, 24]);
    *rng.pick(&[
        0,
        -1,
        17,
        i32::MIN,
        i32::MAX,
        -codec,
        codec | 0x100,
        codec | i32::MIN,
        shifted,
    ])
}

fn out_of_range(rng: &mut Rng, parts: &mut Parts) {
    let in_parameter = rng.chance(1, 2);
    match parts.codec {
        5 if in_parameter => parts.parameter = *rng.pick(&[0, -1, -4, 256, i32::MIN, i32::MAX]),
        9..=13 if in_parameter => parts.parameter = *rng.pick(&[0, -1, -1000, i32::MIN]),
        _ => parts.length = *rng.pick(&[-1, -2, i32::MIN, 16_777_217, i32::MAX]),
    }
}

/// One byte more or less; of plain columns also an element.
fn wrong_size(rng: &mut Rng, parts: &mut Parts) {
    let plain = matches!(parts.codec, 1..=5 | 11);
    match rng.below(3) {
        0 if !parts.payload.is_empty() => drop(parts.payload.pop()),
        1 if plain => {
            parts.length += if parts.length == 0 {
                1
            } else {
                *rng.pick(&[1, -1])
            }
        }
        _ => parts.payload.push(rng.byte()),
    }
}

fn not_allowed(rng: &mut Rng, parts: &mut Parts) {
    match (parts.packed_width(), parts.codec) {
        (Some(size), _) => {
            let (least, greatest) = limits_of(size);
            let count = *rng.pick(&[1, 1, 2, 3]);
            (0..count).for_each(|_| parts.number(size, *rng.pick(&[least, greatest])));
        }
        (None, 5) => bad_name(rng, parts),
        _ => bad_run(rng, parts),
    }
}

/// A name with a byte above 127, or with one that is not 0 after a 0 byte.
fn bad_name(rng: &mut Rng, parts: &mut Parts) {
    let size = parts.parameter as usize;
    if parts.payload.is_empty() {
        parts.payload = vec![0; size];
        parts.length = 1;
    }
    let at = match rng.below(3) {
        0 => parts.payload.len() - 1,
        _ => rng.below(parts.payload.len()),
    };
    if at % size > 0 && rng.chance(1, 2) {
        parts.payload[at - 1] = 0;
        parts.payload[at] = rng.within(1, 127) as u8;
    } else {
        parts.payload[at] = *rng.pick(&[128, 129, 255]);
    }
}

/// A run with a count below 1, or with a value that the kind does not have.
fn bad_run(rng: &mut Rng, parts: &mut Parts) {
    if parts.payload.is_empty() {
        parts.number32(0);
        parts.number32(1);
        parts.length = 1;
    }
    let runs = parts.payload.len() / 8;
    let run = 8 * if rng.chance(1, 2) {
        runs - 1
    } else {
        rng.below(runs)
    };
    let in_value = rng.chance(1, 2);
    let (place, number) = match parts.codec {
        6 if in_value => (
            run,
            *rng.pick(&[-1, 128, 256, 321, i32::MIN, i32::MAX, 65 << 24]),
        ),
        16 if in_value => (
            run,
            *rng.pick(&[-129, 128, 256, -257, i32::MIN, i32::MAX, 1 << 16]),
        ),
        _ => (run + 4, *rng.pick(&[0, 0, -1, -2, i32::MIN])),
    };
    parts.payload[place..place + 4].copy_from_slice(&number.to_be_bytes());
}
