//! Columns of the sixteen codecs whose payloads need not be the writer's: each
//! is decoded and encoded by both implementations, and its payload held against
//! the one that comes back.

use super::Found;
use crate::check::calls::*;
use crate::check::watch::{Element, Output};
use crate::generate::columns::Parts;
use crate::generate::Rng;
use crate::independent::columns::HEADER;
use crate::library::columns::Outcome;

/// Columns by one codec, of any numbers that it holds: runs that could be
/// longer, and packed results in which both limits stand. A difference between
/// the two implementations is an error.
pub fn search(codec: i32, columns: u64, rng: &mut Rng) -> Result<Found, String> {
    let mut found = Found::default();
    for _ in 0..columns {
        try_to_beat(&made(rng, codec), &mut found)?;
    }
    Ok(found)
}

/// A column by a codec, half of them with numbers at and beside limits where the
/// codec has such; now and then the last number is missing.
fn made(rng: &mut Rng, codec: i32) -> Parts {
    let limits = !matches!(codec, 1 | 2 | 5 | 6) && rng.chance(1, 2);
    let mut parts = match limits {
        true => Parts::of_limits(rng, codec),
        false => Parts::valid(rng, codec),
    };
    if rng.chance(1, 16) {
        let size = parts.packed_width().unwrap_or(4);
        let kept = parts.payload.len().saturating_sub(size);
        parts.payload.truncate(kept);
    }
    parts
}

/// Holds the payload of a column against the writer's.
pub fn try_to_beat(parts: &Parts, found: &mut Found) -> Result<(), String> {
    match parts.codec {
        1 => beat(parts, &FLOAT32, &TO_FLOAT32, found),
        2 | 16 => beat(parts, &INT8, &TO_INT8, found),
        3 => beat(parts, &INT16, &TO_INT16, found),
        5 => beat(parts, &STRINGS, &TO_STRINGS, found),
        6 => beat(parts, &CHARS, &TO_CHARS, found),
        9..=13 => beat(parts, &FIXED_POINT, &TO_FIXED_POINT, found),
        _ => beat(parts, &INT32, &TO_INT32, found),
    }
}

fn beat<T: Element>(
    parts: &Parts,
    decoder: &Decoder<T>,
    encoder: &Encoder<T>,
    found: &mut Found,
) -> Result<(), String> {
    let room = match parts.codec {
        5 => parts.length as usize * parts.parameter as usize,
        _ => parts.length as usize,
    };
    let Outcome::Done(cells) = decoder.agree(&parts.bytes(), room)? else {
        found.refused += 1;
        return Ok(());
    };
    // Room for what the writer of a wrong library might take.
    let room = 2 * (HEADER + parts.payload.len());
    match encoder.agree([parts.codec, parts.parameter], &cells.values, room)? {
        Outcome::Done(Output { values: column, .. }) => {
            found.note(&parts.payload, &column[HEADER..]);
            Ok(())
        }
        outcome => Err(format!("{}: {}", encoder.name, shown(&outcome))),
    }
}
