//! Runs a column through both implementations: each decoder, its header, cells
//! at several indices, and the encoder back.

use super::calls::*;
use super::watch::{Element, Output};
use crate::independent::columns::HEADER;
use crate::independent::NUMBERS;
use crate::library::columns::Outcome;

/// Which call on a column is asked.
#[derive(Clone, Copy, Debug, PartialEq, Eq)]
pub enum Asked {
    Int32,
    Int8,
    Int16,
    Chars,
    Strings,
    FixedPoint,
    Float32,
    Cell,
    Encode,
}

/// How often each call gave each number.
#[derive(Clone, Debug, Default)]
pub struct Tally([[u64; NUMBERS]; 9]);

impl Tally {
    pub fn times(&self, asked: Asked, number: u8) -> u64 {
        self.0[asked as usize][usize::from(number)]
    }

    fn note<T>(&mut self, asked: Asked, outcome: &Outcome<T>) -> u8 {
        let number = match outcome {
            Outcome::Done(_) => 0,
            Outcome::Refused(n) | Outcome::Wrote(n, _) => *n,
        };
        self.0[asked as usize][usize::from(number)] += 1;
        number
    }
}

/// What both gave on one column, given room enough.
#[derive(Clone, Copy, Debug, PartialEq, Eq)]
pub struct Numbers {
    /// The column's own number, 0 or 14 to 19.
    pub own: u8,
    /// The number that floats gave.
    pub float32: u8,
}

/// Larger buffers are not lent to generated columns.
const LARGEST_ROOM: usize = 1 << 13;

/// Runs a column through every decoder, for its header, for cells at several
/// indices, and if it has a result through its encoder.
pub fn agree(column: &[u8], index: u64, tally: &mut Tally) -> Result<Numbers, String> {
    let asked = Trial {
        column,
        full: full_room(column),
    };
    asked.decode(Asked::Int32, &INT32, Some(&TO_INT32), tally)?;
    asked.decode(Asked::Int8, &INT8, Some(&TO_INT8), tally)?;
    asked.decode(Asked::Int16, &INT16, Some(&TO_INT16), tally)?;
    asked.decode(Asked::Chars, &CHARS, Some(&TO_CHARS), tally)?;
    let strings = asked.decode(Asked::Strings, &STRINGS, Some(&TO_STRINGS), tally)?;
    asked.decode(
        Asked::FixedPoint,
        &FIXED_POINT,
        Some(&TO_FIXED_POINT),
        tally,
    )?;
    let bits_kept = codec(column) == Some(1);
    let back = bits_kept.then_some(&TO_FLOAT32);
    let float32 = asked.decode(Asked::Float32, &FLOAT32, back, tally)?;
    let past_end = asked.cells(index, tally)?;
    agree_on_header(column)?;
    let own = match (strings, past_end) {
        (15, 28) => 0,
        (15, number) => number,
        (25, _) => 0,
        (number, _) => number,
    };
    Ok(Numbers { own, float32 })
}

fn field(column: &[u8], place: usize) -> Option<i32> {
    let bytes = column.get(place..place + 4)?;
    bytes.try_into().ok().map(i32::from_be_bytes)
}

fn codec(column: &[u8]) -> Option<i32> {
    field(column, 0)
}

/// As many elements as the header speaks of, if a buffer is lent for them.
fn full_room(column: &[u8]) -> usize {
    let size = match (codec(column), field(column, 8)) {
        (Some(5), Some(size)) => size.clamp(0, 255) as usize,
        _ => 1,
    };
    let length = field(column, 4).and_then(|length| usize::try_from(length).ok());
    match length.map(|length| length * size) {
        Some(full) if full <= LARGEST_ROOM => full,
        _ => 0,
    }
}

struct Trial<'a> {
    column: &'a [u8],
    full: usize,
}

impl Trial<'_> {
    /// Asks with the full room, one less, one more, and none. Gives the number
    /// with the full room.
    fn decode<T: Element>(
        &self,
        asked: Asked,
        decoder: &Decoder<T>,
        back: Option<&Encoder<T>>,
        tally: &mut Tally,
    ) -> Result<u8, String> {
        let outcome = decoder.agree(self.column, self.full)?;
        let number = tally.note(asked, &outcome);
        for room in [self.full.wrapping_sub(1), self.full + 1, 0] {
            if room <= LARGEST_ROOM + 1 {
                tally.note(asked, &decoder.agree(self.column, room)?);
            }
        }
        if let (Outcome::Done(output), Some(encoder)) = (outcome, back) {
            self.encode(&output.values, decoder, encoder, tally)?;
        }
        Ok(number)
    }

    /// Encodes what was decoded, and decodes that again. The writer's form is
    /// never longer than another, and no other payload is as short.
    fn encode<T: Element>(
        &self,
        values: &[T],
        decoder: &Decoder<T>,
        encoder: &Encoder<T>,
        tally: &mut Tally,
    ) -> Result<(), String> {
        let codec = field(self.column, 0).ok_or("a column without a codec")?;
        let parameter = field(self.column, 8).ok_or("a column without a parameter")?;
        let header = [codec, parameter];
        let outcome = encoder.agree(header, values, self.column.len())?;
        tally.note(Asked::Encode, &outcome);
        let Outcome::Done(Output { values: column, .. }) = outcome else {
            return Err(format!("{} gave {}", encoder.name, shown(&outcome)));
        };
        if column.len() == self.column.len() && column[HEADER..] != self.column[HEADER..] {
            return Err(format!("{}: another payload is as short", encoder.name));
        }
        for room in [column.len() - 1, column.len(), HEADER, 0] {
            tally.note(Asked::Encode, &encoder.agree(header, values, room)?);
        }
        match decoder.agree(&column, values.len())? {
            Outcome::Done(again) if again.values == values => Ok(()),
            again => Err(format!("encoded and decoded: {}", shown(&again))),
        }
    }

    /// Asks for cells at several indices. Gives the number past the end.
    fn cells(&self, index: u64, tally: &mut Tally) -> Result<u8, String> {
        let length = field(self.column, 4).unwrap_or(0).max(0) as u64;
        let inside = index % length.max(1);
        for index in [0, inside, length.wrapping_sub(1), length, 1 << 32, index] {
            tally.note(Asked::Cell, &agree_on_cell(self.column, index)?);
        }
        let past_end = agree_on_cell(self.column, u64::MAX)?;
        Ok(tally.note(Asked::Cell, &past_end))
    }
}
