//! Generated values through the encoders of both: codecs and parameters that
//! fit and that do not, buffers around the right size; then decoded again.

use super::calls::*;
use super::watch::{Element, Output};
use crate::generate::columns::{chars, integers, names};
use crate::generate::Rng;
use crate::library::columns::Outcome;

/// The kinds of values, by their encoders; the last are integers whose
/// differences wrap.
#[derive(Clone, Copy, Debug, PartialEq, Eq)]
pub enum ValueKind {
    Int32,
    Int8,
    Int16,
    Chars,
    Strings,
    FixedPoint,
    Float32,
    Wrapping,
}

/// Every kind, with how many of a hundred lists are of it. Differences that
/// wrap are packed to thousands of numbers.
pub const VALUE_KINDS: [(ValueKind, u64); 8] = [
    (ValueKind::Int32, 24),
    (ValueKind::Int8, 16),
    (ValueKind::Int16, 12),
    (ValueKind::Chars, 12),
    (ValueKind::Strings, 12),
    (ValueKind::FixedPoint, 16),
    (ValueKind::Float32, 7),
    (ValueKind::Wrapping, 1),
];

/// Runs one list of a kind. Gives the number that both give with room enough,
/// which is the one that the rules give.
pub fn agree_on_values(kind: ValueKind, rng: &mut Rng) -> Result<u8, String> {
    match kind {
        ValueKind::Int32 => int32(rng),
        ValueKind::Int8 => small(rng, &INT8_VALUES, [-128, 127]),
        ValueKind::Int16 => small(rng, &INT16_VALUES, [-32768, 32767]),
        ValueKind::Chars => letters(rng),
        ValueKind::Strings => strings(rng),
        ValueKind::FixedPoint => fixed_point(rng),
        ValueKind::Float32 => {
            let codec = FLOAT32_VALUES.codec(rng);
            let bits: Vec<u32> = (0..rng.below(30)).map(|_| rng.word() as u32).collect();
            FLOAT32_VALUES.run([codec, 0], &bits, true, true)
        }
        ValueKind::Wrapping => wrapping(rng),
    }
}

/// A kind with its codecs.
struct Subject<T: 'static> {
    encoder: Encoder<T>,
    decoder: Decoder<T>,
    codecs: &'static [i32],
}

const INT32_VALUES: Subject<i32> = Subject {
    encoder: TO_INT32,
    decoder: INT32,
    codecs: &[4, 7, 8, 14, 15],
};

const INT8_VALUES: Subject<i32> = Subject {
    encoder: TO_INT8,
    decoder: INT8,
    codecs: &[2, 16],
};

const INT16_VALUES: Subject<i32> = Subject {
    encoder: TO_INT16,
    decoder: INT16,
    codecs: &[3],
};

const CHARS_VALUES: Subject<u8> = Subject {
    encoder: TO_CHARS,
    decoder: CHARS,
    codecs: &[6],
};

const STRINGS_VALUES: Subject<u8> = Subject {
    encoder: TO_STRINGS,
    decoder: STRINGS,
    codecs: &[5],
};

const FIXED_POINT_VALUES: Subject<i32> = Subject {
    encoder: TO_FIXED_POINT,
    decoder: FIXED_POINT,
    codecs: &[9, 10, 11, 12, 13],
};

const FLOAT32_VALUES: Subject<u32> = Subject {
    encoder: TO_FLOAT32,
    decoder: FLOAT32,
    codecs: &[1],
};

/// Codecs that there are not, or that are of some other kind.
const OTHERS: [i32; 12] = [0, -1, 17, i32::MIN, i32::MAX, 256 + 4, 1, 3, 5, 9, 14, 16];

impl<T: Element> Subject<T> {
    /// Mostly a codec of the kind.
    fn codec(&self, rng: &mut Rng) -> i32 {
        match rng.chance(1, 12) {
            true => *rng.pick(&OTHERS),
            false => *rng.pick(self.codecs),
        }
    }

    /// Runs one list. The number is what the rules give: the codec is of the
    /// kind (15), the parameter and the sizes in range (16), the values held (18).
    fn run(
        &self,
        header: [i32; 2],
        values: &[T],
        in_range: bool,
        held: bool,
    ) -> Result<u8, String> {
        let expected = match (self.codecs.contains(&header[0]), in_range, held) {
            (false, _, _) => 15,
            (true, false, _) => 16,
            (true, true, false) => 18,
            (true, true, true) => 0,
        };
        if expected > 0 {
            for room in [0, 12, 200] {
                self.refused(header, values, room, expected)?;
            }
            return Ok(expected);
        }
        let size = self.size(header, values)?;
        for room in [0, 11, 12, size - 1] {
            if room < size {
                self.refused(header, values, room, 25)?;
            }
        }
        self.and_back(header, values, size)?;
        Ok(0)
    }

    /// Holds both to a refusal.
    fn refused(
        &self,
        header: [i32; 2],
        values: &[T],
        room: usize,
        number: u8,
    ) -> Result<(), String> {
        match self.encoder.agree(header, values, room)? {
            Outcome::Refused(given) if given == number => Ok(()),
            other => Err(format!(
                "{} {header:?} {}, room {room}: both give {}, the rules {number}",
                self.encoder.name,
                shown(&values),
                shown(&other)
            )),
        }
    }

    /// How many bytes the encoded values have.
    fn size(&self, [codec, parameter]: [i32; 2], values: &[T]) -> Result<usize, String> {
        let mut buffer = vec![0; 1 << 12];
        loop {
            match (self.encoder.independent)(codec, parameter, values, &mut buffer) {
                Outcome::Done(answer) => return Ok(answer.count as usize),
                Outcome::Refused(25) => buffer = vec![0; buffer.len() * 8],
                other => return Err(format!("{} gave {other:?}", self.encoder.name)),
            }
        }
    }

    /// Encodes with room enough and decodes again.
    fn and_back(&self, header: [i32; 2], values: &[T], size: usize) -> Result<(), String> {
        let divisor = (9..=13).contains(&header[0]).then_some(header[1]);
        for room in [size, size + 1] {
            let outcome = self.encoder.agree(header, values, room)?;
            let column = match outcome {
                Outcome::Done(Output { values: column, .. }) if column.len() == size => column,
                other => {
                    let values = shown(&values);
                    return Err(format!("{header:?} {values}: {}", shown(&other)));
                }
            };
            let again = self.decoder.agree(&column, values.len() + 1)?;
            let expected = Output {
                values: values.to_vec(),
                divisor,
            };
            if again != Outcome::Done(expected) {
                let values = shown(&values);
                let again = shown(&again);
                return Err(format!("{header:?} {values}, decoded again: {again}"));
            }
        }
        Ok(())
    }
}

/// Values whose packing stays short; now and then any.
fn mostly_short(rng: &mut Rng) -> Vec<i32> {
    let most = *rng.pick(&[300, 70_000, 70_000]);
    integers(rng, most)
}

/// Values that a range holds, or but for one of them.
fn mostly_held(rng: &mut Rng, [least, most]: [i32; 2]) -> (Vec<i32>, bool) {
    let mut values = integers(rng, i32::MAX);
    for value in &mut values {
        *value = (*value).clamp(least, most);
    }
    if !values.is_empty() && rng.chance(1, 4) {
        let at = rng.below(values.len());
        values[at] = *rng.pick(&[least - 1, most + 1, i32::MIN, i32::MAX]);
        return (values, false);
    }
    (values, true)
}

fn int32(rng: &mut Rng) -> Result<u8, String> {
    let codec = INT32_VALUES.codec(rng);
    let values = match codec {
        14 | 15 => mostly_short(rng),
        _ => integers(rng, i32::MAX),
    };
    INT32_VALUES.run([codec, 0], &values, true, true)
}

/// Integers of fewer bits.
fn small(rng: &mut Rng, subject: &Subject<i32>, range: [i32; 2]) -> Result<u8, String> {
    let codec = subject.codec(rng);
    let (values, held) = mostly_held(rng, range);
    subject.run([codec, 0], &values, true, held)
}

fn letters(rng: &mut Rng) -> Result<u8, String> {
    let codec = CHARS_VALUES.codec(rng);
    let mut values = chars(rng);
    let held = values.is_empty() || rng.chance(3, 4);
    if !held {
        let at = rng.below(values.len());
        values[at] = *rng.pick(&[128, 129, 200, 255]);
    }
    CHARS_VALUES.run([codec, 0], &values, true, held)
}

fn strings(rng: &mut Rng) -> Result<u8, String> {
    let codec = STRINGS_VALUES.codec(rng);
    let size = *rng.pick(&[1, 2, 3, 4, 7, 255]);
    let count = rng.below(9);
    let mut bytes = names(rng, size, count);
    let held = bytes.is_empty() || rng.chance(3, 4);
    if !held {
        let at = rng.below(bytes.len());
        bytes[at] = *rng.pick(&[128, 255]);
    }
    let in_range = rng.chance(7, 8);
    let parameter = match in_range {
        true => size as i32,
        false => *rng.pick(&[0, -1, 256, i32::MIN, i32::MAX]),
    };
    let whole = size == 1 || rng.chance(7, 8);
    if !whole {
        bytes.push(b'A');
    }
    STRINGS_VALUES.run([codec, parameter], &bytes, in_range && whole, held)
}

fn fixed_point(rng: &mut Rng) -> Result<u8, String> {
    let codec = FIXED_POINT_VALUES.codec(rng);
    let (values, held) = match codec {
        11 => mostly_held(rng, [-32768, 32767]),
        10 | 12 | 13 => (mostly_short(rng), true),
        _ => (integers(rng, i32::MAX), true),
    };
    let in_range = rng.chance(7, 8);
    let divisor = match in_range {
        true => *rng.pick(&[1, 10, 1000, i32::MAX]),
        false => *rng.pick(&[0, -1, -1000, i32::MIN]),
    };
    FIXED_POINT_VALUES.run([codec, divisor], &values, in_range, held)
}

/// Codecs 8 and 10 hold every column: their differences wrap.
fn wrapping(rng: &mut Rng) -> Result<u8, String> {
    let ends = [i32::MIN, i32::MAX, -1, 0, i32::MAX - 5, i32::MIN + 5];
    let values: Vec<i32> = (0..rng.within(1, 6)).map(|_| *rng.pick(&ends)).collect();
    match rng.chance(1, 10) {
        true => FIXED_POINT_VALUES.run([10, 1000], &values, true, true),
        false => INT32_VALUES.run([8, 0], &values, true, true),
    }
}
