//! The calls on columns as both implementations have them, and their answers
//! held against each other.

use std::fmt::{Debug, Write};

use super::watch::{watched, Element, Output};
use crate::independent::columns::{self as own, Cell};
use crate::independent::Refusal;
use crate::library::columns::{self as library, Answer, Outcome};

/// A decoder, as both have it.
pub struct Decoder<T> {
    pub name: &'static str,
    pub library: fn(&[u8], &mut [T]) -> Outcome<Answer>,
    pub independent: fn(&[u8], &mut [T]) -> Outcome<Answer>,
}

/// An encoder, as both have it: codec, parameter, values, buffer. One without a
/// parameter lets it be.
pub struct Encoder<T> {
    pub name: &'static str,
    pub library: fn(i32, i32, &[T], &mut [u8]) -> Outcome<Answer>,
    pub independent: fn(i32, i32, &[T], &mut [u8]) -> Outcome<Answer>,
}

macro_rules! decoder {
    ($call:ident) => {
        Decoder {
            name: stringify!($call),
            library: library::$call,
            independent: |column, buffer| given(own::$call(column, buffer)),
        }
    };
}

pub const INT32: Decoder<i32> = decoder!(decode_int32);
pub const INT8: Decoder<i32> = decoder!(decode_int8);
pub const INT16: Decoder<i32> = decoder!(decode_int16);
pub const CHARS: Decoder<u8> = decoder!(decode_chars);
pub const STRINGS: Decoder<u8> = decoder!(decode_strings);
pub const FLOAT32: Decoder<u32> = decoder!(decode_float32);
pub const FIXED_POINT: Decoder<i32> = Decoder {
    name: "decode_fixed_point",
    library: library::decode_fixed_point,
    independent: |column, buffer| match own::decode_fixed_point(column, buffer) {
        Ok((count, divisor)) => Outcome::Done(Answer {
            count: count as u64,
            divisor: Some(divisor),
        }),
        Err(refusal) => Outcome::Refused(refusal.number()),
    },
};

macro_rules! encoder {
    ($call:ident) => {
        Encoder {
            name: stringify!($call),
            library: |codec, _, values, buffer| library::$call(codec, values, buffer),
            independent: |codec, _, values, buffer| given(own::$call(codec, values, buffer)),
        }
    };
    ($call:ident, with a parameter) => {
        Encoder {
            name: stringify!($call),
            library: library::$call,
            independent: |codec, parameter, values, buffer| {
                given(own::$call(codec, parameter, values, buffer))
            },
        }
    };
}

pub const TO_INT32: Encoder<i32> = encoder!(encode_int32);
pub const TO_INT8: Encoder<i32> = encoder!(encode_int8);
pub const TO_INT16: Encoder<i32> = encoder!(encode_int16);
pub const TO_CHARS: Encoder<u8> = encoder!(encode_chars);
pub const TO_FLOAT32: Encoder<u32> = encoder!(encode_float32);
pub const TO_STRINGS: Encoder<u8> = encoder!(encode_strings, with a parameter);
pub const TO_FIXED_POINT: Encoder<i32> = encoder!(encode_fixed_point, with a parameter);

pub(super) fn given(answer: Result<usize, Refusal>) -> Outcome<Answer> {
    match answer {
        Ok(count) => Outcome::Done(Answer {
            count: count as u64,
            divisor: None,
        }),
        Err(refusal) => Outcome::Refused(refusal.number()),
    }
}

impl<T: Element> Decoder<T> {
    /// What both give on a column, with a buffer of so many elements.
    pub fn agree(&self, column: &[u8], room: usize) -> Result<Outcome<Output<T>>, String> {
        let expected = watched(room, |buffer| (self.independent)(column, buffer));
        let answer = watched(room, |buffer| (self.library)(column, buffer));
        alike(answer, expected, || format!("{}, room {room}", self.name))
    }

    /// Holds both to an answer written down beforehand, with room for it.
    #[track_caller]
    pub fn expect(&self, column: &[u8], values: &[T], divisor: Option<i32>, case: &str) {
        let values = values.to_vec();
        let room = values.len() + 1;
        let expected = Outcome::Done(Output { values, divisor });
        hold(self.agree(column, room), expected, case);
    }

    /// Holds both to a number written down beforehand.
    #[track_caller]
    pub fn expect_refused(&self, column: &[u8], room: usize, number: u8, case: &str) {
        hold(self.agree(column, room), Outcome::Refused(number), case);
    }
}

impl<T: Element> Encoder<T> {
    /// What both give on values, with a buffer of so many bytes.
    pub fn agree(
        &self,
        [codec, parameter]: [i32; 2],
        values: &[T],
        room: usize,
    ) -> Result<Outcome<Output<u8>>, String> {
        let by = |call: fn(i32, i32, &[T], &mut [u8]) -> Outcome<Answer>| {
            watched(room, |buffer| call(codec, parameter, values, buffer))
        };
        let (answer, expected) = (by(self.library), by(self.independent));
        alike(answer, expected, || {
            format!("{} {codec} {parameter}, room {room}", self.name)
        })
    }

    /// Holds both to a column written down beforehand, with room for it.
    #[track_caller]
    pub fn expect(&self, header: [i32; 2], values: &[T], column: &[u8], case: &str) {
        let expected = Outcome::Done(Output {
            values: column.to_vec(),
            divisor: None,
        });
        let agreed = self.agree(header, values, column.len() + 1);
        hold(agreed, expected, case);
    }

    /// Holds both to a number written down beforehand.
    #[track_caller]
    pub fn expect_refused(
        &self,
        header: [i32; 2],
        values: &[T],
        room: usize,
        number: u8,
        case: &str,
    ) {
        let agreed = self.agree(header, values, room);
        hold(agreed, Outcome::Refused(number), case);
    }
}

pub(super) fn alike<T: PartialEq + Debug>(
    answer: Outcome<T>,
    expected: Outcome<T>,
    call: impl FnOnce() -> String,
) -> Result<Outcome<T>, String> {
    match answer == expected && !matches!(expected, Outcome::Wrote(..)) {
        true => Ok(expected),
        false => Err(format!(
            "{}: library {}, expected {}",
            call(),
            shown(&answer),
            shown(&expected)
        )),
    }
}

/// Holds what both gave to an answer written down beforehand.
#[track_caller]
pub(super) fn hold<T: PartialEq + Debug>(agreed: Result<T, String>, expected: T, case: &str) {
    match agreed {
        Ok(agreed) if agreed == expected => (),
        Ok(agreed) => panic!(
            "{case}: both give {}, expected {}",
            shown(&agreed),
            shown(&expected)
        ),
        Err(difference) => panic!("{case}: {difference}"),
    }
}

/// An answer in words, a long one shortened.
pub fn shown(answer: &impl Debug) -> String {
    let mut text = Shortened(String::new());
    match write!(text, "{answer:?}") {
        Ok(()) => text.0,
        Err(_) => text.0 + " ...",
    }
}

/// Takes the beginning of a text, and no more.
struct Shortened(String);

impl Write for Shortened {
    fn write_str(&mut self, part: &str) -> std::fmt::Result {
        self.0 += part;
        match self.0.len() {
            ..600 => Ok(()),
            _ => Err(std::fmt::Error),
        }
    }
}

/// Compares both on the header of a column.
pub fn agree_on_header(column: &[u8]) -> Result<Outcome<[i32; 3]>, String> {
    let answer = crate::library::header::header(column);
    let expected = match own::header(column) {
        Ok(fields) => Outcome::Done(fields),
        Err(refusal) => Outcome::Refused(refusal.number()),
    };
    alike(answer, expected, || "header".to_string())
}

/// What both give for a cell.
pub fn agree_on_cell(column: &[u8], index: u64) -> Result<Outcome<Cell>, String> {
    let expected = match own::cell(column, index) {
        Ok(cell) => Outcome::Done(cell),
        Err(refusal) => Outcome::Refused(refusal.number()),
    };
    let answer = library::cell(column, index);
    alike(answer, expected, || format!("cell {index}"))
}
