//! Values of a container that the walk has accepted, read one after the other.
//! None can be cut short, so that nothing is tested here a second time.

use super::Refusal::{self, FieldType};

/// A value; of an array or a map the number of elements or entries, which are
/// read next.
#[derive(Clone, Copy)]
pub enum Value<'a> {
    Integer(i32),
    Float(f32),
    String(&'a [u8]),
    Binary(&'a [u8]),
    Array(u32),
    Map(u32),
}

use Value::*;

/// The values from a place on.
pub struct Reader<'a> {
    rest: &'a [u8],
}

impl<'a> Reader<'a> {
    pub fn new(value: &'a [u8]) -> Reader<'a> {
        Reader { rest: value }
    }

    #[inline]
    pub fn value(&mut self) -> Value<'a> {
        match self.lead() {
            lead @ (0x00..=0x7f | 0xe0..=0xff) => Integer(i32::from(lead as i8)),
            lead @ 0x80..=0x8f => Map(u32::from(lead & 0x0f)),
            lead @ 0x90..=0x9f => Array(u32::from(lead & 0x0f)),
            lead @ 0xa0..=0xbf => String(self.take(u32::from(lead & 0x1f))),
            0xc4 => Binary(self.sized::<1>()),
            0xc5 => Binary(self.sized::<2>()),
            0xc6 => Binary(self.sized::<4>()),
            0xca => Float(f32::from_bits(self.number::<4>())),
            0xcc => Integer(self.number::<1>() as i32),
            0xcd => Integer(self.number::<2>() as i32),
            0xce | 0xd2 => Integer(self.number::<4>() as i32),
            0xd0 => Integer(i32::from(self.number::<1>() as i8)),
            0xd1 => Integer(i32::from(self.number::<2>() as i16)),
            0xd9 => String(self.sized::<1>()),
            0xda => String(self.sized::<2>()),
            0xdb => String(self.sized::<4>()),
            0xdc => Array(self.number::<2>()),
            0xdd => Array(self.number::<4>()),
            0xde => Map(self.number::<2>()),
            0xdf => Map(self.number::<4>()),
            _ => unreachable!("a lead byte that the walk refuses"),
        }
    }

    /// Passes over one value with all that it holds.
    pub fn skip(&mut self) {
        let mut values = 1u64;
        while values > 0 {
            values -= 1;
            match self.value() {
                Array(count) => values += u64::from(count),
                Map(count) => values += 2 * u64::from(count),
                _ => (),
            }
        }
    }

    pub fn integer(&mut self) -> Result<i32, Refusal> {
        match self.value() {
            Integer(number) => Ok(number),
            _ => Err(FieldType),
        }
    }

    pub fn float(&mut self) -> Result<f32, Refusal> {
        match self.value() {
            Float(number) => Ok(number),
            _ => Err(FieldType),
        }
    }

    pub fn string(&mut self) -> Result<&'a [u8], Refusal> {
        match self.value() {
            String(body) => Ok(body),
            _ => Err(FieldType),
        }
    }

    pub fn binary(&mut self) -> Result<&'a [u8], Refusal> {
        match self.value() {
            Binary(body) => Ok(body),
            _ => Err(FieldType),
        }
    }

    pub fn array(&mut self) -> Result<u32, Refusal> {
        match self.value() {
            Array(count) => Ok(count),
            _ => Err(FieldType),
        }
    }

    pub fn map(&mut self) -> Result<u32, Refusal> {
        match self.value() {
            Map(count) => Ok(count),
            _ => Err(FieldType),
        }
    }

    /// The number that a single byte holds, if the next value is one.
    #[inline]
    pub fn small(&mut self) -> Option<i32> {
        match *self.rest {
            [lead @ (0x00..=0x7f | 0xe0..=0xff), ref rest @ ..] => {
                self.rest = rest;
                Some(i32::from(lead as i8))
            }
            _ => None,
        }
    }

    /// Passes over a string whose length stands in its lead byte, if the next
    /// value is one.
    #[inline]
    pub fn short_string(&mut self) -> bool {
        match *self.rest {
            [lead @ 0xa0..=0xbf, ref rest @ ..] => {
                self.rest = &rest[usize::from(lead & 0x1f)..];
                true
            }
            _ => false,
        }
    }

    #[inline]
    fn lead(&mut self) -> u8 {
        let (&lead, rest) = self.rest.split_first().expect("a value stands here");
        self.rest = rest;
        lead
    }

    #[inline]
    fn take(&mut self, length: u32) -> &'a [u8] {
        let (body, rest) = self.rest.split_at(length as usize);
        self.rest = rest;
        body
    }

    /// A big-endian number of N bytes.
    #[inline]
    fn number<const N: usize>(&mut self) -> u32 {
        let bytes = self.take(N as u32);
        bytes.iter().fold(0, |n, &b| n << 8 | u32::from(b))
    }

    #[inline]
    fn sized<const N: usize>(&mut self) -> &'a [u8] {
        let length = self.number::<N>();
        self.take(length)
    }
}
