//! The sixteen codecs: what each gives, and how its payload is laid out.

use std::ops::RangeInclusive;

/// What a column holds.
#[derive(Clone, Copy, Debug, PartialEq, Eq)]
pub enum Kind {
    Int32,
    Int8,
    Int16,
    Chars,
    Strings,
    /// Integers and a divisor.
    FixedPoint,
    /// Floats as their 32 bits.
    Float32,
}

/// How a payload is laid out.
#[derive(Clone, Copy, Debug, PartialEq, Eq)]
pub enum Layout {
    Plain8,
    Plain16,
    Plain32,
    /// So many bytes each as the parameter says.
    Strings,
    /// Pairs of a 32-bit value and a 32-bit count.
    Runs,
    Packed8,
    Packed16,
}

#[derive(Clone, Copy, Debug)]
pub struct Codec {
    pub kind: Kind,
    pub layout: Layout,
    /// Whether each result is the one before plus a delta.
    pub delta: bool,
}

impl Codec {
    /// The codec of a number, 1 to 16.
    pub fn of(number: i32) -> Option<Codec> {
        use Kind::*;
        let (kind, layout) = match number {
            1 => (Float32, Layout::Plain32),
            2 => (Int8, Layout::Plain8),
            3 => (Int16, Layout::Plain16),
            4 => (Int32, Layout::Plain32),
            5 => (Strings, Layout::Strings),
            6 => (Chars, Layout::Runs),
            7 | 8 => (Int32, Layout::Runs),
            9 => (FixedPoint, Layout::Runs),
            10 | 12 => (FixedPoint, Layout::Packed16),
            11 => (FixedPoint, Layout::Plain16),
            13 => (FixedPoint, Layout::Packed8),
            14 => (Int32, Layout::Packed16),
            15 => (Int32, Layout::Packed8),
            16 => (Int8, Layout::Runs),
            _ => return None,
        };
        Some(Codec {
            kind,
            layout,
            delta: matches!(number, 8 | 10),
        })
    }

    /// Whether the header may have this parameter. An unused one is not read.
    pub fn takes(&self, parameter: i32) -> bool {
        match self.kind {
            Kind::FixedPoint => parameter >= 1,
            Kind::Strings => (1..=255).contains(&parameter),
            _ => true,
        }
    }

    /// The integers that a column by this codec can hold, if not all.
    pub fn held(&self) -> Option<RangeInclusive<i32>> {
        match (self.kind, self.layout) {
            (Kind::Chars, _) => Some(0..=127),
            (Kind::Int8, _) => Some(-128..=127),
            (_, Layout::Plain16) => Some(-32768..=32767),
            _ => None,
        }
    }
}
