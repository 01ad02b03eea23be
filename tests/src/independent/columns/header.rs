//! A column's header: codec, length and parameter, 32 bits each.

use super::check;
use super::codec::{Codec, Kind};
use super::width::Width;
use crate::independent::Refusal::{self, *};

/// The bytes of a header.
pub const HEADER: usize = 12;
/// The most results of a column.
pub const LENGTH_LIMIT: usize = 16_777_216;
/// The size of names in a named field.
const FIELD_STRING: i32 = 4;

/// A column's header and payload.
pub struct Column<'a> {
    pub codec: Codec,
    pub length: usize,
    pub parameter: i32,
    pub payload: &'a [u8],
}

/// The codec, the length and the parameter of a column of any kind: 14, 15, 16,
/// 17. A parameter that the codec does not use is 0.
pub fn header(bytes: &[u8]) -> Result<[i32; 3], Refusal> {
    let column = Column::open(bytes, |_| true)?;
    check::size(&column)?;
    let codec = i32::read(&bytes[..4]);
    let parameter = match column.codec.kind {
        Kind::FixedPoint | Kind::Strings => column.parameter,
        _ => 0,
    };
    Ok([codec, column.length as i32, parameter])
}

impl<'a> Column<'a> {
    /// A column whose payload has no fault, of a kind that is asked for.
    pub fn checked(bytes: &'a [u8], asked: impl Fn(Kind) -> bool) -> Result<Self, Refusal> {
        let column = Column::open(bytes, asked)?;
        check::payload(&column)?;
        Ok(column)
    }

    /// The same of a named field, whose names have just one size.
    pub fn of_field(bytes: &'a [u8], asked: impl Fn(Kind) -> bool) -> Result<Self, Refusal> {
        let column = Column::open(bytes, asked)?;
        if column.codec.kind == Kind::Strings && column.parameter != FIELD_STRING {
            return Err(HeaderRange);
        }
        check::payload(&column)?;
        Ok(column)
    }

    /// Reads the header: 14, 15, 16.
    fn open(bytes: &'a [u8], asked: impl Fn(Kind) -> bool) -> Result<Self, Refusal> {
        let (header, payload) = bytes.split_at_checked(HEADER).ok_or(ColumnShort)?;
        let codec = Codec::of(i32::read(&header[..4]))
            .filter(|codec| asked(codec.kind))
            .ok_or(CodecUnknown)?;
        let parameter = i32::read(&header[8..]);
        let length = usize::try_from(i32::read(&header[4..8]))
            .ok()
            .filter(|&length| length <= LENGTH_LIMIT && codec.takes(parameter))
            .ok_or(HeaderRange)?;
        Ok(Column {
            codec,
            length,
            parameter,
            payload,
        })
    }

    /// The parameter as a name's size. It was tested to be 1 to 255.
    pub fn string_size(&self) -> usize {
        self.parameter as usize
    }
}
