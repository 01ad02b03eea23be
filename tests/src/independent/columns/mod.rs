//! Columns: a binary of a header (codec, length, parameter) and a payload.
//! Decoders by kind, one cell alone, and encoders by kind.
//!
//! A decoder goes over the payload once to check it and once to write it. On
//! refusal the buffer is as it was; on success so is all of it beyond the answer.

mod cell;
mod check;
mod codec;
mod decode;
mod encode;
mod header;
mod results;
mod width;

pub use cell::{cell, Cell};
pub use codec::{Codec, Kind, Layout};
pub use decode::{
    decode_chars, decode_fixed_point, decode_float32, decode_int16, decode_int32, decode_int8,
    decode_strings,
};
pub use encode::{
    encode_chars, encode_fixed_point, encode_float32, encode_int16, encode_int32, encode_int8,
    encode_strings,
};
pub use header::{header, Column, HEADER, LENGTH_LIMIT};

/// The largest size of an integer or a divisor that a float is made from.
pub const EXACT_LIMIT: u32 = 16_777_216;
