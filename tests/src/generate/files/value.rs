//! Values to be written, in the shortest heads or in any.

use super::Rng;
use crate::generate::{head, text, Form};

#[derive(Clone, Debug, PartialEq)]
pub enum Value {
    Integer(i32),
    /// The float's bits.
    Float(u32),
    String(Vec<u8>),
    Binary(Vec<u8>),
    Array(Vec<Value>),
    Map(Vec<(Vec<u8>, Value)>),
    /// A value as its bytes, for one too large for a tree.
    Written(Vec<u8>),
}

use Value::*;

/// Which heads are written.
#[derive(Clone, Copy, Debug, PartialEq, Eq)]
pub enum Heads {
    Shortest,
    /// Every form that holds the number.
    Any,
}

impl Value {
    pub fn text(text: &str) -> Value {
        String(text.as_bytes().to_vec())
    }

    pub fn integers(numbers: &[i32]) -> Value {
        Array(numbers.iter().copied().map(Integer).collect())
    }

    pub fn strings(texts: &[Vec<u8>]) -> Value {
        Array(texts.iter().cloned().map(String).collect())
    }

    pub fn floats(bits: &[u32]) -> Value {
        Array(bits.iter().copied().map(Float).collect())
    }

    pub fn map<const N: usize>(entries: [(&str, Value); N]) -> Value {
        Map(entries
            .into_iter()
            .map(|(key, value)| (key.as_bytes().to_vec(), value))
            .collect())
    }

    /// The bytes of the value with the shortest heads.
    pub fn bytes(&self) -> Vec<u8> {
        let mut out = Vec::new();
        self.write(&mut Rng::new(0), Heads::Shortest, &mut out);
        out
    }

    pub fn write(&self, rng: &mut Rng, heads: Heads, out: &mut Vec<u8>) {
        match self {
            Integer(number) => write_integer(rng, heads, out, *number),
            Float(bits) => {
                out.push(0xca);
                out.extend(bits.to_be_bytes());
            }
            String(body) => write_body(rng, heads, out, Form::String, body),
            Binary(body) => write_body(rng, heads, out, Form::Binary, body),
            Array(values) => {
                write_head(rng, heads, out, Form::Array, values.len());
                values.iter().for_each(|value| value.write(rng, heads, out));
            }
            Map(entries) => {
                write_head(rng, heads, out, Form::Map, entries.len());
                for (key, value) in entries {
                    write_body(rng, heads, out, Form::String, key);
                    value.write(rng, heads, out);
                }
            }
            Written(bytes) => out.extend(bytes),
        }
    }

    /// Any small value, with arrays and maps down to so many levels.
    pub fn any(rng: &mut Rng, levels: usize) -> Value {
        match rng.below(if levels > 0 { 8 } else { 6 }) {
            0 => Integer(rng.below(300) as i32 - 100),
            1 => Integer(rng.word() as i32),
            2 => Float(rng.word() as u32),
            3 | 4 => String(text(rng, 8)),
            5 => Binary(rng.bytes(0, 20)),
            6 => Array(
                (0..rng.below(4))
                    .map(|_| Value::any(rng, levels - 1))
                    .collect(),
            ),
            _ => Map((0..rng.below(4) as u8)
                .map(|n| (vec![b'a' + n], Value::any(rng, levels - 1)))
                .collect()),
        }
    }

    /// Any value of another kind.
    pub fn other_kind(&self, rng: &mut Rng) -> Value {
        loop {
            let value = Value::any(rng, 2);
            if std::mem::discriminant(&value) != std::mem::discriminant(self) {
                return value;
            }
        }
    }
}

fn write_head(rng: &mut Rng, heads: Heads, out: &mut Vec<u8>, form: Form, number: usize) {
    match heads {
        Heads::Shortest => out.extend(&form.heads(number)[0]),
        Heads::Any => head(rng, out, form, number),
    }
}

fn write_body(rng: &mut Rng, heads: Heads, out: &mut Vec<u8>, form: Form, body: &[u8]) {
    write_head(rng, heads, out, form, body.len());
    out.extend(body);
}

fn write_integer(rng: &mut Rng, heads: Heads, out: &mut Vec<u8>, number: i32) {
    let forms = integer_forms(number);
    let (lead, size) = match heads {
        Heads::Shortest => forms[0],
        Heads::Any => *rng.pick(&forms),
    };
    out.push(lead);
    out.extend(&number.to_be_bytes()[4 - size..]);
}

/// The lead bytes that can begin an integer, each with how many bytes follow,
/// the shortest first.
pub fn integer_forms(number: i32) -> Vec<(u8, usize)> {
    let mut forms = Vec::new();
    if (-32..=127).contains(&number) {
        forms.push((number as u8, 0));
    }
    for (lead, size, least, most) in [
        (0xcc, 1, 0, 0xff),
        (0xd0, 1, -0x80, 0x7f),
        (0xcd, 2, 0, 0xffff),
        (0xd1, 2, -0x8000, 0x7fff),
        (0xce, 4, 0, i32::MAX),
        (0xd2, 4, i32::MIN, i32::MAX),
    ] {
        if (least..=most).contains(&number) {
            forms.push((lead, size));
        }
    }
    forms
}
