//! Inputs made around one rule: heads, nesting, map sizes, keys, strings and
//! lead bytes.

use super::strings::{faulty_text, text, SCALARS};
use super::{Case, Rng};

/// The kinds of heads that carry a length or a count.
#[derive(Clone, Copy, Debug, PartialEq, Eq)]
pub enum Form {
    String,
    Binary,
    Array,
    Map,
}

impl Form {
    /// The lead bytes with a number after them, and how many bytes it has.
    fn long(self) -> &'static [(u8, usize)] {
        match self {
            Form::String => &[(0xd9, 1), (0xda, 2), (0xdb, 4)],
            Form::Binary => &[(0xc4, 1), (0xc5, 2), (0xc6, 4)],
            Form::Array => &[(0xdc, 2), (0xdd, 4)],
            Form::Map => &[(0xde, 2), (0xdf, 4)],
        }
    }

    /// The lead byte that has the number in it, if one can hold it.
    fn short(self, number: usize) -> Option<u8> {
        match self {
            Form::String if number <= 31 => Some(0xa0 | number as u8),
            Form::Array if number <= 15 => Some(0x90 | number as u8),
            Form::Map if number <= 15 => Some(0x80 | number as u8),
            _ => None,
        }
    }

    /// Every head for a number, the shortest first.
    pub fn heads(self, number: usize) -> Vec<Vec<u8>> {
        let mut heads: Vec<_> = self
            .short(number)
            .map(|lead| vec![lead])
            .into_iter()
            .collect();
        for &(lead, size) in self.long() {
            if number >> (8 * size) == 0 {
                let bytes = (number as u32).to_be_bytes();
                heads.push([&[lead], &bytes[4 - size..]].concat());
            }
        }
        heads
    }
}

/// Writes a head in any form that holds the number, short ones more often.
pub fn head(rng: &mut Rng, out: &mut Vec<u8>, form: Form, number: usize) {
    let heads = form.heads(number);
    let chosen = match rng.chance(1, 2) {
        true => &heads[0],
        false => rng.pick(&heads),
    };
    out.extend(chosen);
}

/// A level of a nested file.
#[derive(Clone, Copy, Debug, PartialEq, Eq)]
pub enum Container {
    Array,
    Map,
}

/// An outer map with containers of one element inside one another, and the
/// innermost bytes. The outer map counts as the first level.
pub fn nested(inner: &[Container], innermost: &[u8]) -> Vec<u8> {
    let mut out = vec![0x81, 0xa1, b'k'];
    for level in inner {
        match level {
            Container::Array => out.push(0x91),
            Container::Map => out.extend([0x81, 0xa1, b'k']),
        }
    }
    out.extend(innermost);
    out
}

/// Nesting around the limit, with mixed containers and heads. A container at
/// level 13 may be cut after its lead byte.
pub fn nesting(rng: &mut Rng) -> Case {
    let levels = *rng.pick(&[2, 10, 11, 12, 12, 13, 13, 14]);
    let mut out = Vec::new();
    let mut after = 0;
    for level in 1..=levels {
        let form = match level == 1 || rng.chance(1, 2) {
            true => Form::Map,
            false => Form::Array,
        };
        if level == 13 && rng.chance(1, 2) {
            let lead = form.heads(1)[rng.below(3)][0];
            out.push(lead);
            return Case::expecting(out, 6);
        }
        if level == levels && rng.chance(1, 3) {
            head(rng, &mut out, form, 0);
            break;
        }
        // A second element of an array closes the file's end properly.
        let count = match form {
            Form::Array => 1 + rng.below(2),
            _ => 1,
        };
        after += count - 1;
        head(rng, &mut out, form, count);
        if form == Form::Map {
            let key = text(rng, 3);
            head(rng, &mut out, Form::String, key.len());
            out.extend(key);
        }
        if level == levels {
            out.push(0x07);
        }
    }
    out.extend(vec![0x00; after]);
    Case::expecting(out, if levels > 12 { 6 } else { 0 })
}

/// Maps around 15, 16, 256 and 257 entries, outer and inner.
pub fn map_size(rng: &mut Rng) -> Case {
    let count = *rng.pick(&[0, 1, 15, 16, 17, 31, 255, 256, 257, 258]);
    let mut map = Vec::new();
    head(rng, &mut map, Form::Map, count);
    let wide = rng.chance(1, 2);
    for entry in 0..count {
        let key = match wide {
            true => format!("key{entry:03}"),
            false => format!("{entry:x}"),
        };
        head(rng, &mut map, Form::String, key.len());
        map.extend(key.bytes());
        map.push(entry as u8 & 0x7f);
    }
    let number = if count > 256 { 7 } else { 0 };
    // A view walks the file for each outer key, so few of these are outer maps.
    if rng.chance(1, 10) {
        return Case::expecting(map, number);
    }
    let mut out = vec![0x81, 0xa1, b'm'];
    out.extend(map);
    Case::expecting(out, number)
}

/// A map with two keys that are equal, or differ in one respect.
pub fn keys(rng: &mut Rng) -> Case {
    let most = *rng.pick(&[1, 10, 31, 40, 150, 300]);
    let key = text(rng, most);
    let (other, number) = match rng.below(6) {
        0..=2 => (key.clone(), 9),
        3 => ([&key[..], b"\0"].concat(), 0),
        4 => ([b"x", &key[..]].concat(), 0),
        _ => (last_changed(&key), 0),
    };
    let number = if key == other { 9 } else { number };
    let mut out = Vec::new();
    let outer = rng.chance(1, 2);
    if !outer {
        out.extend([0x81, 0xa1, b'm']);
    }
    head(rng, &mut out, Form::Map, 3);
    for key in [&key, &[&key[..], b"middle"].concat(), &other] {
        head(rng, &mut out, Form::String, key.len());
        out.extend(key);
        out.push(rng.byte() & 0x7f);
    }
    Case::expecting(out, number)
}

/// The same key with another last byte: its lowest bit may change in every
/// scalar, the last byte being an ASCII one or a continuation.
fn last_changed(key: &[u8]) -> Vec<u8> {
    let mut other = key.to_vec();
    if let Some(last) = other.last_mut() {
        *last ^= 1;
    }
    other
}

/// What stands before and after a string, and the number if the string is
/// sound: as value, as key, and before an unknown lead byte.
const PLACES: [(&[u8], &[u8], u8); 3] = [
    (&[0x81, 0xa1, b'v'], &[], 0),
    (&[0x81], &[0x00], 0),
    (&[0x81, 0xa1, b'v', 0x92], &[0xc2], 3),
];

/// A string as key or value: sound, or with one fault.
pub fn strings(rng: &mut Rng) -> Case {
    let most = *rng.pick(&[0, 2, 8, 30, 100]);
    let choice = rng.below(3);
    let body = match choice {
        0 => faulty_text(rng, most),
        1 => text(rng, most),
        _ => [&text(rng, most), *rng.pick(SCALARS)].concat(),
    };
    let (before, after, sound) = *rng.pick(&PLACES);
    let mut file = before.to_vec();
    head(rng, &mut file, Form::String, body.len());
    file.extend(body);
    file.extend(after);
    Case::expecting(file, if choice == 0 { 5 } else { sound })
}

/// A lead byte in one of four places, with a random body.
pub fn lead_byte(rng: &mut Rng) -> Vec<u8> {
    let before: &[u8] = match rng.below(4) {
        0 => &[],
        1 => &[0x81],
        2 => &[0x81, 0xa1, b'v'],
        _ => &[0x81, 0xa1, b'v', 0x91],
    };
    let mut out = before.to_vec();
    out.push(rng.byte());
    let small = rng.chance(2, 3);
    for byte in rng.bytes(0, 12) {
        out.push(if small { byte & 3 } else { byte });
    }
    out
}

/// A map's lead byte, then lead bytes with short bodies, mostly of the subset
/// and mostly with a string before each, as in a map.
pub fn lead_stream(rng: &mut Rng) -> Vec<u8> {
    let mut out = vec![0x80 | rng.below(6) as u8];
    for _ in 0..rng.within(0, 30) {
        if rng.chance(7, 8) {
            short_string(rng, &mut out);
        }
        item(rng, &mut out);
    }
    out
}

fn short_string(rng: &mut Rng, out: &mut Vec<u8>) {
    let body = [b'a' + rng.below(8) as u8, b'a' + rng.below(8) as u8];
    let length = rng.below(3);
    head(rng, out, Form::String, length);
    out.extend(&body[..length]);
}

fn item(rng: &mut Rng, out: &mut Vec<u8>) {
    match rng.below(40) {
        0..=13 => short_string(rng, out),
        14..=20 => out.push(rng.byte() & 0x7f),
        21..=24 => {
            let count = rng.below(4);
            head(rng, out, Form::Array, count);
        }
        25..=29 => {
            let count = rng.below(4);
            head(rng, out, Form::Map, count);
        }
        30..=31 => {
            let body = rng.bytes(0, 3);
            head(rng, out, Form::Binary, body.len());
            out.extend(body);
        }
        32..=37 => {
            let (lead, size) = *rng.pick(&[
                (0xca, 4),
                (0xcc, 1),
                (0xcd, 2),
                (0xce, 4),
                (0xd0, 1),
                (0xd1, 2),
                (0xd2, 4),
                (0xe0, 0),
            ]);
            out.push(lead);
            out.extend(rng.bytes(size, size));
        }
        38 => out.push(rng.byte()),
        _ => out.extend([0xa0 | rng.byte() & 0x1f, rng.byte()]),
    }
}
