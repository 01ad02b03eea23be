//! Measures a whole file opened, by the library and the Rust: one check that gives
//! the places of the named fields, and then every named column decoded from its
//! place.

use std::cell::RefCell;
use std::hint::black_box;

use mmtf_tests::check::calls::*;
use mmtf_tests::check::watch::Element;
use mmtf_tests::corpus;
use mmtf_tests::generate::files::COLUMNS;
use mmtf_tests::independent::{self, FIELDS};
use mmtf_tests::library::columns::{Answer, Outcome};
use mmtf_tests::library::opening::fields_into;
use mmtf_tests::library::{self, View};

use crate::table::{grouped, time, Column, Table};
use crate::timing::{compare, Times};

/// Every structure file. One that is refused has the verdict alone.
pub fn table() {
    let table = Table::new(&[
        Column::Names("file", 10),
        Column::Numbers("bytes", 10),
        Column::Numbers("columns", 8),
        Column::Numbers("library", 11),
        Column::Numbers("Rust", 11),
        Column::Numbers("ratio", 8),
    ]);
    for (name, file) in corpus::DERIVED {
        let columns = independent::open(file).map_or(0, |parts| named(&parts).count());
        let times = opened(file, &[]);
        table.row([
            name.to_string(),
            grouped(file.len()),
            columns.to_string(),
            time(times.library),
            time(times.independent),
            format!("{:.2}", times.ratio()),
        ]);
    }
}

/// The named fields of an open file, and where the part of each stands.
pub type Parts = independent::Opened;

/// The places of the named columns that are there.
fn named(parts: &Parts) -> impl Iterator<Item = (usize, usize)> + '_ {
    let there = |place: &usize| parts.presence >> place & 1 == 1;
    let places = COLUMNS.iter().map(|&column| column as usize).filter(there);
    places.map(|place| (parts.starts[place] as usize, parts.lengths[place] as usize))
}

/// The library opens a file.
pub fn by_library(file: &[u8]) -> Result<Parts, u8> {
    let mut parts = Parts {
        presence: 0,
        starts: [0; FIELDS.len()],
        lengths: [0; FIELDS.len()],
    };
    let Parts {
        presence,
        starts,
        lengths,
    } = &mut parts;
    match fields_into(file, presence, starts, lengths) {
        0 => Ok(parts),
        number => Err(number),
    }
}

/// The Rust opens a file, by one check.
pub fn by_rust(file: &[u8]) -> Result<Parts, u8> {
    independent::open(file).map_err(|refusal| refusal.number())
}

/// Buffers that are lent to every call.
struct Lent {
    integers: Vec<i32>,
    floats: Vec<u32>,
    bytes: Vec<u8>,
}

/// More elements than a column of the structure files has.
const ROOM: usize = 1 << 20;

/// Both open a file, decode its named columns with no further walk, and find and
/// decode the columns of these other names.
pub fn opened(file: &[u8], others: &[&[u8]]) -> Times {
    let expected = by_rust(file);
    assert_eq!(by_library(file), expected, "the same parts");
    let lent = RefCell::new(Lent {
        integers: vec![0; ROOM],
        floats: vec![0; ROOM],
        bytes: vec![0; ROOM],
    });
    compare(
        "fields",
        || {
            if let Ok(parts) = by_library(black_box(file)) {
                let lent = &mut lent.borrow_mut();
                for (start, length) in named(&parts) {
                    decode(&LIBRARY, &file[start..start + length], lent);
                }
                for name in others {
                    decode(&LIBRARY, viewed(file, name), lent);
                }
            }
        },
        || {
            if let Ok(parts) = by_rust(black_box(file)) {
                let lent = &mut lent.borrow_mut();
                for (start, length) in named(&parts) {
                    decode(&RUST, &file[start..start + length], lent);
                }
                for name in others {
                    let part = independent::view(file, name).expect("a field");
                    decode(&RUST, &file[part], lent);
                }
            }
        },
    )
}

/// The part that the library shows.
fn viewed<'a>(file: &'a [u8], name: &[u8]) -> &'a [u8] {
    let View::Part { start, length } = library::view(file, name) else {
        panic!("a field of the file");
    };
    &file[start as usize..][..length as usize]
}

type Decode<T> = fn(&[u8], &mut [T]) -> Outcome<Answer>;

/// The decoders of the library or of the Rust.
struct Decoders {
    float32: Decode<u32>,
    int8: Decode<i32>,
    int32: Decode<i32>,
    strings: Decode<u8>,
    chars: Decode<u8>,
}

const LIBRARY: Decoders = Decoders {
    float32: FLOAT32.library,
    int8: INT8.library,
    int32: INT32.library,
    strings: STRINGS.library,
    chars: CHARS.library,
};

const RUST: Decoders = Decoders {
    float32: FLOAT32.independent,
    int8: INT8.independent,
    int32: INT32.independent,
    strings: STRINGS.independent,
    chars: CHARS.independent,
};

/// Decodes a column by its codec's kind.
fn decode(decoders: &Decoders, column: &[u8], lent: &mut Lent) {
    match column[3] {
        1 | 9..=13 => into(decoders.float32, column, &mut lent.floats),
        2 | 16 => into(decoders.int8, column, &mut lent.integers),
        5 => into(decoders.strings, column, &mut lent.bytes),
        6 => into(decoders.chars, column, &mut lent.bytes),
        _ => into(decoders.int32, column, &mut lent.integers),
    }
}

fn into<T: Element>(decode: Decode<T>, column: &[u8], buffer: &mut [T]) {
    let outcome = black_box(decode(black_box(column), buffer));
    assert!(matches!(outcome, Outcome::Done(_)), "a column of the file");
}
