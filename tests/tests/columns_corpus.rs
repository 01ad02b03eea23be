//! Every column of the structure files: decoded by its kind, cell by cell, and
//! encoded again.

use std::collections::BTreeMap;

use mmtf_tests::check::calls::*;
use mmtf_tests::check::watch::{Element, Output};
use mmtf_tests::corpus::{derived, DERIVED};
use mmtf_tests::independent::columns::Cell;
use mmtf_tests::independent::outer_binaries;
use mmtf_tests::library::columns::Outcome;

/// An outer binary whose header names a codec.
struct Column<'a> {
    name: String,
    bytes: &'a [u8],
}

impl Column<'_> {
    fn field(&self, place: usize) -> i32 {
        let bytes = self.bytes[4 * place..4 * place + 4].try_into();
        i32::from_be_bytes(bytes.expect("four bytes"))
    }

    fn header(&self) -> [i32; 2] {
        [self.field(0), self.field(2)]
    }
}

fn columns(file: &[u8]) -> Vec<Column<'_>> {
    let binaries = outer_binaries(file).expect("an accepted file");
    binaries
        .into_iter()
        .filter(|(_, bytes)| bytes.len() >= 12)
        .map(|(name, bytes)| Column {
            name: String::from_utf8_lossy(name).into_owned(),
            bytes,
        })
        .filter(|column| (1..=16).contains(&column.field(0)))
        .collect()
}

/// Decodes with just room. Encoded again, the column is what it was.
fn both_ways<T: Element>(
    column: &Column,
    room: usize,
    decoder: &Decoder<T>,
    encoder: &Encoder<T>,
) -> Vec<T> {
    let values = match decoder.agree(column.bytes, room) {
        Ok(Outcome::Done(Output { values, .. })) => values,
        other => panic!("{}: {other:?}", column.name),
    };
    assert_eq!(values.len(), room, "{}", column.name);
    encoder.expect(column.header(), &values, column.bytes, &column.name);
    values
}

/// Encodes values by other codecs of the kind, and decodes them again.
fn by_others(values: &[i32], decoder: &Decoder<i32>, encoder: &Encoder<i32>, headers: &[[i32; 2]]) {
    for &header in headers {
        // Each value takes a few numbers of 8 bits, or one pair of 32 bits.
        let most = values.iter().map(|n| n.unsigned_abs()).max().unwrap_or(0);
        let room = 12 + values.len() * (8 + most as usize / 60);
        let column = match encoder.agree(header, values, room) {
            Ok(Outcome::Done(Output { values, .. })) => values,
            other => panic!("{header:?}: {other:?}"),
        };
        let divisor = (9..=13).contains(&header[0]).then_some(header[1]);
        decoder.expect(&column, values, divisor, "by another codec");
    }
}

/// Runs a column by its kind, and some of its cells.
fn run(column: &Column, small: bool) {
    cells(column);
    let length = column.field(1) as usize;
    let [codec, parameter] = column.header();
    match codec {
        1 => drop(both_ways(column, length, &FLOAT32, &TO_FLOAT32)),
        2 | 16 => {
            let values = both_ways(column, length, &INT8, &TO_INT8);
            by_others(&values, &INT8, &TO_INT8, &[[2, 0], [16, 0]]);
        }
        3 => drop(both_ways(column, length, &INT16, &TO_INT16)),
        5 => drop(both_ways(
            column,
            length * parameter as usize,
            &STRINGS,
            &TO_STRINGS,
        )),
        6 => drop(both_ways(column, length, &CHARS, &TO_CHARS)),
        9..=13 => {
            let values = both_ways(column, length, &FIXED_POINT, &TO_FIXED_POINT);
            let agreed = FLOAT32.agree(column.bytes, length);
            assert!(matches!(agreed, Ok(Outcome::Done(_))), "{}", column.name);
            if small {
                let headers = [9, 10, 12, 13].map(|codec| [codec, parameter]);
                by_others(&values, &FIXED_POINT, &TO_FIXED_POINT, &headers);
            }
        }
        _ => {
            let values = both_ways(column, length, &INT32, &TO_INT32);
            if small {
                let headers = [4, 7, 8, 14, 15].map(|codec| [codec, 0]);
                by_others(&values, &INT32, &TO_INT32, &headers);
            }
        }
    }
}

/// Asks for the first cell, one in the middle, the last, and one past the end.
fn cells(column: &Column) {
    let length = column.field(1) as u64;
    let last = length.saturating_sub(1);
    for index in [0, last / 2, last, length] {
        let agreed = agree_on_cell(column.bytes, index);
        let refusal = match (column.field(0), index < length) {
            (5, _) => Some(15),
            (_, false) => Some(28),
            _ => None,
        };
        match (agreed, refusal) {
            (Ok(Outcome::Done(_)), None) => (),
            (Ok(Outcome::Refused(number)), Some(expected)) if number == expected => (),
            (agreed, _) => panic!("{}: {agreed:?}", column.name),
        }
    }
}

/// How many columns there are of each codec. All are in the writer's form.
#[test]
fn every_column() {
    let mut codecs: BTreeMap<i32, usize> = BTreeMap::new();
    for (_, file) in DERIVED {
        for column in columns(file) {
            *codecs.entry(column.field(0)).or_default() += 1;
            run(&column, file.len() < 60_000);
        }
    }
    let by_codec: Vec<_> = codecs.into_iter().collect();
    let expected = [
        (2, 18),
        (4, 18),
        (5, 18),
        (6, 18),
        (8, 27),
        (9, 9),
        (10, 36),
    ];
    assert_eq!(by_codec, expected);
}

/// Facts of single columns, as the files are known for: 4CUP has 1107 atoms, by
/// the tests of the packages, and 4V5A's are numbered from 1.
#[test]
fn known_columns() {
    let find = |name, field: &str| {
        let mut columns = columns(derived(name)).into_iter();
        let found = columns.find(|column| column.name == field);
        found.expect("a column of the file")
    };
    assert_eq!(find("4CUP-0.2", "xCoordList").field(1), 1107);
    let atoms = find("4V5A", "atomIdList");
    assert_eq!(
        agree_on_cell(atoms.bytes, 0),
        Ok(Outcome::Done(Cell::Int32(1)))
    );
}
