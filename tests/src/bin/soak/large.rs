//! The large cases: files and runs over the limit, structure files of up to 2.7
//! million bytes, made ones, containers of many values, columns of up to 200,000
//! cells, and runs of thousands of receipts.

use std::sync::OnceLock;

use mmtf_tests::check::bills::{agree_on_bill, LONGEST};
use mmtf_tests::check::calls::*;
use mmtf_tests::check::files::{agree_on_matrix, expected_matrix};
use mmtf_tests::check::receipts::agree_on_writing;
use mmtf_tests::check::watch::{Element, Output};
use mmtf_tests::check::{agree, agree_on_view};
use mmtf_tests::corpus;
use mmtf_tests::generate::bills::{every_station, rising, with_faults, BillCase, Fault};
use mmtf_tests::generate::columns::{chars, integers, names};
use mmtf_tests::generate::files::{matrix_numbers, Size, Structure};
use mmtf_tests::generate::{damaged, document, Rng, Shape};
use mmtf_tests::independent::{self, FILE_LIMIT};
use mmtf_tests::library;
use mmtf_tests::library::columns::Outcome;
use mmtf_tests::library::matrix::Matrix;

use crate::sorts::{note_bill, verdict_and_receipt, Sort};
use crate::tally::Tally;

pub fn run(rng: &mut Rng, tally: &mut Tally) -> Result<(), String> {
    match rng.below(13) {
        0 => over_limit(rng, tally),
        1..=2 => from_corpus(rng, tally),
        3..=4 => structure(rng, tally),
        5..=6 => container(rng, tally),
        7 => column(rng, &CHARS, &TO_CHARS, [6, 0], chars, tally),
        8 => column(
            rng,
            &STRINGS,
            &TO_STRINGS,
            [5, 4],
            |rng| names(rng, 4, 30),
            tally,
        ),
        9..=10 => int32(rng, tally),
        11 => fixed_point(rng, tally),
        _ => receipts(rng, tally),
    }
}

/// Zeros, which are never written to, so that they take no memory.
static ZEROS: OnceLock<Vec<u8>> = OnceLock::new();

/// A file of just as many bytes as it may have, or more; it is not copied.
fn over_limit(rng: &mut Rng, tally: &mut Tally) -> Result<(), String> {
    let zeros = ZEROS.get_or_init(|| vec![0; 2 * FILE_LIMIT]);
    let more = *rng.pick(&[0, 1, 1, 2, 4_096, FILE_LIMIT]);
    let file = &zeros[..FILE_LIMIT + more];
    let expected = if more == 0 { 10 } else { 1 };
    let answers = [
        library::container(file),
        independent::container(file),
        library::verdict(file),
        independent::verdict(file),
    ];
    if answers != [expected; 4] {
        return Err(format!("{} bytes: {answers:?}", file.len()));
    }
    agree_on_view(file, b"title")?;
    agree_on_writing([7, 12], file, 128)?;
    let bill = agree_on_bill(file, LONGEST)?;
    if bill != Outcome::Refused(if more == 0 { 29 } else { 1 }) {
        return Err(format!("{} bytes: bill {bill:?}", file.len()));
    }
    let matrix = library::matrix::matrix(file, 0, 0);
    if matrix != expected_matrix(file, 0, 0) {
        return Err(format!("{} bytes: matrix {matrix:?}", file.len()));
    }
    tally.note(Sort::Large, expected);
    Ok(())
}

/// The verdict with its receipt, and a matrix. A large file is not shown.
fn whole_check(rng: &mut Rng, file: &[u8], tally: &mut Tally) -> Result<u8, String> {
    let verdict = verdict_and_receipt(file)?;
    tally.note(Sort::Large, verdict);
    let [assembly, transform] = matrix_numbers(rng);
    if let Matrix::Refused(number) = agree_on_matrix(file, assembly, transform)? {
        tally.note(Sort::Large, number);
    }
    Ok(verdict)
}

/// A structure file, as it is or with one to three bits changed.
fn from_corpus(rng: &mut Rng, tally: &mut Tally) -> Result<(), String> {
    let name = *rng.pick(&["1AUY", "1IGT", "1IGT", "4V5A"]);
    let mut file = corpus::derived(name).to_vec();
    for _ in 0..rng.below(4) {
        let at = rng.below(file.len());
        file[at] ^= 1 << rng.below(8);
    }
    whole_check(rng, &file, tally).map(drop)
}

/// A made file of some thousand groups, whole or damaged.
fn structure(rng: &mut Rng, tally: &mut Tally) -> Result<(), String> {
    let size = Size {
        types: *rng.pick(&[1, 30, 300]),
        models: rng.within(1, 3),
        chains: *rng.pick(&[1, 20, 200]),
        groups: *rng.pick(&[4, 40, 400]),
        optional: *rng.pick(&[0, 4, 8]),
    };
    let whole = Structure::any(rng, size).document(rng).file(rng);
    if rng.chance(1, 2) {
        let file = damaged(rng, whole);
        return whole_check(rng, &file, tally).map(drop);
    }
    match whole_check(rng, &whole, tally)? {
        0 => Ok(()),
        number => Err(format!("both give {number}, the case expects 0")),
    }
}

/// An array of some thousand documents under one outer key, whole or damaged.
fn container(rng: &mut Rng, tally: &mut Tally) -> Result<(), String> {
    let count = rng.within(100, 4_000);
    let mut file = vec![0x81, 0xa1, b'v', 0xdd];
    file.extend((count as u32).to_be_bytes());
    for _ in 0..count {
        file.extend(document(rng, Shape::WIDE));
    }
    if rng.chance(1, 2) {
        file = damaged(rng, file);
    }
    tally.note(Sort::Large, agree(&file)?);
    Ok(())
}

fn int32(rng: &mut Rng, tally: &mut Tally) -> Result<(), String> {
    let codec = *rng.pick(&[4, 7, 8, 14, 15]);
    let most = most_of(codec);
    column(
        rng,
        &INT32,
        &TO_INT32,
        [codec, 0],
        |rng| integers(rng, most),
        tally,
    )
}

fn fixed_point(rng: &mut Rng, tally: &mut Tally) -> Result<(), String> {
    let codec = *rng.pick(&[9, 10, 12, 13]);
    let most = most_of(codec);
    let header = [codec, *rng.pick(&[1, 100, 1000])];
    let part = |rng: &mut Rng| integers(rng, most);
    column(rng, &FIXED_POINT, &TO_FIXED_POINT, header, part, tally)
}

/// Larger integers are not packed: their packing is long.
fn most_of(codec: i32) -> i32 {
    match codec {
        13 | 15 => 300,
        10 | 12 | 14 => 70_000,
        _ => i32::MAX,
    }
}

/// A run of thousands of receipts over all stations, whole or with one fault.
fn receipts(rng: &mut Rng, tally: &mut Tally) -> Result<(), String> {
    let count = rng.within(1_000, 8_000);
    let receipts = rising(rng, &every_station(), count);
    let which = rng.below(3);
    let mut with = |number, fault| {
        let place = rng.within(1, count - 1);
        let run = with_faults(rng, receipts.clone(), &[(place, fault)]);
        BillCase::refused(number, run)
    };
    let case = match which {
        0 => with(30, Fault::Job),
        1 => with(29, Fault::Text),
        _ => BillCase::whole(receipts),
    };
    note_bill(rng, &case, Sort::Large, tally)
}

/// Values of many parts, encoded by both, decoded again by both, and a cell near
/// the end.
fn column<T: Element>(
    rng: &mut Rng,
    decoder: &Decoder<T>,
    encoder: &Encoder<T>,
    header: [i32; 2],
    part: impl Fn(&mut Rng) -> Vec<T>,
    tally: &mut Tally,
) -> Result<(), String> {
    let count = 4 * rng.within(1, 50_000);
    let mut values = Vec::with_capacity(count + 2_048);
    while values.len() < count {
        values.extend(part(rng));
    }
    values.truncate(count);
    let encoded = encoder.agree(header, &values, 16 + 12 * count)?;
    let Outcome::Done(Output { values: column, .. }) = encoded else {
        return Err(format!("{} gave {}", encoder.name, shown(&encoded)));
    };
    let again = decoder.agree(&column, count)?;
    match &again {
        Outcome::Done(output) if output.values == values => (),
        _ => return Err(format!("encoded and decoded: {}", shown(&again))),
    }
    agree_on_cell(&column, count as u64 - 1 - rng.below(count) as u64)?;
    tally.note(Sort::Large, 0);
    Ok(())
}
