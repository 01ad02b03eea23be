//! Generated columns, each through both implementations: every decoder with
//! buffers around the right size, cells, and the encoder back.

use mmtf_tests::check::columns::{agree, Asked, Tally};
use mmtf_tests::check::hex;
use mmtf_tests::generate::columns::{column_case, ColumnKind, COLUMN_KINDS};
use mmtf_tests::generate::Rng;
use Asked::*;

/// How many columns are run in all, at the least.
const COLUMNS: u64 = 400_000;

const DECODERS: [Asked; 7] = [Int32, Int8, Int16, Chars, Strings, FixedPoint, Float32];

#[test]
fn shares_make_a_hundred() {
    let total: u64 = COLUMN_KINDS.iter().map(|(_, share)| share).sum();
    assert_eq!(total, 100);
}

#[test]
fn kinds_stand_in_order() {
    for (place, (kind, _)) in COLUMN_KINDS.iter().enumerate() {
        assert_eq!(*kind as usize, place);
    }
}

/// Runs the share of a kind. Gives how often each call gave each number.
fn run(kind: ColumnKind) -> Tally {
    let (_, share) = COLUMN_KINDS[kind as usize];
    let mut rng = Rng::new(0x636f_6c75 ^ (kind as u64) << 40);
    let mut tally = Tally::default();
    for n in 0..COLUMNS * share / 100 {
        let case = column_case(kind, &mut rng);
        let index = rng.word();
        match agree(&case.column, index, &mut tally) {
            Err(difference) => panic!("{kind:?} {n}: {difference}\n{}", hex(&case.column)),
            Ok(numbers) => {
                let own = case.own.unwrap_or(numbers.own);
                assert_eq!(numbers.own, own, "{kind:?} {n}\n{}", hex(&case.column));
                let float32 = case.float32.unwrap_or(numbers.float32);
                assert_eq!(numbers.float32, float32, "{kind:?} {n}: floats");
            }
        }
    }
    tally
}

/// Each call must have given each of these numbers.
fn meets(kind: ColumnKind, tally: &Tally, asked: &[Asked], numbers: &[u8]) {
    for &asked in asked {
        for &number in numbers {
            let times = tally.times(asked, number);
            assert!(times > 0, "{kind:?}: {asked:?} never gave {number}");
        }
    }
}

fn run_and_meet(kind: ColumnKind, met: &[(&[Asked], &[u8])]) {
    let tally = run(kind);
    for (asked, numbers) in met {
        meets(kind, &tally, asked, numbers);
    }
}

#[test]
fn valid() {
    let met: &[(&[Asked], &[u8])] = &[
        (&DECODERS, &[0, 15, 25]),
        (&[Float32], &[27]),
        (&[Cell], &[0, 15, 27, 28]),
        (&[Encode], &[0, 25]),
    ];
    run_and_meet(ColumnKind::Valid, met);
}

#[test]
fn limits() {
    let met: &[(&[Asked], &[u8])] = &[
        (&[Int32, Int8, Int16, FixedPoint, Float32], &[0, 25]),
        (&[Float32], &[27]),
        (&[Cell], &[0, 27, 28]),
        (&[Encode], &[0, 25]),
    ];
    run_and_meet(ColumnKind::Limits, met);
}

/// Plain columns have no number that is not allowed, and plain columns and
/// strings no length but that of the payload.
#[test]
fn one_fault() {
    let met: &[(&[Asked], &[u8])] = &[
        (&DECODERS, &[14, 15, 16, 17]),
        (&[Int32, Int8, Chars, Strings, FixedPoint, Float32], &[18]),
        (&[Int32, Int8, Chars, FixedPoint, Float32], &[19]),
        (&[Cell], &[14, 15, 16, 17, 18, 19]),
    ];
    run_and_meet(ColumnKind::OneFault, met);
}

#[test]
fn two_faults() {
    let met: &[(&[Asked], &[u8])] = &[
        (&DECODERS, &[14, 15, 16]),
        (&[Int32, Int8, Chars, Strings, FixedPoint, Float32], &[17]),
        (&[Int32, Int8, Chars, FixedPoint, Float32], &[18]),
        (&[Cell], &[14, 15, 16, 17, 18]),
    ];
    run_and_meet(ColumnKind::TwoFaults, met);
}

#[test]
fn large_counts() {
    let asked: &[Asked] = &[Int32, Int8, Chars, FixedPoint, Float32, Cell];
    run_and_meet(ColumnKind::LargeCounts, &[(asked, &[19])]);
}

#[test]
fn large_lengths() {
    let met: &[(&[Asked], &[u8])] = &[
        (&DECODERS, &[16]),
        (&[Int32, Int8, Chars, FixedPoint, Float32, Cell], &[19]),
        (
            &[Int32, Int8, Int16, Strings, FixedPoint, Float32, Cell],
            &[17],
        ),
    ];
    run_and_meet(ColumnKind::LargeLengths, met);
}

#[test]
fn exactness() {
    let met: &[(&[Asked], &[u8])] = &[
        (&[FixedPoint], &[0, 19, 25]),
        (&[Float32], &[0, 19, 25, 27]),
        (&[Cell], &[0, 19, 27, 28]),
    ];
    run_and_meet(ColumnKind::Exactness, met);
}

#[test]
fn damaged() {
    let met: &[(&[Asked], &[u8])] = &[
        (&DECODERS, &[0, 14, 15, 16, 17, 25]),
        (&[Int32, Int8, Chars, Strings, FixedPoint, Float32], &[18]),
        (&[Int32, Int8, Chars, FixedPoint, Float32], &[19]),
        (&[Cell], &[0, 14, 15, 16, 17, 18, 19, 27, 28]),
    ];
    run_and_meet(ColumnKind::Damaged, met);
}

#[test]
fn random() {
    let met: &[(&[Asked], &[u8])] = &[
        (&DECODERS, &[15, 17]),
        (&[Int32, Int8, Chars, FixedPoint, Float32], &[18]),
        (&[Int32, FixedPoint, Float32], &[0, 19]),
        (&[Cell], &[0, 15, 17, 18, 19, 28]),
    ];
    run_and_meet(ColumnKind::Random, met);
}
