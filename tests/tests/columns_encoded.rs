//! Generated values, each list through both encoders of its kind: codecs and
//! parameters that fit and that do not, buffers around the right size; then
//! decoded again.

use mmtf_tests::check::values::{agree_on_values, ValueKind, VALUE_KINDS};
use mmtf_tests::generate::Rng;

/// How many lists are run of each kind.
const LISTS: usize = 9_000;

#[test]
fn shares_make_a_hundred() {
    let total: u64 = VALUE_KINDS.iter().map(|(_, share)| share).sum();
    assert_eq!(total, 100);
}

/// Runs lists of a kind; each of these numbers must come up.
fn run_and_meet(kind: ValueKind, lists: usize, numbers: &[u8]) {
    let mut rng = Rng::new(0x7661_6c75 ^ (kind as u64) << 40);
    let mut met = [0; 30];
    for n in 0..lists {
        match agree_on_values(kind, &mut rng) {
            Ok(number) => met[usize::from(number)] += 1,
            Err(difference) => panic!("{kind:?} {n}: {difference}"),
        }
    }
    for &number in numbers {
        assert!(met[usize::from(number)] > 0, "{number} never came up");
    }
}

#[test]
fn int32() {
    run_and_meet(ValueKind::Int32, LISTS, &[0, 15]);
}

#[test]
fn int8() {
    run_and_meet(ValueKind::Int8, LISTS, &[0, 15, 18]);
}

#[test]
fn int16() {
    run_and_meet(ValueKind::Int16, LISTS, &[0, 15, 18]);
}

#[test]
fn encoded_chars() {
    run_and_meet(ValueKind::Chars, LISTS, &[0, 15, 18]);
}

#[test]
fn strings() {
    run_and_meet(ValueKind::Strings, LISTS, &[0, 15, 16, 18]);
}

#[test]
fn fixed_point() {
    run_and_meet(ValueKind::FixedPoint, LISTS, &[0, 15, 16, 18]);
}

#[test]
fn float32() {
    run_and_meet(ValueKind::Float32, LISTS, &[0, 15]);
}

/// Codecs 8 and 10 hold every column: their differences wrap.
#[test]
fn wrapping_differences() {
    run_and_meet(ValueKind::Wrapping, 400, &[0]);
}
