//! Columns at the limit of 16,777,216 results, and packed sums of 8 bits at the
//! ends of 32 bits.

use mmtf_tests::check::calls::*;
use mmtf_tests::check::made::{column, wide};
use mmtf_tests::check::watch::Output;
use mmtf_tests::library::columns::Outcome;

const LIMIT: usize = 16_777_216;

/// Runs with a parameter that every codec takes.
fn runs(codec: i32, length: usize, numbers: &[i32]) -> Vec<u8> {
    wide([codec, length as i32, 1], numbers)
}

#[test]
fn one_run() {
    let whole = LIMIT as i32;
    INT32.expect(&runs(7, LIMIT, &[-9, whole]), &vec![-9; LIMIT], None, "7");
    CHARS.expect(&runs(6, LIMIT, &[65, whole]), &vec![65; LIMIT], None, "6");
    FLOAT32.expect(
        &runs(9, LIMIT, &[3, whole]),
        &vec![3f32.to_bits(); LIMIT],
        None,
        "9",
    );
    INT32.expect_refused(&runs(7, LIMIT, &[-9, whole]), LIMIT - 1, 25, "7");
    let rising: Vec<i32> = (1..=whole).collect();
    INT32.expect(&runs(8, LIMIT, &[1, whole]), &rising, None, "8");
    for more in [whole + 1, i32::MAX] {
        INT32.expect_refused(&runs(7, LIMIT, &[-9, more]), LIMIT, 19, "7, longer");
        INT32.expect_refused(&runs(7, LIMIT + 1, &[-9, more]), LIMIT, 16, "7, longer");
    }
}

#[test]
fn plain() {
    let payload: Vec<u8> = (0..4 * LIMIT).map(|n| (n % 251) as u8).collect();
    let values: Vec<i32> = payload
        .as_chunks::<4>()
        .0
        .iter()
        .map(|&bytes| i32::from_be_bytes(bytes))
        .collect();
    let whole = column([4, LIMIT as i32, 0], &payload);
    INT32.expect(&whole, &values, None, "4");
    INT32.expect_refused(&whole[..whole.len() - 1], LIMIT, 17, "4, a byte less");
    INT32.expect_refused(&column([4, LIMIT as i32 + 1, 0], &payload), LIMIT, 16, "4");
    TO_INT32.expect([4, 0], &values, &whole, "4");
}

#[test]
fn strings_and_packed() {
    let bytes = vec![b'x'; 2 * LIMIT];
    let names = column([5, LIMIT as i32, 2], &bytes);
    STRINGS.expect(&names, &bytes, None, "5");
    TO_STRINGS.expect([5, 2], &bytes, &names, "5");
    let numbers = vec![5; LIMIT];
    let packed = column([15, LIMIT as i32, 0], &numbers);
    INT32.expect(&packed, &vec![5; LIMIT], None, "15");
    let more = column([15, LIMIT as i32, 0], &vec![5; LIMIT + 1]);
    INT32.expect_refused(&more, LIMIT, 19, "15, one more");
}

#[test]
fn one_value_more_is_not_encoded() {
    let integers = vec![0; LIMIT + 1];
    let chars = vec![0; 2 * (LIMIT + 1)];
    let bits = vec![0; LIMIT + 1];
    for codec in [4, 7, 8, 14, 15] {
        TO_INT32.expect_refused([codec, 0], &integers, 0, 16, "int32");
    }
    for codec in [2, 16] {
        TO_INT8.expect_refused([codec, 0], &integers, 0, 16, "int8");
    }
    TO_INT16.expect_refused([3, 0], &integers, 0, 16, "int16");
    TO_CHARS.expect_refused([6, 0], &chars[..LIMIT + 1], 0, 16, "chars");
    TO_STRINGS.expect_refused([5, 2], &chars, 0, 16, "strings");
    TO_FLOAT32.expect_refused([1, 0], &bits, 0, 16, "float32");
    for codec in 9..=13 {
        TO_FIXED_POINT.expect_refused([codec, 1], &integers, 0, 16, "fixed point");
    }
    // 15 before 16, 16 before 18.
    TO_INT32.expect_refused([9, 0], &integers, 0, 15, "15 before 16");
    let bad = vec![200; LIMIT + 1];
    TO_INT8.expect_refused([2, 0], &bad, 0, 16, "16 before 18");
}

#[test]
fn as_many_values_as_there_may_be() {
    let values = &vec![7; LIMIT];
    let whole = LIMIT as i32;
    TO_INT32.expect([7, 0], values, &set(runs(7, LIMIT, &[7, whole])), "7");
    let numbers = [7, 1, 0, whole - 1];
    TO_INT32.expect([8, 0], values, &set(runs(8, LIMIT, &numbers)), "8");
    TO_FIXED_POINT.expect([9, 1], values, &runs(9, LIMIT, &[7, whole]), "9");
    TO_INT8.expect([2, 0], values, &column([2, whole, 0], &vec![7; LIMIT]), "2");
    let chars = &vec![7; LIMIT];
    TO_CHARS.expect([6, 0], chars, &set(runs(6, LIMIT, &[7, whole])), "6");
}

/// The column with its parameter 0, as an unused one is written.
fn set(mut column: Vec<u8>) -> Vec<u8> {
    column[8..12].fill(0);
    column
}

/// 16,777,216 times -128 is the least number of 32 bits, and 16,909,320 times
/// 127, and 7, the greatest.
#[test]
fn ends_of_32_bits_in_8() {
    let least = |more: &[i8]| packed(-128, LIMIT, more);
    let most = |more: &[i8]| packed(127, 16_909_320, more);
    for (payload, value) in [(least(&[0]), i32::MIN), (most(&[7]), i32::MAX)] {
        let whole = column([15, 1, 0], &payload);
        INT32.expect(&whole, &[value], None, "15");
        TO_INT32.expect([15, 0], &[value], &whole, "15");
        let agreed = TO_INT32.agree([15, 0], &[value], whole.len() - 1);
        assert_eq!(agreed, Ok(Outcome::Refused(25)));
    }
    let both = column([13, 2, 9], &[most(&[7]), least(&[0])].concat());
    let agreed = FIXED_POINT.agree(&both, 2);
    let values = vec![i32::MAX, i32::MIN];
    let divisor = Some(9);
    assert_eq!(agreed, Ok(Outcome::Done(Output { values, divisor })));
    for payload in [
        least(&[-1]),
        most(&[8]),
        least(&[-128, 127, 127, 0]),
        most(&[127, -128, -128, 0]),
        least(&[-128]),
        most(&[127]),
    ] {
        INT32.expect_refused(&column([15, 1, 0], &payload), 1, 18, "15");
        FLOAT32.expect_refused(&column([13, 0, 1], &payload), 1, 18, "13");
    }
}

/// A limit so many times, and more numbers.
fn packed(limit: i8, times: usize, more: &[i8]) -> Vec<u8> {
    let mut payload = vec![limit as u8; times];
    payload.extend(more.iter().map(|&n| n as u8));
    payload
}
