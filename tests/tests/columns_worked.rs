//! Columns with the answer that the rules give, written down by hand: the
//! worked lines, each codec, and cells.

use mmtf_tests::check::calls::*;
use mmtf_tests::check::made::{column, narrow, small, wide};
use mmtf_tests::independent::columns::Cell;
use mmtf_tests::library::columns::Outcome;

/// Both decode the column to the values, and the encoder gives it back.
fn both_ways(column: &[u8], values: &[i32], case: &str) {
    let codec = i32::from(column[3]);
    INT32.expect(column, values, None, case);
    TO_INT32.expect([codec, 0], values, column, case);
}

#[test]
fn worked_runs() {
    let sums = |length, runs: &[i32], values: &[i32]| {
        both_ways(&wide([8, length, 0], runs), values, &format!("{runs:?}"));
    };
    let to_ten = [1, 2, 3, 4, 5, 6, 7, 8, 9, 10];
    sums(
        15,
        &[1, 10, 2, 1, 1, 4],
        &[&to_ten[..], &[12, 13, 14, 15, 16]].concat(),
    );
    sums(
        15,
        &[1, 10, -10, 1, 1, 4],
        &[&to_ten[..], &[0, 1, 2, 3, 4]].concat(),
    );
    sums(8, &[1, 7, 2, 1], &[1, 2, 3, 4, 5, 6, 7, 9]);
    sums(2, &[i32::MAX, 1, 1, 1], &[i32::MAX, i32::MIN]);
    sums(2, &[i32::MIN, 2], &[i32::MIN, 0]);
    sums(3, &[-1, 1, i32::MIN, 1, 0, 1], &[-1, i32::MAX, i32::MAX]);
    sums(0, &[], &[]);
    both_ways(
        &wide([7, 4, 0], &[5, 3, -6, 1]),
        &[5, 5, 5, -6],
        "runs alone",
    );
}

#[test]
fn worked_packing() {
    let two = |numbers: &[i16], values: &[i32]| {
        let header = [14, values.len() as i32, 0];
        both_ways(&narrow(header, numbers), values, &format!("{numbers:?}"));
    };
    two(&[32767, 100, 2001, 1053], &[32867, 2001, 1053]);
    two(&[32767, 0], &[32767]);
    two(&[-32768, 0], &[-32768]);
    two(&[32766, -32767], &[32766, -32767]);
    two(&[32767, 32767, 0], &[65534]);
    two(&[-32768, -1], &[-32769]);
    two(&[-32768, -32768, -32767], &[-98303]);
    two(
        &[1, 420, 32767, 0, 120, -32768, 0],
        &[1, 420, 32767, 120, -32768],
    );
    let one = |numbers: &[i8], values: &[i32]| {
        let header = [15, values.len() as i32, 0];
        both_ways(&small(header, numbers), values, &format!("{numbers:?}"));
    };
    one(&[127, 0], &[127]);
    one(&[-128, 0], &[-128]);
    one(&[126, -127], &[126, -127]);
    one(&[127, 1, -128, -1], &[128, -129]);
    one(&[127, 127, 127, 5], &[386]);
    one(&[], &[]);
}

/// Forms that the decoder reads and the writer does not use.
#[test]
fn other_forms() {
    let mixed = narrow([14, 2, 0], &[32767, -32768, 5, -32768, 32767, 7]);
    INT32.expect(&mixed, &[4, 6], None, "both limits in one result");
    let mixed = small([15, 2, 0], &[-128, 127, 0, 127, 127, -128, -100]);
    INT32.expect(&mixed, &[-1, 26], None, "both limits in one result");
    let longer = narrow([14, 1, 0], &[32767, -5]);
    INT32.expect(&longer, &[32762], None, "more numbers than needed");
    let runs = wide([7, 3, 0], &[4, 1, 4, 2]);
    INT32.expect(&runs, &[4, 4, 4], None, "runs that are not the longest");
    let unused = wide([7, 1, -5], &[4, 1]);
    INT32.expect(&unused, &[4], None, "an unused parameter");
    TO_INT32.expect([7, 99], &[4], &wide([7, 1, 0], &[4, 1]), "is written 0");
}

/// The same cells by a longer payload, and by the writer's.
#[test]
fn worked_shorter() {
    let shorter = |longer: &[u8], values: &[i32], own: &[u8], case: &str| {
        INT32.expect(longer, values, None, case);
        both_ways(own, values, case);
        assert!(own.len() < longer.len(), "{case}");
    };
    shorter(
        &wide([7, 3, 0], &[7, 2, 7, 1]),
        &[7, 7, 7],
        &wide([7, 3, 0], &[7, 3]),
        "a run that is cut in two",
    );
    shorter(
        &narrow([14, 1, 0], &[32767, -32768, 6]),
        &[5],
        &narrow([14, 1, 0], &[5]),
        "both limits in one result",
    );
    shorter(
        &small([15, 1, 0], &[-128, 127, 127, 3]),
        &[129],
        &small([15, 1, 0], &[127, 2]),
        "the limit of the other sign",
    );
    shorter(
        &wide([8, 4, 0], &[3, 1, 3, 3]),
        &[3, 6, 9, 12],
        &wide([8, 4, 0], &[3, 4]),
        "a run of deltas that is cut in two",
    );
}

#[test]
fn every_codec() {
    let floats = wide([1, 3, 0], &[0x3f80_0000, 0x7fa0_0001, i32::MIN]);
    let bits = [0x3f80_0000, 0x7fa0_0001, 0x8000_0000];
    FLOAT32.expect(
        &floats,
        &bits,
        None,
        "1: bits kept, a signalling NaN and -0",
    );
    TO_FLOAT32.expect([1, 0], &bits, &floats, "1");
    let int8 = small([2, 3, 0], &[127, -128, 0]);
    INT8.expect(&int8, &[127, -128, 0], None, "2");
    TO_INT8.expect([2, 0], &[127, -128, 0], &int8, "2");
    let int16 = narrow([3, 3, 0], &[32767, -32768, -2]);
    INT16.expect(&int16, &[32767, -32768, -2], None, "3");
    TO_INT16.expect([3, 0], &[32767, -32768, -2], &int16, "3");
    both_ways(&wide([4, 2, 0], &[i32::MIN, 7]), &[i32::MIN, 7], "4");
    let names = column([5, 3, 4], b"A\0\0\0\0\0\0\0ABCD");
    STRINGS.expect(&names, b"A\0\0\0\0\0\0\0ABCD", None, "5");
    TO_STRINGS.expect([5, 4], b"A\0\0\0\0\0\0\0ABCD", &names, "5");
    let chars = wide([6, 4, 0], &[65, 3, 0, 1]);
    CHARS.expect(&chars, b"AAA\0", None, "6");
    TO_CHARS.expect([6, 0], b"AAA\0", &chars, "6");
    let int8 = wide([16, 4, 0], &[-128, 3, 127, 1]);
    INT8.expect(&int8, &[-128, -128, -128, 127], None, "16");
    TO_INT8.expect([16, 0], &[-128, -128, -128, 127], &int8, "16");
}

#[test]
fn fixed_point() {
    let both = |column: &[u8], values: &[i32], case: &str| {
        let header = [i32::from(column[3]), 100];
        FIXED_POINT.expect(column, values, Some(100), case);
        TO_FIXED_POINT.expect(header, values, column, case);
        let bits: Vec<u32> = values
            .iter()
            .map(|&n| (n as f32 / 100.0).to_bits())
            .collect();
        FLOAT32.expect(column, &bits, None, case);
    };
    both(&wide([9, 3, 100], &[150, 2, -7, 1]), &[150, 150, -7], "9");
    let sums = narrow([10, 3, 100], &[32767, 1, -5, -32768, 0]);
    both(&sums, &[32768, 32763, -5], "10");
    both(
        &narrow([11, 2, 100], &[32767, -32768]),
        &[32767, -32768],
        "11",
    );
    both(&narrow([12, 2, 100], &[32767, 0, 5]), &[32767, 5], "12");
    both(
        &small([13, 2, 100], &[127, 0, -128, -2]),
        &[127, -130],
        "13",
    );
    let quarter = narrow([11, 1, 4], &[1]);
    FLOAT32.expect(&quarter, &[0x3e80_0000], None, "1/4");
    let third = narrow([11, 1, 3], &[1]);
    FLOAT32.expect(&third, &[0x3eaa_aaab], None, "1/3");
    let minus = narrow([11, 2, 3], &[-1, 0]);
    FLOAT32.expect(&minus, &[0xbeaa_aaab, 0], None, "-1/3, 0");
    let thousandths = wide([9, 1, 1000], &[50346, 1]);
    FLOAT32.expect(&thousandths, &[0x4249_624e], None, "50.346");
}

/// Codec 10 sums what it has unpacked; the sums wrap.
#[test]
fn packed_sums_wrap() {
    let mut numbers = vec![32767; 65538];
    numbers.extend([1, 1, -1]);
    let column = narrow([10, 3, 1], &numbers);
    let values = [i32::MAX, i32::MIN, i32::MAX];
    FIXED_POINT.expect(&column, &values, Some(1), "i32::MAX, 1, -1");
    TO_FIXED_POINT.expect([10, 1], &values, &column, "i32::MAX, 1, -1");
    FLOAT32.expect_refused(&column, 3, 27, "i32::MAX, 1, -1");
}

/// Holds both to a cell written down beforehand.
fn is(column: &[u8], index: u64, cell: Cell) {
    let agreed = agree_on_cell(column, index);
    assert_eq!(agreed, Ok(Outcome::Done(cell)), "{index}");
}

#[test]
fn cells() {
    let sums = wide([8, 5, 0], &[2, 3, -1, 2]);
    for (index, value) in [2, 4, 6, 5, 4].into_iter().enumerate() {
        is(&sums, index as u64, Cell::Int32(value));
    }
    let wrapping = wide([8, 16_777_216, 0], &[i32::MAX, 16_777_216]);
    is(&wrapping, 0, Cell::Int32(i32::MAX));
    is(&wrapping, 16_777_215, Cell::Int32(-16_777_216));
    is(&wide([6, 2, 0], &[65, 2]), 1, Cell::Char(65));
    is(&small([2, 2, 0], &[1, -128]), 1, Cell::Int32(-128));
    is(&narrow([3, 2, 0], &[1, -2]), 1, Cell::Int32(-2));
    is(&wide([16, 2, 0], &[-3, 2]), 0, Cell::Int32(-3));
    is(&narrow([14, 2, 0], &[32767, 1, 9]), 0, Cell::Int32(32768));
    is(&narrow([14, 2, 0], &[32767, 1, 9]), 1, Cell::Int32(9));
    is(&narrow([10, 2, 4], &[1, 1]), 1, Cell::Float32(0.5));
    is(&wide([1, 1, 0], &[0x3f00_0000]), 0, Cell::Float32(0.5));
    is(&wide([1, 1, 0], &[i32::MIN]), 0, Cell::Float32(-0.0));
}
