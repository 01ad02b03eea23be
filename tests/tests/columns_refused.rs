//! Columns that are refused, with the number that the rules give, written down
//! by hand: each fault, and pairs of faults that show the order of checks.

use mmtf_tests::check::calls::*;
use mmtf_tests::check::made::{column, narrow, small, wide};
use mmtf_tests::check::watch::Element;
use mmtf_tests::independent::columns::Cell;
use mmtf_tests::library::columns::Outcome;

/// Holds both to a cell's number written down beforehand.
fn refused(column: &[u8], index: u64, number: u8) {
    let agreed = agree_on_cell(column, index);
    assert_eq!(agreed, Ok(Outcome::Refused(number)), "{index}");
}

#[test]
fn not_allowed() {
    let lone = |column: &[u8], case: &str| INT32.expect_refused(column, 4, 18, case);
    lone(&narrow([14, 1, 0], &[32767]), "a lone 32767");
    lone(&narrow([14, 1, 0], &[-32768]), "a lone -32768");
    lone(&narrow([14, 1, 0], &[5, 32767]), "an unfinished second");
    lone(&narrow([14, 2, 0], &[5, 32767]), "an unfinished second");
    lone(&small([15, 1, 0], &[127]), "a lone 127");
    lone(&small([15, 0, 0], &[-128]), "a lone -128");
    for count in [0, -1, i32::MIN] {
        lone(&wide([7, 0, 0], &[5, count]), "a count below 1");
        lone(
            &wide([8, 1, 0], &[5, 1, 6, count]),
            "the last count below 1",
        );
        lone(
            &wide([8, 1, 0], &[5, count, 6, 1]),
            "the first count below 1",
        );
    }
    lone(
        &wide([7, 0, 0], &[5, 1, 5, -1]),
        "counts that add up to the length",
    );
    for value in [-1, 128, 256 + 65, i32::MIN] {
        let case = format!("a char {value}");
        CHARS.expect_refused(&wide([6, 1, 0], &[value, 1]), 4, 18, &case);
    }
    for value in [-129, 128, 256, i32::MAX] {
        let case = format!("an int8 {value}");
        INT8.expect_refused(&wide([16, 1, 0], &[value, 1]), 4, 18, &case);
    }
    let names: [&[u8]; 4] = [b"A\0B\0", b"\0A\0\0", b"AB\x80\0", b"\0\0\0A"];
    for name in names {
        let case = format!("a name {name:?}");
        STRINGS.expect_refused(&column([5, 1, 4], name), 9, 18, &case);
        TO_STRINGS.expect_refused([5, 4], name, 99, 18, &case);
    }
    let two = column([5, 2, 2], b"A\0B\0");
    STRINGS.expect(&two, b"A\0B\0", None, "the same bytes as two names");
}

/// 16-bit numbers whose running sum leaves 32 bits.
#[test]
fn running_sums() {
    let least = |more: &[i16]| [&vec![-32768; 65536][..], more].concat();
    let most = |more: &[i16]| [&vec![32767; 65538][..], more].concat();
    INT32.expect(
        &narrow([14, 1, 0], &least(&[0])),
        &[i32::MIN],
        None,
        "least",
    );
    INT32.expect(&narrow([14, 1, 0], &most(&[1])), &[i32::MAX], None, "most");
    let back = narrow([14, 1, 0], &least(&[32767, 0]));
    INT32.expect(&back, &[i32::MIN + 32767], None, "least, and back");
    let refused = [
        (least(&[-1]), "one below"),
        (most(&[2]), "one above"),
        (least(&[-32768, 32767, 0]), "below, and back by a limit"),
        (most(&[32767, -32768, 0]), "above, and back by a limit"),
        (least(&[-32768]), "below, unfinished"),
        (most(&[32767, 32767]), "above, unfinished"),
    ];
    for (numbers, case) in refused {
        for (length, codec) in [(1, 14), (0, 14), (1, 12), (1, 10)] {
            let column = narrow([codec, length, 1], &numbers);
            match codec {
                14 => INT32.expect_refused(&column, 1, 18, case),
                _ => FLOAT32.expect_refused(&column, 1, 18, case),
            }
        }
    }
    let two = narrow([14, 2, 0], &[least(&[0]), least(&[-1])].concat());
    INT32.expect_refused(&two, 2, 18, "the second result");
    let two = narrow([14, 2, 0], &[least(&[0]), most(&[1])].concat());
    INT32.expect(&two, &[i32::MIN, i32::MAX], None, "each begins anew");
}

#[test]
fn headers() {
    for n in 0..12 {
        let cut = &wide([4, 0, 0], &[])[..n];
        INT32.expect_refused(cut, 0, 14, "a cut header");
        INT16.expect_refused(cut, 5, 14, "a cut header");
        assert_eq!(agree_on_cell(cut, 0), Ok(Outcome::Refused(14)));
    }
    for codec in [0, -1, 17, 256 + 4, 4 << 24, i32::MIN, i32::MAX] {
        INT32.expect_refused(&wide([codec, 0, 0], &[]), 0, 15, "an unknown codec");
        TO_INT32.expect_refused([codec, 0], &[], 12, 15, "an unknown codec");
    }
    for length in [-1, i32::MIN, 16_777_217, i32::MAX] {
        INT32.expect_refused(&wide([4, length, 0], &[]), 0, 16, "a length");
        CHARS.expect_refused(&wide([6, length, 0], &[]), 0, 16, "a length");
    }
    for size in [0, -1, 256, i32::MIN, i32::MAX] {
        STRINGS.expect_refused(&column([5, 0, size], b""), 0, 16, "a size");
        TO_STRINGS.expect_refused([5, size], b"", 12, 16, "a size");
    }
    for divisor in [0, -1, i32::MIN] {
        for codec in 9..=13 {
            let empty = column([codec, 0, divisor], b"");
            FIXED_POINT.expect_refused(&empty, 0, 16, "a divisor");
            FLOAT32.expect_refused(&empty, 0, 16, "a divisor");
            TO_FIXED_POINT.expect_refused([codec, divisor], &[], 12, 16, "a divisor");
        }
    }
    STRINGS.expect(&column([5, 1, 255], &[7; 255]), &[7; 255], None, "size 255");
    FIXED_POINT.expect(
        &column([13, 0, i32::MAX], b""),
        &[],
        Some(i32::MAX),
        "empty",
    );
}

/// The codecs of a kind, and no others, are decoded by it.
fn has_codecs<T: Element>(decoder: &Decoder<T>, codecs: &[i32], divisor: bool) {
    for codec in 1..=16 {
        let empty = column([codec, 0, 1], b"");
        let case = format!("{}, codec {codec}", decoder.name);
        match codecs.contains(&codec) {
            true => decoder.expect(&empty, &[], divisor.then_some(1), &case),
            false => decoder.expect_refused(&empty, 0, 15, &case),
        }
    }
}

#[test]
fn kinds() {
    has_codecs(&INT32, &[4, 7, 8, 14, 15], false);
    has_codecs(&INT8, &[2, 16], false);
    has_codecs(&INT16, &[3], false);
    has_codecs(&CHARS, &[6], false);
    has_codecs(&STRINGS, &[5], false);
    has_codecs(&FIXED_POINT, &[9, 10, 11, 12, 13], true);
    has_codecs(&FLOAT32, &[1, 9, 10, 11, 12, 13], false);
    for codec in 1..=16 {
        let empty = column([codec, 0, 1], b"");
        refused(&empty, 0, if codec == 5 { 15 } else { 28 });
    }
}

/// The codecs of a kind, and no others, are encoded by it.
fn to_codecs<T: Element>(encoder: &Encoder<T>, codecs: &[i32], parameter: i32) {
    for codec in -1..=17 {
        let empty = column([codec, 0, parameter], b"");
        let case = format!("{}, codec {codec}", encoder.name);
        match codecs.contains(&codec) {
            true => encoder.expect([codec, parameter], &[], &empty, &case),
            false => encoder.expect_refused([codec, parameter], &[], 12, 15, &case),
        }
    }
}

#[test]
fn encoded_kinds() {
    to_codecs(&TO_INT32, &[4, 7, 8, 14, 15], 0);
    to_codecs(&TO_INT8, &[2, 16], 0);
    to_codecs(&TO_INT16, &[3], 0);
    to_codecs(&TO_CHARS, &[6], 0);
    to_codecs(&TO_STRINGS, &[5], 4);
    to_codecs(&TO_FIXED_POINT, &[9, 10, 11, 12, 13], 1000);
    to_codecs(&TO_FLOAT32, &[1], 0);
}

#[test]
fn payload_sizes() {
    let cases: [(i32, i32, usize); 10] = [
        (4, 1, 3),
        (4, 1, 5),
        (4, 0, 1),
        (4, 2, 4),
        (7, 0, 7),
        (7, 1, 9),
        (8, 1, 4),
        (14, 0, 1),
        (14, 1, 3),
        (4, 16_777_216, 0),
    ];
    for (codec, length, size) in cases {
        let column = column([codec, length, 0], &vec![0; size]);
        INT32.expect_refused(&column, 4, 17, &format!("{codec} {length} {size}"));
    }
    INT8.expect_refused(&column([2, 2, 0], &[1]), 4, 17, "2");
    INT16.expect_refused(&column([3, 1, 0], &[1]), 4, 17, "3");
    FLOAT32.expect_refused(&column([1, 1, 0], &[1; 5]), 4, 17, "1");
    FIXED_POINT.expect_refused(&column([11, 2, 1], &[1; 2]), 4, 17, "11");
    // The length of strings counts names, not bytes.
    STRINGS.expect_refused(&column([5, 4, 4], b"ABCD"), 9, 17, "5");
    STRINGS.expect_refused(&column([5, 1, 4], b"ABC"), 9, 17, "5");
    STRINGS.expect_refused(&column([5, 1, 4], b"ABCDE"), 9, 17, "5");
    // 8-bit packed has any size: with nothing unfinished it is the length.
    INT32.expect_refused(&column([15, 2, 0], &[1]), 4, 19, "15");
}

/// Two faults at once: the one that is checked first counts. There is no room
/// either, so that each comes before 25.
#[test]
fn order() {
    let table: &[(Vec<u8>, u8, &str)] = &[
        (vec![0xff; 11], 14, "14 before 15 and 16"),
        (wide([0, -1, 0], &[]), 15, "15 before 16"),
        (column([17, 1, 0], b"x"), 15, "15 before 17"),
        (column([9, -1, 0], b""), 15, "15 of another kind before 16"),
        (column([4, -1, 0], b"x"), 16, "16 before 17"),
        (wide([7, 16_777_217, 0], &[1, 0]), 16, "16 before 18"),
        (wide([7, -1, 0], &[1, 1]), 16, "16 before 19"),
        (column([7, 0, 0], &[0; 9]), 17, "17 before 18"),
        (column([14, 0, 0], &[0x7f, 0xff, 0]), 17, "17 before 18"),
        (column([14, 5, 0], &[0, 1, 0]), 17, "17 before 19"),
        (
            wide([7, 1, 0], &[1, 9, 2, 9, 3, 0]),
            18,
            "18 in the last run before 19",
        ),
        (
            wide([7, 3, 0], &[1, i32::MAX, 1, i32::MAX, 1, 0]),
            18,
            "18 before 19",
        ),
        (narrow([14, 7, 0], &[1, 2, 3, 32767]), 18, "18 before 19"),
        (wide([7, 3, 0], &[1, 2]), 19, "19 before 25"),
        (wide([7, 2, 0], &[1, 2]), 25, "25 last"),
    ];
    for (column, number, case) in table {
        INT32.expect_refused(column, 0, *number, case);
    }
}

#[test]
fn order_of_strings_and_floats() {
    STRINGS.expect_refused(&column([5, 1, 0], b"\x80"), 0, 16, "16 before 18");
    STRINGS.expect_refused(&column([5, 2, 1], b"\x80"), 0, 17, "17 before 18");
    STRINGS.expect_refused(&column([5, 1, 1], b"\x80"), 0, 18, "18 before 25");
    STRINGS.expect_refused(&column([5, 1, 1], b"A"), 0, 25, "25 last");
    let table: &[(Vec<u8>, u8, &str)] = &[
        (wide([9, 1, 0], &[16_777_217, 1]), 16, "16 before 27"),
        (wide([9, 1, i32::MAX], &[1]), 17, "17 before 27"),
        (wide([9, 1, 1], &[16_777_217, 0]), 18, "18 before 27"),
        (wide([9, 2, 1], &[16_777_217, 1]), 19, "19 before 27"),
        (wide([9, 1, 1], &[16_777_217, 1]), 27, "27 before 25"),
        (
            wide([9, 1, 16_777_217], &[0, 1]),
            27,
            "27 by the divisor before 25",
        ),
        (wide([9, 1, 1], &[16_777_216, 1]), 25, "25 last"),
    ];
    for (column, number, case) in table {
        FLOAT32.expect_refused(column, 0, *number, case);
    }
}

/// The sums of counts that a 32-bit sum would take for the length.
#[test]
fn counts_add_exactly() {
    let counts = [i32::MAX, i32::MAX, 2 + 3];
    let runs: Vec<i32> = counts.iter().flat_map(|&count| [7, count]).collect();
    INT32.expect_refused(&wide([7, 3, 0], &runs), 3, 19, "2^32 + 3");
    CHARS.expect_refused(&wide([6, 3, 0], &runs), 3, 19, "2^32 + 3");
    INT32.expect_refused(&wide([7, 0, 0], &[7, i32::MAX]), 0, 19, "2^31 - 1");
    INT32.expect_refused(&wide([8, 16_777_216, 0], &[7, i32::MAX]), 0, 19, "2^31 - 1");
}

#[test]
fn exactness() {
    const EXACT: i32 = 16_777_216;
    let float32 = |column: &[u8], number: u8, case: &str| match number {
        0 => assert!(
            matches!(FLOAT32.agree(column, 9), Ok(Outcome::Done(_))),
            "{case}"
        ),
        n => FLOAT32.expect_refused(column, 9, n, case),
    };
    for (value, number) in [
        (EXACT, 0),
        (-EXACT, 0),
        (EXACT + 1, 27),
        (-EXACT - 1, 27),
        (i32::MIN, 27),
    ] {
        let run = wide([9, 3, 10], &[1, 2, value, 1]);
        float32(&run, number, &format!("{value}"));
        FIXED_POINT.expect(&run, &[1, 1, value], Some(10), "integers and divisor");
    }
    for codec in 9..=13 {
        float32(&column([codec, 0, EXACT], b""), 0, "an empty column");
        float32(&column([codec, 0, EXACT + 1], b""), 27, "an empty column");
        float32(&column([codec, 0, i32::MAX], b""), 27, "an empty column");
    }
    // Bits are kept, and an unused parameter is not read.
    let large = (3e38f32).to_bits();
    let bits = wide([1, 1, i32::MAX], &[large as i32]);
    FLOAT32.expect(&bits, &[large], None, "codec 1 is never 27");
    // Only results count: this sum passes the size and comes back.
    let mut numbers = vec![32767; 600];
    numbers.extend([-32768; 600]);
    numbers.push(0);
    float32(&narrow([12, 1, 1], &numbers), 0, "a sum that comes back");
    float32(&narrow([10, 1, 1], &numbers), 0, "a sum that comes back");
}

#[test]
fn refused_cells() {
    for index in [5, 6, 1 << 32, u64::MAX] {
        refused(&wide([8, 5, 0], &[2, 3, -1, 2]), index, 28);
    }
    // 27 by this cell alone, or by the divisor, and after 28.
    let one_large = wide([9, 2, 1], &[1, 1, 16_777_217, 1]);
    let first = Ok(Outcome::Done(Cell::Float32(1.0)));
    assert_eq!(agree_on_cell(&one_large, 0), first);
    refused(&one_large, 1, 27);
    refused(&one_large, 2, 28);
    refused(&wide([9, 1, i32::MAX], &[1, 1]), 0, 27);
    refused(&wide([9, 1, i32::MAX], &[1, 1]), 1, 28);
    // Names have no cells, after the column's own number.
    refused(&column([5, 1, 1], b"A"), 0, 15);
    refused(&column([5, 1, 1], b"A"), 9, 15);
    refused(&column([5, 1, 1], b""), 9, 17);
    refused(&column([5, 1, 1], b"\xff"), 9, 18);
    // The column's own number, wherever the cell stands.
    refused(&wide([7, 3, 0], &[1, 2]), 0, 19);
    refused(&wide([7, 2, 0], &[1, 2, 1, 0]), 0, 18);
    refused(&wide([9, 2, 0], &[1, 2]), 7, 16);
}

#[test]
fn encoder_order() {
    let int8 = |header, values: &[i32], room, number, case: &str| {
        TO_INT8.expect_refused(header, values, room, number, case);
    };
    int8([4, 0], &[128], 0, 15, "15 before 18");
    int8([2, 0], &[128], 0, 18, "18 before 25");
    int8([2, 0], &[-129], 99, 18, "-129");
    int8([16, 0], &[128], 99, 18, "128 in runs");
    int8([16, 0], &[1], 19, 25, "one byte too few");
    TO_INT16.expect_refused([3, 0], &[32768], 99, 18, "32768");
    TO_INT16.expect_refused([3, 0], &[-32769], 99, 18, "-32769");
    TO_FIXED_POINT.expect_refused([11, 0], &[32768], 99, 16, "16 before 18");
    TO_FIXED_POINT.expect_refused([11, 1], &[32768], 99, 18, "32768");
    TO_FIXED_POINT.expect_refused([1, 0], &[1], 99, 15, "15 before 16");
    TO_CHARS.expect_refused([6, 0], &[128], 99, 18, "128");
    TO_CHARS.expect_refused([5, 0], &[65], 99, 15, "codec 5 for chars");
    TO_STRINGS.expect_refused([6, 0], b"A", 99, 15, "15 before 16");
    TO_STRINGS.expect_refused([5, 2], b"\xff", 99, 16, "16 before 18");
    TO_STRINGS.expect_refused([5, 2], b"\xff\0", 0, 18, "18 before 25");
    TO_FLOAT32.expect_refused([9, 0], &[0], 99, 15, "codec 9 for bits");
    TO_FLOAT32.expect_refused([1, 0], &[0], 15, 25, "one byte too few");
    for room in 0..12 {
        TO_INT32.expect_refused([4, 0], &[], room, 25, "no room for a header");
    }
}
