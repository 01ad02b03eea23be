//! Bills at the limits: runs of 67,108,864 bytes, one byte less and one more;
//! counts of every number of digits; the room that the header names.

use mmtf_tests::check::bills::*;
use mmtf_tests::check::words::defined;
use mmtf_tests::generate::bills::{every_station, filling, longest, Run};
use mmtf_tests::generate::Rng;
use mmtf_tests::independent::bill::RUN_LIMIT;
use mmtf_tests::independent::receipt::text;

const LIMIT: usize = 67_108_864;

/// A large run has this bill, with just room for it.
#[track_caller]
fn expect_large(run: &[u8], bill: &str, case: &str) {
    assert!(run.len() <= LIMIT, "{case}: {} bytes", run.len());
    expect_bill_in(run, bill.len(), bill, case);
}

/// Refused with this number, whether there is room or not.
#[track_caller]
fn expect_refused(run: &[u8], number: u8, case: &str) {
    for room in [0, LONGEST] {
        expect_no_bill(run, room, number, case);
    }
}

#[test]
fn limit() {
    assert_eq!(RUN_LIMIT, LIMIT);
}

/// One byte less than there may be: a run, and with a line feed behind it none.
#[test]
fn one_byte_less() {
    let mut run = filling(&mut Rng::new(63), LIMIT - 1, &every_station());
    expect_large(&run.bytes, &run.bill(), "a run");
    run.bytes.push(b'\n');
    expect_refused(&run.bytes, 29, "a line feed behind it");
}

/// As many bytes as there may be: a run, and then with faults at its end.
#[test]
fn at_the_limit() {
    let mut run = filling(&mut Rng::new(64), LIMIT, &every_station());
    let bill = run.bill();
    expect_bill(&run.bytes, &bill, "a run");
    expect_no_bill(&run.bytes, bill.len() - 1, 25, "one byte too small");
    run.bytes[LIMIT - 1] = b' ';
    expect_refused(&run.bytes, 29, "another last byte");
    end_without_rising(&mut run);
    expect_refused(&run.bytes, 30, "the last job is one of before");
}

/// The last receipt has an earlier job of its station, of as many digits.
fn end_without_rising(run: &mut Run) {
    let mut last = run.receipts[run.receipts.len() - 1];
    run.bytes.truncate(LIMIT - text(&last).len());
    last[1] = 10_u32.pow(last[1].ilog10());
    run.bytes.extend(text(&last).bytes());
    assert_eq!(run.bytes.len(), LIMIT);
}

/// 524,288 receipts of 128 bytes, the longest, are just as many bytes as there
/// may be.
#[test]
fn longest_receipts() {
    let run = longest(LIMIT / 128);
    assert_eq!(run.bytes.len(), LIMIT);
    expect_large(&run.bytes, &run.bill(), "the longest receipts");
}

/// One byte more is 1 before all: a run, and a run with faults, which are met
/// where there is a byte less.
#[test]
fn one_byte_more() {
    let mut run = filling(&mut Rng::new(65), LIMIT + 1, &every_station());
    expect_refused(&run.bytes, 1, "a run");
    let second = text(&run.receipts[0]).len() + "station=".len();
    assert_eq!(run.bytes[second..second + 2], *b"2\n");
    run.bytes[second] = b'1';
    expect_refused(&run.bytes, 1, "the first two receipts are of one job");
    expect_refused(&run.bytes[..LIMIT], 30, "the same without the last byte");
    run.bytes[0] = b'S';
    expect_refused(&run.bytes, 1, "the first is no receipt");
    expect_refused(&run.bytes[..LIMIT], 29, "the same without the last byte");
}

/// Bytes that are no receipts: 29 at the limit, and 1 past it.
#[test]
fn other_bytes() {
    let zeros = vec![0; 5 * LIMIT];
    let line_feeds = vec![b'\n'; LIMIT + 1];
    let mut digits = vec![b'1'; LIMIT + 1];
    digits[..8].copy_from_slice(b"station=");
    for bytes in [&zeros[..], &line_feeds, &digits] {
        expect_refused(&bytes[..LIMIT], 29, "at the limit");
        expect_refused(&bytes[..LIMIT + 1], 1, "one byte more");
        expect_refused(bytes, 1, "all of them");
    }
}

/// A run in which station n has the n-th of these numbers of accepted jobs, and
/// of refused ones. Its receipts are as short as can be.
fn run_of(counts: &[[u32; 2]]) -> Vec<u8> {
    let mut run = String::new();
    for (station, [accepted, refused]) in (1..).zip(counts) {
        for job in 1..=accepted + refused {
            run += &text(&match job <= *accepted {
                true => [station, job, 0, 0, 0, 0, 0, 0, 16, 1],
                false => [station, job, 1, 0, 0, 0, 0, 0, 0, 0],
            });
        }
    }
    run.into_bytes()
}

/// The lines of these counts, without the total.
fn lines_of(counts: &[[u32; 2]]) -> String {
    let line = |(station, [accepted, refused]): (usize, &[u32; 2])| {
        format!("station={station}\naccepted={accepted}\nrefused={refused}\n")
    };
    (1..).zip(counts).map(line).collect()
}

#[test]
fn digits_of_counts() {
    let counts = [
        [1, 0],
        [9, 10_000],
        [10, 9_999],
        [99, 1_000],
        [100, 999],
        [999, 100],
        [1_000, 99],
        [9_999, 10],
        [10_000, 9],
        [99_999, 1],
        [100_000, 0],
    ];
    let bill = lines_of(&counts) + "total=222216\n";
    expect_large(&run_of(&counts), &bill, "one digit to six");
}

/// The most receipts that a run can have: they are those of one station, of 86 to
/// 91 bytes with jobs of one to six digits.
///
/// 9 of 86 bytes, 90 of 87, 900 of 88, 9,000 of 89 and 90,000 of 90 leave
/// 58,120,060 bytes for 638,681 of 91.
#[test]
fn most_receipts() {
    let run = run_of(&[[0, 738_680]]);
    assert!(LIMIT < run.len() + 91, "{}", run.len());
    let bill = "station=1\naccepted=0\nrefused=738680\ntotal=0\n";
    expect_large(&run, bill, "the most receipts");
}

/// A bill nearly as long as one can be: each station has accepted jobs of four or
/// five digits, and refused ones too, as many of five as the limit of a run lets
/// there be. It has the room that the header names, which is that of eight digits
/// for every count.
#[test]
fn long_bill() {
    let mut counts = [[1_000, 1_000]; 99];
    counts[..28].fill([10_000, 10_000]);
    let bill = lines_of(&counts) + "total=351000\n";
    assert_eq!(bill.len(), 3_822);
    expect_large(&run_of(&counts), &bill, "four and five digits");
    let most = "station=99\naccepted=16777216\nrefused=16777216\n".len();
    assert_eq!(LONGEST, 99 * most + "total=999999\n".len());
    assert_eq!(defined("MMTF_BILL_ROOM"), Some(LONGEST as u64));
}
