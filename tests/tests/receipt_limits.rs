//! Receipts at the limits: counts of every number of digits, the longest receipt
//! and the room that the header names for it, files of 67,108,864 bytes and more.

use mmtf_tests::check::made::column;
use mmtf_tests::check::receipts::*;
use mmtf_tests::check::sample::*;
use mmtf_tests::generate::files::Value::{self, Binary, Integer, Written};
use mmtf_tests::independent::receipt::text;
use mmtf_tests::independent::FILE_LIMIT;

const LIMIT: i32 = 16_777_216;

/// Numbers of one digit to eight, at the ends of each.
#[test]
fn digits_of_counts() {
    let mut numbers = vec![0, 12_345_678, LIMIT - 1, LIMIT];
    let mut power = 1;
    while power <= 10_000_000 {
        numbers.extend([power - 1, power, power + 1, 7 * (power / 10)]);
        power *= 10;
    }
    for number in numbers {
        let bonded = group(1, Some(&[0, 0]), None);
        let file = uniform(bonded, number, number, number).bytes();
        let receipt = format!(
            "station=7\njob=12\nverdict=0\nmodels=1\nchains=1\ngroups={number}\n\
             atoms={number}\nbonds={number}\nfields=16\nunits=1\n"
        );
        expect_written([7, 12], &file, &receipt, &number.to_string());
    }
}

/// An array of so many integers, all 0 but the last.
fn last_of(count: usize, last: i32) -> Value {
    let mut bytes = vec![0xdd];
    bytes.extend((count as u32).to_be_bytes());
    bytes.resize(5 + count - 1, 0);
    bytes.extend(Integer(last).bytes());
    Written(bytes)
}

/// One file of 60 million bytes has eight digits in each of its counts: as many
/// models and chains as that takes, and of the rest as many as there may be.
/// With the largest station and job its receipt has 128 bytes.
#[test]
fn the_longest() {
    const MANY: usize = 10_000_000;
    let bonded = group(1, Some(&[0, 0]), None);
    let file = uniform(bonded, LIMIT, LIMIT, LIMIT)
        .with("numModels", Integer(MANY as i32))
        .with("numChains", Integer(MANY as i32))
        .with(
            "chainIdList",
            Binary(column([5, MANY as i32, 4], &vec![b'A'; 4 * MANY])),
        )
        .with("groupsPerChain", last_of(MANY, LIMIT))
        .with("chainsPerModel", last_of(MANY, MANY as i32))
        .bytes();
    let receipt = "station=99\njob=999999\nverdict=0\nmodels=10000000\nchains=10000000\n\
                   groups=16777216\natoms=16777216\nbonds=16777216\nfields=16\nunits=1\n";
    assert_eq!(receipt.len(), LONGEST);
    expect_written([99, 999_999], &file, receipt, "eight digits each");
    expect_not_written([99, 999_999], &file, LONGEST - 1, 25, "one byte less");
}

/// No receipt that is read has more bytes: with a digit more in any line it is
/// none.
#[test]
fn none_is_longer() {
    let most = [
        99,
        999_999,
        0,
        1 << 24,
        1 << 24,
        1 << 24,
        1 << 24,
        1 << 24,
        39,
        1,
    ];
    let longest = text(&most);
    assert_eq!(longest.len(), LONGEST);
    expect_read(&longest, most, "the longest");
    for (place, _) in longest.match_indices('\n') {
        for digit in '0'..='9' {
            let mut longer = longest.clone();
            longer.insert(place, digit);
            expect_not_read(longer.as_bytes(), &longer);
        }
    }
}

/// The room that the header names is that of the longest.
#[test]
fn room_of_the_header() {
    let header = include_str!("../../include/mmtf.h");
    let room = header
        .lines()
        .find_map(|line| line.strip_prefix("#define MMTF_RECEIPT_ROOM "));
    assert_eq!(room, Some(LONGEST.to_string().as_str()));
}

/// A file at the limit is accepted, one byte more is verdict 1.
#[test]
fn bytes_of_a_file() {
    let accepted = "station=7\njob=12\nverdict=0\nmodels=1\nchains=2\ngroups=3\n\
                    atoms=7\nbonds=5\nfields=39\nunits=1\n";
    expect_written([7, 12], &of_size(FILE_LIMIT), accepted, "at the limit");
    let over = "station=7\njob=12\nverdict=1\nmodels=0\nchains=0\ngroups=0\n\
                atoms=0\nbonds=0\nfields=0\nunits=0\n";
    expect_written([7, 12], &of_size(FILE_LIMIT + 1), over, "one byte more");
    expect_written([7, 12], &vec![0x80; 5 * FILE_LIMIT], over, "five times");
    expect_not_written([7, 12], &vec![0; FILE_LIMIT + 1], 10, 25, "no room");
    expect_not_written([7, 0], &vec![0; FILE_LIMIT + 1], 10, 29, "no job");
}
