//! Files around the limit of 67,108,864 bytes.

use mmtf_tests::check::{agree_on_view, expect_view};
use mmtf_tests::library::View;
use mmtf_tests::{independent, library};

const LIMIT: usize = 67_108_864;

/// Both give the number; the views are asked apart, since each walks the file.
fn expect(file: &[u8], number: u8) {
    let file: Box<[u8]> = file.into();
    assert_eq!(independent::container(&file), number);
    assert_eq!(library::container(&file), number);
    agree_on_view(&file, b"v").unwrap();
}

/// A file of that many bytes whose one value has a four-byte length.
fn file(lead: u8, size: usize, fill: u8) -> Vec<u8> {
    let mut file = vec![0x81, 0xa1, b'v', lead];
    file.extend((size as u32 - 8).to_be_bytes());
    file.resize(size, fill);
    file
}

#[test]
fn at_the_limit() {
    expect(&file(0xc6, LIMIT - 1, 0xff), 0);
    expect(&file(0xc6, LIMIT, 0xff), 0);
    expect(&file(0xdb, LIMIT, b'a'), 0);
    expect(&file(0xdd, LIMIT, 0x05), 0);
    expect(&file(0xdb, LIMIT, 0x80), 5);
    let part = View::Part {
        start: 8,
        length: LIMIT as u64 - 8,
    };
    expect_view(&file(0xc6, LIMIT, 0xff), b"v", part, "the whole body");
}

#[test]
fn one_byte_more() {
    expect(&file(0xc6, LIMIT + 1, 0xff), 1);
    expect(&file(0xdb, LIMIT + 1, 0x80), 1);
    // Before every other number.
    expect(&vec![0xc0; LIMIT + 1], 1);
    expect(&vec![0x80; LIMIT + 1], 1);
    expect(&vec![0x90; LIMIT + 1], 1);
    // Within the limit, their own numbers.
    expect(&vec![0xc0; LIMIT], 3);
    expect(&vec![0x80; LIMIT], 11);
    expect(&vec![0x90; LIMIT], 10);
}

#[test]
fn views_of_a_file_over_the_limit() {
    let file = file(0xc6, LIMIT + 1, 0);
    for name in [&b"v"[..], b"", b"w", b"\xff"] {
        expect_view(&file, name, View::Refused(1), "over the limit");
    }
}
