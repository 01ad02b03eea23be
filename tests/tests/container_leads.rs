//! Every lead byte in every place, with its body whole and cut at each length.

use mmtf_tests::check::expect;

/// What a lead byte begins, by the list of lead bytes.
#[derive(Clone, Copy, PartialEq)]
enum Lead {
    Unknown,
    /// A scalar with so many bytes after the lead byte.
    Number(usize),
    /// A body whose length stands in so many bytes, or in the lead byte.
    String(usize),
    Binary(usize),
    Array(usize),
    Map(usize),
}
use Lead::*;

fn lead(byte: u8) -> Lead {
    match byte {
        0x00..=0x7f => Number(0),
        0x80..=0x8f => Map(0),
        0x90..=0x9f => Array(0),
        0xa0..=0xbf => String(0),
        0xc4 => Binary(1),
        0xc5 => Binary(2),
        0xc6 => Binary(4),
        0xca => Number(4),
        0xcc => Number(1),
        0xcd => Number(2),
        0xce => Number(4),
        0xd0 => Number(1),
        0xd1 => Number(2),
        0xd2 => Number(4),
        0xd9 => String(1),
        0xda => String(2),
        0xdb => String(4),
        0xdc => Array(2),
        0xdd => Array(4),
        0xde => Map(2),
        0xdf => Map(4),
        0xe0..=0xff => Number(0),
        _ => Unknown,
    }
}

/// A whole value with that lead byte, and the bytes after it of its head.
fn whole(byte: u8) -> Vec<u8> {
    let long = |size: usize, count: u8| {
        let mut head = vec![byte];
        head.extend(vec![0; size - 1]);
        head.push(count);
        head
    };
    match lead(byte) {
        Unknown => vec![byte],
        Number(size) => [vec![byte], vec![0x01; size]].concat(),
        String(0) => [vec![byte], vec![b's'; (byte & 0x1f) as usize]].concat(),
        Array(0) => [vec![byte], vec![0x05; (byte & 0x0f) as usize]].concat(),
        Map(0) => [vec![byte], entries(byte & 0x0f)].concat(),
        String(size) => [long(size, 3), b"str".to_vec()].concat(),
        Binary(size) => [long(size, 3), vec![0x80; 3]].concat(),
        Array(size) => [long(size, 3), vec![0xe5; 3]].concat(),
        Map(size) => [long(size, 3), entries(3)].concat(),
    }
}

fn entries(count: u8) -> Vec<u8> {
    (0..count).flat_map(|n| [0xa1, b'a' + n, n]).collect()
}

/// Runs the value in a place, and each beginning of it. `number` is given for
/// the whole file, `cut` for the value cut after its lead byte.
fn run(before: &[u8], value: &[u8], after: &[u8], number: u8, cut: u8) {
    let case = format!("lead {:02x} after {before:02x?}", value[0]);
    expect(&[before, value, after].concat(), number, &case);
    expect(before, 2, &format!("{case}: no byte there"));
    for n in 1..value.len() {
        let case = format!("{case}: {n} of {} bytes", value.len());
        expect(&[before, &value[..n]].concat(), cut, &case);
    }
}

#[test]
fn as_outer_value() {
    for byte in 0..=0xff {
        let number = match lead(byte) {
            Unknown => 3,
            Map(_) => 0,
            _ => 10,
        };
        let cut = if number == 0 { 2 } else { number };
        run(&[], &whole(byte), &[], number, cut);
    }
}

#[test]
fn as_value_of_an_entry() {
    for byte in 0..=0xff {
        let number = if lead(byte) == Unknown { 3 } else { 0 };
        run(&[0x81, 0xa1, b'v'], &whole(byte), &[], number, 2);
        run(
            &[0x82, 0xa1, b'v'],
            &whole(byte),
            &[0xa1, b'w', 0x00],
            number,
            2,
        );
    }
}

#[test]
fn as_element() {
    for byte in 0..=0xff {
        let number = if lead(byte) == Unknown { 3 } else { 0 };
        let value = whole(byte);
        run(&[0x81, 0xa1, b'v', 0x91], &value, &[], number, 2);
        run(&[0x81, 0xa1, b'v', 0x93, 0x07], &value, &[0x08], number, 2);
    }
}

#[test]
fn as_key() {
    for byte in 0..=0xff {
        let number = match lead(byte) {
            Unknown => 3,
            String(_) => 0,
            _ => 8,
        };
        let cut = if number == 0 { 2 } else { number };
        let value = whole(byte);
        run(&[0x81], &value, &[0x00], number, cut);
        run(&[0x81, 0xa1, b'v', 0x81], &value, &[0x00], number, cut);
        run(&[0x82, 0xa1, b'v', 0x00], &value, &[0x00], number, cut);
    }
}

/// At level 13 an array or map is refused by its lead byte alone.
#[test]
fn at_level_13() {
    let before = [&[0x81, 0xa1, b'v'][..], &[0x91; 11]].concat();
    for byte in 0..=0xff {
        let (number, cut) = match lead(byte) {
            Unknown => (3, 3),
            Array(_) | Map(_) => (6, 6),
            _ => (0, 2),
        };
        run(&before, &whole(byte), &[], number, cut);
    }
}

/// Of all 32-bit forms only the unsigned integer has a limit.
#[test]
fn unsigned_limit() {
    let numbers = [
        0,
        1,
        0x7fff_fffe,
        0x7fff_ffff,
        0x8000_0000,
        0x8000_0001,
        0xffff_ffffu32,
    ];
    for number in numbers {
        for lead in [0xca, 0xce, 0xd2] {
            let file = [&[0x81, 0xa1, b'v', lead], &number.to_be_bytes()[..]].concat();
            let refused = lead == 0xce && number > 2_147_483_647;
            expect(&file, if refused { 4 } else { 0 }, "32-bit number");
        }
    }
}
