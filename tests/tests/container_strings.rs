//! UTF-8 in keys and values: every boundary scalar and every fault.

use mmtf_tests::check::expect;
use mmtf_tests::generate::{Form, FAULTY, SCALARS};

/// Runs a string's body as value and as key, in every form of head.
fn run(body: &[u8], number: u8) {
    let case = format!("string {body:02x?}");
    for head in Form::String.heads(body.len()) {
        let string = [&head, body].concat();
        expect(&[&[0x81, 0xa1, b'v'], &string[..]].concat(), number, &case);
        expect(&[&[0x81], &string[..], &[0x00]].concat(), number, &case);
        let inner = [&[0x81, 0xa1, b'v', 0x91, 0x81], &string[..], &[0x00]].concat();
        expect(&inner, number, &case);
        // A continuation byte after the string does not belong to it.
        let after = [&[0x81, 0xa1, b'v'], &string[..], &[0x80]].concat();
        expect(&after, if number == 0 { 11 } else { number }, &case);
    }
}

/// The sequence alone, and with text on either side.
fn around(sequence: &[u8], number: u8) {
    let sides = [
        "",
        "a",
        "abcdefg",
        "abcdefghijklmnopqrstuvwxyz0123456789",
        "é",
        "€",
        "𐍈",
    ];
    for before in sides {
        for after in sides {
            run(
                &[before.as_bytes(), sequence, after.as_bytes()].concat(),
                number,
            );
        }
    }
}

#[test]
fn boundary_scalars() {
    for sequence in SCALARS {
        around(sequence, 0);
    }
}

#[test]
fn faults() {
    for sequence in FAULTY {
        around(sequence, 5);
    }
}

#[test]
fn a_fault_at_each_place_of_a_long_text() {
    for length in [8, 16, 31, 32, 33, 64, 100] {
        let text = vec![b'a'; length];
        run(&text, 0);
        for place in 0..length {
            let mut faulty = text.clone();
            faulty[place] = 0x80;
            let file = [&[0x81, 0xa1, b'v'], &string(&faulty)[..]].concat();
            expect(&file, 5, "a stray continuation byte");
        }
    }
}

fn string(body: &[u8]) -> Vec<u8> {
    [&Form::String.heads(body.len())[0], body].concat()
}

/// Surrogates, by the second byte after ed.
#[test]
fn surrogates() {
    for second in 0x80..=0xbf {
        for third in [0x80, 0x81, 0xbe, 0xbf] {
            let number = if second >= 0xa0 { 5 } else { 0 };
            run(&[0xed, second, third], number);
        }
    }
}

/// The largest scalar, by the second byte after f4.
#[test]
fn above_the_last_scalar() {
    for second in 0x80..=0xbf {
        let number = if second >= 0x90 { 5 } else { 0 };
        run(&[0xf4, second, 0xbf, 0xbf], number);
    }
}

/// A binary's body is not judged.
#[test]
fn binaries_are_free() {
    for sequence in FAULTY {
        for head in Form::Binary.heads(sequence.len()) {
            let file = [&[0x81, 0xa1, b'v'], &head[..], sequence].concat();
            expect(&file, 0, "a binary");
        }
    }
}

/// Every string of two bytes.
#[test]
fn every_pair_of_bytes() {
    for pair in 0..=0xffffu16 {
        let [a, b] = pair.to_be_bytes();
        let valid = matches!(
            (a, b),
            (0x00..=0x7f, 0x00..=0x7f) | (0xc2..=0xdf, 0x80..=0xbf)
        );
        let file = [0x81, 0xa1, b'v', 0xa2, a, b];
        expect(&file, if valid { 0 } else { 5 }, "two bytes");
    }
}
