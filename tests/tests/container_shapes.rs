//! Nesting around level 12, and maps around 256 entries and with keys that are
//! alike.

use mmtf_tests::check::expect;
use mmtf_tests::generate::{nested, Container, Form};

/// Every mixture of arrays and maps of some levels: all arrays, all maps, by
/// turns, and one of the other kind at each place.
fn mixtures(levels: usize) -> Vec<Vec<Container>> {
    use Container::{Array, Map};
    let turns = |odd| (0..levels).map(move |n| if n % 2 == odd { Array } else { Map });
    let mut mixtures = vec![
        vec![Array; levels],
        vec![Map; levels],
        turns(0).collect(),
        turns(1).collect(),
    ];
    for place in 0..levels {
        for (most, one) in [(Array, Map), (Map, Array)] {
            let mut mixture = vec![most; levels];
            mixture[place] = one;
            mixtures.push(mixture);
        }
    }
    mixtures
}

#[test]
fn levels() {
    for levels in 1..=20 {
        // The outer map is the first level.
        for inner in mixtures(levels - 1) {
            let case = format!("{levels} levels: {inner:?}");
            let number = if levels > 12 { 6 } else { 0 };
            expect(&nested(&inner, &[0x00]), number, &case);
            expect(&nested(&inner, &[0xa1, b'x']), number, &case);
            let empty = if levels + 1 > 12 { 6 } else { 0 };
            for container in [0x80, 0x90] {
                expect(&nested(&inner, &[container]), empty, &case);
            }
        }
    }
}

#[test]
fn cut_heads_around_the_limit() {
    for inner in mixtures(10) {
        // Level 12: the head is read, and is cut.
        for head in [&[0xdc][..], &[0xdd, 0, 0, 0], &[0xde, 0], &[0xdf, 0, 0, 0]] {
            expect(&nested(&inner, head), 2, "head cut at level 12");
        }
    }
    for inner in mixtures(11) {
        // Level 13: refused before the head is read.
        for head in [&[0xdc][..], &[0xdd, 0, 0, 0], &[0xde, 0], &[0xdf, 0, 0, 0]] {
            expect(&nested(&inner, head), 6, "head cut at level 13");
        }
        for head in [&[0xde, 0x01, 0x01][..], &[0xdf, 0xff, 0xff, 0xff, 0xff]] {
            expect(&nested(&inner, head), 6, "many entries at level 13");
        }
    }
}

#[test]
fn levels_fall_again() {
    // Two branches of 12 levels, then one of 13 at the end.
    let branch = [&[0x91; 9][..], &[0x90]].concat();
    let deeper = [&[0x91; 10][..], &[0x90]].concat();
    let outer = [0x81, 0xa1, b'v', 0x93];
    let whole = [&outer[..], &branch, &branch, &branch].concat();
    expect(&whole, 0, "three branches of 12 levels");
    let deep = [&outer[..], &branch, &branch, &deeper].concat();
    expect(&deep, 6, "the third branch has 13 levels");
}

/// A map with a head in a given form and so many entries with different keys.
fn map(head: &[u8], entries: usize, long: bool) -> Vec<u8> {
    let mut out = head.to_vec();
    for entry in 0..entries {
        let key = match long {
            true => format!("{}{entry:04}", "long key ".repeat(4)),
            false => format!("{entry:x}"),
        };
        out.extend(&Form::String.heads(key.len())[0]);
        out.extend(key.bytes());
        out.push(entry as u8 & 0x7f);
    }
    out
}

#[test]
fn entries() {
    for count in [0, 1, 14, 15, 16, 17, 254, 255, 256, 257, 258, 512, 65_535] {
        let number = if count > 256 { 7 } else { 0 };
        let written = count.min(300);
        for head in Form::Map.heads(count) {
            for long in [false, true] {
                let map = map(&head, written, long);
                let case = format!("{count} entries, head {head:02x?}");
                expect(&map, number, &case);
                let inner = [&[0x81, 0xa1, b'v'], &map[..]].concat();
                expect(&inner, number, &case);
                let nested = [&[0x81, 0xa1, b'v', 0x92, 0x01], &map[..]].concat();
                expect(&nested, number, &case);
            }
        }
    }
}

#[test]
fn fewer_entries_than_counted() {
    for count in [15, 16, 255, 256] {
        for head in Form::Map.heads(count) {
            expect(&map(&head, count - 1, false), 2, "one entry is missing");
            expect(&map(&head, count + 1, false), 11, "one entry too many");
        }
    }
    for head in Form::Map.heads(257) {
        expect(&head, 7, "no entry at all");
    }
}

/// The last of 256 keys repeats one of the others.
#[test]
fn repeated_among_many() {
    for repeated in [0, 1, 100, 127, 128, 253, 254] {
        for head in Form::Map.heads(256) {
            for long in [false, true] {
                let mut file = map(&head, 255, long);
                let others = map(&[], repeated + 1, long).len() - map(&[], repeated, long).len();
                let start = head.len() + map(&[], repeated, long).len();
                file.extend(file[start..start + others].to_vec());
                expect(&file, 9, &format!("key {repeated} again"));
            }
        }
    }
}

/// Two keys that are equal, in every two forms of heads.
#[test]
fn repeated_in_every_form() {
    let texts = ["", "a", "é", "numAtoms", &"x".repeat(31), &"x".repeat(32)];
    let long = ["y".repeat(255), "y".repeat(256)];
    for key in texts.into_iter().chain(long.iter().map(|l| &l[..])) {
        let heads = Form::String.heads(key.len());
        for first in &heads {
            for second in &heads {
                let two = |other: &str| {
                    let first = [first, key.as_bytes(), &[0x01]].concat();
                    let other = [second, other.as_bytes(), &[0x02]].concat();
                    [&[0x82], &first[..], &other].concat()
                };
                let case = format!("{key:?}: {first:02x?} and {second:02x?}");
                expect(&two(key), 9, &case);
                let inner = [&[0x81, 0xa1, b'v'], &two(key)[..]].concat();
                expect(&inner, 9, &case);
            }
        }
    }
}

/// Two keys that differ in one byte, at every place.
#[test]
fn alike_but_different() {
    for length in [1, 2, 7, 8, 9, 15, 16, 17, 31, 32, 33, 64, 200] {
        let key = vec![b'k'; length];
        for place in 0..length {
            let mut other = key.clone();
            other[place] ^= 1;
            expect(&two_keys(&key, &other), 0, "one byte differs");
        }
        let longer = [&key[..], &[0]].concat();
        expect(&two_keys(&key, &longer), 0, "one is longer");
        expect(&two_keys(&longer, &key), 0, "one is shorter");
        expect(&two_keys(&key, &key), 9, "equal");
    }
}

fn two_keys(first: &[u8], second: &[u8]) -> Vec<u8> {
    let mut out = vec![0x82];
    for key in [first, second] {
        out.extend(&Form::String.heads(key.len())[0]);
        out.extend(key);
        out.push(0x00);
    }
    out
}

/// A key may return after the map that had it is closed.
#[test]
fn keys_of_other_maps_are_free() {
    // {"a": {"a": 0, "b": 0}, "b": {"a": 0}}
    let file = b"\x82\xa1a\x82\xa1a\x00\xa1b\x00\xa1b\x81\xa1a\x00";
    expect(file, 0, "inner maps use the outer keys");
    // {"a": {"b": 0}, "a": 0}
    let file = b"\x82\xa1a\x81\xa1b\x00\xa1a\x00";
    expect(file, 9, "the outer key again, after an inner map");
    // {"a": [{"c": 0}, {"c": 0}], "c": 0}
    let file = b"\x82\xa1a\x92\x81\xa1c\x00\x81\xa1c\x00\xa1c\x00";
    expect(file, 0, "keys of maps in an array");
}
