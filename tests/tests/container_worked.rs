//! Cases with the number that the rules give, written down by hand: the worked
//! lines, and pairs of faults that show the order of the tests at one value.

use mmtf_tests::check::{expect, expect_view};
use mmtf_tests::library::View;

/// The bytes of a text of hexadecimal pairs.
fn bytes(hex: &str) -> Vec<u8> {
    hex.split_whitespace()
        .map(|pair| u8::from_str_radix(pair, 16).expect("a pair of digits"))
        .collect()
}

fn run(table: &[(&str, u8)]) {
    for (hex, number) in table {
        expect(&bytes(hex), *number, hex);
    }
}

#[test]
fn worked_lines() {
    run(&[
        ("", 2),
        ("80", 0),
        ("c0", 3),
        ("90", 10),
        ("80 80", 11),
        ("82 a1 61 00 a1 61 00", 9),
        ("81 a1 61 ce 80 00 00 00", 4),
        ("81 a1 61 ce 7f ff ff ff", 0),
        // 12 levels, then 13.
        ("81 a1 61 91 91 91 91 91 91 91 91 91 91 90", 0),
        ("81 a1 61 91 91 91 91 91 91 91 91 91 91 91 90", 6),
        ("81 a1 61 91 91 91 91 91 91 91 91 91 91 91 00", 0),
    ]);
}

#[test]
fn accepted() {
    run(&[
        ("81 a0 00", 0),
        ("81 a1 61 a0", 0),
        ("81 a1 61 c4 00", 0),
        ("81 a1 61 c5 00 00", 0),
        ("81 a1 61 c6 00 00 00 00", 0),
        ("81 a1 61 c6 00 00 00 01 ff", 0),
        ("81 a1 61 ca 7f c0 00 01", 0),
        ("81 a1 61 d2 80 00 00 00", 0),
        ("81 a1 61 d2 ff ff ff ff", 0),
        ("81 a1 61 cc ff", 0),
        ("81 a1 61 cd ff ff", 0),
        ("81 a1 61 d0 80", 0),
        ("81 a1 61 d1 80 00", 0),
        ("81 a1 61 e0", 0),
        ("81 a1 61 ff", 0),
        ("81 a1 61 dc 00 00", 0),
        ("81 a1 61 dd 00 00 00 00", 0),
        ("81 a1 61 de 00 00", 0),
        ("81 a1 61 df 00 00 00 00", 0),
        ("de 00 00", 0),
        ("df 00 00 00 00", 0),
        ("de 00 01 d9 01 61 00", 0),
        ("df 00 00 00 01 db 00 00 00 01 61 da 00 01 62", 0),
        // Equal keys in different maps, and a key as another's value.
        ("82 a1 61 81 a1 61 00 a1 62 81 a1 61 00", 0),
        ("82 a1 61 a1 62 a1 62 a1 61", 0),
        ("81 a1 61 92 81 a1 61 00 81 a1 61 00", 0),
    ]);
}

#[test]
fn cut_short() {
    run(&[
        ("81", 2),
        ("81 a1", 2),
        ("81 a1 61", 2),
        ("8f a1 61 00", 2),
        ("82 a1 61 00 a1 62", 2),
        ("de", 2),
        ("de 00", 2),
        ("de 01", 2),
        ("df 00 00 00", 2),
        ("df ff ff ff", 2),
        ("de 00 01", 2),
        ("81 d9", 2),
        ("81 d9 01", 2),
        ("81 da 00", 2),
        ("81 da 00 01", 2),
        ("81 db 00 00 00", 2),
        ("81 db ff ff ff ff", 2),
        ("81 db 80 00 00 00 61", 2),
        ("81 a1 61 c4", 2),
        ("81 a1 61 c4 01", 2),
        ("81 a1 61 c6 ff ff ff ff 00", 2),
        ("81 a1 61 db ff ff ff ff 00", 2),
        ("81 a1 61 ca 00 00 00", 2),
        ("81 a1 61 ce 80 00 00", 2),
        ("81 a1 61 91", 2),
        ("81 a1 61 dc 00", 2),
        ("81 a1 61 dc 00 01", 2),
        // A count too large for what is left is refused where the bytes end.
        ("81 a1 61 dd ff ff ff ff", 2),
        ("81 a1 61 dd ff ff ff ff 00 00 00", 2),
        ("81 a1 61 dc ff ff 00 90", 2),
    ]);
}

#[test]
fn count_larger_than_the_rest_is_walked() {
    run(&[
        ("81 a1 61 dd ff ff ff ff c0", 3),
        ("81 a1 61 dd ff ff ff ff 00 ce ff ff ff ff", 4),
        ("81 a1 61 dc ff ff a1 80", 5),
        ("81 a1 61 9f 81 00", 8),
        ("8f a1 61 00 a1 61", 9),
        ("81 a1 61 9f de 01 01", 7),
    ]);
}

#[test]
fn order_at_the_outer_value() {
    run(&[
        // 3 before 10.
        ("c1", 3),
        ("cb 00", 3),
        ("d3", 3),
        // 10 before a cut head, before 4, before a cut body, before 5.
        ("dc", 10),
        ("dd ff", 10),
        ("ca", 10),
        ("ce", 10),
        ("ce 80 00 00 00", 10),
        ("d9", 10),
        ("c4 05", 10),
        ("a5 61", 10),
        ("a1 80", 10),
        ("00", 10),
        ("ff", 10),
        // 10 before 11.
        ("00 00", 10),
        ("90 c0", 10),
        // 7 at the head, before its entries; 2 if the head is cut.
        ("de 01 01", 7),
        ("de ff ff c0", 7),
        ("df 00 00 01 01 00", 7),
        ("df 00 01 00 00", 7),
        ("df 01 00 00 00", 7),
        ("df 00 01 00 01 a1 61 00", 7),
        ("df 80 00 00 00", 7),
        // 11 last of all.
        ("80 c0", 11),
        ("80 00", 11),
        ("81 a1 61 00 c0", 11),
        ("81 c0 00 00 00", 3),
    ]);
}

#[test]
fn order_at_a_key() {
    run(&[
        // 3 before 8.
        ("81 c0", 3),
        ("81 cb", 3),
        ("81 d8 00", 3),
        // 8 before a cut head, before 4, before 7, before a cut body.
        ("81 00", 8),
        ("81 dc", 8),
        ("81 ce", 8),
        ("81 ce 80 00 00 00", 8),
        ("81 de 01 01", 8),
        ("81 c4", 8),
        ("81 c4 05", 8),
        ("81 80", 8),
        ("81 ff", 8),
        // 8 before 6: a map at level 12 with an array for a key.
        ("81 a1 61 91 91 91 91 91 91 91 91 91 91 81 90", 8),
        // A cut body before 5, 5 before what follows.
        ("81 a2 80", 2),
        ("81 d9 02 c0", 2),
        ("81 a1 80", 5),
        ("81 a1 80 c0", 5),
        // 9 at the second key, before its value.
        ("82 a1 61 00 a1 61", 9),
        ("82 a1 61 00 a1 61 c0", 9),
        ("82 a1 61 00 d9 01 61 00", 9),
        ("82 a1 61 00 da 00 01 61 00", 9),
        ("82 a1 61 00 db 00 00 00 01 61 00", 9),
        ("82 db 00 00 00 01 61 00 a1 61 00", 9),
        ("82 a0 00 a0 00", 9),
        ("82 a0 00 d9 00 00", 9),
        ("82 d9 00 00 da 00 00 00", 9),
        // 5 before 9: the second key's bytes are not the first's.
        ("82 a1 61 00 a1 e1", 5),
        // A cut body before 9.
        ("82 a2 61 61 00 a2 61", 2),
        // The first fault met counts.
        ("83 a1 61 00 a1 61 00 c0", 9),
        ("83 a1 61 00 c0 a1 61 00", 3),
        ("82 a1 61 c0 a1 61 00", 3),
    ]);
}

#[test]
fn order_at_a_value() {
    run(&[
        ("81 a1 61", 2),
        ("81 a1 61 c0", 3),
        // 3 before 6, at level 13.
        ("81 a1 61 91 91 91 91 91 91 91 91 91 91 91 c0", 3),
        // 6 before a cut head and before 7.
        ("81 a1 61 91 91 91 91 91 91 91 91 91 91 91 dc", 6),
        ("81 a1 61 91 91 91 91 91 91 91 91 91 91 91 dd 00", 6),
        ("81 a1 61 91 91 91 91 91 91 91 91 91 91 91 de", 6),
        ("81 a1 61 91 91 91 91 91 91 91 91 91 91 91 df", 6),
        ("81 a1 61 91 91 91 91 91 91 91 91 91 91 91 de 01 01", 6),
        ("81 a1 61 91 91 91 91 91 91 91 91 91 91 91 80", 6),
        ("81 a1 61 91 91 91 91 91 91 91 91 91 91 91", 2),
        // Scalars inside level 12.
        ("81 a1 61 91 91 91 91 91 91 91 91 91 91 91 a1 62", 0),
        ("81 a1 61 91 91 91 91 91 91 91 91 91 91 91 c4 01 ff", 0),
        ("81 a1 61 91 91 91 91 91 91 91 91 91 91 81 a0 00", 0),
        ("81 a1 61 91 91 91 91 91 91 91 91 91 91 81 a0 90", 6),
        ("81 a1 61 91 91 91 91 91 91 91 91 91 91 de 01 01", 7),
        // A cut head before 4 and before 7.
        ("81 a1 61 ce ff ff ff", 2),
        ("81 a1 61 df ff ff ff", 2),
        ("81 a1 61 de 01", 2),
        // 7 before its entries.
        ("81 a1 61 de 01 01", 7),
        ("81 a1 61 de 01 01 c0", 7),
        ("81 a1 61 df 00 00 01 01", 7),
        // A cut body before 5.
        ("81 a1 61 a2 80", 2),
        ("81 a1 61 a2 c3", 2),
        ("81 a1 61 d9 03 ff ff", 2),
        ("81 a1 61 a1 80", 5),
        ("81 a1 61 a2 61 c3", 5),
        // 4 before 11, 5 before 11.
        ("81 a1 61 ce ff ff ff ff 00", 4),
        ("81 a1 61 a1 ff 00", 5),
        // The same bits as a signed integer, a float, or a binary pass.
        ("81 a1 61 94 d2 80 00 00 00 ca 80 00 00 00 c4 01 80 e0", 0),
        // A key that is not UTF-8 in an inner map.
        ("81 a1 61 81 a1 80 00", 5),
        ("81 a1 61 81 00 00", 8),
        ("81 a1 61 82 a1 62 00 d9 01 62 00", 9),
    ]);
}

#[test]
fn views() {
    let part = |start, length| View::Part { start, length };
    let table: &[(&str, &[u8], View)] = &[
        ("81 a1 61 05", b"a", part(3, 1)),
        ("81 a1 61 a3 78 79 7a", b"a", part(4, 3)),
        ("81 a1 61 a0", b"a", part(4, 0)),
        ("81 a1 61 d9 02 78 79", b"a", part(5, 2)),
        ("81 a1 61 da 00 02 78 79", b"a", part(6, 2)),
        ("81 a1 61 db 00 00 00 02 78 79", b"a", part(8, 2)),
        ("81 a1 61 c4 02 ff fe", b"a", part(5, 2)),
        ("81 a1 61 c4 00", b"a", part(5, 0)),
        ("81 a1 61 c5 00 02 ff fe", b"a", part(6, 2)),
        ("81 a1 61 c6 00 00 00 02 ff fe", b"a", part(8, 2)),
        ("81 a1 61 ca 00 00 00 00", b"a", part(3, 5)),
        ("81 a1 61 cd 00 05", b"a", part(3, 3)),
        ("81 a1 61 92 a1 78 05", b"a", part(3, 4)),
        ("81 a1 61 dc 00 01 05", b"a", part(3, 4)),
        ("81 a1 61 81 a1 62 05", b"a", part(3, 4)),
        ("81 a1 61 80", b"a", part(3, 1)),
        ("81 a1 61 df 00 00 00 00", b"a", part(3, 5)),
        // The key's own head may have any form; the empty name is a name.
        ("81 d9 01 61 05", b"a", part(4, 1)),
        ("81 a0 05", b"", part(2, 1)),
        ("82 a1 61 05 a0 a1 78", b"", part(6, 1)),
        // The second of two.
        ("82 a1 61 a1 62 a1 62 a1 63", b"b", part(8, 1)),
        ("82 a2 61 61 05 a1 61 06", b"a", part(7, 1)),
        // Only outer keys count, and only the whole name.
        ("81 a1 61 81 a1 62 05", b"b", View::Refused(26)),
        ("81 a1 61 05", b"", View::Refused(26)),
        ("81 a1 61 05", b"aa", View::Refused(26)),
        ("81 a2 61 61 05", b"a", View::Refused(26)),
        ("81 a1 61 05", b"\xe1", View::Refused(26)),
        ("81 a1 61 05", b"\xff\x80", View::Refused(26)),
        ("80", b"a", View::Refused(26)),
        ("80", b"", View::Refused(26)),
        // A refused file gives its own number, wherever the key stands.
        ("", b"a", View::Refused(2)),
        ("c0", b"a", View::Refused(3)),
        ("90", b"a", View::Refused(10)),
        ("81 a1 61 05 00", b"a", View::Refused(11)),
        ("82 a1 61 05 a1 61 05", b"a", View::Refused(9)),
        ("82 a1 61 05 a1 62", b"a", View::Refused(2)),
        ("82 a1 61 05 a1 62 c0", b"a", View::Refused(3)),
        ("82 a1 61 05 a1 62 a1 80", b"a", View::Refused(5)),
        ("82 a1 61 05 a1 62 ce ff ff ff ff", b"c", View::Refused(4)),
        ("82 a1 61 05 00 05", b"a", View::Refused(8)),
        ("82 a1 61 05 a1 62 de 01 01", b"a", View::Refused(7)),
    ];
    for (hex, name, expected) in table {
        expect_view(&bytes(hex), name, *expected, hex);
    }
}
