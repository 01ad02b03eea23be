//! Matrices and their refusals, written down by hand.

use mmtf_tests::check::files::{expect_matrix, expect_no_matrix};
use mmtf_tests::check::sample::*;
use mmtf_tests::generate::files::{Heads, Value};
use mmtf_tests::generate::Rng;
use mmtf_tests::library::matrix::Rows;
use Value::*;

/// A transform whose floats are this number and the fifteen after it.
fn from(first: u8) -> Value {
    let floats: Vec<u32> = (0..16).map(|n| f32::from(first + n).to_bits()).collect();
    with_entry(transform(), "matrix", Value::floats(&floats))
}

/// The rows of that transform.
fn rows(first: u8) -> Rows {
    let row = |n: u8| [0, 1, 2, 3].map(|column| f32::from(first + 4 * n + column));
    [row(0), row(1), row(2), row(3)]
}

/// Three assemblies, of two, no and one transform.
fn three() -> Value {
    Array(vec![
        assembly(vec![from(1), from(21)]),
        assembly(vec![]),
        assembly(vec![from(41)]),
    ])
}

/// A file of this field alone: nothing else is asked for.
fn alone(assemblies: Value) -> Vec<u8> {
    Value::map([("bioAssemblyList", assemblies)]).bytes()
}

#[test]
fn by_rows() {
    let expected = [
        [1.0, 2.0, 3.0, 4.0],
        [5.0, 6.0, 7.0, 8.0],
        [9.0, 10.0, 11.0, 12.0],
        [13.0, 14.0, 15.0, 16.0],
    ];
    assert_eq!(rows(1), expected);
    expect_matrix(
        &Sample::full().bytes(),
        [0, 0],
        expected,
        "of the full sample",
    );
    expect_matrix(&alone(three()), [0, 0], expected, "of a file of one field");
    expect_matrix(&alone(three()), [0, 1], rows(21), "the second transform");
    expect_matrix(&alone(three()), [2, 0], rows(41), "the third assembly");
}

/// The entries of the maps in other orders, unknown ones between them, and heads
/// in any form.
#[test]
fn any_writing() {
    let mut rng = Rng::new(16);
    let matrix = with_entry(from(61), "unknown", three());
    let matrix = without_entry(matrix, "chainIndexList");
    let matrix = with_entry(matrix, "chainIndexList", Array(vec![]));
    let last = Value::map([
        ("unknown", three()),
        ("transformList", Array(vec![from(81), matrix])),
        ("matrix", Integer(0)),
        ("name", Value::text("")),
    ]);
    let file = Value::map([
        ("bioAssemblyLists", Integer(0)),
        ("x", Value::map([("bioAssemblyList", Integer(1))])),
        (
            "bioAssemblyList",
            Array(vec![assembly(vec![from(101)]), last]),
        ),
        ("title", Integer(1)),
    ]);
    for _ in 0..200 {
        let mut bytes = Vec::new();
        file.write(&mut rng, Heads::Any, &mut bytes);
        expect_matrix(&bytes, [1, 1], rows(61), "an unknown entry");
        expect_matrix(&bytes, [1, 0], rows(81), "the first");
        expect_matrix(&bytes, [0, 0], rows(101), "the first assembly");
        expect_no_matrix(&bytes, [0, 1], 28, "no second transform");
    }
}

/// Every float with its bits; of a NaN only that it is one.
#[test]
fn bits_are_kept() {
    let bits = [
        0x0000_0000,
        0x8000_0000,
        0x0000_0001,
        0x807f_ffff,
        0x7f7f_ffff,
        0x7f80_0000,
        0xff80_0000,
        0x7fc0_0000,
        0x3eaa_aaab,
        0xffff_ffff,
        0x7f80_0001,
        0x4b80_0000,
        0x0080_0000,
        0x8000_0001,
        0x3f80_0001,
        0xc228_0000,
    ];
    let transform = with_entry(transform(), "matrix", Value::floats(&bits));
    let file = alone(Array(vec![assembly(vec![transform])]));
    let row = |n: usize| [0, 1, 2, 3].map(|column| f32::from_bits(bits[4 * n + column]));
    expect_matrix(&file, [0, 0], [row(0), row(1), row(2), row(3)], "any bits");
}

#[test]
fn no_such_entry() {
    let file = alone(three());
    let numbers = [
        [0, 2],
        [1, 0],
        [2, 1],
        [3, 0],
        [0, u64::MAX],
        [u64::MAX, 0],
        [u64::MAX, u64::MAX],
        // Their low 32 bits are those of a transform.
        [1 << 32, 0],
        [0, 1 << 32],
        [2 | 1 << 32, 0],
        [0, 1 | 1 << 63],
        // Counted through all assemblies there would be a third transform.
        [1, 1],
        [2, 2],
    ];
    for at in numbers {
        expect_no_matrix(&file, at, 28, &format!("{at:?}"));
    }
    expect_no_matrix(&alone(Array(vec![])), [0, 0], 28, "no assembly");
}

#[test]
fn no_such_field() {
    expect_no_matrix(&Sample::new().bytes(), [0, 0], 26, "the sample without it");
    expect_no_matrix(b"\x80", [0, 0], 26, "an empty map");
    for name in ["bioAssemblylist", "bioAssemblyLis", "bioAssemblyList\0", ""] {
        let file = Value::map([(name, three())]).bytes();
        expect_no_matrix(&file, [0, 0], 26, name);
    }
    let inner = Value::map([("x", Value::map([("bioAssemblyList", three())]))]);
    expect_no_matrix(&inner.bytes(), [0, 0], 26, "an inner key");
}

/// The whole of bioAssemblyList is judged, whichever transform is asked for.
#[test]
fn wrong_type() {
    let ones = |count| Array(vec![one(); count]);
    let bad_matrix = |value| with_entry(transform(), "matrix", value);
    let bad = [
        Integer(0),
        Map(vec![]),
        Binary(vec![]),
        Array(vec![Integer(0)]),
        Array(vec![assembly(vec![from(1)]), Array(vec![])]),
        Array(vec![
            assembly(vec![from(1)]),
            without_entry(assembly(vec![]), "name"),
        ]),
        Array(vec![
            assembly(vec![from(1)]),
            without_entry(assembly(vec![]), "transformList"),
        ]),
        Array(vec![
            assembly(vec![from(1)]),
            with_entry(assembly(vec![]), "name", Integer(1)),
        ]),
        Array(vec![assembly(vec![
            from(1),
            without_entry(transform(), "chainIndexList"),
        ])]),
        Array(vec![assembly(vec![
            from(1),
            without_entry(transform(), "matrix"),
        ])]),
        Array(vec![assembly(vec![
            from(1),
            with_entry(transform(), "chainIndexList", ones(1)),
        ])]),
        Array(vec![assembly(vec![from(1), bad_matrix(ones(15))])]),
        Array(vec![assembly(vec![from(1), bad_matrix(ones(17))])]),
        Array(vec![assembly(vec![from(1), bad_matrix(ones(0))])]),
        Array(vec![assembly(vec![
            from(1),
            bad_matrix(Array(vec![Integer(1); 16])),
        ])]),
        Array(vec![assembly(vec![from(1), Array(vec![])])]),
    ];
    for value in bad {
        for at in [[0, 0], [0, 1], [9, 9], [u64::MAX, 0]] {
            expect_no_matrix(&alone(value.clone()), at, 13, &format!("{value:?}"));
        }
    }
}

/// Of the rest of the file only the container counts.
#[test]
fn other_fields_are_not_judged() {
    let with = |name: &str, value| Sample::full().with(name, value).bytes();
    let table = [
        with("mmtfVersion", Value::text("0.2")),
        with("mmtfVersion", Integer(1)),
        with("entityList", Integer(1)),
        with("groupList", Array(vec![Integer(1)])),
        with("xCoordList", Binary(vec![])),
        with("numChains", Integer(-1)),
        // An index of a chain that there is not.
        with("bioAssemblyList", {
            let outside = with_entry(transform(), "chainIndexList", Value::integers(&[9, -1]));
            Array(vec![assembly(vec![outside])])
        }),
    ];
    for file in table {
        expect_matrix(&file, [0, 0], rows(1), "another field");
    }
    let file = Sample::full().bytes();
    expect_no_matrix(&file[..file.len() - 1], [0, 0], 2, "cut short");
    expect_no_matrix(&[&file[..], b"\0"].concat(), [0, 0], 11, "bytes after");
    expect_no_matrix(b"", [0, 0], 2, "no byte");
    expect_no_matrix(b"\xc0", [0, 0], 3, "a lead byte");
    expect_no_matrix(b"\x90", [0, 0], 10, "no map");
    let wrong = [&b"\x82\xafbioAssemblyList\x01"[..], b"\xa1a"].concat();
    expect_no_matrix(&wrong, [0, 0], 2, "2 before 13");
    let absent = [&b"\x82\xa1a\x01"[..], b"\xa1a"].concat();
    expect_no_matrix(&absent, [0, 0], 9, "9 before 26");
}
