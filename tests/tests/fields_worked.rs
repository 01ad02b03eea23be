//! Files with the number that the rules give, written down by hand: fields that
//! are missing or of the wrong type, the version, and columns of the wrong kind.

use mmtf_tests::check::files::expect_verdict;
use mmtf_tests::check::made::{column, narrow, wide};
use mmtf_tests::check::sample::*;
use mmtf_tests::generate::files::{Heads, Value};
use mmtf_tests::generate::Rng;
use mmtf_tests::independent::{outer_keys, FIELDS};
use Value::*;

#[track_caller]
fn expect(sample: &Sample, number: u8, case: &str) {
    expect_verdict(&sample.bytes(), number, case);
}

const REQUIRED: [&str; 16] = [
    "mmtfVersion",
    "mmtfProducer",
    "numBonds",
    "numAtoms",
    "numGroups",
    "numChains",
    "numModels",
    "groupList",
    "xCoordList",
    "yCoordList",
    "zCoordList",
    "groupIdList",
    "groupTypeList",
    "chainIdList",
    "groupsPerChain",
    "chainsPerModel",
];

/// Those that can be left out of the full sample without changing a count.
const OPTIONAL: [&str; 22] = [
    "bondOrderList",
    "bFactorList",
    "atomIdList",
    "altLocList",
    "occupancyList",
    "secStructList",
    "insCodeList",
    "sequenceIdList",
    "chainNameList",
    "title",
    "structureId",
    "spaceGroup",
    "depositionDate",
    "releaseDate",
    "resolution",
    "rFree",
    "rWork",
    "unitCell",
    "experimentalMethods",
    "ncsOperatorList",
    "bioAssemblyList",
    "entityList",
];

/// The fields that are columns.
const COLUMNS: [&str; 16] = [
    "xCoordList",
    "yCoordList",
    "zCoordList",
    "groupIdList",
    "groupTypeList",
    "chainIdList",
    "bondAtomList",
    "bondOrderList",
    "bFactorList",
    "atomIdList",
    "altLocList",
    "occupancyList",
    "secStructList",
    "insCodeList",
    "sequenceIdList",
    "chainNameList",
];

#[test]
fn accepted() {
    expect(&Sample::new(), 0, "the required fields");
    expect(&Sample::full(), 0, "all fields");
    expect(&Sample::full().reversed(), 0, "in the other order");
    for name in OPTIONAL {
        expect(&Sample::full().without(name), 0, name);
    }
    expect(
        &Sample::new()
            .without("bondAtomList")
            .with("numBonds", Integer(4)),
        0,
        "no bond outside",
    );
}

/// The full sample has the 39 names, in their order.
#[test]
fn all_names() {
    let file = Sample::full().bytes();
    let keys = outer_keys(&file).expect("an accepted container");
    let named = [&REQUIRED[..], &["bondAtomList"], &OPTIONAL].concat();
    let named: Vec<&[u8]> = named.iter().map(|name| name.as_bytes()).collect();
    assert_eq!(keys, named);
    assert_eq!(keys.len(), 39);
    assert_eq!(named, FIELDS.map(|field| field.name().as_bytes()));
}

/// Nothing at all, but every required field.
#[test]
fn empty_structure() {
    let sample = Sample::new()
        .with("numBonds", Integer(0))
        .with("numAtoms", Integer(0))
        .with("numGroups", Integer(0))
        .with("numChains", Integer(0))
        .with("numModels", Integer(0))
        .with("groupList", Array(vec![]))
        .with("xCoordList", fixed_point(&[]))
        .with("yCoordList", fixed_point(&[]))
        .with("zCoordList", fixed_point(&[]))
        .with("groupIdList", int32(&[]))
        .with("groupTypeList", int32(&[]))
        .with("chainIdList", names(b""))
        .with("groupsPerChain", Array(vec![]))
        .with("chainsPerModel", Array(vec![]))
        .without("bondAtomList");
    expect(&sample, 0, "no model");
    expect(
        &sample.with("bondAtomList", int32(&[])),
        0,
        "an empty list of bonds",
    );
}

/// The forms of heads, every one for every head.
#[test]
fn longer_heads() {
    let mut rng = Rng::new(9);
    for _ in 0..300 {
        let mut file = Vec::new();
        Sample::full()
            .value()
            .write(&mut rng, Heads::Any, &mut file);
        expect_verdict(&file, 0, "heads in any form");
    }
}

#[test]
fn container_first() {
    expect_verdict(b"", 2, "no byte");
    expect_verdict(b"\x80", 12, "an empty map");
    expect_verdict(b"\xc0", 3, "a lead byte that is unknown");
    expect_verdict(b"\x90", 10, "an array");
    let file = Sample::full().bytes();
    expect_verdict(&[&file[..], b"\0"].concat(), 11, "one byte more");
    expect_verdict(&file[..file.len() - 1], 2, "one byte less");
    let sample = Sample::new().without("mmtfVersion");
    let cut = sample.bytes();
    expect_verdict(&cut[..cut.len() - 1], 2, "2 before 12");
    expect_verdict(&[&cut[..], b"\x80"].concat(), 11, "11 before 12");
}

#[test]
fn missing() {
    for name in REQUIRED {
        expect(&Sample::full().without(name), 12, name);
        for other in [
            name.to_uppercase(),
            format!("{name}s"),
            name[1..].to_string(),
        ] {
            let sample = Sample::full().renamed(name, &other);
            expect(&sample, 12, &other);
        }
    }
    expect(
        &Sample::full()
            .without("mmtfVersion")
            .with("x", Sample::full().value()),
        12,
        "inner keys do not count",
    );
}

/// Unknown fields are skipped, whatever they hold.
#[test]
fn unknown() {
    for name in [
        "",
        "mmtfversion",
        "numbonds",
        "sequenceIndexList",
        "bondResonanceList",
        "numAtomsX",
        "é",
    ] {
        for value in [
            Integer(-1),
            Value::text("x"),
            Array(vec![]),
            Sample::full().value(),
            Binary(vec![0]),
        ] {
            expect(&Sample::full().with(name, value), 0, name);
        }
    }
}

/// Every field with a value of each other kind.
#[test]
fn other_kinds() {
    let kinds = [
        Integer(1),
        one(),
        Value::text("1.0"),
        Binary(vec![0; 12]),
        Array(vec![]),
        Map(vec![]),
    ];
    let own = |name: &str| match name {
        name if COLUMNS.contains(&name) => 3,
        "numBonds" | "numAtoms" | "numGroups" | "numChains" | "numModels" => 0,
        "resolution" | "rFree" | "rWork" => 1,
        "groupList"
        | "groupsPerChain"
        | "chainsPerModel"
        | "unitCell"
        | "experimentalMethods"
        | "ncsOperatorList"
        | "bioAssemblyList"
        | "entityList" => 4,
        _ => 2,
    };
    for name in REQUIRED.iter().chain(&OPTIONAL).chain(&["bondAtomList"]) {
        for (place, kind) in kinds.iter().enumerate() {
            if place != own(name) {
                let sample = Sample::full().with(name, kind.clone());
                expect(&sample, 13, &format!("{name}: {kind:?}"));
            }
        }
    }
}

#[test]
fn lists_of_other_kinds() {
    let ones = |count| Array(vec![one(); count]);
    let table = [
        ("groupsPerChain", Array(vec![Integer(2), one()])),
        ("chainsPerModel", Array(vec![Value::text("2")])),
        (
            "experimentalMethods",
            Array(vec![Value::text("x"), Integer(1)]),
        ),
        ("experimentalMethods", Array(vec![Binary(vec![])])),
        ("unitCell", ones(0)),
        ("unitCell", ones(5)),
        ("unitCell", ones(7)),
        (
            "unitCell",
            Array(vec![one(), one(), one(), one(), one(), Integer(90)]),
        ),
        ("unitCell", Array(vec![Integer(90); 6])),
        ("ncsOperatorList", Array(vec![ones(15)])),
        ("ncsOperatorList", Array(vec![ones(17)])),
        ("ncsOperatorList", Array(vec![ones(16), ones(0)])),
        ("ncsOperatorList", Array(vec![ones(16), one()])),
        ("ncsOperatorList", ones(16)),
        ("ncsOperatorList", Array(vec![Array(vec![Integer(0); 16])])),
        ("groupList", Array(vec![group_of_three(), Integer(0)])),
        ("bioAssemblyList", Array(vec![Array(vec![])])),
        ("entityList", Array(vec![entity(), Value::text("x")])),
    ];
    for (name, value) in table {
        expect(
            &Sample::full().with(name, value.clone()),
            13,
            &format!("{name}: {value:?}"),
        );
    }
    expect(
        &Sample::full().with("ncsOperatorList", Array(vec![])),
        0,
        "no operator",
    );
    expect(
        &Sample::full().with("experimentalMethods", Array(vec![])),
        0,
        "no method",
    );
    expect(
        &Sample::full().with("bioAssemblyList", Array(vec![])),
        0,
        "no assembly",
    );
    expect(
        &Sample::full().with("entityList", Array(vec![])),
        0,
        "no entity",
    );
}

/// Runs a map of a field with each key missing, near its name, and of each other
/// kind; and with a key that is unknown.
fn inner(map: &Value, keys: &[(&str, Value)], field: impl Fn(Value) -> Sample) {
    expect(&field(map.clone()), 0, "as it should be");
    let more = with_entry(map.clone(), "unknown", Sample::new().value());
    expect(&field(more), 0, "a key that is unknown");
    for (key, wrong) in keys {
        let missing = without_entry(map.clone(), key);
        expect(&field(missing.clone()), 13, &format!("no {key}"));
        let near = with_entry(missing, &format!("{key}s"), wrong.clone());
        expect(&field(near), 13, &format!("near {key}"));
        for value in [
            wrong.clone(),
            one(),
            Map(vec![]),
            Array(vec![Array(vec![])]),
        ] {
            let mistyped = with_entry(map.clone(), key, value);
            expect(&field(mistyped), 13, &format!("{key} of another kind"));
        }
    }
}

#[test]
fn inner_keys() {
    let text = Value::text("x");
    let groups = |group| Sample::full().with("groupList", Array(vec![group_of_three(), group]));
    let keys = [
        ("groupName", Integer(1)),
        ("singleLetterCode", Binary(vec![b'G'])),
        ("chemCompType", Array(vec![])),
        ("formalChargeList", Array(vec![one()])),
        ("atomNameList", Array(vec![Integer(1)])),
        ("elementList", text.clone()),
    ];
    inner(&group_of_one(), &keys, groups);
    for key in ["bondAtomList", "bondOrderList"] {
        for value in [text.clone(), Array(vec![one(), one()]), Binary(vec![])] {
            let mistyped = with_entry(group_of_three(), key, value);
            let sample = Sample::new().with("groupList", Array(vec![mistyped, group_of_one()]));
            expect(&sample, 13, key);
        }
    }
    let assemblies =
        |value| Sample::full().with("bioAssemblyList", Array(vec![assembly(vec![]), value]));
    let keys = [
        ("name", Integer(1)),
        ("transformList", Array(vec![Integer(1)])),
    ];
    inner(&assembly(vec![transform()]), &keys, assemblies);
    let transforms = |value| assemblies(assembly(vec![transform(), value]));
    let keys = [
        ("chainIndexList", Array(vec![one()])),
        ("matrix", Array(vec![one(); 15])),
    ];
    inner(&transform(), &keys, transforms);
    for matrix in [
        Array(vec![one(); 17]),
        Array(vec![Integer(1); 16]),
        Array(vec![]),
    ] {
        expect(
            &transforms(with_entry(transform(), "matrix", matrix)),
            13,
            "a matrix",
        );
    }
    let keys = [
        ("chainIndexList", text),
        ("description", Integer(1)),
        ("type", Integer(1)),
        ("sequence", Array(vec![])),
    ];
    inner(&entity(), &keys, |value| {
        Sample::full().with("entityList", Array(vec![entity(), value]))
    });
}

#[test]
fn versions() {
    for version in ["1.0", "1.0.0", "1.9zz", "1.1", "1.0\u{e9}", "1.00", "1.0 "] {
        expect(
            &Sample::new().with("mmtfVersion", Value::text(version)),
            0,
            version,
        );
    }
    for version in [
        "",
        "1",
        "1.",
        "1.x",
        "1..0",
        "1.-1",
        "10.0",
        "11.0",
        "2.0",
        "0.2",
        "01.0",
        " 1.0",
        "1 .0",
        "1,0",
        "v1.0",
        "1.\u{661}",
        "\u{661}.0",
        "1.:",
        "1./",
    ] {
        expect(
            &Sample::new().with("mmtfVersion", Value::text(version)),
            24,
            version,
        );
    }
}

/// Pairs of faults: the earlier number wins.
#[test]
fn order() {
    let old = || Sample::full().with("mmtfVersion", Value::text("0.2"));
    let short = || Binary(vec![0; 11]);
    let table = [
        (
            Sample::full()
                .without("chainsPerModel")
                .with("mmtfVersion", Integer(1)),
            12,
            "12 before 13",
        ),
        (old().without("chainsPerModel"), 12, "12 before 24"),
        (
            Sample::full()
                .without("chainsPerModel")
                .with("xCoordList", short()),
            12,
            "12 before 14",
        ),
        (old().with("entityList", Integer(1)), 13, "13 before 24"),
        (
            old().with("mmtfVersion", Integer(2)),
            13,
            "a version that is no string",
        ),
        (old().with("xCoordList", short()), 24, "24 before 14"),
        (old().with("numModels", Integer(-1)), 24, "24 before 22"),
        (
            Sample::full()
                .with("xCoordList", short())
                .with("entityList", Integer(1)),
            13,
            "13 before 14",
        ),
        (
            Sample::full()
                .with("chainNameList", short())
                .with("numModels", Integer(-1)),
            14,
            "14 before 22",
        ),
    ];
    for (sample, number, case) in table {
        expect(&sample, number, case);
        expect(&sample.reversed(), number, case);
    }
}

/// Column faults in the order of the fields, whatever the order in the file is.
#[test]
fn order_of_columns() {
    let short = || Binary(vec![0; 11]);
    let codec_3 = || Binary(narrow([3, 0, 0], &[]));
    for (place, first) in COLUMNS.iter().enumerate() {
        for later in &COLUMNS[place + 1..] {
            let sample = Sample::full().with(first, codec_3()).with(later, short());
            expect(&sample, 15, &format!("{first} before {later}"));
            expect(&sample.reversed(), 15, &format!("{first} before {later}"));
            let sample = Sample::full().with(first, short()).with(later, codec_3());
            expect(&sample, 14, &format!("{first} before {later}"));
        }
    }
}

/// Every named column with an empty column by every codec, and by none.
#[test]
fn kinds_of_columns() {
    let kinds: [(&[i32], &[&str]); 5] = [
        (
            &[1, 9, 10, 11, 12, 13],
            &[
                "xCoordList",
                "yCoordList",
                "zCoordList",
                "bFactorList",
                "occupancyList",
            ],
        ),
        (
            &[4, 7, 8, 14, 15],
            &[
                "groupIdList",
                "groupTypeList",
                "bondAtomList",
                "atomIdList",
                "sequenceIdList",
            ],
        ),
        (&[2, 16], &["bondOrderList", "secStructList"]),
        (&[6], &["altLocList", "insCodeList"]),
        (&[5], &["chainIdList", "chainNameList"]),
    ];
    for (codecs, fields) in kinds {
        for field in fields {
            for codec in -1..=18 {
                let sample = Sample::full().with(field, Binary(column([codec, 0, 4], b"")));
                // Of the right kind it is only of the wrong length.
                let number = if codecs.contains(&codec) { 20 } else { 15 };
                expect(&sample, number, &format!("{field} by codec {codec}"));
            }
        }
    }
}

#[test]
fn faults_of_columns() {
    let x = |bytes| Sample::full().with("xCoordList", Binary(bytes));
    let ids = |bytes| Sample::full().with("chainIdList", Binary(bytes));
    let types = |bytes| Sample::full().with("groupTypeList", Binary(bytes));
    let letters = |bytes| Sample::full().with("insCodeList", Binary(bytes));
    let table = [
        (x(vec![]), 14, "no byte"),
        (x(vec![0; 11]), 14, "11 bytes"),
        (x(vec![0; 12]), 15, "codec 0"),
        (x(wide([9, 7, 0], &[1, 7])), 16, "divisor 0"),
        (x(wide([9, -1, 1], &[1, 7])), 16, "length -1"),
        (
            x(wide([9, 16_777_217, 1], &[1, 16_777_217])),
            16,
            "length above the limit",
        ),
        (
            x(column([1, 7, 0], &[0; 27])),
            17,
            "27 bytes for seven floats",
        ),
        (x(column([9, 7, 1], &[0; 9])), 17, "nine bytes of runs"),
        (x(wide([9, 7, 1], &[1, 0, 1, 7])), 18, "a count of 0"),
        (
            x(narrow([10, 7, 1], &[1, 1, 1, 1, 1, 1, 1, 32767])),
            18,
            "unfinished",
        ),
        (x(wide([9, 7, 1], &[1, 6])), 19, "six results"),
        (
            x(wide([9, 7, 1], &[1, i32::MAX, 1, i32::MAX, 1, 9])),
            19,
            "counts that are 7 with 32 bits",
        ),
        (
            ids(column([5, 2, 3], b"A\0\0B\0\0")),
            16,
            "names of three bytes",
        ),
        (
            ids(column([5, 2, 5], b"A\0\0\0\0B\0\0\0\0")),
            16,
            "names of five bytes",
        ),
        (
            ids(column([5, 2, 255], &[0; 510])),
            16,
            "names of 255 bytes",
        ),
        (
            ids(column([5, 2, 5], b"")),
            16,
            "the size before the payload",
        ),
        (ids(column([5, 2, 4], b"A\0\0\0B\0\0")), 17, "seven bytes"),
        (
            ids(column([5, 8, 4], b"A\0\0\0B\0\0\0")),
            17,
            "the length in bytes",
        ),
        (
            ids(column([5, 2, 4], b"A\0A\0B\0\0\0")),
            18,
            "a byte after 0",
        ),
        (
            ids(column([5, 2, 4], b"\x80\0\0\0B\0\0\0")),
            18,
            "a byte above 127",
        ),
        (
            types(wide([7, 3, 0], &[0, 3, 0, -1])),
            18,
            "a count below 1",
        ),
        (
            letters(wide([6, 3, 0], &[128, 3])),
            18,
            "a letter above 127",
        ),
        (
            letters(wide([6, 3, 0], &[256, 3])),
            18,
            "a letter whose low byte is one",
        ),
    ];
    for (sample, number, case) in table {
        expect(&sample, number, case);
    }
}

/// 27 plays no part: integers and divisors of any size are accepted.
#[test]
fn not_exact_is_accepted() {
    let large = wide([9, 7, i32::MAX], &[i32::MIN, 3, i32::MAX, 4]);
    expect(&Sample::full().with("xCoordList", Binary(large)), 0, "runs");
    let sums = wide([9, 7, 16_777_217], &[16_777_217, 7]);
    expect(
        &Sample::full().with("occupancyList", Binary(sums)),
        0,
        "just above",
    );
    let nan = wide([1, 7, 0], &[0x7fc0_0001, -1, 0, 0, 0, 0, 0]);
    expect(
        &Sample::full().with("bFactorList", Binary(nan)),
        0,
        "floats that are no numbers",
    );
}

/// An unused parameter is not read.
#[test]
fn unused_parameters() {
    for parameter in [-1, i32::MIN, i32::MAX] {
        let ids = wide([8, 3, parameter], &[1, 3]);
        expect(
            &Sample::full().with("groupIdList", Binary(ids)),
            0,
            "codec 8",
        );
        let floats = wide([1, 7, parameter], &[0; 7]);
        expect(
            &Sample::full().with("xCoordList", Binary(floats)),
            0,
            "codec 1",
        );
    }
}
