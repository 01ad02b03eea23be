//! Receipts with their text or their number written down by hand: the sample of
//! the rules with a file made for it, a refused file of each number, stations,
//! jobs and buffers around their ends, and the order of refusals.

use mmtf_tests::check::made::wide;
use mmtf_tests::check::receipts::*;
use mmtf_tests::check::sample::*;
use mmtf_tests::generate::files::Value::{self, Array, Binary, Integer, Map};
use mmtf_tests::generate::{nested, Container};
use mmtf_tests::independent::{FILE_LIMIT, REQUIRED};

/// The receipt that stands in the rules.
const SAMPLE: &str = "station=7\n\
                      job=12\n\
                      verdict=0\n\
                      models=1\n\
                      chains=4\n\
                      groups=302\n\
                      atoms=1023\n\
                      bonds=1142\n\
                      fields=16\n\
                      units=1\n";

/// A file of that receipt: the required fields alone; one model of four chains
/// of 302 groups, 184 of three atoms and three bonds, 117 of four atoms and five
/// bonds, and one of three atoms and five bonds. So there are 552 + 468 + 3
/// atoms and 552 + 585 + 5 bonds.
fn sample_file() -> Sample {
    let types = vec![
        group(3, Some(&[0, 1, 1, 2, 2, 0]), None),
        group(
            4,
            Some(&[0, 1, 1, 2, 2, 3, 3, 0, 0, 2]),
            Some(&[1, 2, 3, 4, 1]),
        ),
        group(3, Some(&[0, 1, 1, 2, 2, 0, 0, 1, 1, 2]), None),
    ];
    uniform(group_of_one(), 302, 1023, 1142)
        .with("numChains", Integer(4))
        .with("groupList", Array(types))
        .with(
            "groupTypeList",
            Binary(wide([7, 302, 0], &[0, 184, 1, 117, 2, 1])),
        )
        .with("chainIdList", names(b"A\0\0\0B\0\0\0C\0\0\0D\0\0\0"))
        .with("groupsPerChain", Value::integers(&[100, 100, 100, 2]))
        .with("chainsPerModel", Value::integers(&[4]))
}

/// The receipt of a refused file, by station 7 and its job 12.
fn refused(verdict: u8) -> String {
    format!(
        "station=7\njob=12\nverdict={verdict}\nmodels=0\nchains=0\ngroups=0\n\
         atoms=0\nbonds=0\nfields=0\nunits=0\n"
    )
}

#[test]
fn sample_of_the_rules() {
    expect_written([7, 12], &sample_file().bytes(), SAMPLE, "the sample");
    expect_read(
        SAMPLE,
        [7, 12, 0, 1, 4, 302, 1023, 1142, 16, 1],
        "the sample",
    );
}

/// The same fields in another order, and unknown ones between them, one with a
/// name that published files have, are the same receipt.
#[test]
fn unknown_fields_do_not_count() {
    let file = sample_file()
        .reversed()
        .with("sequenceIndexList", int32(&[]))
        .with("Title", Value::text("no title"))
        .with("", Array(vec![]));
    expect_written([7, 12], &file.bytes(), SAMPLE, "three unknown fields");
}

/// The receipt of the small sample, with so many fields and bonds.
fn small(fields: usize, bonds: u32) -> String {
    format!(
        "station=1\njob=1\nverdict=0\nmodels=1\nchains=2\ngroups=3\n\
         atoms=7\nbonds={bonds}\nfields={fields}\nunits=1\n"
    )
}

/// All named fields are 39; without one of the optional ones there are 38, and
/// with one alone there are 17.
#[test]
fn every_named_field_counts() {
    let full = Sample::full();
    let least = Sample::new()
        .without("bondAtomList")
        .with("numBonds", Integer(4));
    expect_written([1, 1], &full.bytes(), &small(39, 5), "all");
    expect_written([1, 1], &least.bytes(), &small(16, 4), "the required ones");
    let Map(entries) = full.value() else {
        panic!("a file is a map");
    };
    for (key, value) in entries.into_iter().skip(REQUIRED + 2) {
        let name = std::str::from_utf8(&key).expect("a name of the rules");
        let alone = least.clone().with(name, value);
        expect_written([1, 1], &alone.bytes(), &small(17, 4), name);
        let without = full.clone().without(name);
        expect_written([1, 1], &without.bytes(), &small(38, 5), name);
    }
}

/// The bonds outside, which are one of five, come with their orders or without.
#[test]
fn bonds_outside_count() {
    let cases = [
        (Sample::new(), small(17, 5)),
        (
            Sample::new().with("bondOrderList", int8(&[4])),
            small(18, 5),
        ),
        (Sample::full().without("bondOrderList"), small(38, 5)),
        (
            Sample::full()
                .without("bondOrderList")
                .without("bondAtomList")
                .with("numBonds", Integer(4)),
            small(37, 4),
        ),
    ];
    for (file, receipt) in cases {
        expect_written([1, 1], &file.bytes(), &receipt, "bonds outside");
    }
}

/// An accepted file that has nothing in it.
#[test]
fn counts_of_nothing() {
    let empty = |codec| Binary(wide([codec, 0, 4], &[]));
    let file = uniform(group_of_one(), 0, 0, 0)
        .with("numChains", Integer(0))
        .with("numModels", Integer(0))
        .with("groupList", Array(vec![]))
        .with("chainIdList", empty(5))
        .with("groupsPerChain", Array(vec![]))
        .with("chainsPerModel", Array(vec![]));
    let receipt = "station=7\njob=12\nverdict=0\nmodels=0\nchains=0\ngroups=0\n\
                   atoms=0\nbonds=0\nfields=16\nunits=1\n";
    expect_written([7, 12], &file.bytes(), receipt, "nothing");
}

/// A file of each number that a verdict can be, all but the first small.
fn refused_files() -> Vec<(u8, Vec<u8>)> {
    let with = |name, value| Sample::full().with(name, value).bytes();
    vec![
        (1, vec![0; FILE_LIMIT + 1]),
        (2, b"".to_vec()),
        (3, b"\xc0".to_vec()),
        (4, b"\x81\xa1a\xce\x80\x00\x00\x00".to_vec()),
        (5, b"\x81\xa1a\xa1\xff".to_vec()),
        (6, nested(&[Container::Array; 12], b"\x00")),
        (7, b"\xde\x01\x01".to_vec()),
        (8, b"\x81\x00\x00".to_vec()),
        (9, b"\x82\xa1a\x00\xa1a\x00".to_vec()),
        (10, b"\x90".to_vec()),
        (11, [Sample::full().bytes(), vec![0]].concat()),
        (12, b"\x80".to_vec()),
        (12, Sample::full().without("chainsPerModel").bytes()),
        (13, with("entityList", Integer(0))),
        (14, with("chainNameList", Binary(vec![0; 11]))),
        (15, with("xCoordList", int32(&[1, 2, 3, 4, 5, 6, 7]))),
        (16, with("xCoordList", Binary(wide([9, 7, 0], &[0, 7])))),
        (17, with("groupIdList", Binary(wide([4, 3, 0], &[1, 2])))),
        (
            18,
            with("groupIdList", Binary(wide([7, 3, 0], &[1, 3, 1, 0]))),
        ),
        (19, with("groupIdList", Binary(wide([7, 3, 0], &[1, 2])))),
        (20, with("numBonds", Integer(4))),
        (21, with("groupTypeList", int32(&[0, 2, 0]))),
        (22, with("numModels", Integer(-1))),
        (22, with("numAtoms", Integer(16_777_217))),
        (23, with("groupList", Array(vec![group_of_one(); 4_097]))),
        (24, with("mmtfVersion", Value::text("2.0"))),
    ]
}

/// A refused file gets its receipt, with its number and zeros, whatever its
/// fields say.
#[test]
fn refused_files_have_receipts() {
    let files = refused_files();
    for (number, file) in &files {
        let case = format!("verdict {number}");
        expect_written([7, 12], file, &refused(*number), &case);
    }
    let met = |number| files.iter().any(|&(n, _)| n == number);
    assert!((1..=24).all(met), "a number has no file");
}

/// Stations 1 to 99, jobs 1 to 999,999.
#[test]
fn stations_and_jobs() {
    let files = [sample_file().bytes(), b"\xc0".to_vec()];
    let receipts = [SAMPLE.to_string(), refused(3)];
    for (file, receipt) in files.iter().zip(receipts) {
        for (station, job) in [(1, 1), (1, 999_999), (99, 1), (99, 999_999), (10, 100_000)] {
            let receipt = receipt
                .replace("station=7\n", &format!("station={station}\n"))
                .replace("job=12\n", &format!("job={job}\n"));
            expect_written([station, job], file, &receipt, "at the ends");
        }
        for station in [0, 100, 101, 256 + 7, 65_536 + 7, 1 << 31, u32::MAX] {
            let case = format!("station {station}");
            expect_not_written([station, 12], file, 200, 29, &case);
        }
        for job in [0, 1_000_000, 1_000_001, (1 << 24) + 12, 1 << 31, u32::MAX] {
            expect_not_written([7, job], file, 200, 29, &format!("job {job}"));
        }
        expect_not_written([0, 0], file, 200, 29, "both");
        expect_not_written([12, 7_000_000], file, 200, 29, "exchanged");
    }
}

/// Every room up to the receipt's size is 25, and from there on it is written.
#[test]
fn buffers() {
    let files = [sample_file().bytes(), b"".to_vec()];
    for (file, receipt) in files.iter().zip([SAMPLE.to_string(), refused(2)]) {
        for room in 0..receipt.len() {
            expect_not_written([7, 12], file, room, 25, &format!("room {room}"));
        }
        expect_written([7, 12], file, &receipt, "room enough");
    }
}

/// 29 before 25, and both before anything that the file says.
#[test]
fn order() {
    for (number, file) in [(0, sample_file().bytes())]
        .into_iter()
        .chain(refused_files())
    {
        let case = format!("verdict {number}");
        for room in [0, 1, 50, LONGEST] {
            expect_not_written([0, 12], &file, room, 29, &case);
            expect_not_written([100, 12], &file, room, 29, &case);
            expect_not_written([7, 0], &file, room, 29, &case);
            expect_not_written([7, 1_000_000], &file, room, 29, &case);
        }
        expect_not_written([7, 12], &file, 0, 25, &case);
        expect_not_written([7, 12], &file, refused(0).len() - 1, 25, &case);
    }
}

#[test]
fn read_by_hand() {
    expect_read(
        &refused(24),
        [7, 12, 24, 0, 0, 0, 0, 0, 0, 0],
        "a refused file",
    );
    expect_read(
        "station=1\njob=1\nverdict=0\nmodels=0\nchains=0\ngroups=0\n\
         atoms=0\nbonds=0\nfields=16\nunits=1\n",
        [1, 1, 0, 0, 0, 0, 0, 0, 16, 1],
        "the least numbers",
    );
    expect_read(
        "station=99\njob=999999\nverdict=0\nmodels=16777216\nchains=16777216\n\
         groups=16777216\natoms=16777216\nbonds=16777216\nfields=39\nunits=1\n",
        [
            99, 999_999, 0, 16_777_216, 16_777_216, 16_777_216, 16_777_216, 16_777_216, 39, 1,
        ],
        "the largest numbers",
    );
}

/// No receipts, each for one reason.
#[test]
fn not_read_by_hand() {
    let cases = [
        ("", "nothing"),
        ("\n", "an empty line"),
        ("station=7\n", "one line"),
        (&SAMPLE[..SAMPLE.len() - 1], "no last line feed"),
        (&format!("{SAMPLE}\n"), "a line feed more"),
        (&format!("{SAMPLE}{SAMPLE}"), "two receipts"),
        (&SAMPLE.replace('\n', "\r\n"), "carriage returns"),
        (&SAMPLE.replace('\n', " "), "spaces"),
        (&SAMPLE.replace("job=12", "job=012"), "a leading zero"),
        (&SAMPLE.replace("job=12", "job=+12"), "a plus sign"),
        (&SAMPLE.replace("job=12", "job= 12"), "a space before"),
        (&SAMPLE.replace("job=12", "job=12 "), "a space behind"),
        (&SAMPLE.replace("job=12", "job=12.0"), "a fraction"),
        (&SAMPLE.replace("job=12", "job=1e1"), "an exponent"),
        (&SAMPLE.replace("job=12", "job=0xc"), "hexadecimal"),
        (&SAMPLE.replace("job=12", "job="), "no digits"),
        (&SAMPLE.replace("job=12", "job"), "no equals sign"),
        (&SAMPLE.replace("job=12", "Job=12"), "another case"),
        (&SAMPLE.replace("job=12", "jobs=12"), "another name"),
        (&SAMPLE.replace("units=1", "units=0"), "no unit"),
        (&SAMPLE.replace("units=1", "units=2"), "two units"),
        (
            &SAMPLE.replace("verdict=0", "verdict=3"),
            "counts of a refused file",
        ),
        (
            &refused(3).replace("units=0", "units=1"),
            "a unit of a refused file",
        ),
        (
            &refused(3).replace("fields=0", "fields=16"),
            "fields of a refused file",
        ),
        (&refused(25), "verdict 25"),
        (&refused(0), "accepted, and all zeros"),
    ];
    for (text, case) in cases {
        expect_not_read(text.as_bytes(), case);
    }
}
