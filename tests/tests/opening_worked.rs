//! Files opened, with their parts written down by hand.

use mmtf_tests::check::opening::{expect_agreement, ROOMS};
use mmtf_tests::check::sample::Sample;
use mmtf_tests::corpus::derived;
use mmtf_tests::independent::{Field, FIELDS, REQUIRED};
use mmtf_tests::library::opening::{fields_into, open, Opening};

/// The sample of the README: its places counted in the file by hand.
#[test]
fn places_of_4qxx() {
    let file = derived("4QXX");
    let Opening::Fields {
        presence,
        starts,
        lengths,
    } = open(file, 64)
    else {
        panic!("an accepted file");
    };
    assert_eq!(presence, 0x7f_feff_ffff, "all but sequenceIdList");
    let part = |field: Field| {
        let [start, length] = [&starts, &lengths].map(|list| list[field as usize] as usize);
        &file[start..start + length]
    };
    assert_eq!(part(Field::MmtfVersion), b"1.0.0");
    assert_eq!(part(Field::StructureId), b"4QXX");
    assert_eq!(part(Field::NumAtoms), [37], "an integer with its lead byte");
    assert_eq!(part(Field::ChainsPerModel), [0x91, 2], "a whole array");
    assert_eq!(part(Field::XCoordList)[..8], [0, 0, 0, 10, 0, 0, 0, 37]);
    assert_eq!(part(Field::NcsOperatorList), [0x90], "an empty array");
    let absent = Field::SequenceIdList as usize;
    assert_eq!((starts[absent], lengths[absent]), (0, 0));
}

/// Every field is there in the full sample, and the required ones alone in one
/// without the others.
#[test]
fn every_field() {
    let file = Sample::full().bytes();
    let all = (1 << FIELDS.len()) - 1;
    let Opening::Fields { presence, .. } = open(&file, FIELDS.len()) else {
        panic!("an accepted file");
    };
    assert_eq!(presence, all);
    assert_eq!(FIELDS.len(), 39);
    assert_eq!(REQUIRED, 16);
    assert_eq!(expect_agreement(&file, "the full sample"), 0);
}

/// The file's own number comes before 25.
#[test]
fn verdict_before_room() {
    let accepted = Sample::full().bytes();
    for (file, number) in [(&b""[..], 2), (b"\x80", 12), (b"\xc0", 3)] {
        for room in ROOMS {
            assert_eq!(open(file, room), Opening::Refused(number), "room {room}");
        }
    }
    for room in 0..FIELDS.len() {
        assert_eq!(open(&accepted, room), Opening::Refused(25), "room {room}");
    }
}

/// An accepted file and no room: the buffers may be null.
#[test]
fn no_buffers() {
    let mut presence = 7;
    let number = fields_into(derived("4QXX"), &mut presence, &mut [], &mut []);
    assert_eq!((number, presence), (25, 7));
}

/// Two fields with the same value: each has the place of its own.
#[test]
fn equal_values() {
    let file = derived("4QXX");
    let Opening::Fields { starts, .. } = open(file, 64) else {
        panic!("an accepted file");
    };
    let mut places: Vec<u64> = starts.iter().copied().filter(|&start| start != 0).collect();
    let count = places.len();
    places.sort_unstable();
    places.dedup();
    assert_eq!(places.len(), count, "no two fields at one place");
    let zeros = [Field::AltLocList, Field::InsCodeList, Field::OccupancyList];
    for field in zeros {
        assert_ne!(starts[field as usize], 0, "{field:?}");
    }
}
