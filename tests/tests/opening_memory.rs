//! Files and buffers beside an inaccessible page, so that any access outside
//! them ends the test.
#![cfg(all(target_os = "linux", target_arch = "x86_64"))]

use mmtf_tests::check::opening::expected_opening;
use mmtf_tests::check::sample::Sample;
use mmtf_tests::corpus::derived;
use mmtf_tests::generate::files::{file_case, FILE_KINDS};
use mmtf_tests::generate::Rng;
use mmtf_tests::guard::{Guarded, Side};
use mmtf_tests::independent::FIELDS;
use mmtf_tests::library::opening::{fields_into, open, Opening};

#[test]
fn files_at_the_edge() {
    let mut pages = Guarded::new(1 << 22);
    let mut rng = Rng::new(81);
    for (kind, share) in FILE_KINDS {
        for n in 0..share {
            let case = file_case(kind, &mut rng);
            let side = if n % 8 == 0 {
                Side::Before
            } else {
                Side::After
            };
            let expected = expected_opening(&case.file, FIELDS.len());
            let placed = pages.place(&case.file, side);
            assert_eq!(open(placed, FIELDS.len()), expected, "{kind:?} {n}");
        }
    }
}

/// Buffers of just as many elements as there are fields, and of fewer: with
/// fewer nothing is touched, so that a room of 0 may stand at the page.
#[test]
fn buffers_at_the_edge() {
    let file = Sample::full().bytes();
    let expected = expected_opening(&file, FIELDS.len());
    for room in [0, 1, FIELDS.len() - 1, FIELDS.len()] {
        let before: Vec<u64> = (1..=room as u64).collect();
        for side in [Side::Before, Side::After] {
            let mut pages = [Guarded::new(8 * 64), Guarded::new(8 * 64)];
            let [first, second] = &mut pages;
            let starts = first.lend(&before, side);
            let lengths = second.lend(&before, side);
            let mut presence = 9;
            for refused in [&b""[..], b"\x80", &derived("4QXX")[..100]] {
                assert_ne!(fields_into(refused, &mut presence, starts, lengths), 0);
                assert_eq!(
                    (presence, &*starts, &*lengths),
                    (9, &before[..], &before[..])
                );
            }
            let number = fields_into(&file, &mut presence, starts, lengths);
            match &expected {
                Opening::Fields {
                    presence: set,
                    starts: s,
                    lengths: l,
                } if room == FIELDS.len() => {
                    assert_eq!((number, presence), (0, *set));
                    assert_eq!((&*starts, &*lengths), (&s[..], &l[..]));
                }
                _ => {
                    assert_eq!((number, presence), (25, 9));
                    assert_eq!((&*starts, &*lengths), (&before[..], &before[..]));
                }
            }
        }
    }
}
