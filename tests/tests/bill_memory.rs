//! Runs of receipts, buffers and the out parameter beside an inaccessible page,
//! so that any access outside them ends the test, and so does a write to what is
//! only read.
#![cfg(all(target_os = "linux", target_arch = "x86_64"))]

use mmtf_tests::check::bills::LONGEST;
use mmtf_tests::generate::bills::{bill_case, every_station, rising, Run, BILL_KINDS};
use mmtf_tests::generate::{damaged, Rng};
use mmtf_tests::guard::{Guarded, Side};
use mmtf_tests::independent::bill::bill;
use mmtf_tests::independent::receipt::Numbers;
use mmtf_tests::library::bill::bill_into;

/// Pages for what the call is lent.
struct Pages {
    run: Guarded,
    buffer: Guarded,
    out: Guarded,
}

/// What stands in the buffer and in the out parameter before a call.
const BYTE: u8 = 0xa5;
const WRITTEN: u64 = 0xa5a5_5a5a_0f0f_1e1e;

impl Pages {
    fn new(bytes: usize) -> Pages {
        Pages {
            run: Guarded::new(bytes),
            buffer: Guarded::new(2 * LONGEST),
            out: Guarded::new(64),
        }
    }

    /// Compares both on a run, with all at the edge of their pages.
    fn bill(&mut self, run: &[u8], room: usize, side: Side) {
        let before = vec![BYTE; room];
        let mut expected = before.clone();
        let own = bill(run, &mut expected);
        let placed = self.run.place(run, side);
        let buffer = self.buffer.lend(&before, side);
        let written = &mut self.out.lend(&[WRITTEN], side)[0];
        let number = bill_into(placed, buffer, written);
        let own = match own {
            Ok(count) => (0, count as u64),
            Err(refusal) => (refusal.number(), WRITTEN),
        };
        assert_eq!((number, *written), own, "{}", run.escape_ascii());
        assert_eq!(buffer, expected, "{}", run.escape_ascii());
    }
}

const SIDES: [Side; 2] = [Side::Before, Side::After];

fn side(n: u64) -> Side {
    match n % 8 {
        0 => Side::Before,
        _ => Side::After,
    }
}

const RECEIPTS: [Numbers; 3] = [
    [7, 12, 0, 1, 4, 302, 1023, 1142, 16, 1],
    [99, 999_998, 24, 0, 0, 0, 0, 0, 0, 0],
    [
        99, 999_999, 0, 16_777_216, 16_777_216, 16_777_216, 16_777_216, 16_777_216, 39, 1,
    ],
];

/// Every beginning and every ending of a run, and the whole.
#[test]
fn parts_of_runs_at_the_edge() {
    let mut pages = Pages::new(1 << 12);
    let run = Run::of(RECEIPTS.to_vec()).bytes;
    for n in 0..=run.len() {
        for side in SIDES {
            pages.bill(&run[..n], 128, side);
            pages.bill(&run[n..], 128, side);
        }
    }
}

/// Every room, for no receipts, one, three, and some of every station, whole and
/// refused.
#[test]
fn every_room_at_the_edge() {
    let mut pages = Pages::new(1 << 16);
    let mut rng = Rng::new(90);
    let every = rising(&mut rng, &every_station(), 500);
    for receipts in [&[][..], &RECEIPTS[..1], &RECEIPTS, &every] {
        let Run { mut bytes, .. } = Run::of(receipts.to_vec());
        let size = bill(&bytes, &mut [0; LONGEST]).expect("a run");
        let rooms = size.saturating_sub(150)..=size + 1;
        for room in (0..60).chain(rooms).chain([LONGEST, LONGEST + 1]) {
            for side in SIDES {
                pages.bill(&bytes, room, side);
            }
        }
        bytes.push(b'\n');
        for room in [0, 1, size, LONGEST] {
            for side in SIDES {
                pages.bill(&bytes, room, side);
            }
        }
    }
}

#[test]
fn generated_runs_at_the_edge() {
    let mut pages = Pages::new(1 << 16);
    let mut rng = Rng::new(91);
    for (kind, share) in BILL_KINDS {
        for n in 0..share * 100 {
            let case = bill_case(kind, &mut rng);
            let room = rng.below(2 * LONGEST);
            pages.bill(&case.run, room, side(n));
        }
    }
}

/// The last receipt of a run damaged, so that it ends where it must not.
#[test]
fn damaged_ends_at_the_edge() {
    let mut pages = Pages::new(1 << 12);
    let mut rng = Rng::new(92);
    let whole = Run::of(RECEIPTS[..2].to_vec()).bytes;
    for n in 0..20_000 {
        let last = Run::of(RECEIPTS[2..].to_vec()).bytes;
        let run = [&whole[..], &damaged(&mut rng, last)].concat();
        pages.bill(&run, 128, side(n));
    }
}
