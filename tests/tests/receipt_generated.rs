//! Receipts of generated files, each through both implementations: with rooms
//! around the receipt's size, by stations and jobs at their ends and past them,
//! and read back. Every verdict must come up.

use mmtf_tests::check::hex;
use mmtf_tests::check::receipts::*;
use mmtf_tests::generate::files::{file_case, FileKind, Size, Structure, FILE_KINDS};
use mmtf_tests::generate::receipts::{JOBS, NO_JOBS, NO_STATIONS};
use mmtf_tests::generate::{case, Kind, Rng, KINDS};
use mmtf_tests::independent::FILE_LIMIT;

/// How many files with fields are run, how many whose numbers are known from the
/// making of them, and how many containers.
const FILES: u64 = 8_000;
const MADE: u64 = 2_000;
const CONTAINERS: u64 = 4_000;

const _: () = assert!((FILES + MADE + CONTAINERS) * COMPARED >= 100_000);

/// How often each verdict came up.
#[derive(Default)]
struct Tally([u64; 25]);

impl Tally {
    /// Runs a file whose verdict may be known, and counts it.
    fn note(&mut self, rng: &mut Rng, file: &[u8], known: Option<u8>) {
        match agree_on_receipts(rng, file) {
            Err(difference) => panic!("{difference}\n{}", hex(file)),
            Ok([_, _, verdict, ..]) => {
                let known = known.map_or(verdict, u32::from);
                assert_eq!(verdict, known, "{}", hex(file));
                self.0[verdict as usize] += 1;
            }
        }
    }

    /// So many files must have been run, and each of these verdicts come up.
    fn meets(&self, files: u64, verdicts: &[u8]) {
        let run: u64 = self.0.iter().sum();
        assert!(run >= files, "{run} files");
        for &verdict in verdicts {
            let times = self.0[usize::from(verdict)];
            assert!(times >= 3, "verdict {verdict}: {times} times");
        }
    }
}

/// The verdicts that must come up: of containers, of files with fields, and of
/// files over the limit.
const OF_CONTAINERS: [u8; 11] = [2, 3, 4, 5, 6, 7, 8, 9, 10, 11, 12];
const OF_FILES: [u8; 14] = [0, 12, 13, 14, 15, 16, 17, 18, 19, 20, 21, 22, 23, 24];
const OF_LARGE: [u8; 1] = [1];

#[test]
fn every_verdict_must_come_up() {
    let all = [&OF_CONTAINERS[..], &OF_FILES, &OF_LARGE].concat();
    assert!((0..=24).all(|verdict| all.contains(&verdict)), "{all:?}");
}

#[test]
fn files() {
    let mut rng = Rng::new(0x7265_6365);
    let mut tally = Tally::default();
    for (kind, share) in FILE_KINDS {
        // Those of many types are few, and large.
        let files = match kind {
            FileKind::ManyTypes => 16,
            _ => FILES * share / 1_000,
        };
        for _ in 0..files {
            let case = file_case(kind, &mut rng);
            tally.note(&mut rng, &case.file, case.expected);
        }
    }
    tally.meets(FILES, &OF_FILES);
}

#[test]
fn containers() {
    let mut rng = Rng::new(0x6970_7473);
    let mut tally = Tally::default();
    for (kind, share) in KINDS {
        // Those with 256 entries are few, and large.
        let files = match kind {
            Kind::MapSize => 100,
            _ => CONTAINERS * share / 100,
        };
        for _ in 0..files {
            let case = case(kind, &mut rng);
            let known = case.expected.filter(|&number| number > 0);
            tally.note(&mut rng, &case.file, known);
        }
    }
    tally.meets(CONTAINERS, &OF_CONTAINERS);
}

#[test]
fn large_files() {
    let mut rng = Rng::new(0x6c61_7267);
    let mut tally = Tally::default();
    for more in [1, 2, 4_096, FILE_LIMIT] {
        let file = vec![0; FILE_LIMIT + more];
        for _ in 0..10 {
            tally.note(&mut rng, &file, Some(1));
        }
    }
    tally.meets(40, &OF_LARGE);
}

/// Of a file that is made from a structure the numbers are known from that.
#[test]
fn numbers_of_the_making() {
    let mut rng = Rng::new(0x6d61_6465);
    for _ in 0..MADE {
        let size = Size::small(&mut rng);
        let structure = Structure::any(&mut rng, size);
        let document = structure.document(&mut rng);
        let fields = document.present().len() as u32;
        let file = document.file(&mut rng);
        let counts = [
            structure.models,
            structure.chains,
            structure.groups,
            structure.atoms,
            structure.bonds,
        ];
        match agree_on_receipts(&mut rng, &file) {
            Ok([_, _, verdict, shown @ .., last, units]) => {
                assert_eq!(shown, counts.map(|count| count as u32), "{}", hex(&file));
                assert_eq!([verdict, last, units], [0, fields, 1], "{}", hex(&file));
            }
            Err(difference) => panic!("{difference}\n{}", hex(&file)),
        }
    }
}

/// Every job, by stations in turn, for a file that is refused at its first byte.
#[test]
fn every_job() {
    for job in 1..=999_999 {
        let station = 1 + job % 99;
        let expected = [station, job, 3, 0, 0, 0, 0, 0, 0, 0];
        match agree_on_receipt([station, job], b"\xc0") {
            Ok((_, numbers)) => assert_eq!(numbers, expected),
            Err(difference) => panic!("{difference}"),
        }
    }
}

/// Every station with every end of a job, allowed or not, and every room.
#[test]
fn every_station() {
    for station in (0..=130).chain(NO_STATIONS) {
        for &job in JOBS.iter().chain(&NO_JOBS) {
            for room in 0..=LONGEST {
                if let Err(difference) = agree_on_writing([station, job], b"\x80", room) {
                    panic!("{difference}");
                }
            }
        }
    }
}
