//! Generated files, each through both implementations: the whole check, and
//! matrices by several numbers.

use mmtf_tests::check::files::{agree_on_matrix, agree_on_verdict};
use mmtf_tests::check::hex;
use mmtf_tests::generate::columns::Fault as ColumnFault;
use mmtf_tests::generate::files::{
    file_case, matrix_numbers, Fault, FileKind, InColumn, Kind, COLUMNS, FILE_KINDS, STAGES,
};
use mmtf_tests::generate::Rng;
use mmtf_tests::independent::{Field, FIELDS, REQUIRED};
use mmtf_tests::library::matrix::Matrix;

/// How many files are run in all, at the least.
const FILES: u64 = 160_000;

#[test]
fn shares_make_a_thousand() {
    let total: u64 = FILE_KINDS.iter().map(|(_, share)| share).sum();
    assert_eq!(total, 1_000);
}

#[test]
fn kinds_stand_in_order() {
    for (place, (kind, _)) in FILE_KINDS.iter().enumerate() {
        assert_eq!(*kind as usize, place);
    }
}

/// How often the verdict, and a matrix, gave each number; and the faults.
#[derive(Default)]
struct Tally {
    verdicts: [u64; 30],
    matrices: [u64; 30],
    faults: Vec<Vec<Fault>>,
}

/// Runs the share of a kind.
fn run(kind: FileKind) -> Tally {
    let (_, share) = FILE_KINDS[kind as usize];
    let mut rng = Rng::new(0x6669_6c65 ^ (kind as u64) << 40);
    let mut tally = Tally::default();
    for n in 0..FILES * share / 1_000 {
        let case = file_case(kind, &mut rng);
        match agree_on_verdict(&case.file) {
            Err(difference) => panic!("{kind:?} {n}: {difference}\n{}", hex(&case.file)),
            Ok(number) => {
                let expected = case.expected.unwrap_or(number);
                assert_eq!(number, expected, "{kind:?} {n}\n{}", hex(&case.file));
                tally.verdicts[usize::from(number)] += 1;
            }
        }
        for _ in 0..2 {
            let [assembly, transform] = matrix_numbers(&mut rng);
            match agree_on_matrix(&case.file, assembly, transform) {
                Ok(Matrix::Refused(number)) => tally.matrices[usize::from(number)] += 1,
                Ok(_) => tally.matrices[0] += 1,
                Err(difference) => panic!("{kind:?} {n}: {difference}\n{}", hex(&case.file)),
            }
        }
        tally.faults.push(case.faults);
    }
    tally
}

/// Each of these numbers must have come up so often, or the kind shows too
/// little.
fn run_and_meet(kind: FileKind, least: u64, verdicts: &[u8], matrices: &[u8]) -> Tally {
    let tally = run(kind);
    for &number in verdicts {
        let times = tally.verdicts[usize::from(number)];
        assert!(times >= least, "{kind:?}: verdict {number} {times} times");
    }
    for &number in matrices {
        let times = tally.matrices[usize::from(number)];
        assert!(times >= least, "{kind:?}: matrix {number} {times} times");
    }
    tally
}

/// Every number from 12 to 24.
const NUMBERS: [u8; 13] = [12, 13, 14, 15, 16, 17, 18, 19, 20, 21, 22, 23, 24];

/// All of them but 23, which needs large files.
fn of_faults() -> Vec<u8> {
    NUMBERS.into_iter().filter(|&number| number != 23).collect()
}

#[test]
fn valid() {
    run_and_meet(FileKind::Valid, 1_000, &[0], &[0, 26, 28]);
}

/// Every field was missing, or of the wrong type; every column had each number;
/// every rule but the first was broken.
#[test]
fn one_fault() {
    let tally = run_and_meet(FileKind::OneFault, 200, &of_faults(), &[0, 13, 26, 28]);
    let met = |fault: Fault| tally.faults.contains(&vec![fault]);
    for (place, field) in FIELDS.into_iter().enumerate() {
        assert!(place >= REQUIRED || met(Fault::Missing(field)), "{field:?}");
        assert!(met(Fault::Type(field)), "{field:?}");
    }
    for column in COLUMNS {
        assert!(
            met(Fault::Column(column, InColumn::OtherKind)),
            "{column:?}"
        );
        for &codec in Kind::of(column).codecs() {
            for &fault in ColumnFault::of(codec) {
                let alone = Fault::Column(column, InColumn::Alone(fault));
                assert!(met(alone), "{alone:?}");
            }
        }
    }
    for column in [Field::ChainIdList, Field::ChainNameList] {
        assert!(met(Fault::Column(column, InColumn::NameSize)), "{column:?}");
    }
    for stage in (0..STAGES).filter(|&stage| stage != FIRST_RULE) {
        let of_stage = |faults: &Vec<Fault>| faults[0].stage() == stage;
        let times = tally
            .faults
            .iter()
            .filter(|faults| of_stage(faults))
            .count();
        assert!(times > 100, "stage {stage}: {times}");
    }
}

/// The stage of the first rule, which needs large files.
const FIRST_RULE: usize = 4;

/// Every stage was met with every later one; two columns, and two types, too.
#[test]
fn two_faults() {
    let tally = run_and_meet(FileKind::TwoFaults, 200, &of_faults(), &[0, 13, 26, 28]);
    let mut met = [[0u32; STAGES]; STAGES];
    for faults in &tally.faults {
        met[faults[1].stage()][faults[0].stage()] += 1;
    }
    let stages = (0..STAGES).filter(|&stage| stage != FIRST_RULE);
    for first in stages.clone() {
        for later in stages.clone().filter(|&later| later > first) {
            let times = met[first][later];
            assert!(times >= 5, "{first} before {later}: {times}");
        }
    }
    assert!(met[3][3] > 100, "two columns");
    // A later kind of fault in an earlier type.
    assert!(met[9][8] + met[10][8] + met[10][9] > 20, "two types");
}

#[test]
fn three_faults() {
    run_and_meet(FileKind::ThreeFaults, 20, &of_faults(), &[0, 13, 26, 28]);
}

#[test]
fn damaged() {
    let verdicts = [0, 2, 3, 5, 8, 11, 12, 13, 15, 16, 17, 19, 20, 21];
    run_and_meet(
        FileKind::Damaged,
        2,
        &verdicts,
        &[0, 2, 3, 5, 8, 11, 13, 26, 28],
    );
}

#[test]
fn flipped() {
    let verdicts = [
        0, 2, 3, 5, 8, 11, 12, 13, 15, 16, 17, 18, 19, 20, 21, 22, 24,
    ];
    run_and_meet(
        FileKind::Flipped,
        2,
        &verdicts,
        &[0, 2, 3, 5, 8, 11, 26, 28],
    );
}

#[test]
fn corpus_flipped() {
    let verdicts = [0, 2, 3, 5, 8, 12, 17, 18, 19, 20, 21];
    run_and_meet(FileKind::CorpusFlipped, 2, &verdicts, &[0, 2, 3, 5, 8, 28]);
}

#[test]
fn corpus_fields() {
    let verdicts = [0, 12, 13, 15, 16, 17, 18, 19, 20];
    run_and_meet(FileKind::CorpusFields, 2, &verdicts, &[0, 13, 26, 28]);
}

#[test]
fn many_types() {
    run_and_meet(
        FileKind::ManyTypes,
        2,
        &[0, 12, 13, 20, 21, 22, 23, 24],
        &[0, 26, 28],
    );
}
