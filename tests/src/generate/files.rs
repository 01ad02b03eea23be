//! Generated files: all named fields, whole and faulty.

mod cells;
mod document;
mod faults;
mod rules;
mod shape;
mod structure;
mod value;

pub use cells::{Kind, COLUMNS};
pub use document::Document;
pub use faults::{faulty, Fault, InColumn, STAGES};
pub use rules::Rule;
pub use structure::{GroupType, Size, Structure, Transform};
pub use value::{integer_forms, Heads, Value};

use super::{damaged, Rng};
use crate::corpus;
use crate::independent::outer_entries;

/// A file, with its number and its faults where the making of it tells.
pub struct FileCase {
    pub file: Vec<u8>,
    pub expected: Option<u8>,
    pub faults: Vec<Fault>,
}

impl FileCase {
    fn of(file: Vec<u8>) -> FileCase {
        FileCase {
            file,
            expected: None,
            faults: Vec::new(),
        }
    }

    fn expecting(file: Vec<u8>, number: u8, faults: Vec<Fault>) -> FileCase {
        FileCase {
            file,
            expected: Some(number),
            faults,
        }
    }
}

/// The kinds of generated files.
#[derive(Clone, Copy, Debug, PartialEq, Eq)]
pub enum FileKind {
    Valid,
    OneFault,
    TwoFaults,
    ThreeFaults,
    Damaged,
    Flipped,
    CorpusFlipped,
    CorpusFields,
    ManyTypes,
}

/// Every kind, with how many of a thousand files are of it.
pub const FILE_KINDS: [(FileKind, u64); 9] = [
    (FileKind::Valid, 200),
    (FileKind::OneFault, 260),
    (FileKind::TwoFaults, 310),
    (FileKind::ThreeFaults, 59),
    (FileKind::Damaged, 50),
    (FileKind::Flipped, 60),
    (FileKind::CorpusFlipped, 30),
    (FileKind::CorpusFields, 30),
    (FileKind::ManyTypes, 1),
];

/// One file of a kind.
pub fn file_case(kind: FileKind, rng: &mut Rng) -> FileCase {
    match kind {
        FileKind::Valid => FileCase::expecting(valid(rng), 0, Vec::new()),
        FileKind::OneFault => with_faults(rng, 1),
        FileKind::TwoFaults => with_faults(rng, 2),
        FileKind::ThreeFaults => with_faults(rng, 3),
        FileKind::Damaged => {
            let whole = valid(rng);
            FileCase::of(damaged(rng, whole))
        }
        FileKind::Flipped => {
            let whole = valid(rng);
            FileCase::of(flipped(rng, whole))
        }
        FileKind::CorpusFlipped => {
            let file = small_corpus(rng).to_vec();
            FileCase::of(flipped(rng, file))
        }
        FileKind::CorpusFields => FileCase::of(corpus_fields(rng)),
        FileKind::ManyTypes => many_types(rng),
    }
}

fn any_structure(rng: &mut Rng) -> Structure {
    let size = Size::small(rng);
    Structure::any(rng, size)
}

/// A file that is accepted.
pub fn valid(rng: &mut Rng) -> Vec<u8> {
    any_structure(rng).document(rng).file(rng)
}

/// A file with so many faults of different ranks.
fn with_faults(rng: &mut Rng, number: usize) -> FileCase {
    loop {
        let structure = any_structure(rng);
        let mut faults: Vec<Fault> = Vec::new();
        while faults.len() < number {
            let fault = Fault::any(rng, &structure);
            if faults.iter().all(|other| other.rank() != fault.rank()) {
                faults.push(fault);
            }
        }
        if let Some((file, number)) = faulty(rng, structure, &mut faults) {
            return FileCase::expecting(file, number, faults);
        }
    }
}

/// One to three bits changed.
fn flipped(rng: &mut Rng, mut file: Vec<u8>) -> Vec<u8> {
    for _ in 0..rng.within(1, 3) {
        let at = rng.below(file.len());
        file[at] ^= 1 << rng.below(8);
    }
    file
}

fn small_corpus(rng: &mut Rng) -> &'static [u8] {
    let small: Vec<_> = corpus::DERIVED
        .iter()
        .filter(|(_, file)| file.len() < 11_000)
        .collect();
    rng.pick(&small).1
}

/// A structure file with a field left out, under another name, with another's
/// value, or with a number of its column's header changed.
fn corpus_fields(rng: &mut Rng) -> Vec<u8> {
    let file = small_corpus(rng);
    let entries = outer_entries(file).expect("an accepted container");
    let mut entries: Vec<(Vec<u8>, Vec<u8>)> = entries
        .into_iter()
        .map(|(key, value)| (key.to_vec(), value.to_vec()))
        .collect();
    let at = rng.below(entries.len());
    let other = rng.below(entries.len());
    match rng.below(5) {
        0 => drop(entries.remove(at)),
        1 => entries[at].0.push(b'_'),
        2 => entries[at].1 = entries[other].1.clone(),
        3 => {
            let number = Value::Integer(rng.below(500) as i32 - 20);
            entries[at].1 = number.bytes();
        }
        // A byte of the column's header, or one of the first behind it.
        _ => {
            let place = 2 + 4 * rng.below(4) + rng.below(4);
            if let Some(byte) = entries[at].1.get_mut(place) {
                *byte = rng.byte();
            }
        }
    }
    write_entries(rng, &entries)
}

fn write_entries(rng: &mut Rng, entries: &[(Vec<u8>, Vec<u8>)]) -> Vec<u8> {
    let mut out = Vec::new();
    super::head(rng, &mut out, super::Form::Map, entries.len());
    for (key, value) in entries {
        Value::String(key.clone()).write(rng, Heads::Any, &mut out);
        out.extend(value);
    }
    out
}

/// Around 4,096 group types, of which the last are used too; at times with a
/// fault that comes earlier or later, if of an index in the last type.
fn many_types(rng: &mut Rng) -> FileCase {
    let mut size = Size::small(rng);
    size.types = *rng.pick(&[1, 4_095, 4_096, 4_096, 4_097, 4_097, 4_098]);
    let few = size.types.min(9);
    let mut structure = Structure::any(rng, Size { types: few, ..size });
    structure.more_types(rng, size.types);
    let mut faults = Vec::new();
    if size.types > 4_096 {
        faults.push(Fault::Count(Rule::GroupTypes));
    }
    if rng.chance(1, 2) {
        let fault = Fault::any(rng, &structure);
        let last = size.types - 1;
        faults.push(match fault {
            Fault::Count(Rule::TypeIndex(_)) => Fault::Count(Rule::TypeIndex(last)),
            fault => fault,
        });
    }
    match faulty(rng, structure.clone(), &mut faults) {
        Some((file, number)) => FileCase::expecting(file, number, faults),
        None => FileCase::of(structure.document(rng).file(rng)),
    }
}

/// Numbers of assemblies and transforms to ask for: those that there may be,
/// and some that there cannot.
pub fn matrix_numbers(rng: &mut Rng) -> [u64; 2] {
    let number = |rng: &mut Rng| match rng.below(12) {
        0 => u64::MAX,
        1 => 1 << 32 | rng.below(3) as u64,
        2 => 1 << 63,
        3 => rng.below(400) as u64,
        4..=6 => rng.below(4) as u64,
        _ => 0,
    };
    [number(rng), number(rng)]
}
