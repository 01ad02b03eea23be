//! Generated inputs: the same seed gives the same cases.

pub mod bills;
pub mod columns;
mod damage;
mod document;
mod families;
pub mod files;
pub mod receipts;
mod rng;
mod strings;

pub use damage::damaged;
pub use document::{document, faulty_document, Shape};
pub use families::{head, nested, Container, Form};
pub use rng::Rng;
pub use strings::{text, FAULTY, SCALARS};

use crate::corpus;

/// An input, with its container's number where the making of it tells.
pub struct Case {
    pub file: Vec<u8>,
    pub expected: Option<u8>,
}

impl Case {
    fn of(file: Vec<u8>) -> Case {
        Case {
            file,
            expected: None,
        }
    }

    fn expecting(file: Vec<u8>, number: u8) -> Case {
        Case {
            file,
            expected: Some(number),
        }
    }
}

/// The kinds of generated inputs.
#[derive(Clone, Copy, Debug, PartialEq, Eq)]
pub enum Kind {
    RandomShort,
    RandomMiddle,
    LeadStream,
    Document,
    DeepDocument,
    FaultyDocument,
    DamagedDocument,
    DamagedCorpus,
    CorpusPrefix,
    Nesting,
    MapSize,
    Keys,
    Strings,
    LeadByte,
}

/// Every kind, with how many of a hundred cases are of it.
pub const KINDS: [(Kind, u64); 14] = [
    (Kind::RandomShort, 8),
    (Kind::RandomMiddle, 4),
    (Kind::LeadStream, 15),
    (Kind::Document, 8),
    (Kind::DeepDocument, 6),
    (Kind::FaultyDocument, 16),
    (Kind::DamagedDocument, 16),
    (Kind::DamagedCorpus, 1),
    (Kind::CorpusPrefix, 1),
    (Kind::Nesting, 7),
    (Kind::MapSize, 1),
    (Kind::Keys, 6),
    (Kind::Strings, 6),
    (Kind::LeadByte, 5),
];

/// One case of a kind.
pub fn case(kind: Kind, rng: &mut Rng) -> Case {
    match kind {
        Kind::RandomShort => Case::of(random(rng, 0, 40)),
        Kind::RandomMiddle => Case::of(random(rng, 40, 600)),
        Kind::LeadStream => Case::of(families::lead_stream(rng)),
        Kind::Document => Case::expecting(document(rng, Shape::WIDE), 0),
        Kind::DeepDocument => Case::expecting(document(rng, Shape::DEEP), 0),
        Kind::FaultyDocument => faulty(rng),
        Kind::DamagedDocument => damaged_document(rng),
        Kind::DamagedCorpus => damaged_corpus(rng),
        Kind::CorpusPrefix => corpus_prefix(rng),
        Kind::Nesting => families::nesting(rng),
        Kind::MapSize => families::map_size(rng),
        Kind::Keys => families::keys(rng),
        Kind::Strings => families::strings(rng),
        Kind::LeadByte => Case::of(families::lead_byte(rng)),
    }
}

/// Random bytes; two of three begin with a map's lead byte.
fn random(rng: &mut Rng, least: usize, most: usize) -> Vec<u8> {
    let mut bytes = rng.bytes(least, most);
    if let (Some(first), true) = (bytes.first_mut(), rng.chance(2, 3)) {
        *first = 0x80 | *first & 0x0f;
    }
    bytes
}

fn shape(rng: &mut Rng) -> Shape {
    *rng.pick(&[Shape::WIDE, Shape::DEEP])
}

fn faulty(rng: &mut Rng) -> Case {
    let shape = shape(rng);
    let (file, number) = faulty_document(rng, shape);
    Case::expecting(file, number)
}

fn damaged_document(rng: &mut Rng) -> Case {
    let shape = shape(rng);
    let whole = document(rng, shape);
    Case::of(damaged(rng, whole))
}

fn damaged_corpus(rng: &mut Rng) -> Case {
    let small: Vec<_> = corpus::DERIVED
        .iter()
        .chain(corpus::PUBLISHED)
        .filter(|(_, file)| file.len() < 11_000)
        .collect();
    let (_, file) = **rng.pick(&small);
    Case::of(damaged(rng, file.to_vec()))
}

fn corpus_prefix(rng: &mut Rng) -> Case {
    let file = corpus::derived("4QXX");
    let n = rng.below(file.len());
    Case::expecting(file[..n].to_vec(), 2)
}
