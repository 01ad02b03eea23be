//! Faults of a file, in the order in which they are refused: those of the fields
//! and columns are put into the document, those of the counts into the structure
//! from which it is made.

use super::cells::{Kind, COLUMNS};
use super::document::Document;
use super::rules::Rule;
use super::shape::{near, shape};
use super::structure::Structure;
use super::value::Value;
use super::Rng;
use crate::generate::columns::{Fault as ColumnFault, Parts};
use crate::independent::{Field, FIELDS, REQUIRED};

#[derive(Clone, Copy, Debug, PartialEq, Eq)]
pub enum Fault {
    /// 12
    Missing(Field),
    /// 13
    Type(Field),
    /// 24
    Version,
    /// 14 to 19
    Column(Field, InColumn),
    /// 20 to 23
    Count(Rule),
}

/// What is wrong with a column.
#[derive(Clone, Copy, Debug, PartialEq, Eq)]
pub enum InColumn {
    Alone(ColumnFault),
    /// A codec of another kind.
    OtherKind,
    /// Names that are not of four bytes.
    NameSize,
}

impl Fault {
    /// A fault that a structure can have.
    pub fn any(rng: &mut Rng, structure: &Structure) -> Fault {
        match rng.below(14) {
            0 => Fault::Missing(FIELDS[rng.below(REQUIRED)]),
            1 | 2 => Fault::Type(*rng.pick(&FIELDS)),
            3 => Fault::Version,
            4..=6 => {
                let field = *rng.pick(&COLUMNS);
                Fault::Column(field, InColumn::any(rng, field))
            }
            _ => Fault::Count(Rule::any(rng, structure.types.len())),
        }
    }

    /// The place in the order, whatever the field and the type are.
    pub fn stage(self) -> usize {
        match self {
            Fault::Missing(_) => 0,
            Fault::Type(_) => 1,
            Fault::Version => 2,
            Fault::Column(..) => 3,
            Fault::Count(rule) => 3 + rule.stage(),
        }
    }

    /// Where the fault stands in the order: the smaller is refused first.
    pub fn rank(self) -> (usize, usize) {
        match self {
            Fault::Missing(_) => (0, 0),
            Fault::Type(_) => (1, 0),
            Fault::Version => (2, 0),
            Fault::Column(field, _) => (3, field as usize),
            Fault::Count(rule) => rule.rank(),
        }
    }
}

/// How many stages there are.
pub const STAGES: usize = 18;

/// A file with faults of different ranks. The later in the order is put in
/// first, so that the earlier one stays as it is; so they are sorted, the last in
/// the order first. Gives nothing if one cannot be had, and else the number of
/// the first.
pub fn faulty(
    rng: &mut Rng,
    mut structure: Structure,
    faults: &mut [Fault],
) -> Option<(Vec<u8>, u8)> {
    faults.sort_by_key(|fault| std::cmp::Reverse(fault.rank()));
    let mut number = 0;
    for fault in faults.iter() {
        if let Fault::Count(rule) = fault {
            number = rule.put(rng, &mut structure)?;
        }
    }
    let mut document = structure.document(rng);
    for fault in faults.iter() {
        number = match *fault {
            Fault::Count(_) => number,
            Fault::Column(field, in_column) => in_column.put(rng, document.field(field))?,
            Fault::Version => version(rng, &mut document),
            Fault::Type(field) => mistype(rng, &mut document, field),
            Fault::Missing(field) => missing(rng, &mut document, field),
        };
    }
    Some((document.file(rng), number))
}

/// At times the field is there under a name that is near its own.
fn missing(rng: &mut Rng, document: &mut Document, field: Field) -> u8 {
    let value = document.field(field).take();
    if let (Some(value), true) = (value, rng.chance(1, 3)) {
        document.renamed.push((near(rng, field.name()), value));
    }
    12
}

fn mistype(rng: &mut Rng, document: &mut Document, field: Field) -> u8 {
    let shape = shape(field);
    let slot = document.field(field);
    let value = slot.get_or_insert_with(|| shape.filled(rng));
    shape.mistype(rng, value);
    13
}

fn version(rng: &mut Rng, document: &mut Document) -> u8 {
    const OTHERS: [&str; 14] = [
        "",
        "1",
        "1.",
        "1.x",
        "1.\u{661}",
        "10.0",
        "11.0",
        "2.0",
        "0.2",
        "01.0",
        " 1.0",
        "1 .0",
        "1,0",
        ".1.0",
    ];
    let version: &str = rng.pick::<&str>(&OTHERS);
    *document.field(Field::MmtfVersion) = Some(Value::text(version));
    24
}

impl InColumn {
    fn any(rng: &mut Rng, field: Field) -> InColumn {
        let kind = Kind::of(field);
        let codec = *rng.pick(kind.codecs());
        match rng.below(6) {
            0 => InColumn::OtherKind,
            1 if kind == Kind::Names => InColumn::NameSize,
            _ => InColumn::Alone(*rng.pick(ColumnFault::of(codec))),
        }
    }

    /// Puts the fault into a column that is there and has none, by a codec that
    /// can have it. Gives its number.
    fn put(self, rng: &mut Rng, column: &mut Option<Value>) -> Option<u8> {
        let Some(Value::Binary(bytes)) = column else {
            return None;
        };
        let mut parts = Parts::of(bytes)?;
        let number = match self {
            InColumn::Alone(fault) if ColumnFault::of(parts.codec).contains(&fault) => {
                *bytes = fault.put(rng, &mut parts);
                return Some(fault.number());
            }
            InColumn::Alone(_) => return None,
            InColumn::OtherKind => {
                parts.codec = other_kind(rng, parts.codec);
                15
            }
            InColumn::NameSize => {
                parts.parameter = *rng.pick(&[1, 2, 3, 5, 8, 255]);
                let size = parts.length as usize * parts.parameter as usize;
                parts.payload = vec![b'A'; size];
                16
            }
        };
        *bytes = parts.bytes();
        Some(number)
    }
}

/// A known codec whose kind is another; a short one is of no named field.
fn other_kind(rng: &mut Rng, codec: i32) -> i32 {
    let kinds = [
        Kind::Real,
        Kind::Whole,
        Kind::Small,
        Kind::Letters,
        Kind::Names,
    ];
    let own = kinds
        .into_iter()
        .find(|kind| kind.codecs().contains(&codec));
    loop {
        let other = rng.within(1, 16) as i32;
        if own.is_none_or(|kind| !kind.codecs().contains(&other)) {
            return other;
        }
    }
}
