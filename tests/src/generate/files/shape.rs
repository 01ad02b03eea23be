//! The types of the named fields as data: to fill fields that no rule counts,
//! and to put a wrong type at any place in one.

use super::value::Value::{self, *};
use super::Rng;
use crate::generate::text;
use crate::independent::Field;

pub enum Shape {
    OfString,
    OfInteger,
    OfFloat,
    OfBinary,
    /// Just so many floats.
    Floats(usize),
    ListOf(&'static Shape),
    /// Entries that are required, and those that are not.
    Entries(
        &'static [(&'static str, Shape)],
        &'static [(&'static str, Shape)],
    ),
}

use Shape::*;

const STRINGS: Shape = ListOf(&OfString);
const INTEGERS: Shape = ListOf(&OfInteger);

const GROUP: Shape = Entries(
    &[
        ("groupName", OfString),
        ("singleLetterCode", OfString),
        ("chemCompType", OfString),
        ("formalChargeList", INTEGERS),
        ("atomNameList", STRINGS),
        ("elementList", STRINGS),
    ],
    &[("bondAtomList", INTEGERS), ("bondOrderList", INTEGERS)],
);

const TRANSFORM: Shape = Entries(&[("chainIndexList", INTEGERS), ("matrix", Floats(16))], &[]);

const ASSEMBLY: Shape = Entries(
    &[("name", OfString), ("transformList", ListOf(&TRANSFORM))],
    &[],
);

const ENTITY: Shape = Entries(
    &[
        ("chainIndexList", INTEGERS),
        ("description", OfString),
        ("type", OfString),
        ("sequence", OfString),
    ],
    &[],
);

/// The type of a named field.
pub fn shape(field: Field) -> &'static Shape {
    use Field::*;
    match field {
        MmtfVersion | MmtfProducer | Title | StructureId | SpaceGroup | DepositionDate
        | ReleaseDate => &OfString,
        NumBonds | NumAtoms | NumGroups | NumChains | NumModels => &OfInteger,
        GroupsPerChain | ChainsPerModel => &INTEGERS,
        Resolution | RFree | RWork => &OfFloat,
        UnitCell => &Floats(6),
        ExperimentalMethods => &STRINGS,
        NcsOperatorList => &ListOf(&Floats(16)),
        GroupList => &ListOf(&GROUP),
        BioAssemblyList => &ListOf(&ASSEMBLY),
        EntityList => &ListOf(&ENTITY),
        _ => &OfBinary,
    }
}

impl Shape {
    /// A value of this type, for a field that nothing else is asked of.
    pub fn filled(&self, rng: &mut Rng) -> Value {
        match self {
            OfString => String(text(rng, 12)),
            OfInteger => Integer(rng.word() as i32),
            OfFloat => Float(rng.word() as u32),
            OfBinary => Binary(rng.bytes(0, 20)),
            Floats(count) => Array((0..*count).map(|_| Float(rng.word() as u32)).collect()),
            ListOf(shape) => Array((0..rng.below(4)).map(|_| shape.filled(rng)).collect()),
            Entries(required, _) => Map(required
                .iter()
                .map(|(key, shape)| (key.as_bytes().to_vec(), shape.filled(rng)))
                .collect()),
        }
    }

    /// Makes the type wrong in one place of a value that has it.
    pub fn mistype(&self, rng: &mut Rng, value: &mut Value) {
        if rng.chance(1, 4) {
            *value = value.other_kind(rng);
            return;
        }
        match (self, value) {
            (Floats(count), Array(floats)) => mistype_floats(rng, *count, floats),
            (ListOf(shape), Array(values)) => {
                if values.is_empty() || rng.chance(1, 8) {
                    values.push(shape.filled(rng));
                }
                let at = rng.below(values.len());
                shape.mistype(rng, &mut values[at]);
            }
            (Entries(required, optional), Map(entries)) => {
                mistype_entries(rng, required, optional, entries)
            }
            (_, value) => *value = value.other_kind(rng),
        }
    }
}

/// Another number of floats, or one that is none.
fn mistype_floats(rng: &mut Rng, count: usize, floats: &mut Vec<Value>) {
    match rng.below(3) {
        0 => {
            let number = *rng.pick(&[0, 1, count - 1, count + 1, count + 256]);
            floats.resize(number, Float(0x3f80_0000));
        }
        1 => floats[rng.below(count)] = Integer(rng.below(3) as i32),
        _ => {
            let at = rng.below(count);
            floats[at] = floats[at].other_kind(rng);
        }
    }
}

/// A required entry missing, at times under another name; or the type of an
/// entry wrong.
fn mistype_entries(
    rng: &mut Rng,
    required: &[(&str, Shape)],
    optional: &[(&str, Shape)],
    entries: &mut Vec<(Vec<u8>, Value)>,
) {
    let place = |entries: &[(Vec<u8>, Value)], name: &str| {
        let of = |(key, _): &(Vec<u8>, Value)| key == name.as_bytes();
        entries.iter().position(of)
    };
    if rng.chance(1, 2) {
        let (name, _) = rng.pick(required);
        let at = place(entries, name).expect("a required entry");
        let other = near(rng, name);
        let free = entries.iter().all(|(key, _)| *key != other);
        match free && rng.chance(1, 2) {
            true => entries[at].0 = other,
            false => drop(entries.remove(at)),
        }
        return;
    }
    let number = rng.below(required.len() + optional.len());
    let (name, shape) = required.iter().chain(optional).nth(number).expect("inside");
    let at = place(entries, name).unwrap_or_else(|| {
        entries.push((name.as_bytes().to_vec(), shape.filled(rng)));
        entries.len() - 1
    });
    shape.mistype(rng, &mut entries[at].1);
}

/// A name that is close to a real one, and yet none.
pub fn near(rng: &mut Rng, name: &str) -> Vec<u8> {
    let mut near = name.as_bytes().to_vec();
    let last = near.len() - 1;
    match rng.below(6) {
        0 => near.push(*rng.pick(b"s_1\0 ")),
        1 => drop(near.pop()),
        // The first letter in the other case.
        2 => near[0] ^= 0x20,
        3 => near[last] ^= 1,
        4 => near.insert(0, *rng.pick(b"_ x")),
        _ => near[last / 2] ^= 2,
    }
    near
}
