//! A file made by hand, small enough to count, in which one field at a time is
//! changed.
//!
//! One model of two chains. The first chain has two groups, the second has one;
//! their types are 0, 1 and 0. Type 0 has three atoms and two bonds, type 1 has
//! one atom and no bond. So there are 3 + 1 + 3 atoms and 2 + 0 + 2 bonds in the
//! groups, and one bond outside.

use super::made::{column, wide};
use crate::generate::files::Value::{self, *};

/// The fields of a file, in order.
#[derive(Clone, Debug)]
pub struct Sample(Vec<(Vec<u8>, Value)>);

impl Sample {
    /// The required fields, and the bond outside.
    pub fn new() -> Sample {
        let sample = Sample(Vec::new())
            .with("mmtfVersion", Value::text("1.0.0"))
            .with("mmtfProducer", Value::text("by hand"))
            .with("numBonds", Integer(5))
            .with("numAtoms", Integer(7))
            .with("numGroups", Integer(3))
            .with("numChains", Integer(2))
            .with("numModels", Integer(1))
            .with("groupList", Array(vec![group_of_three(), group_of_one()]))
            .with("xCoordList", fixed_point(&[1, 2, 3, 4, 5, 6, 7]))
            .with("yCoordList", fixed_point(&[0; 7]))
            .with("zCoordList", fixed_point(&[-1; 7]))
            .with("groupIdList", int32(&[10, 11, 12]))
            .with("groupTypeList", int32(&[0, 1, 0]))
            .with("chainIdList", names(b"A\0\0\0B\0\0\0"))
            .with("groupsPerChain", Value::integers(&[2, 1]))
            .with("chainsPerModel", Value::integers(&[2]));
        sample.with("bondAtomList", int32(&[2, 3]))
    }

    /// All named fields.
    pub fn full() -> Sample {
        Sample::new()
            .with("bondOrderList", int8(&[1]))
            .with("bFactorList", fixed_point(&[50; 7]))
            .with("atomIdList", int32(&[1, 2, 3, 4, 5, 6, 7]))
            .with("altLocList", chars(&[0; 7]))
            .with("occupancyList", fixed_point(&[100; 7]))
            .with("secStructList", int8(&[-1, 7, 0]))
            .with("insCodeList", chars(&[0, 0, b'A']))
            .with("sequenceIdList", int32(&[-1, 0, 1]))
            .with("chainNameList", names(b"X\0\0\0Y\0\0\0"))
            .with("title", Value::text("A structure made by hand"))
            .with("structureId", Value::text("0AAA"))
            .with("spaceGroup", Value::text("P 1"))
            .with("depositionDate", Value::text("no date"))
            .with("releaseDate", Value::text(""))
            .with("resolution", one())
            .with("rFree", one())
            .with("rWork", one())
            .with("unitCell", Array(vec![one(); 6]))
            .with("experimentalMethods", Array(vec![Value::text("BY HAND")]))
            .with("ncsOperatorList", Array(vec![Array(vec![one(); 16])]))
            .with("bioAssemblyList", Array(vec![assembly(vec![transform()])]))
            .with("entityList", Array(vec![entity()]))
    }

    /// With this field, in its place if it was there, or else at the end.
    pub fn with(mut self, name: &str, value: Value) -> Sample {
        let slot = self.0.iter_mut().find(|(key, _)| key == name.as_bytes());
        match slot {
            Some((_, old)) => *old = value,
            None => self.0.push((name.as_bytes().to_vec(), value)),
        }
        self
    }

    pub fn without(mut self, name: &str) -> Sample {
        let before = self.0.len();
        self.0.retain(|(key, _)| key != name.as_bytes());
        assert_eq!(self.0.len() + 1, before, "{name} was there");
        self
    }

    /// With the field under another name.
    pub fn renamed(mut self, name: &str, other: &str) -> Sample {
        let entry = self.0.iter_mut().find(|(key, _)| key == name.as_bytes());
        entry.expect("a field of the sample").0 = other.as_bytes().to_vec();
        self
    }

    pub fn reversed(mut self) -> Sample {
        self.0.reverse();
        self
    }

    /// With the fields from this place on first, and those before it behind.
    pub fn rotated(mut self, place: usize) -> Sample {
        self.0.rotate_left(place);
        self
    }

    pub fn value(&self) -> Value {
        Map(self.0.clone())
    }

    pub fn bytes(&self) -> Vec<u8> {
        self.value().bytes()
    }
}

impl Default for Sample {
    fn default() -> Sample {
        Sample::new()
    }
}

/// The float 1.
pub fn one() -> Value {
    Float(0x3f80_0000)
}

/// A group type of so many atoms, with these bonds and orders.
pub fn group(atoms: usize, bonds: Option<&[i32]>, orders: Option<&[i32]>) -> Value {
    let mut group = Value::map([
        ("groupName", Value::text("GLY")),
        ("singleLetterCode", Value::text("G")),
        ("chemCompType", Value::text("PEPTIDE LINKING")),
        ("formalChargeList", Value::integers(&vec![0; atoms])),
        ("atomNameList", Value::strings(&vec![b"CA".to_vec(); atoms])),
        ("elementList", Value::strings(&vec![b"C".to_vec(); atoms])),
    ]);
    if let Some(bonds) = bonds {
        group = with_entry(group, "bondAtomList", Value::integers(bonds));
    }
    if let Some(orders) = orders {
        group = with_entry(group, "bondOrderList", Value::integers(orders));
    }
    group
}

pub fn group_of_three() -> Value {
    group(3, Some(&[0, 1, 1, 2]), Some(&[1, 2]))
}

pub fn group_of_one() -> Value {
    group(1, None, None)
}

pub fn transform() -> Value {
    let floats: Vec<u32> = (1..=16).map(|n| (n as f32).to_bits()).collect();
    Value::map([
        ("chainIndexList", Value::integers(&[0, 1])),
        ("matrix", Value::floats(&floats)),
    ])
}

pub fn assembly(transforms: Vec<Value>) -> Value {
    Value::map([
        ("name", Value::text("1")),
        ("transformList", Array(transforms)),
    ])
}

pub fn entity() -> Value {
    Value::map([
        ("chainIndexList", Value::integers(&[0, 1])),
        ("description", Value::text("a peptide")),
        ("type", Value::text("polymer")),
        ("sequence", Value::text("GG")),
    ])
}

/// A map with this entry, in its place if it was there, or else at the end.
pub fn with_entry(map: Value, name: &str, value: Value) -> Value {
    let Map(entries) = map else {
        panic!("{map:?} is no map");
    };
    Sample(entries).with(name, value).value()
}

pub fn without_entry(map: Value, name: &str) -> Value {
    let Map(entries) = map else {
        panic!("{map:?} is no map");
    };
    Sample(entries).without(name).value()
}

/// One model of one chain, with as many groups of one type; runs make up the
/// columns of atoms and groups.
pub fn uniform(group: Value, groups: i32, atoms: i32, bonds: i32) -> Sample {
    let run = |codec, length| match length {
        0 => Binary(wide([codec, 0, 1], &[])),
        _ => Binary(wide([codec, length, 1], &[0, length])),
    };
    Sample::new()
        .without("bondAtomList")
        .with("numBonds", Integer(bonds))
        .with("numAtoms", Integer(atoms))
        .with("numGroups", Integer(groups))
        .with("numChains", Integer(1))
        .with("groupList", Array(vec![group]))
        .with("xCoordList", run(9, atoms))
        .with("yCoordList", run(9, atoms))
        .with("zCoordList", run(9, atoms))
        .with("groupIdList", run(8, groups))
        .with("groupTypeList", run(7, groups))
        .with("chainIdList", names(b"A\0\0\0"))
        .with("groupsPerChain", Value::integers(&[groups]))
        .with("chainsPerModel", Value::integers(&[1]))
}

/// The full sample with an unknown field, so that the file has this many bytes.
pub fn of_size(size: usize) -> Vec<u8> {
    let with = |count| Sample::full().with("filler", Binary(vec![0xff; count]));
    let more = size - with(1 << 20).bytes().len();
    with((1 << 20) + more).bytes()
}

/// A column of int32 by codec 4.
pub fn int32(numbers: &[i32]) -> Value {
    Binary(wide([4, numbers.len() as i32, 0], numbers))
}

/// A column of int8 by codec 2.
pub fn int8(numbers: &[i8]) -> Value {
    Binary(super::made::small([2, numbers.len() as i32, 0], numbers))
}

/// A column of reals by codec 11, in hundredths.
pub fn fixed_point(numbers: &[i16]) -> Value {
    Binary(super::made::narrow(
        [11, numbers.len() as i32, 100],
        numbers,
    ))
}

/// A column of letters by codec 6, each a run of its own.
pub fn chars(letters: &[u8]) -> Value {
    let runs: Vec<i32> = letters.iter().flat_map(|&n| [i32::from(n), 1]).collect();
    Binary(wide([6, letters.len() as i32, 0], &runs))
}

/// A column of names of four bytes.
pub fn names(bytes: &[u8]) -> Value {
    Binary(column([5, bytes.len() as i32 / 4, 4], bytes))
}
