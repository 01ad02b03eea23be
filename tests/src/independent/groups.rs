//! The group types in one pass: their types (13), and the table of atoms and
//! bonds with the first fault of each type in turn (20, 21, 22).

use super::lists::{strings, Integers};
use super::value::Reader;
use super::Refusal::{self, *};

/// The most group types.
pub const TYPE_LIMIT: u64 = 4_096;

/// The group types, as the counts need them.
pub struct GroupTypes {
    pub count: u64,
    /// Atoms and bonds of each type, up to the limit.
    pub table: Vec<Counts>,
    /// The first fault, type by type.
    pub agree: Result<(), Refusal>,
}

#[derive(Clone, Copy)]
pub struct Counts {
    pub atoms: u64,
    pub bonds: u64,
}

impl GroupTypes {
    pub fn read(reader: &mut Reader) -> Result<GroupTypes, Refusal> {
        let count = u64::from(reader.array()?);
        let mut table = Vec::with_capacity(count.min(TYPE_LIMIT) as usize);
        let mut agree = Ok(());
        for _ in 0..count {
            let group = GroupType::read(reader)?;
            if (table.len() as u64) < TYPE_LIMIT {
                table.push(group.counts());
            }
            if agree.is_ok() {
                agree = group.agrees();
            }
        }
        Ok(GroupTypes {
            count,
            table,
            agree,
        })
    }
}

/// One group type: how long its lists are, and its bonds.
struct GroupType {
    charges: u64,
    names: u64,
    elements: u64,
    bond_atoms: Option<Integers>,
    bond_orders: Option<Integers>,
}

impl GroupType {
    fn read(reader: &mut Reader) -> Result<GroupType, Refusal> {
        let mut texts = 3;
        let mut charges = None;
        let mut names = None;
        let mut elements = None;
        let mut bond_atoms = None;
        let mut bond_orders = None;
        for _ in 0..reader.map()? {
            match reader.string()? {
                b"groupName" | b"singleLetterCode" | b"chemCompType" => {
                    reader.string()?;
                    texts -= 1;
                }
                b"formalChargeList" => charges = Some(Integers::read(reader)?.count),
                b"atomNameList" => names = Some(strings(reader)?),
                b"elementList" => elements = Some(strings(reader)?),
                b"bondAtomList" => bond_atoms = Some(Integers::read(reader)?),
                b"bondOrderList" => bond_orders = Some(Integers::read(reader)?),
                _ => reader.skip(),
            }
        }
        match (texts, charges, names, elements) {
            (0, Some(charges), Some(names), Some(elements)) => Ok(GroupType {
                charges,
                names,
                elements,
                bond_atoms,
                bond_orders,
            }),
            _ => Err(FieldType),
        }
    }

    fn counts(&self) -> Counts {
        Counts {
            atoms: self.names,
            bonds: self.bond_atoms.map_or(0, |bonds| bonds.count / 2),
        }
    }

    fn agrees(&self) -> Result<(), Refusal> {
        if self.charges != self.names || self.elements != self.names {
            return Err(CountsDisagree);
        }
        let bond_atoms = self.bond_atoms.map(|bonds| bonds.count);
        bond_lengths(bond_atoms, self.bond_orders.map(|orders| orders.count))?;
        if self
            .bond_atoms
            .is_some_and(|atoms| !atoms.index(self.names))
        {
            return Err(IndexOutside);
        }
        if self.bond_orders.is_some_and(|orders| !orders.within(1, 4)) {
            return Err(ValueOutside);
        }
        Ok(())
    }
}

/// The indices of bonds are even, and there are half as many orders, if any;
/// these are never there alone.
pub fn bond_lengths(atoms: Option<u64>, orders: Option<u64>) -> Result<(), Refusal> {
    match (atoms, orders) {
        (None, None) => Ok(()),
        (Some(atoms), None) if atoms % 2 == 0 => Ok(()),
        (Some(atoms), Some(orders)) if atoms == 2 * orders => Ok(()),
        _ => Err(CountsDisagree),
    }
}
