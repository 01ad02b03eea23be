//! Faults of the counts, rule by rule. Each leaves the rules before its own as
//! they were.

use super::cells;
use super::structure::{indices, orders, GroupType, Structure, Transform};
use super::Rng;
use crate::independent::Field::{self, *};

#[derive(Clone, Copy, Debug, PartialEq, Eq)]
pub enum Rule {
    /// 1: more than 4,096 group types (23).
    GroupTypes,
    /// 2: a number out of range, an entry below 0 (22).
    Range,
    /// 3: entries and sums of models and chains (20).
    Entries,
    /// 4: a column's length (20).
    Length,
    /// 5: lists of a type (20).
    TypeLists(usize),
    /// 5: an index of a type's bond (21).
    TypeIndex(usize),
    /// 5: an order of a type's bond (22).
    TypeOrder(usize),
    /// 6: a group's type (21).
    GroupIndex,
    /// 7: atoms (20).
    Atoms,
    /// 8: bonds, and the lists outside (20).
    Bonds,
    /// 9: an index of a bond outside (21).
    BondIndex,
    /// 9: an order of a bond outside (22).
    BondOrder,
    /// 10: secStructList, sequenceIdList (22).
    Listed,
    /// 11: an index of a chain (21).
    ChainIndex,
}

use Rule::*;

const LIMIT: i32 = 16_777_216;

impl Rule {
    /// A fault by any rule but the first, for a structure of so many types.
    pub fn any(rng: &mut Rng, types: usize) -> Rule {
        let group = rng.below(types.max(1));
        *rng.pick(&[
            Range,
            Entries,
            Length,
            TypeLists(group),
            TypeIndex(group),
            TypeOrder(group),
            GroupIndex,
            Atoms,
            Bonds,
            BondIndex,
            BondOrder,
            Listed,
            ChainIndex,
        ])
    }

    /// Where it stands in the order, after the fields and columns. The faults
    /// of types go type by type.
    pub fn rank(self) -> (usize, usize) {
        let stage = self.stage();
        match self {
            TypeLists(group) | TypeIndex(group) | TypeOrder(group) => (5, 3 * group + stage),
            _ if stage < 5 => (4, stage),
            _ => (6, stage),
        }
    }

    /// The same, whatever the type is.
    pub fn stage(self) -> usize {
        match self {
            GroupTypes => 1,
            Range => 2,
            Entries => 3,
            Length => 4,
            TypeLists(_) => 5,
            TypeIndex(_) => 6,
            TypeOrder(_) => 7,
            GroupIndex => 8,
            Atoms => 9,
            Bonds => 10,
            BondIndex => 11,
            BondOrder => 12,
            Listed => 13,
            ChainIndex => 14,
        }
    }

    /// Puts the fault in. Gives its number, or nothing if the structure cannot
    /// have it.
    pub fn put(self, rng: &mut Rng, to: &mut Structure) -> Option<u8> {
        match self {
            GroupTypes => too_many_types(rng, to),
            Range => range(rng, to),
            Entries => entries(rng, to),
            Length => length(rng, to),
            TypeLists(group) => type_lists(rng, to.types.get_mut(group)?),
            TypeIndex(group) => type_index(rng, to.types.get_mut(group)?),
            TypeOrder(group) => type_order(rng, to.types.get_mut(group)?),
            GroupIndex => group_index(rng, to),
            Atoms => atoms(rng, to),
            Bonds => bonds(rng, to),
            BondIndex => bond_index(rng, to),
            BondOrder => bond_order(rng, to),
            Listed => listed(rng, to),
            ChainIndex => chain_index(rng, to),
        }
    }
}

/// A number that is no index of a table of so many rows.
fn outside(rng: &mut Rng, rows: i32) -> i32 {
    *rng.pick(&[
        rows,
        rows,
        rows.saturating_add(1),
        -1,
        -1,
        i32::MIN,
        i32::MAX,
    ])
}

fn put_anywhere(rng: &mut Rng, list: &mut [i32], number: i32) {
    let at = rng.below(list.len());
    list[at] = number;
}

fn too_many_types(rng: &mut Rng, to: &mut Structure) -> Option<u8> {
    let count = 4_097 + rng.below(3);
    while to.types.len() < count {
        to.types.push(GroupType::of_atoms(rng, 0));
    }
    Some(23)
}

fn range(rng: &mut Rng, to: &mut Structure) -> Option<u8> {
    let least = *rng.pick(&[-1, -1, i32::MIN]);
    let list = match rng.below(4) {
        0 => &mut to.groups_per_chain,
        1 => &mut to.chains_per_model,
        _ => &mut Vec::new(),
    };
    if !list.is_empty() {
        let at = rng.below(list.len());
        // At times the sum stays the same.
        let next = (at + 1) % list.len();
        if least == -1 {
            list[next] = list[next].saturating_add(list[at]).saturating_add(1);
        }
        list[at] = least;
        return Some(22);
    }
    let number = match rng.below(5) {
        0 => &mut to.bonds,
        1 => &mut to.atoms,
        2 => &mut to.groups,
        3 => &mut to.chains,
        _ => &mut to.models,
    };
    *number = *rng.pick(&[least, LIMIT + 1, LIMIT + 1, i32::MAX]);
    Some(22)
}

fn entries(rng: &mut Rng, to: &mut Structure) -> Option<u8> {
    let of_models = rng.chance(1, 2);
    let list = match of_models {
        true => &mut to.chains_per_model,
        false => &mut to.groups_per_chain,
    };
    match rng.below(7) {
        0 => list.push(0),
        1 => {
            list.pop()?;
        }
        2 if !list.is_empty() => list[0] += 1,
        3 if of_models => {
            // With 32 bits the sum would agree.
            list.extend([i32::MAX, i32::MAX, 2]);
            to.models += 3;
        }
        4 => *pick_count(rng, to) += 1,
        5 => {
            let count = pick_count(rng, to);
            if *count == 0 {
                return None;
            }
            *count -= 1;
        }
        6 => *pick_count(rng, to) = LIMIT,
        _ => return None,
    }
    Some(20)
}

fn pick_count<'a>(rng: &mut Rng, to: &'a mut Structure) -> &'a mut i32 {
    match rng.below(3) {
        0 => &mut to.groups,
        1 => &mut to.chains,
        _ => &mut to.models,
    }
}

fn length(rng: &mut Rng, to: &mut Structure) -> Option<u8> {
    let field = *rng.pick(&cells::COLUMNS);
    to.length(field)?;
    let column = to.column(field).as_mut()?;
    match rng.chance(1, 2) {
        true => column.push(0),
        false => {
            column.pop()?;
        }
    }
    Some(20)
}

fn type_lists(rng: &mut Rng, group: &mut GroupType) -> Option<u8> {
    match rng.below(8) {
        0 => group.charges.push(0),
        1 => group.names.push(Vec::new()),
        2 => group.elements.push(Vec::new()),
        3 => {
            group.charges.pop()?;
        }
        4 => group.bond_atoms.get_or_insert_default().push(0),
        5 => group.bond_orders.as_mut()?.push(1),
        6 => {
            group.bond_orders.as_mut()?.pop()?;
        }
        _ => {
            group.bond_atoms = None;
            let number = rng.below(2);
            group.bond_orders = Some(orders(rng, number));
        }
    }
    Some(20)
}

fn type_index(rng: &mut Rng, group: &mut GroupType) -> Option<u8> {
    let number = outside(rng, group.atoms());
    let inside = indices(rng, 1, group.atoms());
    let other = inside.first().copied().unwrap_or(0);
    let bonds = group.bond_atoms.get_or_insert_default();
    let pair = match rng.chance(1, 2) {
        true => [number, other],
        false => [other, number],
    };
    bonds.splice(0..0, pair);
    if let Some(orders) = &mut group.bond_orders {
        orders.push(1);
    }
    Some(21)
}

fn type_order(rng: &mut Rng, group: &mut GroupType) -> Option<u8> {
    if group.bonds() == 0 {
        if group.atoms() == 0 {
            return None;
        }
        group.bond_atoms = Some(indices(rng, 2, group.atoms()));
        group.bond_orders = None;
    }
    let pairs = group.bonds() as usize;
    let list = group.bond_orders.get_or_insert_with(|| orders(rng, pairs));
    let order = *rng.pick(&[0, 0, 5, 5, -1, i32::MIN, i32::MAX, 257]);
    put_anywhere(rng, list, order);
    Some(22)
}

fn group_index(rng: &mut Rng, to: &mut Structure) -> Option<u8> {
    let number = outside(rng, to.types.len() as i32);
    let column = to.column(GroupTypeList).as_mut()?;
    if column.is_empty() {
        return None;
    }
    put_anywhere(rng, column, number);
    Some(21)
}

/// One atom more in a type that is used, one more in every column, or a group
/// of a type with another number of atoms.
fn atoms(rng: &mut Rng, to: &mut Structure) -> Option<u8> {
    match rng.below(3) {
        0 => {
            let used = to.columns[GroupTypeList as usize].as_ref()?;
            let index = used.get(rng.below(used.len().max(1)))?;
            let group = to.types.get_mut(*index as usize)?;
            group.charges.push(0);
            group.names.push(Vec::new());
            group.elements.push(Vec::new());
        }
        1 => {
            for field in cells::COLUMNS {
                if let (true, Some(column)) = (is_of_atoms(field), to.column(field)) {
                    column.push(0);
                }
            }
            to.atoms += 1;
        }
        _ => {
            let Structure { types, columns, .. } = to;
            let used = columns[GroupTypeList as usize].as_mut()?;
            let at = rng.below(used.len().max(1));
            let own = types.get(*used.get(at)? as usize)?.atoms();
            let other = types.iter().position(|group| group.atoms() != own)?;
            used[at] = other as i32;
        }
    }
    Some(20)
}

fn is_of_atoms(field: Field) -> bool {
    matches!(
        field,
        XCoordList
            | YCoordList
            | ZCoordList
            | BFactorList
            | AtomIdList
            | AltLocList
            | OccupancyList
    )
}

fn bonds(rng: &mut Rng, to: &mut Structure) -> Option<u8> {
    match rng.below(7) {
        0 => to.bonds += 1,
        1 if to.bonds > 0 => to.bonds -= 1,
        2 => to.bonds = LIMIT,
        3 if to.atoms > 0 => to.column(BondAtomList).get_or_insert_default().push(0),
        4 => {
            to.column(BondAtomList).as_ref()?;
            to.column(BondOrderList).as_mut()?.push(1);
        }
        5 => {
            to.column(BondOrderList).as_mut()?.pop()?;
        }
        6 => {
            if let Some(list) = to.column(BondAtomList).take() {
                to.bonds -= list.len() as i32 / 2;
            }
            let number = rng.below(2);
            *to.column(BondOrderList) = Some(orders(rng, number));
        }
        _ => return None,
    }
    Some(20)
}

/// One bond more outside, of these two atoms.
fn add_bond(to: &mut Structure, pair: [i32; 2]) {
    to.column(BondAtomList)
        .get_or_insert_default()
        .splice(0..0, pair);
    if let Some(orders) = to.column(BondOrderList) {
        orders.push(1);
    }
    to.bonds += 1;
}

fn bond_index(rng: &mut Rng, to: &mut Structure) -> Option<u8> {
    let number = outside(rng, to.atoms);
    let other = if to.atoms > 0 { to.atoms - 1 } else { 0 };
    let pair = match rng.chance(1, 2) {
        true => [number, other],
        false => [other, number],
    };
    add_bond(to, pair);
    Some(21)
}

fn bond_order(rng: &mut Rng, to: &mut Structure) -> Option<u8> {
    if to.atoms == 0 {
        return None;
    }
    add_bond(to, [0, to.atoms - 1]);
    let pairs = to.column(BondAtomList).as_ref()?.len() / 2;
    let list = to
        .column(BondOrderList)
        .get_or_insert_with(|| vec![1; pairs]);
    let order = *rng.pick(&[0, 0, 5, 5, -1, -128, 127]);
    put_anywhere(rng, list, order);
    Some(22)
}

fn listed(rng: &mut Rng, to: &mut Structure) -> Option<u8> {
    if to.groups == 0 {
        return None;
    }
    let (field, number) = match rng.chance(1, 2) {
        true => (SecStructList, *rng.pick(&[-2, -2, 8, 8, -128, 127])),
        false => (SequenceIdList, *rng.pick(&[-2, -2, -300, i32::MIN])),
    };
    let groups = to.groups as usize;
    let column = to
        .column(field)
        .get_or_insert_with(|| cells::any(rng, field, groups));
    put_anywhere(rng, column, number);
    Some(22)
}

fn chain_index(rng: &mut Rng, to: &mut Structure) -> Option<u8> {
    let number = outside(rng, to.chains);
    let mut chains = to.chain_indices(rng);
    let at = rng.below(chains.len() + 1);
    chains.insert(at, number);
    if rng.chance(1, 2) {
        let entities = to.entities.get_or_insert_default();
        let at = rng.below(entities.len() + 1);
        entities.insert(at, chains);
    } else {
        let matrix = [0; 16];
        let assemblies = to.assemblies.get_or_insert_default();
        let at = rng.below(assemblies.len() + 1);
        assemblies.insert(at, vec![Transform { chains, matrix }]);
    }
    Some(21)
}
