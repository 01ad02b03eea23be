//! Cells of the named columns, and columns that hold them, by any codec of
//! their kind. What is written need not be in the writer's form.

use super::Rng;
use crate::generate::columns::{integer, names, packed, Parts};
use crate::independent::{Field, REQUIRED};

/// The named columns, in the order of the fields.
pub const COLUMNS: [Field; 16] = [
    Field::XCoordList,
    Field::YCoordList,
    Field::ZCoordList,
    Field::GroupIdList,
    Field::GroupTypeList,
    Field::ChainIdList,
    Field::BondAtomList,
    Field::BondOrderList,
    Field::BFactorList,
    Field::AtomIdList,
    Field::AltLocList,
    Field::OccupancyList,
    Field::SecStructList,
    Field::InsCodeList,
    Field::SequenceIdList,
    Field::ChainNameList,
];

pub fn is_required(field: Field) -> bool {
    (field as usize) < REQUIRED
}

/// The kinds of named columns.
#[derive(Clone, Copy, Debug, PartialEq, Eq)]
pub enum Kind {
    Real,
    Whole,
    Small,
    Letters,
    /// Each cell has the four bytes of a name.
    Names,
}

impl Kind {
    pub fn of(field: Field) -> Kind {
        use Field::*;
        match field {
            XCoordList | YCoordList | ZCoordList | BFactorList | OccupancyList => Kind::Real,
            BondOrderList | SecStructList => Kind::Small,
            AltLocList | InsCodeList => Kind::Letters,
            ChainIdList | ChainNameList => Kind::Names,
            _ => Kind::Whole,
        }
    }

    pub fn codecs(self) -> &'static [i32] {
        match self {
            Kind::Real => &[1, 9, 10, 11, 12, 13],
            Kind::Whole => &[4, 7, 8, 14, 15],
            Kind::Small => &[2, 16],
            Kind::Letters => &[6],
            Kind::Names => &[5],
        }
    }
}

/// Cells of a column of which only the kind and the number of cells count, or
/// whose values stand in a list.
pub fn any(rng: &mut Rng, field: Field, length: usize) -> Vec<i32> {
    let mut cells = Vec::with_capacity(length);
    while cells.len() < length {
        let cell = match field {
            Field::SecStructList => rng.within(0, 8) as i32 - 1,
            Field::SequenceIdList => *rng.pick(&[-1, 0, 1, 7, 300, i32::MAX]),
            _ => of_kind(rng, Kind::of(field)),
        };
        let times = rng.within(1, 3).min(length - cells.len());
        cells.extend(std::iter::repeat_n(cell, times));
    }
    cells
}

fn of_kind(rng: &mut Rng, kind: Kind) -> i32 {
    match kind {
        Kind::Real | Kind::Whole if rng.chance(1, 4) => integer(rng),
        Kind::Real | Kind::Whole => rng.below(2000) as i32 - 1000,
        Kind::Small => i32::from(rng.byte() as i8),
        Kind::Letters => rng.within(0, 127) as i32,
        Kind::Names => {
            let name = names(rng, 4, 1);
            i32::from_be_bytes(name.try_into().expect("four bytes"))
        }
    }
}

/// The cells as a column.
pub fn encode(rng: &mut Rng, kind: Kind, cells: &[i32]) -> Vec<u8> {
    let codec = *rng.pick(kind.codecs());
    let codec = match holds(codec, cells) {
        true => codec,
        // Of each kind, the first holds all.
        false => kind.codecs()[0],
    };
    let mut parts = Parts::new(rng, codec, cells.len() as i32);
    match codec {
        1 | 4 => cells.iter().for_each(|&n| parts.number32(n)),
        2 => cells.iter().for_each(|&n| parts.number(1, n)),
        5 => {
            parts.parameter = 4;
            cells.iter().for_each(|&n| parts.number32(n));
        }
        11 => cells.iter().for_each(|&n| parts.number(2, n)),
        8 => runs(rng, &mut parts, &deltas(cells)),
        6 | 7 | 9 | 16 => runs(rng, &mut parts, cells),
        10 => pack(&mut parts, 2, &deltas(cells)),
        12 | 14 => pack(&mut parts, 2, cells),
        _ => pack(&mut parts, 1, cells),
    }
    parts.bytes()
}

/// Whether the codec holds the cells in little room.
fn holds(codec: i32, cells: &[i32]) -> bool {
    let below = |cells: &[i32], most: u32| cells.iter().all(|n| n.unsigned_abs() <= most);
    match codec {
        10 => below(&deltas(cells), 200_000),
        11 => below(cells, 32_767),
        12 | 14 => below(cells, 200_000),
        13 | 15 => below(cells, 1_500),
        _ => true,
    }
}

fn deltas(cells: &[i32]) -> Vec<i32> {
    let before = [0].iter().chain(cells);
    cells
        .iter()
        .zip(before)
        .map(|(cell, before)| cell.wrapping_sub(*before))
        .collect()
}

/// Runs that are at times broken in two.
fn runs(rng: &mut Rng, parts: &mut Parts, cells: &[i32]) {
    for run in cells.chunk_by(|a, b| a == b) {
        let first = match rng.chance(1, 4) {
            true => rng.below(run.len()),
            false => 0,
        };
        for count in [first, run.len() - first] {
            if count > 0 {
                parts.number32(run[0]);
                parts.number32(count as i32);
            }
        }
    }
}

fn pack(parts: &mut Parts, size: usize, cells: &[i32]) {
    for &cell in cells {
        parts.payload.extend(packed(size, cell));
    }
}
