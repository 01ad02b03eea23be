//! The check of a whole file.

use super::columns::{Column, Kind};
use super::counts;
use super::fields::{Fields, Typed};
use super::Refusal;

/// The refusal number of a file, 0 when it is accepted.
pub fn verdict(file: &[u8]) -> u8 {
    match accept(file) {
        Ok(_) => 0,
        Err(refusal) => refusal.number(),
    }
}

/// What a receipt says of an accepted file.
#[derive(Clone, Copy, Debug, PartialEq, Eq)]
pub struct Summary {
    pub models: u32,
    pub chains: u32,
    pub groups: u32,
    pub atoms: u32,
    pub bonds: u32,
    /// How many of the named fields are there.
    pub fields: u32,
}

/// What a receipt says of a file.
pub fn accept(file: &[u8]) -> Result<Summary, Refusal> {
    check(file).map(|(_, summary)| summary)
}

/// The check itself.
pub fn check(file: &[u8]) -> Result<(Fields<'_>, Summary), Refusal> {
    let fields = Fields::find(file)?;
    let typed = Typed::read(&fields)?;
    typed.version()?;
    let columns = Columns::read(&typed)?;
    counts::agree(&typed, &columns)?;
    // The counts have been found to be 0 to 16,777,216.
    let summary = Summary {
        models: typed.models as u32,
        chains: typed.chains as u32,
        groups: typed.groups as u32,
        atoms: typed.atoms as u32,
        bonds: typed.bonds as u32,
        fields: fields.present(),
    };
    Ok((fields, summary))
}

/// The columns, each without a fault.
pub struct Columns<'a> {
    pub coords: [Column<'a>; 3],
    pub group_id: Column<'a>,
    pub group_type: Column<'a>,
    pub chain_id: Column<'a>,
    pub bond_atom: Option<Column<'a>>,
    pub bond_order: Option<Column<'a>>,
    pub b_factor: Option<Column<'a>>,
    pub atom_id: Option<Column<'a>>,
    pub alt_loc: Option<Column<'a>>,
    pub occupancy: Option<Column<'a>>,
    pub sec_struct: Option<Column<'a>>,
    pub ins_code: Option<Column<'a>>,
    pub sequence_id: Option<Column<'a>>,
    pub chain_name: Option<Column<'a>>,
}

impl<'a> Columns<'a> {
    /// 14 to 19, in the order of the fields: the initialisers run in the order
    /// in which they stand here.
    fn read(typed: &Typed<'a>) -> Result<Columns<'a>, Refusal> {
        let binaries = &typed.columns;
        Ok(Columns {
            coords: [
                real(binaries.x_coord)?,
                real(binaries.y_coord)?,
                real(binaries.z_coord)?,
            ],
            group_id: whole(binaries.group_id)?,
            group_type: whole(binaries.group_type)?,
            chain_id: names(binaries.chain_id)?,
            bond_atom: binaries.bond_atom.map(whole).transpose()?,
            bond_order: binaries.bond_order.map(small).transpose()?,
            b_factor: binaries.b_factor.map(real).transpose()?,
            atom_id: binaries.atom_id.map(whole).transpose()?,
            alt_loc: binaries.alt_loc.map(letters).transpose()?,
            occupancy: binaries.occupancy.map(real).transpose()?,
            sec_struct: binaries.sec_struct.map(small).transpose()?,
            ins_code: binaries.ins_code.map(letters).transpose()?,
            sequence_id: binaries.sequence_id.map(whole).transpose()?,
            chain_name: binaries.chain_name.map(names).transpose()?,
        })
    }
}

fn real(bytes: &[u8]) -> Result<Column<'_>, Refusal> {
    Column::of_field(bytes, |kind| {
        matches!(kind, Kind::Float32 | Kind::FixedPoint)
    })
}

fn whole(bytes: &[u8]) -> Result<Column<'_>, Refusal> {
    Column::of_field(bytes, |kind| kind == Kind::Int32)
}

fn small(bytes: &[u8]) -> Result<Column<'_>, Refusal> {
    Column::of_field(bytes, |kind| kind == Kind::Int8)
}

fn letters(bytes: &[u8]) -> Result<Column<'_>, Refusal> {
    Column::of_field(bytes, |kind| kind == Kind::Chars)
}

fn names(bytes: &[u8]) -> Result<Column<'_>, Refusal> {
    Column::of_field(bytes, |kind| kind == Kind::Strings)
}
