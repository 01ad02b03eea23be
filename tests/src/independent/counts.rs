//! The counts that must agree, rule by rule in their order.

use super::check::Columns;
use super::columns::Column;
use super::fields::Typed;
use super::groups::{bond_lengths, Counts, TYPE_LIMIT};
use super::Refusal::{self, *};

/// The most bonds, atoms, groups, chains and models.
const COUNT_LIMIT: i64 = 16_777_216;

/// 20 to 23.
pub fn agree(typed: &Typed, columns: &Columns) -> Result<(), Refusal> {
    ensure(typed.group_types.count <= TYPE_LIMIT, TooManyGroupTypes)?;
    in_range(typed)?;
    per_model_and_chain(typed)?;
    lengths(typed, columns)?;
    typed.group_types.agree?;
    let sums = group_sums(&columns.group_type, &typed.group_types.table)?;
    ensure(sums.atoms == typed.atoms as u64, CountsDisagree)?;
    bonds(typed, columns, sums.bonds)?;
    listed(columns)?;
    let chains = typed.chains as u64;
    let inside = typed.chain_indices.iter().all(|list| list.index(chains));
    ensure(inside, IndexOutside)
}

fn ensure(holds: bool, refusal: Refusal) -> Result<(), Refusal> {
    match holds {
        true => Ok(()),
        false => Err(refusal),
    }
}

/// Rule 2.
fn in_range(typed: &Typed) -> Result<(), Refusal> {
    let numbers = [
        typed.bonds,
        typed.atoms,
        typed.groups,
        typed.chains,
        typed.models,
    ];
    let counts = numbers.iter().all(|n| (0..=COUNT_LIMIT).contains(n));
    let lists = [typed.groups_per_chain, typed.chains_per_model];
    let entries = lists.iter().all(|list| list.within(0, i64::MAX));
    ensure(counts && entries, ValueOutside)
}

/// Rule 3.
fn per_model_and_chain(typed: &Typed) -> Result<(), Refusal> {
    let (models, chains) = (typed.chains_per_model, typed.groups_per_chain);
    let agree = models.count == typed.models as u64
        && models.sum == typed.chains
        && chains.count == typed.chains as u64
        && chains.sum == typed.groups;
    ensure(agree, CountsDisagree)
}

/// Rule 4.
fn lengths(typed: &Typed, columns: &Columns) -> Result<(), Refusal> {
    let all = |columns: &[Option<&Column>], number: i64| {
        columns
            .iter()
            .flatten()
            .all(|column| column.length as i64 == number)
    };
    let of_groups = [
        Some(&columns.group_id),
        Some(&columns.group_type),
        columns.sec_struct.as_ref(),
        columns.ins_code.as_ref(),
        columns.sequence_id.as_ref(),
    ];
    let of_chains = [Some(&columns.chain_id), columns.chain_name.as_ref()];
    let [x, y, z] = &columns.coords;
    let of_atoms = [
        Some(x),
        Some(y),
        Some(z),
        columns.b_factor.as_ref(),
        columns.atom_id.as_ref(),
        columns.alt_loc.as_ref(),
        columns.occupancy.as_ref(),
    ];
    let agree = all(&of_groups, typed.groups)
        && all(&of_chains, typed.chains)
        && all(&of_atoms, typed.atoms);
    ensure(agree, CountsDisagree)
}

/// Rule 6, and the sums of rules 7 and 8: atoms and bonds over all groups.
fn group_sums(group_type: &Column, table: &[Counts]) -> Result<Counts, Refusal> {
    let mut sums = Counts { atoms: 0, bonds: 0 };
    group_type.each_run(|index, count| {
        let row = usize::try_from(index).ok().and_then(|row| table.get(row));
        let row = row.ok_or(IndexOutside)?;
        sums.atoms += row.atoms * count;
        sums.bonds += row.bonds * count;
        Ok(())
    })?;
    Ok(sums)
}

/// Rules 8 and 9.
fn bonds(typed: &Typed, columns: &Columns, in_groups: u64) -> Result<(), Refusal> {
    let length = |column: &Option<Column>| column.as_ref().map(|column| column.length as u64);
    let atoms = length(&columns.bond_atom);
    let outside = atoms.unwrap_or(0) / 2;
    ensure(in_groups + outside == typed.bonds as u64, CountsDisagree)?;
    bond_lengths(atoms, length(&columns.bond_order))?;
    let last = typed.atoms as i32 - 1;
    all_within(&columns.bond_atom, 0, last, IndexOutside)?;
    all_within(&columns.bond_order, 1, 4, ValueOutside)
}

/// Rule 10.
fn listed(columns: &Columns) -> Result<(), Refusal> {
    all_within(&columns.sec_struct, -1, 7, ValueOutside)?;
    all_within(&columns.sequence_id, -1, i32::MAX, ValueOutside)
}

fn all_within(
    column: &Option<Column>,
    least: i32,
    most: i32,
    refusal: Refusal,
) -> Result<(), Refusal> {
    let holds = |column: &Column| column.all_within(least, most);
    ensure(column.as_ref().is_none_or(holds), refusal)
}
