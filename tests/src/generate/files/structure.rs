//! A structure whose counts agree, from which a file is written.

use super::cells::{self, Kind};
use super::document::Document;
use super::shape::shape;
use super::value::Value::{self, *};
use super::Rng;
use crate::generate::text;
use crate::independent::{Field, FIELDS};

#[derive(Clone, Debug)]
pub struct Structure {
    pub version: Vec<u8>,
    pub bonds: i32,
    pub atoms: i32,
    pub groups: i32,
    pub chains: i32,
    pub models: i32,
    pub types: Vec<GroupType>,
    pub groups_per_chain: Vec<i32>,
    pub chains_per_model: Vec<i32>,
    /// The cells of the columns that are there, by the field's place.
    pub columns: [Option<Vec<i32>>; FIELDS.len()],
    pub assemblies: Option<Vec<Vec<Transform>>>,
    /// The indices of chains of each entity.
    pub entities: Option<Vec<Vec<i32>>>,
    /// The fields that no rule counts, by the field's place.
    pub others: [Option<Value>; FIELDS.len()],
}

#[derive(Clone, Debug)]
pub struct GroupType {
    pub charges: Vec<i32>,
    pub names: Vec<Vec<u8>>,
    pub elements: Vec<Vec<u8>>,
    pub bond_atoms: Option<Vec<i32>>,
    pub bond_orders: Option<Vec<i32>>,
}

#[derive(Clone, Debug)]
pub struct Transform {
    pub chains: Vec<i32>,
    pub matrix: [u32; 16],
}

/// How many there are at most of what a structure has, and how often an
/// optional field is there, of eight times.
#[derive(Clone, Copy, Debug)]
pub struct Size {
    pub types: usize,
    pub models: usize,
    pub chains: usize,
    pub groups: usize,
    pub optional: usize,
}

impl Size {
    pub fn small(rng: &mut Rng) -> Size {
        Size {
            types: *rng.pick(&[0, 1, 2, 5]),
            models: *rng.pick(&[0, 1, 1, 2]),
            chains: *rng.pick(&[0, 1, 2, 3]),
            groups: *rng.pick(&[0, 1, 3, 4]),
            optional: *rng.pick(&[0, 4, 4, 8]),
        }
    }
}

/// Versions that are 1.
const VERSIONS: [&str; 6] = ["1.0", "1.0.0", "1.1", "1.9zz", "1.5é", "1.0\0"];

impl Structure {
    /// Every count agrees with the others.
    pub fn any(rng: &mut Rng, size: Size) -> Structure {
        let types: Vec<_> = (0..size.types).map(|_| GroupType::any(rng)).collect();
        let chains_per_model: Vec<i32> = (0..size.models)
            .map(|_| rng.within(0, size.chains) as i32)
            .collect();
        let chains: i32 = chains_per_model.iter().sum();
        let most = if types.is_empty() { 0 } else { size.groups };
        let groups_per_chain: Vec<i32> = (0..chains).map(|_| rng.within(0, most) as i32).collect();
        let groups: i32 = groups_per_chain.iter().sum();
        let mut structure = Structure {
            version: rng.pick(&VERSIONS).as_bytes().to_vec(),
            bonds: 0,
            atoms: 0,
            groups,
            chains,
            models: size.models as i32,
            types,
            groups_per_chain,
            chains_per_model,
            columns: [const { None }; FIELDS.len()],
            assemblies: None,
            entities: None,
            others: [const { None }; FIELDS.len()],
        };
        structure.fill(rng, size.optional);
        structure
    }

    /// Fills the fields, the optional ones so many of eight times.
    fn fill(&mut self, rng: &mut Rng, optional: usize) {
        let types = self.types.len();
        let in_groups: Vec<i32> = (0..self.groups).map(|_| rng.below(types) as i32).collect();
        let used = in_groups.iter().map(|&n| &self.types[n as usize]);
        self.atoms = used.clone().map(GroupType::atoms).sum();
        self.bonds = used.map(GroupType::bonds).sum();
        *self.column(Field::GroupTypeList) = Some(in_groups);
        for field in cells::COLUMNS {
            let there = cells::is_required(field) || rng.below(8) < optional;
            if there && field != Field::GroupTypeList {
                let cells = self.cells(rng, field);
                *self.column(field) = cells;
            }
        }
        for field in FIELDS.into_iter().skip(26).take(11) {
            if rng.below(8) < optional {
                self.others[field as usize] = Some(shape(field).filled(rng));
            }
        }
        self.others[Field::MmtfProducer as usize] = Some(String(text(rng, 12)));
        if rng.below(8) < optional {
            self.assemblies = Some(self.any_assemblies(rng));
        }
        if rng.below(8) < optional {
            let entities = 0..rng.below(4);
            self.entities = Some(entities.map(|_| self.chain_indices(rng)).collect());
        }
    }

    /// Copies of the types up to so many in all; some groups are of copies.
    pub fn more_types(&mut self, rng: &mut Rng, count: usize) {
        let few = self.types.len();
        let copies = self.types.clone().into_iter().cycle();
        self.types = copies.take(count).collect();
        for index in self.column(Field::GroupTypeList).iter_mut().flatten() {
            let copies = (count - 1 - *index as usize) / few;
            *index += (few * rng.pick(&[0, copies, copies / 2])) as i32;
        }
    }

    /// Cells of a column, as many as the counts ask for.
    fn cells(&mut self, rng: &mut Rng, field: Field) -> Option<Vec<i32>> {
        match field {
            Field::BondAtomList => {
                let pairs = if self.atoms > 0 { rng.below(4) } else { 0 };
                self.bonds += pairs as i32;
                Some(indices(rng, 2 * pairs, self.atoms))
            }
            // Never without the indices.
            Field::BondOrderList => {
                let atoms = self.columns[Field::BondAtomList as usize].as_ref()?;
                Some(orders(rng, atoms.len() / 2))
            }
            _ => {
                let length = self.length(field).expect("a column that a rule counts");
                Some(cells::any(rng, field, length))
            }
        }
    }

    /// How many cells a column must have by rule 4.
    pub fn length(&self, field: Field) -> Option<usize> {
        use Field::*;
        let count = match field {
            GroupIdList | GroupTypeList | SecStructList | InsCodeList | SequenceIdList => {
                self.groups
            }
            ChainIdList | ChainNameList => self.chains,
            XCoordList | YCoordList | ZCoordList | BFactorList | AtomIdList | AltLocList
            | OccupancyList => self.atoms,
            _ => return None,
        };
        Some(count as usize)
    }

    pub fn column(&mut self, field: Field) -> &mut Option<Vec<i32>> {
        &mut self.columns[field as usize]
    }

    pub fn chain_indices(&self, rng: &mut Rng) -> Vec<i32> {
        let count = rng.below(4);
        indices(rng, count, self.chains)
    }

    fn any_assemblies(&self, rng: &mut Rng) -> Vec<Vec<Transform>> {
        let transforms = |rng: &mut Rng| {
            (0..rng.below(4))
                .map(|_| Transform {
                    chains: self.chain_indices(rng),
                    matrix: [(); 16].map(|()| rng.word() as u32),
                })
                .collect()
        };
        (0..rng.within(0, 3)).map(|_| transforms(rng)).collect()
    }

    /// The fields as values, each column by a codec of its kind.
    pub fn document(&self, rng: &mut Rng) -> Document {
        let mut fields = self.others.clone();
        let mut set = |field: Field, value| fields[field as usize] = Some(value);
        set(Field::MmtfVersion, String(self.version.clone()));
        set(Field::NumBonds, Integer(self.bonds));
        set(Field::NumAtoms, Integer(self.atoms));
        set(Field::NumGroups, Integer(self.groups));
        set(Field::NumChains, Integer(self.chains));
        set(Field::NumModels, Integer(self.models));
        let types = self.types.iter().map(|group| group.value(rng)).collect();
        set(Field::GroupList, Array(types));
        let per_chain = Value::integers(&self.groups_per_chain);
        set(Field::GroupsPerChain, per_chain);
        let per_model = Value::integers(&self.chains_per_model);
        set(Field::ChainsPerModel, per_model);
        for field in cells::COLUMNS {
            if let Some(cells) = &self.columns[field as usize] {
                let column = cells::encode(rng, Kind::of(field), cells);
                set(field, Binary(column));
            }
        }
        if let Some(assemblies) = &self.assemblies {
            let values = assemblies.iter().map(|list| assembly(rng, list)).collect();
            set(Field::BioAssemblyList, Array(values));
        }
        if let Some(entities) = &self.entities {
            let values = entities.iter().map(|list| entity(rng, list)).collect();
            set(Field::EntityList, Array(values));
        }
        Document {
            fields,
            renamed: Vec::new(),
        }
    }
}

impl GroupType {
    fn any(rng: &mut Rng) -> GroupType {
        let count = rng.below(6);
        let mut group = GroupType::of_atoms(rng, count);
        if rng.chance(2, 3) {
            let pairs = if count > 0 { rng.below(5) } else { 0 };
            group.bond_atoms = Some(indices(rng, 2 * pairs, count as i32));
            if rng.chance(1, 2) {
                group.bond_orders = Some(orders(rng, pairs));
            }
        }
        group
    }

    /// So many atoms, and no list of bonds.
    pub fn of_atoms(rng: &mut Rng, count: usize) -> GroupType {
        GroupType {
            charges: (0..count).map(|_| rng.below(5) as i32 - 2).collect(),
            names: (0..count).map(|_| text(rng, 3)).collect(),
            elements: (0..count).map(|_| text(rng, 2)).collect(),
            bond_atoms: None,
            bond_orders: None,
        }
    }

    pub fn atoms(&self) -> i32 {
        self.names.len() as i32
    }

    pub fn bonds(&self) -> i32 {
        self.bond_atoms
            .as_ref()
            .map_or(0, |atoms| atoms.len() as i32 / 2)
    }

    fn value(&self, rng: &mut Rng) -> Value {
        let mut entries = Value::map([
            ("groupName", String(text(rng, 3))),
            ("singleLetterCode", String(text(rng, 1))),
            ("chemCompType", String(text(rng, 4))),
            ("formalChargeList", Value::integers(&self.charges)),
            ("atomNameList", Value::strings(&self.names)),
            ("elementList", Value::strings(&self.elements)),
        ]);
        if let Map(entries) = &mut entries {
            let lists = [
                ("bondAtomList", &self.bond_atoms),
                ("bondOrderList", &self.bond_orders),
            ];
            for (name, list) in lists {
                if let Some(list) = list {
                    entries.push((name.as_bytes().to_vec(), Value::integers(list)));
                }
            }
        }
        mixed(rng, entries)
    }
}

fn assembly(rng: &mut Rng, transforms: &[Transform]) -> Value {
    let mut list = Vec::new();
    for Transform { chains, matrix } in transforms {
        let entries = Value::map([
            ("chainIndexList", Value::integers(chains)),
            ("matrix", Value::floats(matrix)),
        ]);
        list.push(mixed(rng, entries));
    }
    let entries = Value::map([
        ("name", String(text(rng, 3))),
        ("transformList", Array(list)),
    ]);
    mixed(rng, entries)
}

fn entity(rng: &mut Rng, chains: &[i32]) -> Value {
    let entries = Value::map([
        ("chainIndexList", Value::integers(chains)),
        ("description", String(text(rng, 6))),
        ("type", String(text(rng, 6))),
        ("sequence", String(text(rng, 6))),
    ]);
    mixed(rng, entries)
}

/// The entries of a map in any order, at times with one that is unknown.
fn mixed(rng: &mut Rng, map: Value) -> Value {
    let Map(mut entries) = map else { return map };
    if rng.chance(1, 6) {
        let name = rng.pick(&entries).0.clone();
        let name = std::str::from_utf8(&name).expect("a name of the rules");
        entries.push((super::shape::near(rng, name), Value::any(rng, 2)));
    }
    if rng.chance(1, 2) {
        shuffle(rng, &mut entries);
    }
    Map(entries)
}

pub fn shuffle<T>(rng: &mut Rng, values: &mut [T]) {
    for place in (1..values.len()).rev() {
        values.swap(place, rng.below(place + 1));
    }
}

/// Indices inside a table of so many rows; none if it has no row. The ends come
/// up often.
pub fn indices(rng: &mut Rng, count: usize, rows: i32) -> Vec<i32> {
    if rows == 0 {
        return Vec::new();
    }
    let any = |rng: &mut Rng| match rng.below(4) {
        0 => 0,
        1 => rows - 1,
        _ => rng.below(rows as usize) as i32,
    };
    (0..count).map(|_| any(rng)).collect()
}

pub fn orders(rng: &mut Rng, count: usize) -> Vec<i32> {
    (0..count).map(|_| rng.within(1, 4) as i32).collect()
}
