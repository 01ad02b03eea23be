//! The named fields: which are there (12), their types (13), and the version
//! (24).

use super::groups::GroupTypes;
use super::lists::{assemblies, entities, floats, operators, strings, Integers};
use super::value::Reader;
use super::walk::each_entry;
use super::Refusal::{self, *};

macro_rules! fields {
    ($($field:ident $name:literal),* $(,)?) => {
        /// A named field.
        #[derive(Clone, Copy, Debug, PartialEq, Eq)]
        pub enum Field {
            $($field),*
        }

        /// The named fields, in order.
        pub const FIELDS: [Field; [$($name),*].len()] = [$(Field::$field),*];

        impl Field {
            pub fn name(self) -> &'static str {
                match self {
                    $(Field::$field => $name),*
                }
            }

            fn named(key: &[u8]) -> Option<Field> {
                match key {
                    $(key if key == $name.as_bytes() => Some(Field::$field),)*
                    _ => None,
                }
            }
        }
    };
}

fields!(
    MmtfVersion "mmtfVersion",
    MmtfProducer "mmtfProducer",
    NumBonds "numBonds",
    NumAtoms "numAtoms",
    NumGroups "numGroups",
    NumChains "numChains",
    NumModels "numModels",
    GroupList "groupList",
    XCoordList "xCoordList",
    YCoordList "yCoordList",
    ZCoordList "zCoordList",
    GroupIdList "groupIdList",
    GroupTypeList "groupTypeList",
    ChainIdList "chainIdList",
    GroupsPerChain "groupsPerChain",
    ChainsPerModel "chainsPerModel",
    BondAtomList "bondAtomList",
    BondOrderList "bondOrderList",
    BFactorList "bFactorList",
    AtomIdList "atomIdList",
    AltLocList "altLocList",
    OccupancyList "occupancyList",
    SecStructList "secStructList",
    InsCodeList "insCodeList",
    SequenceIdList "sequenceIdList",
    ChainNameList "chainNameList",
    Title "title",
    StructureId "structureId",
    SpaceGroup "spaceGroup",
    DepositionDate "depositionDate",
    ReleaseDate "releaseDate",
    Resolution "resolution",
    RFree "rFree",
    RWork "rWork",
    UnitCell "unitCell",
    ExperimentalMethods "experimentalMethods",
    NcsOperatorList "ncsOperatorList",
    BioAssemblyList "bioAssemblyList",
    EntityList "entityList",
);

use Field::*;

/// The first so many fields are required.
pub const REQUIRED: usize = 16;

/// The named fields of a file that has all the required ones.
pub struct Fields<'a>([Option<&'a [u8]>; FIELDS.len()]);

impl<'a> Fields<'a> {
    /// 1 to 11, and 12.
    pub fn find(file: &'a [u8]) -> Result<Fields<'a>, Refusal> {
        let mut found = [None; FIELDS.len()];
        each_entry(file, |key, value| {
            if let Some(field) = Field::named(key) {
                found[field as usize] = Some(value);
            }
        })?;
        match found[..REQUIRED].contains(&None) {
            true => Err(FieldMissing),
            false => Ok(Fields(found)),
        }
    }

    /// How many of the named fields are there.
    pub fn present(&self) -> u32 {
        self.0.iter().flatten().count() as u32
    }

    /// The whole value of a field, if it is there.
    pub fn value(&self, field: Field) -> Option<&'a [u8]> {
        self.0[field as usize]
    }

    /// What is read of a field, if it is there.
    fn get<T>(
        &self,
        field: Field,
        read: impl FnOnce(&mut Reader<'a>) -> Result<T, Refusal>,
    ) -> Result<Option<T>, Refusal> {
        self.0[field as usize]
            .map(|value| read(&mut Reader::new(value)))
            .transpose()
    }

    /// What is read of a required field.
    fn required<T>(
        &self,
        field: Field,
        read: impl FnOnce(&mut Reader<'a>) -> Result<T, Refusal>,
    ) -> Result<T, Refusal> {
        self.get(field, read)?.ok_or(FieldMissing)
    }

    fn number(&self, field: Field) -> Result<i64, Refusal> {
        self.required(field, |reader| reader.integer().map(i64::from))
    }
}

/// Fields of the right types, and what the later checks need of them. Columns
/// are as yet unread.
pub struct Typed<'a> {
    pub version: &'a [u8],
    pub bonds: i64,
    pub atoms: i64,
    pub groups: i64,
    pub chains: i64,
    pub models: i64,
    pub group_types: GroupTypes,
    pub groups_per_chain: Integers,
    pub chains_per_model: Integers,
    pub columns: Binaries<'a>,
    /// The indices of chains in entityList and in bioAssemblyList.
    pub chain_indices: [Integers; 2],
}

impl<'a> Typed<'a> {
    /// 13.
    pub fn read(fields: &Fields<'a>) -> Result<Typed<'a>, Refusal> {
        others(fields)?;
        Ok(Typed {
            version: fields.required(MmtfVersion, Reader::string)?,
            bonds: fields.number(NumBonds)?,
            atoms: fields.number(NumAtoms)?,
            groups: fields.number(NumGroups)?,
            chains: fields.number(NumChains)?,
            models: fields.number(NumModels)?,
            group_types: fields.required(GroupList, GroupTypes::read)?,
            groups_per_chain: fields.required(GroupsPerChain, Integers::read)?,
            chains_per_model: fields.required(ChainsPerModel, Integers::read)?,
            columns: Binaries::read(fields)?,
            chain_indices: [
                fields.get(EntityList, entities)?.unwrap_or(Integers::NONE),
                fields
                    .get(BioAssemblyList, |reader| assemblies(reader, |_, _, _| ()))?
                    .unwrap_or(Integers::NONE),
            ],
        })
    }

    /// 24: the version begins with "1." and a digit.
    pub fn version(&self) -> Result<(), Refusal> {
        match self.version {
            [b'1', b'.', b'0'..=b'9', ..] => Ok(()),
            _ => Err(VersionNotOne),
        }
    }
}

/// Fields of which only the type counts.
fn others(fields: &Fields) -> Result<(), Refusal> {
    fields.get(MmtfProducer, Reader::string)?;
    for field in [Title, StructureId, SpaceGroup, DepositionDate, ReleaseDate] {
        fields.get(field, Reader::string)?;
    }
    for field in [Resolution, RFree, RWork] {
        fields.get(field, Reader::float)?;
    }
    fields.get(UnitCell, floats::<6>)?;
    fields.get(ExperimentalMethods, strings)?;
    fields.get(NcsOperatorList, operators)?;
    Ok(())
}

/// The fields that are columns, as binaries.
pub struct Binaries<'a> {
    pub x_coord: &'a [u8],
    pub y_coord: &'a [u8],
    pub z_coord: &'a [u8],
    pub group_id: &'a [u8],
    pub group_type: &'a [u8],
    pub chain_id: &'a [u8],
    pub bond_atom: Option<&'a [u8]>,
    pub bond_order: Option<&'a [u8]>,
    pub b_factor: Option<&'a [u8]>,
    pub atom_id: Option<&'a [u8]>,
    pub alt_loc: Option<&'a [u8]>,
    pub occupancy: Option<&'a [u8]>,
    pub sec_struct: Option<&'a [u8]>,
    pub ins_code: Option<&'a [u8]>,
    pub sequence_id: Option<&'a [u8]>,
    pub chain_name: Option<&'a [u8]>,
}

impl<'a> Binaries<'a> {
    fn read(fields: &Fields<'a>) -> Result<Binaries<'a>, Refusal> {
        let required = |field| fields.required(field, Reader::binary);
        let optional = |field| fields.get(field, Reader::binary);
        Ok(Binaries {
            x_coord: required(XCoordList)?,
            y_coord: required(YCoordList)?,
            z_coord: required(ZCoordList)?,
            group_id: required(GroupIdList)?,
            group_type: required(GroupTypeList)?,
            chain_id: required(ChainIdList)?,
            bond_atom: optional(BondAtomList)?,
            bond_order: optional(BondOrderList)?,
            b_factor: optional(BFactorList)?,
            atom_id: optional(AtomIdList)?,
            alt_loc: optional(AltLocList)?,
            occupancy: optional(OccupancyList)?,
            sec_struct: optional(SecStructList)?,
            ins_code: optional(InsCodeList)?,
            sequence_id: optional(SequenceIdList)?,
            chain_name: optional(ChainNameList)?,
        })
    }
}
