//! The files of which the whole check is measured: one like a large structure,
//! and files made to be as slow to check as their size allows. All are accepted.

use mmtf_tests::check::calls::*;
use mmtf_tests::check::sample::{entity, group, int32, names, transform, Sample};
use mmtf_tests::check::watch::Element;
use mmtf_tests::generate::files::Value::{self, *};
use mmtf_tests::generate::Rng;
use mmtf_tests::library::columns::Outcome;

use crate::column_data::{ids, runs, walk};
use crate::workloads::LARGEST;

/// The most atoms, groups and cells.
const LIMIT: i32 = 16_777_216;

/// A made file, built when it is its turn.
pub struct Made {
    pub name: &'static str,
    pub build: fn() -> Vec<u8>,
}

pub const HOSTILE: &[Made] = &[
    made("14 columns of one run of 16,777,216", one_run),
    made("the same, 5 of them with delta", one_run_with_delta),
    made("group types up and down by delta", sawtooth),
    made("4,096 group types with long lists", long_lists),
    made("one group type of 13,000,000 atoms", one_large_type),
    made("small maps in entityList", small_entities),
    made("transforms in bioAssemblyList", many_transforms),
    made("200 unknown fields of small values", unknown_fields),
    made("64 MiB, an unknown binary", filled),
    made("64 MiB, coordinates by codec 10", packed_coordinates),
    made("64 MiB, names of chains", many_chains),
];

const fn made(name: &'static str, build: fn() -> Vec<u8>) -> Made {
    Made { name, build }
}

/// The values as a column, by the independent encoder.
fn encoded<T: Element>(encoder: &Encoder<T>, header: [i32; 2], values: &[T]) -> Value {
    let mut column = vec![0; 12 + 16 * values.len()];
    match (encoder.independent)(header[0], header[1], values, &mut column) {
        Outcome::Done(answer) => column.truncate(answer.count as usize),
        other => panic!("codec {}: {other:?}", header[0]),
    }
    Binary(column)
}

/// A structure of so many atoms: 400 group types and some hundred chains for a
/// million, and columns by the codecs that structure files have.
pub fn structure(atoms: usize) -> Vec<u8> {
    let mut rng = Rng::new(2);
    let count = (400 * atoms).div_ceil(1_000_000);
    let sizes: Vec<usize> = (0..count).map(|n| 1 + (7 * n + n / 9) % 24).collect();
    let types: Vec<Value> = sizes.iter().map(|&atoms| chained(atoms)).collect();
    let groups = groups_of(&mut rng, &sizes, atoms);
    let per_chain: Vec<i32> = groups.chunks(250).map(|part| part.len() as i32).collect();
    let chains = per_chain.len();
    let bonds = atoms - groups.len();
    let outside: Vec<i32> = (0..groups.len() as i32 - 1)
        .flat_map(|n| [n, n + 1])
        .collect();
    let sample = Sample::new()
        .with("numBonds", Integer((bonds + outside.len() / 2) as i32))
        .with("numAtoms", Integer(atoms as i32))
        .with("numGroups", Integer(groups.len() as i32))
        .with("numChains", Integer(chains as i32))
        .with("groupList", Array(types))
        .with("chainIdList", names(&b"AB\0\0".repeat(chains)))
        .with("groupsPerChain", Value::integers(&per_chain))
        .with("chainsPerModel", Value::integers(&[chains as i32]))
        .with("chainNameList", names(&b"A\0\0\0".repeat(chains)));
    let sample = with_group_columns(sample, &mut rng, &groups, &outside);
    with_atom_columns(sample, &mut rng, atoms).bytes()
}

/// The types of groups that have so many atoms in all. The first type has one
/// atom and fills the rest.
fn groups_of(rng: &mut Rng, sizes: &[usize], atoms: usize) -> Vec<i32> {
    let mut groups = Vec::new();
    let mut left = atoms;
    while left > 0 {
        let index = match left < 24 {
            true => 0,
            false => rng.below(sizes.len()),
        };
        groups.push(index as i32);
        left -= sizes[index];
    }
    groups
}

fn with_group_columns(sample: Sample, rng: &mut Rng, groups: &[i32], outside: &[i32]) -> Sample {
    let count = groups.len();
    let orders = vec![1; outside.len() / 2];
    let small: Vec<i32> = groups.iter().map(|n| n % 9 - 1).collect();
    let mut numbers = || encoded(&TO_INT32, [8, 0], &ids(rng, count));
    let [group_ids, sequence] = [numbers(), numbers()];
    sample
        .with("groupIdList", group_ids)
        .with("sequenceIdList", sequence)
        .with("groupTypeList", int32(groups))
        .with("bondAtomList", int32(outside))
        .with("bondOrderList", encoded(&TO_INT8, [2, 0], &orders))
        .with("secStructList", encoded(&TO_INT8, [2, 0], &small))
        .with("insCodeList", encoded(&TO_CHARS, [6, 0], &vec![0; count]))
}

fn with_atom_columns(sample: Sample, rng: &mut Rng, atoms: usize) -> Sample {
    let mut coordinates = || encoded(&TO_FIXED_POINT, [10, 1000], &walk(rng, atoms));
    let [x, y, z] = [coordinates(), coordinates(), coordinates()];
    let factors = encoded(&TO_FIXED_POINT, [10, 100], &runs(rng, 30, atoms));
    let atom_ids = encoded(&TO_INT32, [8, 0], &ids(rng, atoms));
    let occupancies = encoded(&TO_FIXED_POINT, [9, 100], &vec![100; atoms]);
    sample
        .with("xCoordList", x)
        .with("yCoordList", y)
        .with("zCoordList", z)
        .with("bFactorList", factors)
        .with("atomIdList", atom_ids)
        .with("altLocList", encoded(&TO_CHARS, [6, 0], &vec![0; atoms]))
        .with("occupancyList", occupancies)
}

/// A group type whose atoms are bonded one to the next.
fn chained(atoms: usize) -> Value {
    let bonds: Vec<i32> = (1..atoms as i32).flat_map(|n| [n - 1, n]).collect();
    let orders = vec![1; atoms - 1];
    group(atoms, Some(&bonds), Some(&orders))
}

/// A column of one run.
fn run(codec: i32, value: i32, length: i32) -> Value {
    let numbers = [codec, length, 1, value, length];
    Binary(numbers.map(i32::to_be_bytes).concat())
}

/// One chain with so many groups of one atom, every group of type 0; every
/// column that can be is one run, the whole ones by this codec.
fn of_runs(whole: i32, cells: i32) -> Sample {
    let half = cells / 2;
    Sample::new()
        .with("numBonds", Integer(half))
        .with("numAtoms", Integer(cells))
        .with("numGroups", Integer(cells))
        .with("numChains", Integer(1))
        .with("groupList", Array(vec![group(1, None, None)]))
        .with("xCoordList", run(9, 1, cells))
        .with("yCoordList", run(9, 2, cells))
        .with("zCoordList", run(9, 3, cells))
        .with("groupIdList", run(whole, 1, cells))
        .with("groupTypeList", run(whole, 0, cells))
        .with("chainIdList", names(b"A\0\0\0"))
        .with("groupsPerChain", Value::integers(&[cells]))
        .with("chainsPerModel", Value::integers(&[1]))
        .with("bondAtomList", run(whole, 0, cells))
        .with("bondOrderList", run(16, 1, half))
        .with("bFactorList", run(9, 1, cells))
        .with("atomIdList", run(whole, 1, cells))
        .with("altLocList", run(6, 0, cells))
        .with("occupancyList", run(9, 100, cells))
        .with("secStructList", run(16, 7, cells))
        .with("insCodeList", run(6, 0, cells))
        .with("sequenceIdList", run(whole, 1, cells))
}

fn one_run() -> Vec<u8> {
    of_runs(7, LIMIT).bytes()
}

fn one_run_with_delta() -> Vec<u8> {
    runs_with_delta(LIMIT)
}

/// Runs of so many cells, five of them with delta.
pub fn runs_with_delta(cells: i32) -> Vec<u8> {
    of_runs(8, cells).bytes()
}

/// 4,096 types, which the groups go through upwards and downwards by runs of
/// deltas of 1 and -1; the sums of sequenceIdList wrap at every step.
pub fn sawtooth() -> Vec<u8> {
    let mut numbers = vec![8, LIMIT, 0, 0, 1];
    let mut left = LIMIT - 1;
    let mut step = 1;
    while left > 0 {
        let count = left.min(4_095);
        numbers.extend([step, count]);
        left -= count;
        step = -step;
    }
    let column: Vec<u8> = numbers.into_iter().flat_map(i32::to_be_bytes).collect();
    let wrapping = [8, LIMIT, 0, -1, 1, i32::MIN, LIMIT - 1];
    of_runs(8, LIMIT)
        .with("groupList", Array(vec![group(1, None, None); 4_096]))
        .with("groupTypeList", Binary(column))
        .with(
            "sequenceIdList",
            Binary(wrapping.map(i32::to_be_bytes).concat()),
        )
        .bytes()
}

/// The sample without a group, with these group types.
fn of_types(types: Vec<Value>) -> Sample {
    let empty = |codec| Binary([codec, 0, 4].map(i32::to_be_bytes).concat());
    Sample::new()
        .without("bondAtomList")
        .with("numBonds", Integer(0))
        .with("numAtoms", Integer(0))
        .with("numGroups", Integer(0))
        .with("groupList", Array(types))
        .with("xCoordList", empty(9))
        .with("yCoordList", empty(9))
        .with("zCoordList", empty(9))
        .with("groupIdList", empty(7))
        .with("groupTypeList", empty(7))
        .with("groupsPerChain", Value::integers(&[0, 0]))
}

/// A group type as its bytes: so many atoms with names of no letters, and so
/// many bonds from the first atom to itself.
fn written_type(atoms: usize, bonds: usize) -> Value {
    let list = |key: &str, count: usize, element: u8| {
        let mut bytes = vec![0xa0 | key.len() as u8];
        bytes.extend(key.bytes());
        bytes.push(0xdd);
        bytes.extend((count as u32).to_be_bytes());
        bytes.resize(bytes.len() + count, element);
        bytes
    };
    let mut bytes = b"\x88\xa9groupName\xa0\xb0singleLetterCode\xa0\xacchemCompType\xa0".to_vec();
    bytes.extend(list("formalChargeList", atoms, 0x00));
    bytes.extend(list("atomNameList", atoms, 0xa0));
    bytes.extend(list("elementList", atoms, 0xa0));
    bytes.extend(list("bondAtomList", 2 * bonds, 0x00));
    bytes.extend(list("bondOrderList", bonds, 0x04));
    Written(bytes)
}

fn long_lists() -> Vec<u8> {
    of_types(vec![written_type(2_700, 2_700); 4_096]).bytes()
}

fn one_large_type() -> Vec<u8> {
    large_type(13_000_000)
}

/// One group type of so many atoms.
pub fn large_type(atoms: usize) -> Vec<u8> {
    of_types(vec![written_type(atoms, atoms * 9 / 13)]).bytes()
}

/// Copies of a value in an array that nearly fills a file of so many bytes.
fn copies(value: &Value, size: usize) -> Value {
    let unit = value.bytes();
    let count = (size - 4_096) / unit.len();
    let mut bytes = vec![0xdd];
    bytes.extend((count as u32).to_be_bytes());
    bytes.extend(unit.repeat(count));
    Written(bytes)
}

fn small_entities() -> Vec<u8> {
    entities(LARGEST)
}

/// Small maps in entityList, nearly as many bytes of them.
pub fn entities(size: usize) -> Vec<u8> {
    let empty = Value::map([
        ("chainIndexList", Array(vec![])),
        ("description", Value::text("")),
        ("type", Value::text("")),
        ("sequence", Value::text("")),
    ]);
    Sample::new()
        .with("entityList", copies(&empty, size))
        .with("bioAssemblyList", Array(vec![]))
        .bytes()
}

fn many_transforms() -> Vec<u8> {
    transforms(LARGEST)
}

/// Transforms in bioAssemblyList, nearly as many bytes of them.
pub fn transforms(size: usize) -> Vec<u8> {
    let list = Value::map([
        ("name", Value::text("1")),
        ("transformList", copies(&transform(), size)),
    ]);
    Sample::new()
        .with("entityList", Array(vec![entity()]))
        .with("bioAssemblyList", Array(vec![list]))
        .bytes()
}

/// Their names end as those of the named fields do.
fn unknown_fields() -> Vec<u8> {
    let mut sample = Sample::full();
    for n in 0..200 {
        let name = format!("{n:03}CoordList");
        sample = sample.with(&name, Value::integers(&[n; 300]));
    }
    sample.bytes()
}

/// The sample with an unknown binary, so that the file has just as many bytes as
/// it may have.
fn to_the_limit(sample: &Sample) -> Vec<u8> {
    let filled = |count| sample.clone().with("filler", Binary(vec![0; count]));
    let least = filled(1 << 16).bytes().len();
    let count = (1 << 16) + (LARGEST - least);
    let file = filled(count).bytes();
    assert_eq!(file.len(), LARGEST, "just at the limit");
    file
}

fn filled() -> Vec<u8> {
    to_the_limit(&Sample::full())
}

/// Coordinates of two bytes each, one of three hundred of four.
fn packed_coordinates() -> Vec<u8> {
    const ATOMS: i32 = 11_100_000;
    let mut payload = Vec::new();
    for n in 0..ATOMS {
        if n % 300 == 0 {
            payload.extend([0x7f, 0xff]);
        }
        payload.extend(((n % 3_000 - 1_500) as i16).to_be_bytes());
    }
    let header = [10, ATOMS, 1000].map(i32::to_be_bytes).concat();
    let column = || Binary([&header[..], &payload].concat());
    let sample = of_runs(7, ATOMS)
        .with("xCoordList", column())
        .with("yCoordList", column())
        .with("zCoordList", column());
    to_the_limit(&sample)
}

/// Eleven bytes for each chain: two names of four, and its groups, which are 0
/// in three bytes.
fn many_chains() -> Vec<u8> {
    const CHAINS: usize = 6_000_000;
    let mut per_chain = vec![0xdd];
    per_chain.extend((CHAINS as u32).to_be_bytes());
    per_chain.extend(b"\xcd\x00\x00".repeat(CHAINS));
    let sample = of_types(vec![])
        .with("numChains", Integer(CHAINS as i32))
        .with("chainIdList", names(&b"ABC\0".repeat(CHAINS)))
        .with("chainNameList", names(&b"A\0\0\0".repeat(CHAINS)))
        .with("groupsPerChain", Written(per_chain))
        .with("chainsPerModel", Value::integers(&[CHAINS as i32]));
    to_the_limit(&sample)
}
