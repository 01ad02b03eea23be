//! Files at the limits: 67,108,864 bytes, 16,777,216 atoms, groups, bonds and
//! models, and sums beyond 32 bits.

use mmtf_tests::check::made::{column, wide};
use mmtf_tests::check::sample::*;
use mmtf_tests::generate::files::Value;
use mmtf_tests::{independent, library};
use Value::*;

const LIMIT: i32 = 16_777_216;

/// Files this large are not shown.
#[track_caller]
fn expect_bytes(file: &[u8], number: u8, case: &str) {
    assert_eq!(independent::verdict(file), number, "{case}: independent");
    assert_eq!(library::verdict(file), number, "{case}: library");
}

#[track_caller]
fn expect(sample: &Sample, number: u8, case: &str) {
    expect_bytes(&sample.bytes(), number, case);
}

#[test]
fn bytes_of_a_file() {
    const BYTES: usize = 67_108_864;
    expect_bytes(&of_size(BYTES), 0, "at the limit");
    expect_bytes(&of_size(BYTES + 1), 1, "one byte more");
    let mut file = of_size(BYTES);
    file.push(0);
    expect_bytes(&file, 1, "1 before 11");
}

/// Type 0 for every group, by sums of deltas that are 0.
fn types_by_sums(groups: i32) -> Value {
    Binary(wide([8, groups, 0], &[0, groups]))
}

#[test]
fn atoms_groups_and_bonds() {
    let bonded = || group(1, Some(&[0, 0]), None);
    let sample = uniform(bonded(), LIMIT, LIMIT, LIMIT);
    expect(&sample, 0, "all at the limit");
    let by_sums = sample.clone().with("groupTypeList", types_by_sums(LIMIT));
    expect(&by_sums, 0, "the same by sums");
    expect(
        &sample.clone().with("numBonds", Integer(LIMIT - 1)),
        20,
        "one bond less",
    );
    expect(
        &sample.clone().with("numBonds", Integer(LIMIT + 1)),
        22,
        "one bond more",
    );
    let outside = |index| sample.clone().with("bondAtomList", int32(&[0, index]));
    expect(&outside(LIMIT - 1), 20, "a bond outside more");
    let unbonded = uniform(group(1, None, None), LIMIT, LIMIT, 1);
    let outside = |index| unbonded.clone().with("bondAtomList", int32(&[0, index]));
    expect(&outside(LIMIT - 1), 0, "a bond to the last atom");
    expect(&outside(LIMIT), 21, "a bond past the last atom");
}

/// 16,777,216 bonds outside would be 33,554,432 indices, more than a column has:
/// half of them are the most.
#[test]
fn bonds_outside() {
    let half = LIMIT / 2;
    let sample = uniform(group(2, None, None), half, LIMIT, half);
    let bonds = |runs: &[i32]| {
        sample
            .clone()
            .with("bondAtomList", Binary(wide([8, LIMIT, 0], runs)))
    };
    let orders = |runs: &[i32]| Binary(wide([16, half, 0], runs));
    expect(&bonds(&[0, 1, 1, LIMIT - 1]), 0, "every atom once");
    expect(&bonds(&[1, LIMIT]), 21, "from the second past the last");
    expect(
        &bonds(&[0, 1, 1, LIMIT - 1]).with("bondOrderList", orders(&[4, half])),
        0,
        "with orders",
    );
    let last = orders(&[4, half - 1, 5, 1]);
    expect(
        &bonds(&[0, 1, 1, LIMIT - 1]).with("bondOrderList", last),
        22,
        "the last order",
    );
}

/// Sums that would agree with 32 bits.
#[test]
fn sums_beyond_32_bits() {
    let wide_group = group(256, None, None);
    expect(&uniform(wide_group, LIMIT, 0, 0), 20, "4,294,967,296 atoms");
    let zeros = vec![0; 512];
    let bonded = group(1, Some(&zeros), None);
    expect(&uniform(bonded, LIMIT, LIMIT, 0), 20, "4,294,967,296 bonds");
    let two = group(257, None, None);
    expect(&uniform(two, LIMIT, LIMIT, 0), 20, "4,311,744,512 atoms");
    // An atom fewer with signed numbers of 32 bits: 128 for each group.
    expect(
        &uniform(group(128, None, None), LIMIT, 0, 0),
        20,
        "2,147,483,648 atoms",
    );
}

/// An array of so many integers, all 0 but one.
fn one_of(count: usize, place: usize, number: u8) -> Value {
    let mut bytes = vec![0; 5 + count];
    bytes[0] = 0xdd;
    bytes[1..5].copy_from_slice(&(count as u32).to_be_bytes());
    bytes[5 + place] = number;
    Written(bytes)
}

/// Each model takes an entry of chainsPerModel.
#[test]
fn models() {
    let models = |count: usize| one_of(count, count - 1, 2);
    let limit = LIMIT as usize;
    let sample = Sample::new().with("numModels", Integer(LIMIT));
    expect(
        &sample.clone().with("chainsPerModel", models(limit)),
        0,
        "16,777,216 models",
    );
    expect(
        &sample.clone().with("chainsPerModel", models(limit + 1)),
        20,
        "one entry more",
    );
    let sample = sample.with("numModels", Integer(LIMIT + 1));
    expect(
        &sample.with("chainsPerModel", models(limit + 1)),
        22,
        "one model more",
    );
}

/// Five million chains, whose names take four bytes each.
#[test]
fn chains() {
    let count = 5_000_000;
    let sample = Sample::new()
        .with("numChains", Integer(count as i32))
        .with(
            "chainIdList",
            Binary(column([5, count as i32, 4], &vec![b'A'; 4 * count])),
        )
        .with("groupsPerChain", one_of(count, count / 2, 3))
        .with("chainsPerModel", Value::integers(&[count as i32]));
    expect(&sample, 0, "5,000,000 chains");
    let last = |index| {
        let changed = with_entry(entity(), "chainIndexList", Value::integers(&[index]));
        sample.clone().with("entityList", Array(vec![changed]))
    };
    expect(&last(count as i32 - 1), 0, "the last chain");
    expect(&last(count as i32), 21, "past the last chain");
}

/// Runs that claim more than there may be.
#[test]
fn hostile_runs() {
    let sample = uniform(group_of_one(), 3, 3, 0);
    let types = |header: [i32; 3], runs: &[i32]| {
        sample
            .clone()
            .with("groupTypeList", Binary(wide(header, runs)))
    };
    expect(
        &types([7, 3, 0], &[0, i32::MAX]),
        19,
        "2,147,483,647 groups",
    );
    expect(&types([8, 3, 0], &[1, i32::MAX]), 19, "2,147,483,647 sums");
    expect(
        &types([7, 3, 0], &[0, i32::MAX, 0, i32::MAX, 0, 5]),
        19,
        "three groups with 32 bits",
    );
    expect(&types([8, LIMIT, 0], &[1, LIMIT]), 20, "16,777,216 groups");
    expect(&types([8, LIMIT + 1, 0], &[1, LIMIT + 1]), 16, "one more");
}

/// Sums around the whole range: -1 and 2,147,483,647 by turns are allowed in
/// sequenceIdList, and all else that wraps is not.
#[test]
fn sums_that_wrap() {
    let sample = uniform(group_of_one(), LIMIT, LIMIT, 0);
    let ids = |runs: &[i32]| {
        sample
            .clone()
            .with("sequenceIdList", Binary(wide([8, LIMIT, 0], runs)))
    };
    expect(
        &ids(&[-1, 1, i32::MIN, LIMIT - 1]),
        0,
        "by half of the range",
    );
    expect(&ids(&[0, 1, i32::MIN, LIMIT - 1]), 22, "from 0");
    expect(&ids(&[1_000, LIMIT]), 22, "past the end");
    expect(&ids(&[128, LIMIT - 1, 127, 1]), 0, "up to the end");
    expect(&ids(&[128, LIMIT]), 22, "one more");
}
