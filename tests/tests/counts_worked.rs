//! Files with the number that the rules give, written down by hand: the counts
//! that must agree, rule by rule, and pairs of faults that show their order.

use mmtf_tests::check::files::expect_verdict;
use mmtf_tests::check::made::{narrow, small, wide};
use mmtf_tests::check::sample::*;
use mmtf_tests::generate::files::{integer_forms, Value};
use Value::*;

#[track_caller]
fn expect(sample: &Sample, number: u8, case: &str) {
    expect_verdict(&sample.bytes(), number, case);
}

const LIMIT: i32 = 16_777_216;

fn groups(first: Value, second: Value) -> Sample {
    Sample::full().with("groupList", Array(vec![first, second]))
}

#[test]
fn rule_1_group_types() {
    let sample = |count: usize| {
        let mut types = vec![group_of_three(), group_of_one()];
        types.resize(count, group(0, None, None));
        Sample::full().with("groupList", Array(types))
    };
    expect(&sample(4_095), 0, "4,095 types");
    expect(&sample(4_096), 0, "4,096 types");
    expect(&sample(4_097), 23, "4,097 types");
    expect(
        &sample(4_097).with("numModels", Integer(-1)),
        23,
        "23 before 22",
    );
    expect(
        &sample(4_097).with("entityList", Integer(-1)),
        13,
        "13 before 23",
    );
    let last = group(0, None, Some(&[]));
    let mut types = vec![group_of_three(), group_of_one()];
    types.resize(4_095, group(0, None, None));
    types.push(last.clone());
    expect(
        &Sample::full().with("groupList", Array(types.clone())),
        20,
        "the last of 4,096 types",
    );
    types.push(group_of_one());
    expect(
        &Sample::full().with("groupList", Array(types.clone())),
        23,
        "23 before rule 5",
    );
    types.push(with_entry(last, "bondOrderList", Integer(1)));
    expect(
        &Sample::full().with("groupList", Array(types)),
        13,
        "a wrong type beyond the limit",
    );
}

#[test]
fn rule_2_ranges() {
    for name in [
        "numBonds",
        "numAtoms",
        "numGroups",
        "numChains",
        "numModels",
    ] {
        for number in [-1, i32::MIN, LIMIT + 1, i32::MAX] {
            expect(
                &Sample::full().with(name, Integer(number)),
                22,
                &format!("{name} {number}"),
            );
        }
        for number in [0, LIMIT] {
            expect(
                &Sample::full().with(name, Integer(number)),
                20,
                &format!("{name} {number}"),
            );
        }
    }
    let chains = |list: &[i32]| Sample::full().with("groupsPerChain", Value::integers(list));
    expect(
        &chains(&[4, -1]),
        22,
        "groupsPerChain below 0, with the right sum",
    );
    expect(&chains(&[-1, 4]), 22, "the first below 0");
    expect(&chains(&[i32::MIN, 1]), 22, "far below 0");
    expect(&chains(&[2, 1, -1]), 22, "22 before the number of entries");
    let models = |list: &[i32]| Sample::full().with("chainsPerModel", Value::integers(list));
    expect(&models(&[-2]), 22, "chainsPerModel below 0");
    expect(
        &models(&[3, -1]).with("numModels", Integer(2)),
        22,
        "chainsPerModel, with the right sum",
    );
    expect(&chains(&[0, 3]), 0, "a chain without groups");
}

#[test]
fn rule_3_models_and_chains() {
    let chains = |list: &[i32]| Sample::full().with("groupsPerChain", Value::integers(list));
    let models = |list: &[i32]| Sample::full().with("chainsPerModel", Value::integers(list));
    let table = [
        (chains(&[3, 0]), 0, "another split"),
        (chains(&[2, 2]), 20, "one group too many"),
        (chains(&[2, 0]), 20, "one group too few"),
        (chains(&[3]), 20, "one chain too few"),
        (chains(&[2, 1, 0]), 20, "one chain too many"),
        (chains(&[]), 20, "no chain"),
        (chains(&[i32::MAX, i32::MAX]), 20, "a sum far too large"),
        (models(&[1]), 20, "one chain too few in the model"),
        (models(&[3]), 20, "one chain too many in the model"),
        (models(&[1, 1]), 20, "one model too many"),
        (
            models(&[1, 1]).with("numModels", Integer(2)),
            0,
            "two models",
        ),
        (
            models(&[2, 0]).with("numModels", Integer(2)),
            0,
            "a model without chains",
        ),
        (
            models(&[2]).with("numModels", Integer(2)),
            20,
            "one model too few",
        ),
        // With 32 bits these sums would be 2.
        (
            models(&[i32::MAX, i32::MAX, 4]).with("numModels", Integer(3)),
            20,
            "the sum of models is exact",
        ),
        (
            models(&[]).with("numModels", Integer(0)),
            20,
            "chains without a model",
        ),
    ];
    for (sample, number, case) in table {
        expect(&sample, number, case);
    }
}

/// Each column of groups, chains and atoms with one cell more and one less.
#[test]
fn rule_4_lengths() {
    let columns: [(&str, Vec<Value>); 14] = [
        (
            "xCoordList",
            vec![fixed_point(&[0; 6]), fixed_point(&[0; 8]), fixed_point(&[])],
        ),
        (
            "yCoordList",
            vec![fixed_point(&[0; 6]), fixed_point(&[0; 8])],
        ),
        (
            "zCoordList",
            vec![fixed_point(&[0; 6]), fixed_point(&[0; 8])],
        ),
        (
            "bFactorList",
            vec![fixed_point(&[0; 6]), fixed_point(&[0; 8]), fixed_point(&[])],
        ),
        (
            "occupancyList",
            vec![fixed_point(&[0; 6]), fixed_point(&[0; 8])],
        ),
        ("atomIdList", vec![int32(&[0; 6]), int32(&[0; 8])]),
        ("altLocList", vec![chars(&[0; 6]), chars(&[0; 8])]),
        ("groupIdList", vec![int32(&[0; 2]), int32(&[0; 4])]),
        ("groupTypeList", vec![int32(&[0, 1]), int32(&[0, 1, 0, 0])]),
        ("secStructList", vec![int8(&[0; 2]), int8(&[0; 4])]),
        ("insCodeList", vec![chars(&[0; 2]), chars(&[0; 4])]),
        (
            "sequenceIdList",
            vec![int32(&[0; 2]), int32(&[0; 4]), int32(&[])],
        ),
        ("chainIdList", vec![names(b"A\0\0\0"), names(&[0; 12])]),
        (
            "chainNameList",
            vec![names(b"A\0\0\0"), names(&[0; 12]), names(b"")],
        ),
    ];
    for (name, values) in columns {
        for value in values {
            expect(&Sample::full().with(name, value), 20, name);
        }
    }
    // Before an index outside (rule 6), and before the types (rule 5).
    expect(
        &Sample::full().with("groupTypeList", int32(&[0, 2])),
        20,
        "rule 4 before rule 6",
    );
    let types = groups(group(3, Some(&[0, 3, 1, 2]), None), group_of_one());
    expect(
        &types.with("groupIdList", int32(&[1])),
        20,
        "rule 4 before rule 5",
    );
}

/// A list of bonds that a type may have.
type List = Option<&'static [i32]>;

#[test]
fn rule_5_lists_of_a_type() {
    let lists = |name: &str, value: Value| {
        let changed = with_entry(group_of_one(), name, value);
        expect(&groups(group_of_three(), changed), 20, name);
    };
    lists("formalChargeList", Value::integers(&[]));
    lists("formalChargeList", Value::integers(&[0, 0]));
    lists("atomNameList", Array(vec![]));
    lists("atomNameList", Array(vec![Value::text("C"); 2]));
    lists("elementList", Array(vec![]));
    lists("elementList", Array(vec![Value::text("C"); 2]));
    let table: [(List, List, u8, &str); 16] = [
        (Some(&[]), None, 0, "an empty list"),
        (Some(&[]), Some(&[]), 0, "two empty lists"),
        (Some(&[0]), None, 20, "one index"),
        (Some(&[0, 1, 2]), None, 20, "three indices"),
        (
            Some(&[0, 1, 2]),
            Some(&[1]),
            20,
            "three indices, and half of them as orders",
        ),
        (None, Some(&[]), 20, "empty orders alone"),
        (None, Some(&[1]), 20, "orders alone"),
        (Some(&[]), Some(&[1]), 20, "one order too many"),
        (Some(&[0, 1]), Some(&[]), 20, "one order too few"),
        (
            Some(&[0, 1]),
            Some(&[1, 1]),
            20,
            "as many orders as indices",
        ),
        (Some(&[0, 3]), None, 21, "an index at the number of atoms"),
        (Some(&[-1, 0]), None, 21, "an index below 0"),
        (Some(&[0, 2]), Some(&[0]), 22, "an order of 0"),
        (Some(&[0, 2]), Some(&[5]), 22, "an order of 5"),
        (Some(&[0, 3]), Some(&[5]), 21, "21 before 22"),
        (Some(&[3]), Some(&[5]), 20, "20 before 21 and 22"),
    ];
    for (bonds, orders, number, case) in table {
        // No group is of this third type: it counts too.
        let types = vec![group_of_three(), group_of_one(), group(3, bonds, orders)];
        expect(
            &Sample::full().with("groupList", Array(types)),
            number,
            case,
        );
    }
    for order in [1, 2, 3, 4] {
        let types = vec![
            group_of_three(),
            group_of_one(),
            group(2, Some(&[0, 1]), Some(&[order])),
        ];
        expect(
            &Sample::full().with("groupList", Array(types)),
            0,
            &format!("order {order}"),
        );
    }
    for index in [i32::MIN, i32::MAX, 256, -256] {
        let types = vec![
            group_of_three(),
            group_of_one(),
            group(3, Some(&[0, index]), None),
        ];
        expect(
            &Sample::full().with("groupList", Array(types)),
            21,
            &format!("index {index}"),
        );
    }
    expect(
        &groups(group_of_three(), group(0, Some(&[0, 0]), None)),
        21,
        "no atom to point to",
    );
}

/// Type by type: a later number in an earlier type comes first.
#[test]
fn rule_5_type_by_type() {
    let lists = || group(1, None, Some(&[]));
    let index = || group(1, Some(&[0, 1]), None);
    let order = || group(1, Some(&[0, 0]), Some(&[5]));
    let faults = [(lists(), 20), (index(), 21), (order(), 22)];
    for (first, number) in &faults {
        for (second, _) in &faults {
            expect(
                &groups(first.clone(), second.clone()),
                *number,
                "the first type's number",
            );
        }
        let outside =
            groups(first.clone(), group_of_one()).with("groupTypeList", int32(&[2, -1, 9]));
        expect(&outside, *number, "rule 5 before rule 6");
    }
}

#[test]
fn rule_6_types_of_groups() {
    let types = |column| Sample::full().with("groupTypeList", column);
    for outside in [2, 3, -1, i32::MIN, i32::MAX, 65_536, 256] {
        expect(
            &types(int32(&[0, 1, outside])),
            21,
            &format!("type {outside}"),
        );
        expect(
            &types(int32(&[outside, 1, 0])),
            21,
            &format!("type {outside}"),
        );
        expect(
            &types(Binary(wide([7, 3, 0], &[0, 2, outside, 1]))),
            21,
            "by runs",
        );
    }
    expect(
        &types(Binary(wide([8, 3, 0], &[0, 1, 1, 1, -1, 1]))),
        0,
        "0, 1, 0 as sums",
    );
    expect(
        &types(Binary(wide([8, 3, 0], &[0, 1, 1, 2]))),
        21,
        "0, 1, 2 as sums",
    );
    expect(
        &types(Binary(narrow([14, 3, 0], &[0, 1, 0]))),
        0,
        "packed in 16 bits",
    );
    expect(
        &types(Binary(narrow([14, 3, 0], &[0, 1, 2]))),
        21,
        "packed in 16 bits",
    );
    expect(
        &types(Binary(small([15, 3, 0], &[0, 1, 0]))),
        0,
        "packed in 8 bits",
    );
    expect(
        &types(Binary(small([15, 3, 0], &[0, 1, -1]))),
        21,
        "packed in 8 bits",
    );
    expect(
        &types(int32(&[0, 1, 2])).with("numBonds", Integer(0)),
        21,
        "rule 6 before rule 8",
    );
    let odd = types(int32(&[0, 1, 2])).with("bondAtomList", int32(&[0]));
    expect(&odd, 21, "rule 6 before the lists of rule 8");
    let none = types(int32(&[0, 1, 0])).with("groupList", Array(vec![]));
    expect(&none, 21, "no type");
}

#[test]
fn rule_7_atoms() {
    let types = |list: &[i32]| Sample::full().with("groupTypeList", int32(list));
    expect(&types(&[0, 0, 1]), 0, "the same types in another order");
    expect(&types(&[0, 1, 1]), 20, "two atoms too few");
    expect(&types(&[0, 0, 0]), 20, "two atoms too many");
    expect(
        &groups(group(4, Some(&[0, 1, 1, 2]), None), group_of_one()),
        20,
        "two more by the type",
    );
    expect(
        &groups(group_of_three(), group(2, None, None)),
        20,
        "one more by the type",
    );
    expect(
        &groups(group_of_three(), group(0, None, None)),
        20,
        "one less by the type",
    );
    let eight = Sample::new()
        .with("numAtoms", Integer(8))
        .with("xCoordList", fixed_point(&[0; 8]))
        .with("yCoordList", fixed_point(&[0; 8]))
        .with("zCoordList", fixed_point(&[0; 8]));
    expect(&eight, 20, "one more in every column");
    expect(
        &types(&[0, 1, 1]).with("secStructList", int8(&[9; 3])),
        20,
        "rule 7 before rule 10",
    );
}

#[test]
fn rule_8_bonds() {
    let bonds = |number| Sample::full().with("numBonds", Integer(number));
    // 2 + 0 + 2 in the groups and 1 outside; once per type they would be 3.
    for number in [0, 1, 3, 4, 6, LIMIT] {
        expect(&bonds(number), 20, &format!("{number} bonds"));
    }
    let outside = |atoms: &[i32], number| {
        Sample::new()
            .with("bondAtomList", int32(atoms))
            .with("numBonds", Integer(number))
    };
    expect(&outside(&[], 4), 0, "no bond outside");
    expect(&outside(&[2, 3, 5, 6], 6), 0, "two bonds outside");
    expect(&outside(&[2], 4), 20, "one index");
    expect(&outside(&[2, 3, 4], 5), 20, "three indices");
    expect(&outside(&[2, 3, 4], 6), 20, "three indices, rounded up");
    let orders = |list: &[i8]| Sample::full().with("bondOrderList", int8(list));
    expect(&orders(&[4]), 0, "one order");
    expect(&orders(&[]), 20, "no order");
    expect(&orders(&[1, 1]), 20, "as many orders as indices");
    let alone = |list: &[i8]| {
        Sample::new()
            .without("bondAtomList")
            .with("numBonds", Integer(4))
            .with("bondOrderList", int8(list))
    };
    expect(&alone(&[]), 20, "empty orders alone");
    expect(&alone(&[1]), 20, "orders alone");
    expect(
        &outside(&[], 4).with("bondOrderList", int8(&[])),
        0,
        "two empty lists",
    );
    // Bonds of a type that no group has do not count.
    let types = vec![group_of_three(), group_of_one(), group_of_three()];
    expect(
        &Sample::full().with("groupList", Array(types)),
        0,
        "a type that is not used",
    );
}

#[test]
fn rule_9_bonds_outside() {
    let atoms = |list: &[i32]| Sample::full().with("bondAtomList", int32(list));
    let orders = |list: &[i8]| Sample::full().with("bondOrderList", int8(list));
    for index in [7, 8, -1, i32::MIN, i32::MAX] {
        expect(&atoms(&[index, 0]), 21, &format!("index {index}"));
        expect(&atoms(&[0, index]), 21, &format!("index {index}"));
    }
    expect(&atoms(&[6, 0]), 0, "the first and the last atom");
    for order in [0, 5, -1, -128, 127] {
        expect(&orders(&[order]), 22, &format!("order {order}"));
        let runs = Binary(wide([16, 1, 0], &[i32::from(order), 1]));
        expect(&Sample::full().with("bondOrderList", runs), 22, "by runs");
    }
    for order in [1, 2, 3, 4] {
        expect(&orders(&[order]), 0, &format!("order {order}"));
    }
    expect(
        &atoms(&[7, 0]).with("bondOrderList", int8(&[0])),
        21,
        "indices before orders",
    );
    expect(
        &atoms(&[7, 0]).with("numBonds", Integer(4)),
        20,
        "rule 8 before rule 9",
    );
    expect(
        &atoms(&[7]).with("numBonds", Integer(4)),
        20,
        "an odd list before its indices",
    );
    expect(
        &orders(&[0, 0]),
        20,
        "the number of orders before their values",
    );
    expect(
        &orders(&[0]).with(
            "entityList",
            Array(vec![with_entry(
                entity(),
                "chainIndexList",
                Value::integers(&[2]),
            )]),
        ),
        22,
        "rule 9 before rule 11",
    );
    // Sums that leave the atoms in the middle of a run, and that wrap.
    let sums = |runs: &[i32], length| {
        let column = Binary(wide([8, length, 0], runs));
        Sample::new()
            .with("bondAtomList", column)
            .with("numBonds", Integer(4 + length / 2))
    };
    expect(&sums(&[0, 1, 1, 5], 6), 0, "0 to 5");
    expect(&sums(&[0, 1, 1, 6, -1, 1], 8), 0, "0 to 6, and 5");
    expect(&sums(&[0, 1, 1, 7, -1, 2], 10), 21, "up to 7, and back");
    expect(&sums(&[0, 1, -1, 1, 1, 2], 4), 21, "-1, and back");
    expect(&sums(&[1, 1, i32::MIN, 3], 4), 21, "by half of the range");
    expect(&sums(&[1, 1, i32::MAX, 2, 2, 1], 4), 21, "around the range");
}

#[test]
fn rule_10_lists() {
    let structure = |list: &[i8]| Sample::full().with("secStructList", int8(list));
    let sequence = |list: &[i32]| Sample::full().with("sequenceIdList", int32(list));
    for value in -1..=7 {
        expect(
            &structure(&[0, value, 0]),
            0,
            &format!("secStructList {value}"),
        );
    }
    for value in [-2, 8, -128, 127, 9] {
        expect(
            &structure(&[0, 0, value]),
            22,
            &format!("secStructList {value}"),
        );
        let runs = Binary(wide([16, 3, 0], &[0, 2, i32::from(value), 1]));
        expect(&Sample::full().with("secStructList", runs), 22, "by runs");
    }
    for value in [-1, 0, 1, 7, i32::MAX] {
        expect(
            &sequence(&[0, value, 0]),
            0,
            &format!("sequenceIdList {value}"),
        );
    }
    for value in [-2, -3, i32::MIN] {
        expect(
            &sequence(&[0, value, 0]),
            22,
            &format!("sequenceIdList {value}"),
        );
    }
    let sums = |runs: &[i32]| Sample::full().with("sequenceIdList", Binary(wide([8, 3, 0], runs)));
    expect(
        &sums(&[i32::MAX, 1, i32::MAX, 1, 0, 1]),
        22,
        "a sum that wraps",
    );
    expect(&sums(&[-1, 1, i32::MIN, 2]), 0, "-1, 2147483647, -1");
    expect(&sums(&[-1, 2, 1, 1]), 22, "-1, -2, -1");
    let outside = with_entry(entity(), "chainIndexList", Value::integers(&[2]));
    expect(
        &structure(&[8; 3]).with("entityList", Array(vec![outside])),
        22,
        "rule 10 before rule 11",
    );
    expect(
        &structure(&[8; 3]).with("bondAtomList", int32(&[0, 7])),
        21,
        "rule 9 before rule 10",
    );
}

#[test]
fn rule_11_chains() {
    let entities = |list: &[i32]| {
        let changed = with_entry(entity(), "chainIndexList", Value::integers(list));
        Sample::full().with("entityList", Array(vec![entity(), changed]))
    };
    let assemblies = |list: &[i32]| {
        let changed = with_entry(transform(), "chainIndexList", Value::integers(list));
        let last = assembly(vec![transform(), changed]);
        Sample::full().with("bioAssemblyList", Array(vec![assembly(vec![]), last]))
    };
    for index in [2, 3, -1, i32::MIN, i32::MAX] {
        expect(
            &entities(&[0, index]),
            21,
            &format!("entity's chain {index}"),
        );
        expect(
            &assemblies(&[0, index]),
            21,
            &format!("assembly's chain {index}"),
        );
    }
    for list in [&[][..], &[0], &[1], &[1, 0, 1, 1]] {
        expect(&entities(list), 0, "chains of an entity");
        expect(&assemblies(list), 0, "chains of an assembly");
    }
}

/// An integer in every form that holds it.
fn forms(number: i32) -> Vec<Value> {
    let bytes = number.to_be_bytes();
    integer_forms(number)
        .into_iter()
        .map(|(lead, size)| Written([&[lead], &bytes[4 - size..]].concat()))
        .collect()
}

/// The same number in every form: its sign and its size are the form's.
#[test]
fn every_form_of_integers() {
    assert_eq!(
        [5, 200, 40_000, 70_000, -1, -100].map(|n| forms(n).len()),
        [7, 5, 3, 2, 4, 3]
    );
    for form in forms(5) {
        expect(&Sample::full().with("numBonds", form), 0, "5 bonds");
    }
    for number in [-1, -33, -129, -32_769, LIMIT + 1] {
        for form in forms(number) {
            expect(
                &Sample::full().with("numBonds", form),
                22,
                &format!("{number} bonds"),
            );
        }
    }
    // As signed numbers of 8 and 16 bits these would be below 0.
    for number in [128, 200, 255, 40_000, 65_535] {
        for form in forms(number) {
            let case = format!("{number}");
            expect(&Sample::full().with("numBonds", form.clone()), 20, &case);
            let list = |atoms| {
                let pair = Array(vec![form.clone(), Integer(0)]);
                let last = with_entry(group(atoms, None, None), "bondAtomList", pair);
                let types = vec![group_of_three(), group_of_one(), last];
                Sample::full().with("groupList", Array(types))
            };
            if number < 256 {
                expect(&list(number as usize + 1), 0, &case);
                expect(&list(number as usize), 21, &case);
            }
        }
    }
    for form in forms(4) {
        let orders = with_entry(
            group_of_three(),
            "bondOrderList",
            Array(vec![form.clone(), form]),
        );
        expect(&groups(orders, group_of_one()), 0, "order 4");
    }
    for form in forms(1) {
        let per_chain = Array(vec![Integer(2), form]);
        expect(
            &Sample::full().with("groupsPerChain", per_chain),
            0,
            "one group",
        );
    }
    for form in forms(-1) {
        let per_model = Array(vec![Integer(3), form.clone()]);
        let sample = Sample::full().with("chainsPerModel", per_model);
        expect(&sample.with("numModels", Integer(2)), 22, "-1 chains");
        let changed = with_entry(entity(), "chainIndexList", Array(vec![form]));
        expect(
            &Sample::full().with("entityList", Array(vec![changed])),
            21,
            "chain -1",
        );
    }
}
