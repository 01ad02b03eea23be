//! Measures the container walk and views by name, by the library and the Rust.

use std::hint::black_box;

use mmtf_tests::check::agree_on_view;
use mmtf_tests::{corpus, independent, library};

use crate::table::Workloads;
use crate::timing::{compare, Times};
use crate::workloads::{many_outer_keys, HOSTILE, LARGEST};

pub fn rows(table: &Workloads) {
    for name in ["4QXX", "1IGT", "4V5A"] {
        let file = corpus::derived(name);
        table.row("container walk", name, file.len(), walk(file));
    }
    for hostile in HOSTILE {
        let file = (hostile.build)(LARGEST);
        table.row(
            "container walk, hostile",
            hostile.name,
            file.len(),
            walk(&file),
        );
    }
    views(table, "1IGT", corpus::derived("1IGT"));
    views(table, "256 outer keys", &many_outer_keys());
}

/// Both walks of an accepted file.
pub fn walk(file: &[u8]) -> Times {
    assert_eq!(library::container(file), 0, "the library accepts it");
    assert_eq!(independent::container(file), 0, "the Rust accepts it");
    compare(
        "container",
        || {
            black_box(library::container(black_box(file)));
        },
        || {
            black_box(independent::container(black_box(file)));
        },
    )
}

/// Both views of an accepted file, by its first and last key and an absent one.
fn views(table: &Workloads, name: &str, file: &[u8]) {
    let keys = independent::outer_keys(file).expect("an accepted file");
    let asked: [(&str, &[u8]); 3] = [
        ("first key", keys[0]),
        ("last key", keys[keys.len() - 1]),
        ("absent key", b"no such field"),
    ];
    for (which, key) in asked {
        agree_on_view(file, key).expect("both give the same part");
        let times = compare(
            "view",
            || {
                black_box(library::view(black_box(file), black_box(key)));
            },
            || {
                let _ = black_box(independent::view(black_box(file), black_box(key)));
            },
        );
        table.row(
            "view by name",
            &format!("{name}, {which}"),
            file.len(),
            times,
        );
    }
}
