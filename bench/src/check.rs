//! Measures the whole check, files opened, and matrices, by the library and the Rust.

use std::hint::black_box;

use mmtf_tests::check::files::agree_on_matrix;
use mmtf_tests::corpus;
use mmtf_tests::library::matrix::Matrix;
use mmtf_tests::{independent, library};

use crate::check_data::{structure, HOSTILE};
use crate::opening::{by_library, by_rust};
use crate::table::Workloads;
use crate::timing::{compare, Times};

pub fn rows(table: &Workloads) {
    for (name, file) in corpus::DERIVED {
        let number = if *name == "4CUP-0.2" { 24 } else { 0 };
        table.row("verdict", name, file.len(), verdict(file, number));
    }
    let file = structure(1_000_000);
    table.row("verdict", "1,000,000 atoms", file.len(), verdict(&file, 0));
    for made in HOSTILE {
        let file = (made.build)();
        table.row("verdict, hostile", made.name, file.len(), verdict(&file, 0));
    }
    for (name, file) in corpus::DERIVED {
        table.row("fields", name, file.len(), fields(file));
    }
    matrices(table, "1AUY", corpus::derived("1AUY"), [0, 59]);
    matrices(table, "4V5A", corpus::derived("4V5A"), [1, 0]);
}

/// Both check the same file and give this number.
pub fn verdict(file: &[u8], number: u8) -> Times {
    assert_eq!(library::verdict(file), number, "by the library");
    assert_eq!(independent::verdict(file), number, "by the Rust");
    compare(
        "verdict",
        || {
            black_box(library::verdict(black_box(file)));
        },
        || {
            black_box(independent::verdict(black_box(file)));
        },
    )
}

/// Both check the same file and say where its fields are.
pub fn fields(file: &[u8]) -> Times {
    assert_eq!(by_library(file), by_rust(file), "both give the same");
    compare(
        "fields",
        || {
            let _ = black_box(by_library(black_box(file)));
        },
        || {
            let _ = black_box(by_rust(black_box(file)));
        },
    )
}

/// Both look for the last transform, and for one that there is not.
fn matrices(table: &Workloads, name: &str, file: &[u8], [assembly, transform]: [u64; 2]) {
    let last = agree_on_matrix(file, assembly, transform);
    assert!(matches!(last, Ok(Matrix::Rows(_))), "both give the same");
    for (which, assembly) in [("last transform", assembly), ("no such assembly", u64::MAX)] {
        let times = compare(
            "matrix",
            || {
                black_box(library::matrix::matrix(
                    black_box(file),
                    assembly,
                    transform,
                ));
            },
            || {
                let _ = black_box(independent::matrix(black_box(file), assembly, transform));
            },
        );
        table.row("matrix", &format!("{name}, {which}"), file.len(), times);
    }
}
