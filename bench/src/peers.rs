//! The work that is compared with other packages: a file opened by one call, and
//! all its columns decoded. `bench/peers` makes the table.

use mmtf_tests::corpus;
use mmtf_tests::independent::{outer_binaries, FIELDS};
use mmtf_tests::library;

use crate::opening::opened;

/// For each accepted structure file its name, its bytes, and the times of the
/// library and of the Rust in nanoseconds, with tabs between. All columns are
/// decoded, the unnamed ones too, as the other packages do: these are found by
/// name.
pub fn lines() {
    for (name, file) in corpus::DERIVED {
        if library::verdict(file) == 0 {
            let is_named = |key: &[u8]| FIELDS.iter().any(|field| field.name().as_bytes() == key);
            let columns = outer_binaries(file).expect("an accepted file");
            let keys = columns.into_iter().map(|(key, _)| key);
            let others: Vec<&[u8]> = keys.filter(|key| !is_named(key)).collect();
            let times = opened(file, &others);
            let bytes = file.len();
            println!(
                "{name}\t{bytes}\t{:.0}\t{:.0}",
                times.library, times.independent
            );
        }
    }
}
