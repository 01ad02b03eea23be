//! Measures the same work by libmmtf.a and by the independent Rust, side by side,
//! and prints tables of Markdown. Without an argument it measures every workload,
//! every codec, whole files opened, cost against size, and stack; with the name of
//! a part it measures that part alone. Its status is 1 if a codec or a call of the
//! header is not measured.

mod bills;
mod check;
mod check_data;
mod codecs;
mod column_data;
mod columns;
mod container;
mod coverage;
mod once;
mod opening;
mod peers;
mod receipts;
mod sizes;
mod stack;
mod table;
mod timing;
mod workloads;

use std::process::ExitCode;

use table::Workloads;

fn main() -> ExitCode {
    let words: Vec<String> = std::env::args().skip(1).collect();
    let word = |place: usize| words.get(place).map(String::as_str);
    match word(0) {
        None => return every_part(),
        Some("workloads") => return workloads(),
        Some("container") => container::rows(&Workloads::new()),
        Some("columns") => columns::rows(&Workloads::new()),
        Some("check") => check::rows(&Workloads::new()),
        Some("receipts") => receipts::rows(&Workloads::new()),
        Some("bills") => bills::rows(&Workloads::new()),
        Some("codecs") => return word(1).map_or_else(codecs::tables, codecs::of_one),
        Some("opening") => opening::table(),
        Some("sizes") => sizes::table(),
        Some("stack") => return stack::table(),
        Some("peers") => peers::lines(),
        Some("once") => return once::run(word(1), word(2)),
        Some(other) => {
            eprintln!("There is no part \"{other}\". The parts: {PARTS}.");
            return ExitCode::from(2);
        }
    }
    ExitCode::SUCCESS
}

const PARTS: &str =
    "workloads, container, columns, check, receipts, bills, codecs, opening, sizes, \
                     stack, peers, once";

/// Every table, also if something is not measured.
fn every_part() -> ExitCode {
    let workloads = workloads();
    println!();
    let codecs = codecs::tables();
    println!();
    opening::table();
    println!();
    sizes::table();
    println!();
    let stack = stack::table();
    let failed = |status: &ExitCode| *status != ExitCode::SUCCESS;
    let first = [workloads, codecs, stack].into_iter().find(failed);
    first.unwrap_or(ExitCode::SUCCESS)
}

/// Every workload, in one table.
fn workloads() -> ExitCode {
    let table = Workloads::new();
    container::rows(&table);
    columns::rows(&table);
    check::rows(&table);
    receipts::rows(&table);
    bills::rows(&table);
    coverage::judged("workloads", &coverage::unmeasured(coverage::is_on_file))
}
