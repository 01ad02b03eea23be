//! soak [COUNT [SEED]]: runs generated cases of every sort through the library
//! and through the independent implementation, ten million if no other count is
//! given. `soak --one SEED NUMBER` runs one of them alone; `soak --first COUNT
//! SEED` ends at the first difference.
//!
//! The status is 1 if the two differ in a case, if a refusal number never came
//! up, or if the program took more memory than it may; 2 if it is asked wrongly.

mod large;
mod memory;
mod sorts;
mod tally;

use std::process::ExitCode;
use std::sync::atomic::{AtomicU64, Ordering};
use std::time::Instant;

use sorts::{run, Sort};
use tally::Tally;

/// How many cases are run if no other count is given.
const CASES: u64 = 10_000_000;

/// From so many cases on, a number that never came up is a failure.
const ENOUGH: u64 = 1_000_000;

/// After so many cases standard error is told how far it is.
const TOLD: u64 = 1_000_000;

/// The differences that are shown.
const SHOWN: u64 = 20;

fn main() -> ExitCode {
    let words: Vec<String> = std::env::args().skip(1).collect();
    let words: Vec<&str> = words.iter().map(String::as_str).collect();
    let status = match words[..] {
        [] => Some(soak(CASES, 1, u64::MAX)),
        [count] => number(count).map(|count| soak(count, 1, u64::MAX)),
        ["--one", seed, case] => both(seed, case).map(|(seed, case)| one(seed, case)),
        ["--first", count, seed] => both(count, seed).map(|(count, seed)| soak(count, seed, 1)),
        [count, seed] => both(count, seed).map(|(count, seed)| soak(count, seed, u64::MAX)),
        _ => None,
    };
    status.unwrap_or_else(|| {
        eprintln!("usage: soak [COUNT [SEED]], soak --first COUNT SEED, or soak --one SEED NUMBER");
        ExitCode::from(2)
    })
}

fn number(word: &str) -> Option<u64> {
    word.parse().ok()
}

fn both(first: &str, second: &str) -> Option<(u64, u64)> {
    number(first).zip(number(second))
}

/// The case that is running, for one that ends the program.
static RUNNING: AtomicU64 = AtomicU64::new(0);

fn say_on_panic(seed: u64) {
    let usual = std::panic::take_hook();
    std::panic::set_hook(Box::new(move |information| {
        let number = RUNNING.load(Ordering::Relaxed);
        eprintln!("Case {number} of seed {seed} ended the run: soak --one {seed} {number}");
        usual(information);
    }));
}

/// Runs so many cases, or as many as it takes to meet so many differences.
fn soak(count: u64, seed: u64, most: u64) -> ExitCode {
    say_on_panic(seed);
    let begin = Instant::now();
    let mut tally = Tally::default();
    for number in 0..count {
        RUNNING.store(number, Ordering::Relaxed);
        if let Err(difference) = run(seed, number, &mut tally) {
            tally.differences += 1;
            if tally.differences <= SHOWN {
                show(seed, number, &difference);
            }
            if tally.differences == most {
                return ExitCode::FAILURE;
            }
        }
        if (number + 1) % TOLD == 0 {
            let differences = tally.differences;
            let seconds = begin.elapsed().as_secs();
            eprintln!(
                "{} cases, {differences} differences, {seconds} s",
                number + 1
            );
        }
    }
    finish(count, seed, begin.elapsed().as_secs_f64(), &tally)
}

/// Prints what came of it, and says whether all is well.
fn finish(count: u64, seed: u64, seconds: f64, tally: &Tally) -> ExitCode {
    tally.print();
    println!();
    let speed = count as f64 / seconds;
    println!("Seed {seed}: {count} cases in {seconds:.0} s, {speed:.0} cases a second.");
    let kept = memory::is_kept();
    let met = count < ENOUGH || tally.is_each_met();
    println!("Differences: {}.", tally.differences);
    match tally.differences == 0 && kept && met {
        true => ExitCode::SUCCESS,
        false => ExitCode::FAILURE,
    }
}

fn show(seed: u64, number: u64, difference: &str) {
    let sort = Sort::of(number).name();
    println!("Difference in case {number} of seed {seed}, of the sort \"{sort}\":");
    println!("{difference}");
    println!("Alone it is run by: soak --one {seed} {number}");
}

/// Runs one case alone, and says what came of it.
fn one(seed: u64, number: u64) -> ExitCode {
    let mut tally = Tally::default();
    match run(seed, number, &mut tally) {
        Ok(()) => {
            tally.print();
            println!("Case {number} of seed {seed}: no difference.");
            ExitCode::SUCCESS
        }
        Err(difference) => {
            show(seed, number, &difference);
            ExitCode::FAILURE
        }
    }
}
