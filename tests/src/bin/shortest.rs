//! shortest [COUNT [SEED]]: tries to beat the writer. It goes through all
//! payloads of narrow widths up to some length, and through so many columns by
//! each of the sixteen codecs, 250,000 if no other count is given, and prints how
//! many payloads were longer than the writer's, the writer's own, as short and
//! different, and shorter.
//!
//! The status is 1 if a payload was shorter, or as short and different, or if the
//! library and the independent implementation differ; 2 if it is asked wrongly.

use std::process::ExitCode;

use mmtf_tests::generate::Rng;
use mmtf_tests::shortest::narrow::{self, Limits, Reader, Writer};
use mmtf_tests::shortest::{wide, Found};

/// How many columns are made by each codec if no other count is given.
const COLUMNS: u64 = 250_000;

/// The narrow widths of packed numbers, and how many a payload has at most.
const PACKED: [(i32, i32, usize); 5] =
    [(-1, 1, 13), (-2, 1, 11), (-3, 2, 8), (-4, 3, 7), (-8, 7, 5)];

/// The same of the numbers of runs.
const RUNS: [(i32, i32, usize); 3] = [(-1, 2, 10), (-1, 3, 8), (-4, 3, 6)];

fn main() -> ExitCode {
    let words: Vec<String> = std::env::args().skip(1).collect();
    let numbers: Option<Vec<u64>> = words.iter().map(|word| word.parse().ok()).collect();
    match numbers.as_deref() {
        Some([]) => search(COLUMNS, 1),
        Some(&[count]) => search(count, 1),
        Some(&[count, seed]) => search(count, seed),
        _ => {
            eprintln!("usage: shortest [COUNT [SEED]]");
            ExitCode::from(2)
        }
    }
}

fn search(columns: u64, seed: u64) -> ExitCode {
    let mut beaten = false;
    println!("payloads refused longer own tied shorter");
    let packed: (Reader, Writer) = (narrow::unpacked, narrow::packed);
    let runs: (Reader, Writer) = (narrow::expanded, narrow::longest);
    for (name, widths, (reader, writer)) in
        [("packed", &PACKED[..], packed), ("runs", &RUNS[..], runs)]
    {
        for &(least, most, numbers) in widths {
            let found = narrow::search(Limits { least, most }, numbers, reader, writer);
            beaten |= found.is_beaten();
            show(
                &found,
                &format!("{name}, all of up to {numbers} numbers {least} to {most}"),
            );
        }
    }
    for codec in 1..=16 {
        let mut rng = Rng::new(seed << 8 | codec as u64);
        match wide::search(codec, columns, &mut rng) {
            Ok(found) => {
                beaten |= found.is_beaten();
                show(&found, &format!("columns by codec {codec}"));
            }
            Err(difference) => {
                eprintln!("Codec {codec}: {difference}");
                beaten = true;
            }
        }
    }
    ExitCode::from(u8::from(beaten))
}

fn show(found: &Found, name: &str) {
    let Found {
        refused,
        longer,
        own,
        tied,
        shorter,
        first,
    } = found;
    println!(
        "{} {refused} {longer} {own} {tied} {shorter}  {name}",
        found.payloads()
    );
    if let Some(first) = first {
        println!("the first: {first}");
    }
}
