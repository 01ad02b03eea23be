//! Payloads of narrow widths, as lists of their numbers. Runs and packing are
//! written down here once more from the rules, packing for any limits, so that
//! all payloads up to some length can be gone through.

use super::Found;

/// What numbers decode to; none if they are refused.
pub type Reader = fn(Limits, &[i32]) -> Option<Vec<i32>>;

/// The numbers that are written for values.
pub type Writer = fn(Limits, &[i32]) -> Vec<i32>;

/// The smallest and the largest number of a width.
#[derive(Clone, Copy, Debug, PartialEq, Eq)]
pub struct Limits {
    pub least: i32,
    pub most: i32,
}

/// The results of packed numbers: limits are added up, and the first number that
/// is none ends a result. One that is not ended is refused.
pub fn unpacked(limits: Limits, numbers: &[i32]) -> Option<Vec<i32>> {
    let mut results = Vec::new();
    let mut sum = 0;
    let mut ended = true;
    for &number in numbers {
        sum += number;
        ended = number != limits.least && number != limits.most;
        if ended {
            results.push(sum);
            sum = 0;
        }
    }
    ended.then_some(results)
}

/// Each value by the limit of its own sign while the rest reaches it.
pub fn packed(limits: Limits, values: &[i32]) -> Vec<i32> {
    let mut numbers = Vec::new();
    for &value in values {
        let mut rest = value;
        while rest >= limits.most {
            numbers.push(limits.most);
            rest -= limits.most;
        }
        while rest <= limits.least {
            numbers.push(limits.least);
            rest -= limits.least;
        }
        numbers.push(rest);
    }
    numbers
}

/// The cells of runs, value and count in turn. A count below 1 and a value
/// without a count are refused. Runs know no limits.
pub fn expanded(_: Limits, numbers: &[i32]) -> Option<Vec<i32>> {
    let (runs, rest) = numbers.as_chunks::<2>();
    if !rest.is_empty() || runs.iter().any(|&[_, count]| count < 1) {
        return None;
    }
    let cells = runs
        .iter()
        .flat_map(|&[value, count]| std::iter::repeat_n(value, count as usize));
    Some(cells.collect())
}

/// The longest runs of cells.
pub fn longest(_: Limits, cells: &[i32]) -> Vec<i32> {
    cells
        .chunk_by(|a, b| a == b)
        .flat_map(|run| [run[0], run.len() as i32])
        .collect()
}

/// Goes through all lists of the width's numbers, from none to so many.
pub fn search(limits: Limits, most: usize, reader: Reader, writer: Writer) -> Found {
    let mut found = Found::default();
    for length in 0..=most {
        let mut numbers = vec![limits.least; length];
        loop {
            match reader(limits, &numbers) {
                Some(values) => found.note(&numbers, &writer(limits, &values)),
                None => found.refused += 1,
            }
            if !step(limits, &mut numbers) {
                break;
            }
        }
    }
    found
}

/// The next list of as many numbers; false after the last.
fn step(limits: Limits, numbers: &mut [i32]) -> bool {
    for number in numbers {
        if *number < limits.most {
            *number += 1;
            return true;
        }
        *number = limits.least;
    }
    false
}

/// The ways to make one value of upper limits, lower limits and a last number
/// that is none, with at most as many numbers as the writer takes: how many
/// upper and how many lower limits.
pub fn ways(limits: Limits, value: i32) -> Vec<(i64, i64)> {
    let (least, most) = (i64::from(limits.least), i64::from(limits.most));
    let numbers = packed(limits, &[value]).len() as i64;
    let mut ways = Vec::new();
    for upper in 0..numbers {
        for lower in 0..numbers - upper {
            let last = i64::from(value) - upper * most - lower * least;
            if least < last && last < most {
                ways.push((upper, lower));
            }
        }
    }
    ways
}
