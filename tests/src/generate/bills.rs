//! Runs of receipts: whole, with faults at their places, cut, damaged, and of a
//! size; and what their bill is by the making of them.

use std::collections::BTreeMap;

use super::receipts::{receipt_text, LIMIT, STATIONS, TEXT_KINDS};
use super::{damaged, Rng};
use crate::independent::receipt::{text, Numbers, LINES};

/// The last job of a station.
const LAST_JOB: u32 = 999_999;

/// Receipts, and their texts one directly after another.
#[derive(Default)]
pub struct Run {
    pub receipts: Vec<Numbers>,
    pub bytes: Vec<u8>,
}

impl Run {
    pub fn of(receipts: Vec<Numbers>) -> Run {
        let bytes = receipts.iter().map(text).collect::<String>().into_bytes();
        Run { receipts, bytes }
    }

    /// The station whose turn it is, and its next job.
    fn next_of(&self, stations: &[u32]) -> [u32; 2] {
        let made = self.receipts.len();
        let station = stations[made % stations.len()];
        [station, (made / stations.len()) as u32 + 1]
    }

    fn push(&mut self, receipt: Numbers) {
        self.bytes.extend(text(&receipt).bytes());
        self.receipts.push(receipt);
    }

    /// The bill, if the jobs rise: by the units of the receipts.
    pub fn bill(&self) -> String {
        let mut stations: BTreeMap<u32, Vec<u32>> = BTreeMap::new();
        for &[station, .., units] in &self.receipts {
            stations.entry(station).or_default().push(units);
        }
        let total: u32 = stations.values().flatten().sum();
        let lines: String = stations.into_iter().map(lines_of).collect();
        lines + &format!("total={total}\n")
    }
}

/// The lines of a station. Its accepted jobs are the sum of its units, and all
/// others are refused.
fn lines_of((station, units): (u32, Vec<u32>)) -> String {
    let accepted: u32 = units.iter().sum();
    let refused = units.len() - accepted as usize;
    format!("station={station}\naccepted={accepted}\nrefused={refused}\n")
}

/// A receipt by a station and its job, of an accepted file twice of three times.
pub fn receipt(rng: &mut Rng, station: u32, job: u32) -> Numbers {
    if rng.chance(1, 3) {
        return [station, job, rng.within(1, 24) as u32, 0, 0, 0, 0, 0, 0, 0];
    }
    let mut receipt = [0; LINES.len()].map(|_: u32| count(rng));
    receipt[..3].copy_from_slice(&[station, job, 0]);
    receipt[8..].copy_from_slice(&[rng.within(16, 39) as u32, 1]);
    receipt
}

/// A count of any number of digits.
fn count(rng: &mut Rng) -> u32 {
    rng.below(LIMIT as usize + 1) as u32 >> rng.below(25)
}

/// So many receipts of these stations in any order, with jobs that rise within
/// each: by 1, by more, or as far as leaves jobs for all that are to come.
pub fn rising(rng: &mut Rng, stations: &[u32], count: usize) -> Vec<Numbers> {
    let mut jobs = [0; 100];
    let next = |made: usize| {
        let station = *rng.pick(stations);
        let job: &mut u32 = &mut jobs[station as usize];
        let most = (LAST_JOB - *job) as usize / (count - made);
        *job += match rng.below(4) {
            0 => most as u32,
            1 => rng.within(1, most) as u32,
            _ => 1,
        };
        receipt(rng, station, *job)
    };
    (0..count).map(next).collect()
}

/// Every station.
pub fn every_station() -> Vec<u32> {
    (1..=99).collect()
}

/// One station, two neighbours, those at the ends of their digits, some, or all.
fn some_stations(rng: &mut Rng) -> Vec<u32> {
    let first = rng.within(1, 99) as u32;
    match rng.below(5) {
        0 => vec![first],
        1 => vec![first, first % 99 + 1],
        2 => STATIONS.to_vec(),
        3 => [0; 7].map(|_| rng.within(1, 99) as u32).to_vec(),
        _ => every_station(),
    }
}

/// At least so many receipts with rising jobs, most often few.
fn any_receipts(rng: &mut Rng, least: usize) -> Vec<Numbers> {
    let stations = some_stations(rng);
    let more = match rng.below(8) {
        0 => 0,
        1 => 1,
        2..=4 => rng.within(2, 6),
        5..=6 => rng.within(7, 20),
        _ => rng.within(21, 120),
    };
    rising(rng, &stations, least + more)
}

/// The kinds of generated runs.
#[derive(Clone, Copy, Debug, PartialEq, Eq)]
pub enum BillKind {
    Whole,
    /// A job that is that of its station's last receipt, or below it.
    Job,
    /// A text that is no receipt.
    Text,
    /// Both faults in one receipt.
    Both,
    JobThenText,
    TextThenJob,
    Cut,
    Damaged,
    Texts,
}

/// Every kind, with how many of a hundred runs are of it.
pub const BILL_KINDS: [(BillKind, u64); 9] = [
    (BillKind::Whole, 30),
    (BillKind::Job, 14),
    (BillKind::Text, 12),
    (BillKind::Both, 6),
    (BillKind::JobThenText, 8),
    (BillKind::TextThenJob, 8),
    (BillKind::Cut, 6),
    (BillKind::Damaged, 12),
    (BillKind::Texts, 4),
];

/// A run, with its bill or its refusal where the making of it tells.
pub struct BillCase {
    pub run: Vec<u8>,
    pub expected: Option<Result<String, u8>>,
}

impl BillCase {
    /// Receipts with rising jobs.
    pub fn whole(receipts: Vec<Numbers>) -> BillCase {
        let run = Run::of(receipts);
        BillCase {
            expected: Some(Ok(run.bill())),
            run: run.bytes,
        }
    }

    /// A run that is refused with this number.
    pub fn refused(number: u8, run: Vec<u8>) -> BillCase {
        BillCase {
            run,
            expected: Some(Err(number)),
        }
    }

    fn open(run: Vec<u8>) -> BillCase {
        BillCase {
            run,
            expected: None,
        }
    }
}

/// One run of a kind.
pub fn bill_case(kind: BillKind, rng: &mut Rng) -> BillCase {
    match kind {
        BillKind::Whole => BillCase::whole(any_receipts(rng, 0)),
        BillKind::Job => faulty(rng, 30, &[Fault::Job]),
        BillKind::Text => faulty(rng, 29, &[Fault::Text]),
        BillKind::Both => faulty(rng, 29, &[Fault::Both]),
        BillKind::JobThenText => faulty(rng, 30, &[Fault::Job, Fault::Text]),
        BillKind::TextThenJob => faulty(rng, 29, &[Fault::Text, Fault::Job]),
        BillKind::Cut => cut(rng),
        BillKind::Damaged => {
            let run = Run::of(any_receipts(rng, 1));
            BillCase::open(damaged(rng, run.bytes))
        }
        BillKind::Texts => {
            let texts = 0..rng.below(7);
            BillCase::open(texts.flat_map(|_| any_text(rng)).collect())
        }
    }
}

fn any_text(rng: &mut Rng) -> Vec<u8> {
    let (kind, _) = *rng.pick(&TEXT_KINDS);
    receipt_text(kind, rng)
}

/// A whole run that ends anywhere: at the end of a receipt, or within one.
fn cut(rng: &mut Rng) -> BillCase {
    let Run {
        mut receipts,
        mut bytes,
    } = Run::of(any_receipts(rng, 1));
    bytes.truncate(rng.below(bytes.len()));
    let mut end = 0;
    receipts.retain(|receipt| {
        end += text(receipt).len();
        end <= bytes.len()
    });
    match BillCase::whole(receipts) {
        case if case.run == bytes => case,
        _ => BillCase::refused(29, bytes),
    }
}

/// What is at fault in a receipt of a run.
#[derive(Clone, Copy, Debug, PartialEq, Eq)]
pub enum Fault {
    Job,
    Text,
    Both,
}

/// A run with these faults, one after another, at any places, which is refused
/// with this number. None is in the first receipt, but for a text.
fn faulty(rng: &mut Rng, number: u8, faults: &[Fault]) -> BillCase {
    let receipts = any_receipts(rng, faults.len() + 1);
    let least = usize::from(faults[0] != Fault::Text);
    let mut places = Vec::new();
    for (nth, &fault) in faults.iter().enumerate() {
        let from = places.last().map_or(least, |(place, _)| place + 1);
        let to = receipts.len() - faults.len() + nth;
        places.push((rng.within(from, to), fault));
    }
    BillCase::refused(number, with_faults(rng, receipts, &places))
}

/// The texts of receipts with rising jobs, of which those at these places have a
/// fault.
pub fn with_faults(
    rng: &mut Rng,
    mut receipts: Vec<Numbers>,
    faults: &[(usize, Fault)],
) -> Vec<u8> {
    for &(place, _) in faults.iter().filter(|(_, fault)| *fault != Fault::Text) {
        let by = not_rising(rng, &receipts[..place]);
        receipts[place][..2].copy_from_slice(&by);
    }
    let is_spoilt = |place| {
        let mut there = faults.iter().filter(|(at, _)| *at == place);
        there.any(|(_, fault)| *fault != Fault::Job)
    };
    let texts = receipts
        .iter()
        .enumerate()
        .map(|(place, receipt)| match is_spoilt(place) {
            true => malformed(rng, receipt),
            false => text(receipt).into_bytes(),
        });
    texts.collect::<Vec<_>>().concat()
}

/// A station of these receipts, and a job that does not rise after them.
fn not_rising(rng: &mut Rng, before: &[Numbers]) -> [u32; 2] {
    let [station, ..] = *rng.pick(before);
    let jobs = before.iter().filter(|receipt| receipt[0] == station);
    let last = jobs.map(|&[_, job, ..]| job).max().expect("the one picked");
    let job = match rng.below(4) {
        0 | 1 => last,
        2 => last.saturating_sub(1).max(1),
        _ => rng.within(1, last as usize) as u32,
    };
    [station, job]
}

/// The ways in which `malformed_by` spoils a text.
pub const WAYS: usize = 12;

/// A text close to that of these numbers, but no receipt, whatever follows it.
pub fn malformed(rng: &mut Rng, receipt: &Numbers) -> Vec<u8> {
    let (way, line) = (rng.below(WAYS), rng.below(LINES.len()));
    malformed_by(way, line, receipt)
}

/// The same in a given way, which spoils this line.
pub fn malformed_by(way: usize, line: usize, receipt: &Numbers) -> Vec<u8> {
    let whole = text(receipt);
    let mut lines: Vec<String> = whole.split_inclusive('\n').map(str::to_string).collect();
    let other = (line + 1) % LINES.len();
    let spoilt = &mut lines[line];
    match way {
        0 | 1 => *spoilt = format!("{}={}\n", LINES[line], outside(way, line, receipt)),
        2 => *spoilt = spoilt.replace('=', "=0"),
        3 => *spoilt = format!("{}=\n", LINES[line]),
        4 => *spoilt = spoilt.to_uppercase(),
        5 => *spoilt = spoilt.replace('\n', "\r\n"),
        6 => *spoilt = spoilt.replace('\n', ""),
        7 => spoilt.insert(0, '\n'),
        8 => spoilt.insert(0, '\0'),
        9 => drop(lines.remove(line)),
        // The last line twice would be a receipt, and then a line.
        10 => lines.insert(line.min(LINES.len() - 2), lines[line].clone()),
        _ => lines.swap(line, other),
    }
    lines.concat().into_bytes()
}

/// Two numbers that a line may not have in a receipt of an accepted file.
const OUTSIDE: [[u32; 2]; LINES.len()] = [
    [0, 100],
    [0, LAST_JOB + 1],
    [25, 256],
    [LIMIT + 1, u32::MAX],
    [LIMIT + 1, u32::MAX],
    [LIMIT + 1, u32::MAX],
    [LIMIT + 1, u32::MAX],
    [LIMIT + 1, u32::MAX],
    [15, 40],
    [0, 2],
];

/// One of two numbers that a line of the receipt may not have.
fn outside(which: usize, line: usize, &[_, _, verdict, ..]: &Numbers) -> u32 {
    match (line, verdict) {
        (0..=2, _) | (_, 0) => OUTSIDE[line][which],
        _ => [1, 16][which],
    }
}

/// A run of exactly so many bytes, at least 372: usual receipts of the stations
/// in turn, and at the end some whose counts have as many digits as it takes.
pub fn filling(rng: &mut Rng, size: usize, stations: &[u32]) -> Run {
    let mut run = Run::default();
    while size - run.bytes.len() > 500 {
        let by = run.next_of(stations);
        run.push(usual(rng, by));
    }
    fill_up(&mut run, size, stations);
    assert_eq!(run.bytes.len(), size, "the size that is asked for");
    run
}

/// Adds the last 372 to 500 bytes. With one to eight digits for each of its five
/// counts, a receipt of any station and job can have 93 to 122 bytes.
fn fill_up(run: &mut Run, size: usize, stations: &[u32]) {
    let left = size - run.bytes.len();
    let parts = left.div_ceil(122);
    for part in 0..parts {
        let bytes = left * (part + 1) / parts - left * part / parts;
        run.push(of_bytes(run.next_of(stations), bytes));
    }
}

/// A receipt of a file like those that labs send, of which one of ten is
/// refused.
fn usual(rng: &mut Rng, [station, job]: [u32; 2]) -> Numbers {
    if rng.chance(1, 10) {
        return [station, job, rng.within(1, 24) as u32, 0, 0, 0, 0, 0, 0, 0];
    }
    let chains = rng.within(1, 20) as u32;
    let groups = chains * rng.within(50, 400) as u32;
    let atoms = groups * rng.within(5, 9) as u32;
    let fields = rng.within(30, 39) as u32;
    [
        station,
        job,
        0,
        1,
        chains,
        groups,
        atoms,
        atoms + groups,
        fields,
        1,
    ]
}

/// A receipt of so many bytes.
fn of_bytes([station, job]: [u32; 2], bytes: usize) -> Numbers {
    let mut receipt = [station, job, 0, 1, 1, 1, 1, 1, 16, 1];
    let mut more = bytes - text(&receipt).len();
    for count in &mut receipt[3..8] {
        let digits = more.min(7);
        *count = 10_u32.pow(digits as u32);
        more -= digits;
    }
    receipt
}

/// So many of the longest receipts, of 128 bytes each.
pub fn longest(count: usize) -> Run {
    let receipt = |made: usize| {
        let station = 10 + made as u32 % 90;
        let job = 100_000 + made as u32 / 90;
        [station, job, 0, LIMIT, LIMIT, LIMIT, LIMIT, LIMIT, 39, 1]
    };
    Run::of((0..count).map(receipt).collect())
}
