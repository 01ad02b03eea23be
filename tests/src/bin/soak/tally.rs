//! What came of the cases: how many of each sort, and how often each number was
//! answered.

use mmtf_tests::check::columns::{Asked, Tally as OfColumns};
use mmtf_tests::independent::NUMBERS;

use crate::sorts::{Sort, SORTS};

const ASKED: [Asked; 9] = [
    Asked::Int32,
    Asked::Int8,
    Asked::Int16,
    Asked::Chars,
    Asked::Strings,
    Asked::FixedPoint,
    Asked::Float32,
    Asked::Cell,
    Asked::Encode,
];

#[derive(Default)]
pub struct Tally {
    cases: [u64; SORTS.len()],
    answers: [[u64; NUMBERS]; SORTS.len()],
    /// Those of the sort of columns, by call.
    pub columns: OfColumns,
    pub differences: u64,
}

impl Tally {
    pub fn case(&mut self, sort: Sort) {
        self.cases[sort as usize] += 1;
    }

    /// Counts an answer that both gave.
    pub fn note(&mut self, sort: Sort, number: u8) {
        self.answers[sort as usize][usize::from(number)] += 1;
    }

    /// How often a number was answered in the cases of a sort.
    fn times(&self, sort: Sort, number: usize) -> u64 {
        let of_calls = |asked: &Asked| self.columns.times(*asked, number as u8);
        match sort {
            Sort::Columns => ASKED.iter().map(of_calls).sum(),
            _ => self.answers[sort as usize][number],
        }
    }

    fn total(&self, number: usize) -> u64 {
        SORTS
            .iter()
            .map(|(sort, ..)| self.times(*sort, number))
            .sum()
    }

    /// Whether each number came up; says which did not.
    pub fn is_each_met(&self) -> bool {
        let missed: Vec<usize> = (0..NUMBERS).filter(|&n| self.total(n) == 0).collect();
        for number in &missed {
            println!("The number {number} never came up.");
        }
        missed.is_empty()
    }

    /// A table of sorts, and one of numbers.
    pub fn print(&self) {
        println!("{:10} {:>10}  a case", "sort", "cases");
        for (sort, _, what) in SORTS {
            let cases = self.cases[sort as usize];
            println!("{:10} {cases:>10}  {what}", sort.name());
        }
        println!();
        print!("{:6} {:>10}", "answer", "all");
        for (sort, ..) in SORTS {
            print!(" {:>10}", sort.name());
        }
        println!();
        for number in 0..NUMBERS {
            self.print_number(number);
        }
    }

    fn print_number(&self, number: usize) {
        print!("{number:6} {:>10}", self.total(number));
        for (sort, ..) in SORTS {
            match self.times(sort, number) {
                0 => print!(" {:>10}", "-"),
                times => print!(" {times:>10}"),
            }
        }
        println!();
    }
}
