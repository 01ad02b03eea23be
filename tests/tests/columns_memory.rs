//! Columns, values and buffers that touch an inaccessible page, so that a read
//! or a write outside them ends the test.
#![cfg(all(target_os = "linux", target_arch = "x86_64"))]

use mmtf_tests::check::calls::*;
use mmtf_tests::check::hex;
use mmtf_tests::check::watch::Element;
use mmtf_tests::generate::columns::{column_case, ColumnKind, COLUMN_KINDS};
use mmtf_tests::generate::Rng;
use mmtf_tests::guard::{Guarded, Side};
use mmtf_tests::independent;
use mmtf_tests::library::columns::{cell, Answer, Outcome};

struct Pages {
    input: Guarded,
    buffer: Guarded,
}

impl Pages {
    fn new() -> Pages {
        Pages {
            input: Guarded::new(1 << 20),
            buffer: Guarded::new(1 << 20),
        }
    }

    /// Runs a call of both on the same input, the library's at the edge. The
    /// buffers are alike before and afterwards. Gives what was written, if any.
    fn run<I: Copy, T: Element>(
        &mut self,
        side: Side,
        input: &[I],
        room: usize,
        library: impl Fn(&[I], &mut [T]) -> Outcome<Answer>,
        independent: impl Fn(&[I], &mut [T]) -> Outcome<Answer>,
    ) -> Vec<T> {
        let before: Vec<T> = (0..room).map(T::before).collect();
        let mut expected = before.clone();
        let outcome = independent(input, &mut expected);
        let placed = self.input.place(input, side);
        let buffer = self.buffer.lend(&before, side);
        assert_eq!(library(placed, buffer), outcome);
        assert_eq!(buffer, expected);
        match outcome {
            Outcome::Done(answer) => expected[..answer.count as usize].to_vec(),
            _ => Vec::new(),
        }
    }

    /// Decodes with a buffer that has just room, one element less, and none;
    /// encodes what was decoded.
    fn both_ways<T: Element>(
        &mut self,
        side: Side,
        column: &[u8],
        room: usize,
        decoder: &Decoder<T>,
        encoder: &Encoder<T>,
    ) {
        for room in [room.saturating_sub(1), 0, room] {
            let (library, independent) = (decoder.library, decoder.independent);
            let values = self.run(side, column, room, library, independent);
            if values.is_empty() {
                continue;
            }
            let field = |at: usize| i32::from_be_bytes(column[at..at + 4].try_into().unwrap());
            let (codec, parameter) = (field(0), field(8));
            let written = self.encode(side, [codec, parameter], &values, column.len(), encoder);
            let less = written.len().saturating_sub(1);
            for room in [written.len(), less, 11, 0] {
                self.encode(side, [codec, parameter], &values, room, encoder);
            }
        }
    }

    fn encode<T: Element>(
        &mut self,
        side: Side,
        [codec, parameter]: [i32; 2],
        values: &[T],
        room: usize,
        encoder: &Encoder<T>,
    ) -> Vec<u8> {
        let by = |call: fn(i32, i32, &[T], &mut [u8]) -> Outcome<Answer>| {
            move |values: &[T], buffer: &mut [u8]| call(codec, parameter, values, buffer)
        };
        let (library, independent) = (by(encoder.library), by(encoder.independent));
        self.run(side, values, room, library, independent)
    }

    fn column(&mut self, side: Side, column: &[u8], room: usize) {
        self.both_ways(side, column, room, &INT32, &TO_INT32);
        self.both_ways(side, column, room, &INT8, &TO_INT8);
        self.both_ways(side, column, room, &INT16, &TO_INT16);
        self.both_ways(side, column, room, &CHARS, &TO_CHARS);
        self.both_ways(side, column, room, &STRINGS, &TO_STRINGS);
        self.both_ways(side, column, room, &FIXED_POINT, &TO_FIXED_POINT);
        self.both_ways(side, column, room, &FLOAT32, &TO_FLOAT32);
        let placed = self.input.place(column, side);
        for index in [0, room as u64 / 2, (room as u64).wrapping_sub(1), u64::MAX] {
            let expected = match independent::columns::cell(column, index) {
                Ok(cell) => Outcome::Done(cell),
                Err(refusal) => Outcome::Refused(refusal.number()),
            };
            assert_eq!(cell(placed, index), expected, "{}", hex(column));
        }
    }
}

/// The room that the header speaks of, if it is not large.
fn room(column: &[u8]) -> usize {
    let Some(&[codec, length, parameter]) = column
        .first_chunk::<12>()
        .map(|header| header.as_chunks::<4>().0)
        .and_then(|fields| fields.first_chunk::<3>())
    else {
        return 3;
    };
    let size = match i32::from_be_bytes(codec) {
        5 => i32::from_be_bytes(parameter).clamp(1, 255),
        _ => 1,
    };
    match i32::from_be_bytes(length) {
        length @ 0..=4000 => (length * size) as usize,
        _ => 3,
    }
}

#[test]
fn generated_at_the_edge() {
    let mut pages = Pages::new();
    let mut rng = Rng::new(99);
    for (kind, share) in COLUMN_KINDS {
        for n in 0..share * 60 {
            let column = column_case(kind, &mut rng).column;
            let side = if n % 4 == 0 {
                Side::Before
            } else {
                Side::After
            };
            pages.column(side, &column, room(&column));
        }
    }
}

/// Columns cut at every length, so that the header and each number are cut.
#[test]
fn cut_at_the_edge() {
    let mut pages = Pages::new();
    let mut rng = Rng::new(98);
    for _ in 0..60 {
        let column = column_case(ColumnKind::Valid, &mut rng).column;
        for n in 0..=column.len().min(90) {
            pages.column(Side::After, &column[..n], room(&column));
        }
    }
}

/// The header of a column at the edge, and of each of its beginnings.
#[test]
fn headers_at_the_edge() {
    let mut pages = Pages::new();
    let mut rng = Rng::new(0x6865_6164);
    for (kind, _) in COLUMN_KINDS {
        for _ in 0..500 {
            let column = column_case(kind, &mut rng).column;
            for size in (0..column.len().min(16)).chain([column.len()]) {
                for side in [Side::Before, Side::After] {
                    let placed = pages.input.place(&column[..size], side);
                    agree_on_header(placed).expect("both alike");
                }
            }
        }
    }
}
