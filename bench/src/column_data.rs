//! The columns that are measured. Each codec has cells like those of structure
//! files, and cells that make the most work for it.

use mmtf_tests::generate::Rng;

use crate::columns::Cells::{self, Bytes, Floats, Integers};
use crate::columns::{column, Column};

/// The cells of each column in the tables.
pub const CELLS: usize = 1_000_000;

/// Floats hold every integer below.
const EXACT: usize = 16_777_216;

/// What the cells are like.
#[derive(Clone, Copy, PartialEq, Eq)]
pub enum Like {
    Structures,
    Worst,
}

/// Cells of a codec, made when it is their turn.
pub struct Shape {
    pub codec: i32,
    /// The divisor, or the size of names.
    parameter: i32,
    pub like: Like,
    pub name: &'static str,
    make: fn(&mut Rng, usize) -> Cells,
}

impl Shape {
    /// The column with so many cells.
    pub fn column(&self, cells: usize) -> Box<dyn Column> {
        let cells = (self.make)(&mut Rng::new(1), cells);
        column([self.codec, self.parameter], cells)
    }

    /// The codec and what the cells are.
    pub fn title(&self) -> String {
        format!("{}, {}", self.codec, self.name)
    }
}

/// The shape of that title.
pub fn shape(title: &str) -> Option<&'static Shape> {
    SHAPES.iter().find(|shape| shape.title() == title)
}

const fn usual(
    codec: i32,
    parameter: i32,
    name: &'static str,
    make: fn(&mut Rng, usize) -> Cells,
) -> Shape {
    Shape {
        codec,
        parameter,
        like: Like::Structures,
        name,
        make,
    }
}

const fn worst(
    codec: i32,
    parameter: i32,
    name: &'static str,
    make: fn(&mut Rng, usize) -> Cells,
) -> Shape {
    Shape {
        like: Like::Worst,
        ..usual(codec, parameter, name, make)
    }
}

/// At least two for each codec, one like structures and one that is the worst.
pub const SHAPES: &[Shape] = &[
    usual(1, 0, "coordinates", |rng, n| {
        let floats = walk(rng, n).into_iter().map(|at| at as f32 / 1000.0);
        Floats(floats.map(f32::to_bits).collect())
    }),
    worst(1, 0, "NaNs and subnormals", |rng, n| {
        let mut next = || match rng.word() as u32 {
            bits if bits & 1 == 0 => bits | 0x7f80_0000,
            bits => bits & 0x807f_ffff,
        };
        Floats((0..n).map(|_| next()).collect())
    }),
    usual(2, 0, "bond orders", |rng, n| {
        Integers(each(rng, n, |rng| *rng.pick(&[1, 1, 1, 1, 1, 2, 2, 3])))
    }),
    worst(2, 0, "any number", |rng, n| {
        Integers(each(rng, n, |rng| i32::from(rng.word() as i8)))
    }),
    usual(3, 0, "group ids", |rng, n| Integers(group_ids(rng, n))),
    worst(3, 0, "any number", |rng, n| Integers(any_16(rng, n))),
    usual(4, 0, "group types", |rng, n| Integers(below(rng, 72, n))),
    worst(4, 0, "any number", |rng, n| Integers(any_32(rng, n))),
    usual(5, 4, "names of 4, 1 or 2 letters", |rng, n| {
        Bytes(names(rng, 4, 1, 2, n))
    }),
    worst(5, 3, "names of 3, 0 to 3 letters", |rng, n| {
        Bytes(names(rng, 3, 0, 3, n))
    }),
    worst(5, 1, "names of 1", |rng, n| Bytes(names(rng, 1, 0, 1, n))),
    usual(6, 0, "alternate locations", |rng, n| {
        Bytes(alternates(rng, n))
    }),
    worst(6, 0, "runs of 1", |_, n| {
        Bytes((0..n).map(|place| b'A' + (place % 26) as u8).collect())
    }),
    usual(7, 0, "group of each atom", |rng, n| {
        Integers(groups_of_atoms(rng, n))
    }),
    worst(7, 0, "runs of 1", |rng, n| Integers(any_32(rng, n))),
    usual(8, 0, "ids with gaps", |rng, n| Integers(ids(rng, n))),
    worst(8, 0, "runs of 1, sums wrap", |rng, n| {
        Integers(any_32(rng, n))
    }),
    usual(9, 100, "long runs", |rng, n| Integers(runs(rng, 20_000, n))),
    worst(9, 100, "short runs", |rng, n| Integers(runs(rng, 4, n))),
    worst(9, 100, "runs of 1", |rng, n| Integers(below(rng, EXACT, n))),
    usual(10, 1000, "coordinates", |rng, n| Integers(walk(rng, n))),
    worst(10, 1000, "0 to 7 limits", |rng, n| {
        Integers(far_walk(rng, n))
    }),
    usual(11, 100, "b-factors", |rng, n| Integers(factors(rng, n))),
    worst(11, 100, "any number", |rng, n| Integers(any_16(rng, n))),
    usual(12, 100, "b-factors", |rng, n| Integers(factors(rng, n))),
    usual(12, 100, "one of 100 packed", |rng, n| {
        Integers(mostly_small(rng, [1_000, 100_000], n))
    }),
    worst(12, 100, "0 to 7 limits", |rng, n| {
        Integers(limits(rng, 32_767, n))
    }),
    usual(13, 100, "occupancies", |rng, n| {
        Integers(each(rng, n, |rng| *rng.pick(&[100, 100, 100, 50, 62, 38])))
    }),
    usual(13, 100, "one of 100 packed", |rng, n| {
        Integers(mostly_small(rng, [100, 400], n))
    }),
    worst(13, 100, "0 to 7 limits", |rng, n| {
        Integers(limits(rng, 127, n))
    }),
    usual(14, 0, "one of 100 packed", |rng, n| {
        Integers(mostly_small(rng, [1_000, 100_000], n))
    }),
    worst(14, 0, "0 to 7 limits", |rng, n| {
        Integers(limits(rng, 32_767, n))
    }),
    usual(15, 0, "one of 100 packed", |rng, n| {
        Integers(mostly_small(rng, [100, 400], n))
    }),
    worst(15, 0, "0 to 7 limits", |rng, n| {
        Integers(limits(rng, 127, n))
    }),
    usual(16, 0, "secondary structure", |rng, n| {
        Integers(secondary(rng, n))
    }),
    worst(16, 0, "runs of 1", |_, n| {
        Integers((0..n).map(|place| (place % 256) as i32 - 128).collect())
    }),
];

/// So many numbers, one made after the other.
fn each(rng: &mut Rng, cells: usize, mut make: impl FnMut(&mut Rng) -> i32) -> Vec<i32> {
    (0..cells).map(|_| make(rng)).collect()
}

fn below(rng: &mut Rng, most: usize, cells: usize) -> Vec<i32> {
    each(rng, cells, |rng| rng.below(most) as i32)
}

fn any_16(rng: &mut Rng, cells: usize) -> Vec<i32> {
    each(rng, cells, |rng| i32::from(rng.word() as i16))
}

fn any_32(rng: &mut Rng, cells: usize) -> Vec<i32> {
    each(rng, cells, |rng| rng.word() as i32)
}

/// Numbers of atoms: rising by one, with a gap after some hundreds.
pub fn ids(rng: &mut Rng, cells: usize) -> Vec<i32> {
    let mut id = 0;
    each(rng, cells, move |rng| {
        id += if rng.chance(1, 400) {
            rng.within(2, 40) as i32
        } else {
            1
        };
        id
    })
}

/// Numbers of groups: rising by one, and anew with each chain.
fn group_ids(rng: &mut Rng, cells: usize) -> Vec<i32> {
    let mut id = 0;
    each(rng, cells, move |rng| {
        id = if rng.chance(1, 300) {
            rng.within(1, 40) as i32
        } else {
            (id + 1) % 9_999
        };
        id
    })
}

/// Hundredths, each repeated up to so many times.
pub fn runs(rng: &mut Rng, most: usize, cells: usize) -> Vec<i32> {
    repeated(rng, cells, |rng| {
        let count = rng.within(1, most);
        (rng.below(10_000) as i32, count)
    })
}

/// Values, each repeated as often as it is made with.
fn repeated<T: Copy>(
    rng: &mut Rng,
    cells: usize,
    mut make: impl FnMut(&mut Rng) -> (T, usize),
) -> Vec<T> {
    let mut values = Vec::with_capacity(cells);
    while values.len() < cells {
        let (value, count) = make(rng);
        let count = count.min(cells - values.len());
        values.extend(std::iter::repeat_n(value, count));
    }
    values
}

/// For each atom the number of its group, which has 4 to 24 atoms.
fn groups_of_atoms(rng: &mut Rng, cells: usize) -> Vec<i32> {
    let mut group = 0;
    repeated(rng, cells, move |rng| {
        group += 1;
        (group, rng.within(4, 24))
    })
}

/// None for some hundred atoms, then A and B for some.
fn alternates(rng: &mut Rng, cells: usize) -> Vec<u8> {
    let mut place = 0;
    repeated(rng, cells, move |rng| {
        place = (place + 1) % 3;
        match place {
            0 => (0, rng.within(1, 600)),
            1 => (b'A', rng.within(1, 12)),
            _ => (b'B', rng.within(1, 12)),
        }
    })
}

/// Helices, strands, and what stands between them.
fn secondary(rng: &mut Rng, cells: usize) -> Vec<i32> {
    repeated(rng, cells, |rng| match rng.below(6) {
        0 => (2, rng.within(5, 20)),
        1 | 2 => (3, rng.within(2, 9)),
        _ => (*rng.pick(&[-1, 1, 4, 5, 6, 7]), rng.within(1, 3)),
    })
}

/// Names of a size, with so many letters.
fn names(rng: &mut Rng, size: usize, least: usize, most: usize, cells: usize) -> Vec<u8> {
    let mut bytes = vec![0; size * cells];
    for name in bytes.chunks_exact_mut(size) {
        let letters = rng.within(least, most);
        name[..letters].fill_with(|| b'A' + rng.below(26) as u8);
    }
    bytes
}

/// Thousandths of an angstrom from atom to atom, with a jump at some chains.
pub fn walk(rng: &mut Rng, cells: usize) -> Vec<i32> {
    let step = |rng: &mut Rng| {
        let most = if rng.chance(1, 2000) { 60_000 } else { 1_600 };
        around(rng, most)
    };
    turned_back(rng, 500_000, cells, step)
}

/// Steps that are packed with 0 to 7 limits of 16 bits each.
fn far_walk(rng: &mut Rng, cells: usize) -> Vec<i32> {
    turned_back(rng, 16_000_000, cells, |rng| limit(rng, 32_767))
}

/// Sums of steps, turned back at the edge, so that floats hold each of them.
fn turned_back(rng: &mut Rng, edge: i32, cells: usize, step: impl Fn(&mut Rng) -> i32) -> Vec<i32> {
    let mut at = 0i32;
    each(rng, cells, move |rng| {
        let step = step(rng);
        at += if (at + step).abs() > edge {
            -step
        } else {
            step
        };
        at
    })
}

/// A number of either sign that is at most so large.
fn around(rng: &mut Rng, most: i32) -> i32 {
    rng.within(0, 2 * most as usize) as i32 - most
}

/// A number that is packed with 0 to 7 limits of a width, of either sign.
fn limit(rng: &mut Rng, width: i32) -> i32 {
    around(rng, 8 * width - 1)
}

fn limits(rng: &mut Rng, width: i32, cells: usize) -> Vec<i32> {
    each(rng, cells, |rng| limit(rng, width))
}

/// Hundredths, each close to the one before.
fn factors(rng: &mut Rng, cells: usize) -> Vec<i32> {
    let mut at = 3_000;
    each(rng, cells, move |rng| {
        at = (at + around(rng, 800)).clamp(200, 20_000);
        at
    })
}

/// Numbers below the first, one of a hundred below the second.
fn mostly_small(rng: &mut Rng, [small, large]: [i32; 2], cells: usize) -> Vec<i32> {
    each(rng, cells, |rng| {
        let most = if rng.chance(1, 100) { large } else { small };
        around(rng, most)
    })
}
