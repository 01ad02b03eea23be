//! Well-formed random documents, in all kinds and all forms of heads, and the
//! same with one fault whose number is known.

use super::families::{head, Form};
use super::strings::{faulty_text, text};
use super::Rng;

/// How a document branches.
#[derive(Clone, Copy)]
pub struct Shape {
    /// Of sixteen values, how many are arrays or maps.
    containers: usize,
    /// The most elements of one array or map.
    most: usize,
    /// The most values in all.
    values: usize,
}

impl Shape {
    pub const WIDE: Shape = Shape {
        containers: 4,
        most: 9,
        values: 60,
    };
    pub const DEEP: Shape = Shape {
        containers: 13,
        most: 2,
        values: 60,
    };
}

/// Lead bytes outside the subset.
const UNKNOWN: &[u8] = &[
    0xc0, 0xc1, 0xc2, 0xc3, 0xc7, 0xc8, 0xc9, 0xcb, 0xcf, 0xd3, 0xd4, 0xd5, 0xd6, 0xd7, 0xd8,
];

/// Lead bytes of the subset that begin neither a string nor a map.
const NEITHER: &[u8] = &[
    0x00, 0x7f, 0x90, 0x9f, 0xc4, 0xc5, 0xc6, 0xca, 0xcc, 0xcd, 0xce, 0xd0, 0xd1, 0xd2, 0xdc, 0xdd,
    0xe0, 0xff,
];

/// How many levels the values of the outer map may still open.
const LEVELS: usize = 11;

/// A well-formed document within the limits.
pub fn document(rng: &mut Rng, shape: Shape) -> Vec<u8> {
    let mut writer = Writer::new(rng, shape, None);
    writer.map(LEVELS + 1);
    writer.out
}

/// A document with one fault, and the fault's number. What follows the fault
/// is missing or random.
pub fn faulty_document(rng: &mut Rng, shape: Shape) -> (Vec<u8>, u8) {
    if rng.chance(1, 20) {
        return outer_not_map(rng);
    }
    let wait = rng.below(10);
    let mut writer = Writer::new(rng, shape, Some(wait));
    writer.map(LEVELS + 1);
    let (mut out, fault) = (writer.out, writer.fault);
    match fault {
        Some(2) => (),
        Some(_) => out.extend(rng.bytes(0, 12)),
        None => out.extend(rng.bytes(1, 12)),
    }
    (out, fault.unwrap_or(11))
}

fn outer_not_map(rng: &mut Rng) -> (Vec<u8>, u8) {
    let mut lead = *rng.pick(NEITHER);
    if rng.chance(1, 3) {
        lead = 0xa0 | rng.byte() & 0x1f;
    }
    let mut out = vec![lead];
    out.extend(rng.bytes(0, 12));
    (out, 10)
}

struct Writer<'r> {
    rng: &'r mut Rng,
    shape: Shape,
    out: Vec<u8>,
    /// Values still to be written before arrays and maps stay empty.
    left: usize,
    /// Values still to be written before the fault, if one is wanted.
    wait: Option<usize>,
    /// The fault that was written; nothing more is written after it.
    fault: Option<u8>,
}

impl<'r> Writer<'r> {
    fn new(rng: &'r mut Rng, shape: Shape, wait: Option<usize>) -> Writer<'r> {
        let left = rng.within(1, shape.values);
        Writer {
            rng,
            shape,
            out: Vec::new(),
            left,
            wait,
            fault: None,
        }
    }

    fn value(&mut self, levels: usize) {
        if self.fault.is_some() {
            return;
        }
        if self.wait == Some(0) {
            return self.fault(levels);
        }
        self.wait = self.wait.map(|n| n - 1);
        self.left = self.left.saturating_sub(1);
        let container = self.rng.below(16) < self.shape.containers;
        match self.rng.below(2) {
            0 if container && levels > 0 => self.array(levels),
            1 if container && levels > 0 => self.map(levels),
            _ => self.scalar(),
        }
    }

    fn count(&mut self) -> usize {
        let least = usize::from(self.left > 0 && self.rng.chance(7, 8));
        let most = self.shape.most.min(self.left).max(least);
        self.rng.within(least, most)
    }

    fn array(&mut self, levels: usize) {
        let count = self.count();
        head(self.rng, &mut self.out, Form::Array, count);
        for _ in 0..count {
            self.value(levels - 1);
        }
    }

    fn map(&mut self, levels: usize) {
        let count = self.count();
        head(self.rng, &mut self.out, Form::Map, count);
        self.entries(count, levels);
    }

    /// Writes entries with different keys, and gives the keys.
    fn entries(&mut self, count: usize, levels: usize) -> Vec<Vec<u8>> {
        let mut keys = Vec::new();
        for _ in 0..count {
            let key = self.fresh(&keys);
            if self.fault.is_none() {
                self.string(&key);
            }
            keys.push(key);
            self.value(levels - 1);
        }
        keys
    }

    /// A key that differs from the others, at times in little.
    fn fresh(&mut self, keys: &[Vec<u8>]) -> Vec<u8> {
        loop {
            let mut key = match keys.last() {
                Some(key) if self.rng.chance(1, 3) => key.clone(),
                _ => text(self.rng, 8),
            };
            if self.rng.chance(1, 3) {
                key.push(b'a' + self.rng.below(4) as u8);
            }
            if !keys.contains(&key) {
                return key;
            }
        }
    }

    fn string(&mut self, body: &[u8]) {
        head(self.rng, &mut self.out, Form::String, body.len());
        self.out.extend(body);
    }

    fn scalar(&mut self) {
        match self.rng.below(8) {
            0..=2 => self.integer(),
            3 => {
                self.out.push(0xca);
                let bits = self.rng.bytes(4, 4);
                self.out.extend(bits);
            }
            4 => {
                let most = *self.rng.pick(&[4, 40, 300]);
                let body = self.rng.bytes(0, most);
                head(self.rng, &mut self.out, Form::Binary, body.len());
                self.out.extend(body);
            }
            _ => {
                let most = *self.rng.pick(&[3, 12, 40, 120]);
                let body = text(self.rng, most);
                self.string(&body);
            }
        }
    }

    /// An integer within the limits, in any form that holds it.
    fn integer(&mut self) {
        let random = self.rng.word();
        let (lead, size) = *self.rng.pick(&[
            (0xcc, 1),
            (0xcd, 2),
            (0xce, 4),
            (0xd0, 1),
            (0xd1, 2),
            (0xd2, 4),
            (0x00, 0),
            (0xe0, 0),
        ]);
        let number = match lead {
            0xce if self.rng.chance(1, 4) => 0x7fff_ffff,
            0xce => random as u32 >> self.rng.within(1, 31),
            _ => (random as i32 >> self.rng.below(32)) as u32,
        };
        match lead {
            0x00 => self.out.push(random as u8 & 0x7f),
            0xe0 => self.out.push(random as u8 | 0xe0),
            _ => {
                self.out.push(lead);
                self.out.extend(&number.to_be_bytes()[4 - size..]);
            }
        }
    }

    /// Writes one fault, in the place of a value.
    fn fault(&mut self, levels: usize) {
        let number = match self.rng.within(2, 9) {
            7..=9 if levels == 0 => 3,
            number => number as u8,
        };
        match number {
            2 => self.cut(levels),
            3 => self.unknown_lead(levels),
            4 => self.unsigned_too_large(),
            5 => {
                self.key_place(levels);
                let most = *self.rng.pick(&[3, 30, 80]);
                let body = faulty_text(self.rng, most);
                self.string(&body);
            }
            6 => self.too_deep(levels),
            7 => self.too_many_entries(),
            8 => self.key_not_string(levels),
            _ => self.key_repeated(levels),
        }
        self.fault = Some(number);
    }

    /// In one of two cases opens a map, so that a key comes next.
    fn key_place(&mut self, levels: usize) {
        if levels > 0 && self.rng.chance(1, 2) {
            self.open_map(levels);
        }
    }

    /// Begins a map, and ends before one of its keys. Gives the keys so far.
    fn open_map(&mut self, levels: usize) -> Vec<Vec<u8>> {
        let count = self.rng.within(1, 5);
        head(self.rng, &mut self.out, Form::Map, count);
        let before = self.rng.below(count);
        self.wait = None;
        self.entries(before, levels)
    }

    fn cut(&mut self, levels: usize) {
        self.key_place(levels);
        let whole = self.out.len();
        let body = text(self.rng, 20);
        self.string(&body);
        let kept = self.rng.below(self.out.len() - whole);
        self.out.truncate(whole + kept);
    }

    fn unknown_lead(&mut self, levels: usize) {
        self.key_place(levels);
        let lead = *self.rng.pick(UNKNOWN);
        self.out.push(lead);
    }

    fn unsigned_too_large(&mut self) {
        let random = self.rng.word() as u32;
        let number = *self
            .rng
            .pick(&[0x8000_0000, u32::MAX, random | 0x8000_0000]);
        self.out.push(0xce);
        self.out.extend(number.to_be_bytes());
    }

    /// Opens every level that is left, and then one more.
    fn too_deep(&mut self, levels: usize) {
        for _ in 0..levels {
            if self.rng.chance(1, 2) {
                head(self.rng, &mut self.out, Form::Array, 1);
            } else {
                head(self.rng, &mut self.out, Form::Map, 1);
                self.string(b"k");
            }
        }
        let lead = *self
            .rng
            .pick(&[0x80, 0x81, 0x8f, 0x90, 0x91, 0x9f, 0xdc, 0xdd, 0xde, 0xdf]);
        self.out.push(lead);
    }

    fn too_many_entries(&mut self) {
        let count = *self
            .rng
            .pick(&[257, 258, 300, 0xffff, 0x1_0000, 0x1_0001, 0xffff_ffff]);
        head(self.rng, &mut self.out, Form::Map, count);
    }

    fn key_not_string(&mut self, levels: usize) {
        self.open_map(levels);
        let mut lead = *self.rng.pick(NEITHER);
        if self.rng.chance(1, 4) {
            lead = *self.rng.pick(&[0x80, 0x81, 0xde, 0xdf]);
        }
        self.out.push(lead);
    }

    fn key_repeated(&mut self, levels: usize) {
        let count = self.rng.within(2, 6);
        head(self.rng, &mut self.out, Form::Map, count);
        let before = self.rng.within(1, count - 1);
        self.wait = None;
        let keys = self.entries(before, levels);
        let key = self.rng.pick(&keys).clone();
        self.string(&key);
    }
}
