//! A column in its parts. Payloads are made of any numbers that are allowed,
//! not of those that an encoder would write.

use super::{names, values::integer, Rng};

pub struct Parts {
    pub codec: i32,
    pub length: i32,
    pub parameter: i32,
    pub payload: Vec<u8>,
}

impl Parts {
    /// A header with a parameter that the codec takes, and no payload.
    pub fn new(rng: &mut Rng, codec: i32, length: i32) -> Parts {
        let parameter = match codec {
            5 => *rng.pick(&[1, 2, 3, 4, 4, 5, 8, 255]),
            9..=13 => *rng.pick(&[1, 2, 10, 100, 1000, 1000, 16_777_216, i32::MAX]),
            _ => *rng.pick(&[0, 0, 1, -1, i32::MIN, i32::MAX]),
        };
        Parts {
            codec,
            length,
            parameter,
            payload: Vec::new(),
        }
    }

    /// The parts of a column that has a whole header.
    pub fn of(column: &[u8]) -> Option<Parts> {
        let (header, payload) = column.split_first_chunk::<12>()?;
        let field = |at: usize| {
            let bytes = [0, 1, 2, 3].map(|place| header[at + place]);
            i32::from_be_bytes(bytes)
        };
        Some(Parts {
            codec: field(0),
            length: field(4),
            parameter: field(8),
            payload: payload.to_vec(),
        })
    }

    pub fn bytes(&self) -> Vec<u8> {
        let mut bytes = Vec::with_capacity(12 + self.payload.len());
        for field in [self.codec, self.length, self.parameter] {
            bytes.extend(field.to_be_bytes());
        }
        bytes.extend(&self.payload);
        bytes
    }

    /// A column without a fault.
    pub fn valid(rng: &mut Rng, codec: i32) -> Parts {
        let count = match rng.below(12) {
            0 => 0,
            1 => rng.within(20, 300),
            _ => rng.within(1, 12),
        };
        let mut parts = Parts::new(rng, codec, count as i32);
        match codec {
            1 | 4 => parts.plain(rng, count, 4),
            3 | 11 => parts.plain(rng, count, 2),
            2 => parts.plain(rng, count, 1),
            5 => parts.payload = names(rng, parts.parameter as usize, count),
            6 | 7 | 8 | 9 | 16 => parts.runs(rng, count, 5),
            _ => parts.packed(rng, count, 3),
        }
        parts
    }

    /// A column without a fault, whose numbers are at or beside limits.
    pub fn of_limits(rng: &mut Rng, codec: i32) -> Parts {
        let count = rng.within(1, 9);
        let mut parts = Parts::new(rng, codec, count as i32);
        match codec {
            4 => (0..count).for_each(|_| parts.number32(extreme(rng))),
            3 | 11 => (0..count).for_each(|_| parts.number(2, beside(rng, 2, true))),
            7..=9 => parts.runs(rng, count, 70),
            16 => parts.runs(rng, count, 2),
            _ => parts.packed(rng, count, 40),
        }
        parts
    }

    /// A fixed point column that holds these integers.
    pub fn holding(codec: i32, values: &[i32]) -> Parts {
        let mut parts = Parts {
            codec,
            length: values.len() as i32,
            parameter: 1,
            payload: Vec::new(),
        };
        let mut before = 0;
        for &value in values {
            match codec {
                9 => [value, 1].into_iter().for_each(|n| parts.number32(n)),
                10 => parts.payload.extend(packed(2, value - before)),
                11 => parts.number(2, value),
                _ => parts.payload.extend(packed(2, value)),
            }
            before = value;
        }
        parts
    }

    pub fn number32(&mut self, number: i32) {
        self.payload.extend(number.to_be_bytes());
    }

    /// The low bytes of a number.
    pub fn number(&mut self, size: usize, number: i32) {
        self.payload.extend(&number.to_be_bytes()[4 - size..]);
    }

    /// The bytes of one packed number, if the codec packs.
    pub fn packed_width(&self) -> Option<usize> {
        match self.codec {
            13 | 15 => Some(1),
            10 | 12 | 14 => Some(2),
            _ => None,
        }
    }

    fn plain(&mut self, rng: &mut Rng, count: usize, size: usize) {
        for _ in 0..count {
            let number = integer(rng);
            self.number(size, number);
        }
    }

    /// So many runs, which need not be the longest.
    fn runs(&mut self, rng: &mut Rng, runs: usize, most: usize) {
        self.length = 0;
        for _ in 0..runs {
            let value = match self.codec {
                6 => *rng.pick(&[0, 1, 65, 65, 126, 127]),
                16 => *rng.pick(&[-128, -127, -1, 0, 1, 126, 127]),
                _ if rng.chance(1, 2) => extreme(rng),
                _ => integer(rng),
            };
            let count = rng.within(1, most) as i32;
            self.number32(value);
            self.number32(count);
            self.length += count;
        }
    }

    /// So many results, each of up to `most` limits and one number that is none.
    fn packed(&mut self, rng: &mut Rng, results: usize, most: usize) {
        let size = self.packed_width().expect("a codec that packs");
        for _ in 0..results {
            let limits = if rng.chance(1, 2) {
                rng.within(0, most)
            } else {
                0
            };
            for _ in 0..limits {
                let (least, greatest) = limits_of(size);
                self.number(size, *rng.pick(&[least, greatest]));
            }
            let last = beside(rng, size, false);
            self.number(size, last);
        }
    }
}

/// The limits of a width.
pub fn limits_of(size: usize) -> (i32, i32) {
    match size {
        1 => (-128, 127),
        _ => (-32768, 32767),
    }
}

/// A number of the width, mostly beside a limit.
fn beside(rng: &mut Rng, size: usize, limits: bool) -> i32 {
    let (least, greatest) = limits_of(size);
    match rng.below(6) {
        0 => least + 1,
        1 => greatest - 1,
        2 => 0,
        3 if limits => least,
        4 if limits => greatest,
        _ => rng.within(1, (greatest - least - 1) as usize) as i32 + least,
    }
}

/// A 32-bit number at the ends of the range.
fn extreme(rng: &mut Rng) -> i32 {
    *rng.pick(&[i32::MIN, i32::MIN + 1, -1, 0, 1, i32::MAX - 1, i32::MAX])
}

/// A value in numbers of so many bytes, by the limit of its sign.
pub fn packed(size: usize, value: i32) -> Vec<u8> {
    let (least, greatest) = limits_of(size);
    let limit = if value < 0 { least } else { greatest };
    let mut numbers = vec![limit; (value / limit) as usize];
    numbers.push(value % limit);
    numbers
        .iter()
        .flat_map(|number| number.to_be_bytes()[4 - size..].to_vec())
        .collect()
}
