//! The walk over a MessagePack container: one pass from the first byte, the
//! first fault met counting.

use std::ops::Range;

use super::Refusal::{self, *};

/// The largest file, in bytes.
pub const FILE_LIMIT: usize = 67_108_864;
/// The deepest level of an array or map, the outer map being 1.
pub const LEVEL_LIMIT: u32 = 12;
/// The most entries of one map.
pub const ENTRY_LIMIT: u32 = 256;

type Step<T> = Result<T, Refusal>;

/// A key, and its value or the body of that.
pub type Entry<'a> = (&'a [u8], &'a [u8]);

/// The refusal number of the container, 0 when it is accepted.
pub fn container(file: &[u8]) -> u8 {
    match Walk::over(file, |_, _| ()) {
        Ok(()) => 0,
        Err(refusal) => refusal.number(),
    }
}

/// The part of the file under an outer key: the body of a string or binary,
/// else the whole value.
pub fn view(file: &[u8], name: &[u8]) -> Result<Range<usize>, Refusal> {
    let mut found = None;
    Walk::over(file, |key, value| {
        if key == name {
            found = Some(value);
        }
    })?;
    let value = found.ok_or(NoSuchField)?;
    Ok(value.start + unviewed_head(file[value.start])..value.end)
}

/// The outer keys of an accepted file, in order.
pub fn outer_keys(file: &[u8]) -> Result<Vec<&[u8]>, Refusal> {
    let mut keys = Vec::new();
    Walk::over(file, |key, _| keys.push(key))?;
    Ok(keys)
}

/// The outer keys of an accepted file, each with its value's bytes, in order.
pub fn outer_entries(file: &[u8]) -> Result<Vec<Entry<'_>>, Refusal> {
    let mut entries = Vec::new();
    each_entry(file, |key, value| entries.push((key, value)))?;
    Ok(entries)
}

/// Walks the whole file; `entry` gets each outer key and its value's bytes.
pub fn each_entry<'a>(
    file: &'a [u8],
    mut entry: impl FnMut(&'a [u8], &'a [u8]),
) -> Result<(), Refusal> {
    Walk::over(file, |key, value| entry(key, &file[value]))
}

/// The outer keys of an accepted file whose values are binaries, each with the
/// binary's body, in order.
pub fn outer_binaries(file: &[u8]) -> Result<Vec<Entry<'_>>, Refusal> {
    let mut binaries = Vec::new();
    Walk::over(file, |key, value| {
        if let lead @ 0xc4..=0xc6 = file[value.start] {
            let body = value.start + unviewed_head(lead)..value.end;
            binaries.push((key, &file[body]));
        }
    })?;
    Ok(binaries)
}

/// The part of a value that its view shows.
pub fn part_of(value: &[u8]) -> &[u8] {
    &value[unviewed_head(value[0])..]
}

/// How many bytes of a value's head are left out of its view.
fn unviewed_head(lead: u8) -> usize {
    match lead {
        0xa0..=0xbf => 1,
        0xc4 | 0xd9 => 2,
        0xc5 | 0xda => 3,
        0xc6 | 0xdb => 5,
        _ => 0,
    }
}

/// Whether the lead byte belongs to the subset.
fn known(lead: u8) -> bool {
    !matches!(lead, 0xc0..=0xc3 | 0xc7..=0xc9 | 0xcb | 0xcf | 0xd3..=0xd8)
}

/// A number of a key's length and last bytes: equal keys have equal marks.
#[inline]
fn mark(key: &[u8]) -> u32 {
    let ending = match key.last_chunk() {
        Some(chunk) => u32::from_be_bytes(*chunk),
        None => key.iter().fold(0, |n, &b| n << 8 | u32::from(b)),
    };
    ending ^ (key.len() as u32) << 24
}

/// The place of the walk in the file.
struct Walk<'a> {
    file: &'a [u8],
    at: usize,
    /// The keys met so far of every map that is still open, innermost last.
    keys: Vec<&'a [u8]>,
    /// The marks of those keys.
    marks: Vec<u32>,
}

impl<'a> Walk<'a> {
    /// Walks the whole file; `entry` gets each outer key and its value's place.
    fn over(file: &'a [u8], mut entry: impl FnMut(&'a [u8], Range<usize>)) -> Step<()> {
        if file.len() > FILE_LIMIT {
            return Err(FileTooLarge);
        }
        let mut walk = Walk {
            file,
            at: 0,
            keys: Vec::new(),
            marks: Vec::new(),
        };
        let count = walk.outer_head()?;
        walk.entries(count, LEVEL_LIMIT - 1, &mut entry)?;
        if walk.at < file.len() {
            return Err(BytesAfter);
        }
        Ok(())
    }

    fn outer_head(&mut self) -> Step<u32> {
        match self.lead()? {
            lead @ 0x80..=0x8f => Ok(u32::from(lead & 0x0f)),
            0xde => self.number::<2>(),
            0xdf => self.number::<4>(),
            lead if known(lead) => Err(OuterNotMap),
            _ => Err(UnknownLead),
        }
    }

    #[inline]
    fn lead(&mut self) -> Step<u8> {
        let lead = *self.file.get(self.at).ok_or(CutShort)?;
        self.at += 1;
        Ok(lead)
    }

    #[inline]
    fn take(&mut self, length: usize) -> Step<&'a [u8]> {
        let end = self.at + length;
        let bytes = self.file.get(self.at..end).ok_or(CutShort)?;
        self.at = end;
        Ok(bytes)
    }

    /// A big-endian number of N bytes.
    #[inline]
    fn number<const N: usize>(&mut self) -> Step<u32> {
        let bytes = self.take(N)?;
        Ok(bytes.iter().fold(0, |n, &b| n << 8 | u32::from(b)))
    }

    /// The body of a string; the test for ASCII first makes the usual one fast.
    #[inline]
    fn string(&mut self, length: u32) -> Step<&'a [u8]> {
        let body = self.take(length as usize)?;
        if body.is_ascii() || std::str::from_utf8(body).is_ok() {
            Ok(body)
        } else {
            Err(NotUtf8)
        }
    }

    #[inline]
    fn key(&mut self) -> Step<&'a [u8]> {
        let length = match self.lead()? {
            lead @ 0xa0..=0xbf => u32::from(lead & 0x1f),
            0xd9 => self.number::<1>()?,
            0xda => self.number::<2>()?,
            0xdb => self.number::<4>()?,
            lead if known(lead) => return Err(KeyNotString),
            _ => return Err(UnknownLead),
        };
        self.string(length)
    }

    /// Walks one value; `levels` is how many levels may still be opened.
    fn value(&mut self, levels: u32) -> Step<()> {
        match self.lead()? {
            0x00..=0x7f | 0xe0..=0xff => Ok(()),
            0x80..=0x9f | 0xdc..=0xdf if levels == 0 => Err(TooDeep),
            lead @ 0x80..=0x8f => self.map(u32::from(lead & 0x0f), levels),
            lead @ 0x90..=0x9f => self.array(u32::from(lead & 0x0f), levels),
            lead @ 0xa0..=0xbf => self.string(u32::from(lead & 0x1f)).map(drop),
            0xc4 => self.binary::<1>(),
            0xc5 => self.binary::<2>(),
            0xc6 => self.binary::<4>(),
            0xcc | 0xd0 => self.take(1).map(drop),
            0xcd | 0xd1 => self.take(2).map(drop),
            0xca | 0xd2 => self.take(4).map(drop),
            0xce => match self.number::<4>()? {
                0..=0x7fff_ffff => Ok(()),
                _ => Err(UnsignedTooLarge),
            },
            0xd9 => self.long_string::<1>(),
            0xda => self.long_string::<2>(),
            0xdb => self.long_string::<4>(),
            0xdc => self
                .number::<2>()
                .and_then(|count| self.array(count, levels)),
            0xdd => self
                .number::<4>()
                .and_then(|count| self.array(count, levels)),
            0xde => self.number::<2>().and_then(|count| self.map(count, levels)),
            0xdf => self.number::<4>().and_then(|count| self.map(count, levels)),
            0xc0..=0xc3 | 0xc7..=0xc9 | 0xcb | 0xcf | 0xd3..=0xd8 => Err(UnknownLead),
        }
    }

    fn binary<const N: usize>(&mut self) -> Step<()> {
        let length = self.number::<N>()?;
        self.take(length as usize).map(drop)
    }

    fn long_string<const N: usize>(&mut self) -> Step<()> {
        let length = self.number::<N>()?;
        self.string(length).map(drop)
    }

    fn array(&mut self, count: u32, levels: u32) -> Step<()> {
        for _ in 0..count {
            match self.file.get(self.at) {
                // Most elements are one-byte integers.
                Some(0x00..=0x7f | 0xe0..=0xff) => self.at += 1,
                _ => self.value(levels - 1)?,
            }
        }
        Ok(())
    }

    #[inline]
    fn map(&mut self, count: u32, levels: u32) -> Step<()> {
        self.entries(count, levels - 1, &mut |_, _| ())
    }

    /// Walks the entries of one map, whose values may still open `levels`.
    #[inline(always)]
    fn entries(
        &mut self,
        count: u32,
        levels: u32,
        entry: &mut impl FnMut(&'a [u8], Range<usize>),
    ) -> Step<()> {
        if count > ENTRY_LIMIT {
            return Err(TooManyEntries);
        }
        let first = self.keys.len();
        for _ in 0..count {
            let key = self.key()?;
            self.keep(first, key)?;
            let start = self.at;
            self.value(levels)?;
            entry(key, start..self.at);
        }
        self.keys.truncate(first);
        self.marks.truncate(first);
        Ok(())
    }

    /// Keeps a key of the map whose keys begin at `first`.
    #[inline]
    fn keep(&mut self, first: usize, key: &'a [u8]) -> Step<()> {
        let mark = mark(key);
        let met = self.marks[first..]
            .iter()
            .fold(false, |met, &m| met | (m == mark));
        if met && self.keys[first..].contains(&key) {
            return Err(KeyRepeated);
        }
        self.keys.push(key);
        self.marks.push(mark);
        Ok(())
    }
}
