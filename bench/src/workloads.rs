//! The files that are measured: structure files, and files made to be as slow
//! to walk as their size allows.

/// The limit of a file, 64 MiB.
pub const LARGEST: usize = 67_108_864;

/// A hostile file of at most so many bytes, nearly filling them.
pub struct Hostile {
    pub name: &'static str,
    pub build: fn(usize) -> Vec<u8>,
}

pub const HOSTILE: &[Hostile] = &[
    Hostile {
        name: "one-byte integers, one array",
        build: |size| packed(size, &[0x05], 1),
    },
    Hostile {
        name: "one-element arrays, 12 levels",
        build: nested_arrays,
    },
    Hostile {
        name: "one-entry maps",
        build: |size| packed(size, &[0x81, 0xa0, 0x00], 1),
    },
    Hostile {
        name: "maps of 256 keys of 2 bytes",
        build: |size| packed(size, &map_of_256(b"", b""), 1),
    },
    Hostile {
        name: "maps of 256 keys of 12, equal endings",
        build: |size| packed(size, &map_of_256(b"", b"CoordList_"), 1),
    },
    Hostile {
        name: "maps of 256 keys of 200, equal starts",
        build: |size| packed(size, &map_of_256(&[b'k'; 198], b""), 1),
    },
    Hostile {
        name: "one ASCII string",
        build: |size| long_string(size, "structure"),
    },
    Hostile {
        name: "one string, 1 to 4 byte scalars",
        build: |size| long_string(size, "aé€𐍈"),
    },
    Hostile {
        name: "short ASCII strings",
        build: |size| packed(size, b"\xa1C\xa2CA\xa3OP1\xa4HO5'", 4),
    },
    Hostile {
        name: "short strings, 2 byte scalars",
        build: |size| packed(size, &string("αβ".as_bytes()), 1),
    },
];

/// A string of at most 255 bytes.
fn string(body: &[u8]) -> Vec<u8> {
    let length = body.len() as u8;
    match length {
        0..=31 => [&[0xa0 | length], body].concat(),
        _ => [&[0xd9, length], body].concat(),
    }
}

/// An outer map of one entry, whose value has a four-byte length or count.
fn outer(lead: u8, number: usize) -> Vec<u8> {
    let mut file = vec![0x81, 0xa1, b'v', lead];
    file.extend((number as u32).to_be_bytes());
    file
}

/// One array filled with copies of a unit of so many elements.
fn packed(size: usize, unit: &[u8], elements: usize) -> Vec<u8> {
    let copies = (size - 8) / unit.len();
    let mut file = outer(0xdd, copies * elements);
    file.reserve_exact(copies * unit.len());
    for _ in 0..copies {
        file.extend_from_slice(unit);
    }
    file
}

/// The outer map and the array are two levels, each unit has ten more.
fn nested_arrays(size: usize) -> Vec<u8> {
    let mut unit = [0x91; 11];
    unit[10] = 0x00;
    packed(size, &unit, 1)
}

/// A map of 256 keys that are equally long and differ in two bytes only (an
/// ASCII byte alone has 128 values), with equal bytes before and after those.
fn map_of_256(before: &[u8], after: &[u8]) -> Vec<u8> {
    let mut map = vec![0xde, 0x01, 0x00];
    for n in 0..=0xffu8 {
        let own = [b'a' + (n >> 4), b'a' + (n & 15)];
        map.extend(string(&[before, &own, after].concat()));
        map.push(0x00);
    }
    map
}

/// One long string of repeated text.
fn long_string(size: usize, text: &str) -> Vec<u8> {
    let copies = (size - 8) / text.len();
    let mut file = outer(0xdb, copies * text.len());
    file.extend(text.repeat(copies).bytes());
    file
}

/// A file with 256 outer keys, named and filled like columns.
pub fn many_outer_keys() -> Vec<u8> {
    let mut file = vec![0xde, 0x01, 0x00];
    for n in 0..256 {
        file.extend(string(format!("column{n:03}").as_bytes()));
        file.extend([0xc4, 64]);
        file.extend([n as u8; 64]);
    }
    file
}
