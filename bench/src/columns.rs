//! Measures decoding, encoding and single cells, by the library and the Rust: how
//! this is done, all columns of the largest structure file, and hostile runs.

use std::cell::RefCell;
use std::hint::black_box;
use std::rc::Rc;

use mmtf_tests::check::calls::*;
use mmtf_tests::check::watch::Element;
use mmtf_tests::corpus;
use mmtf_tests::independent::columns::{self as own, Codec, Kind};
use mmtf_tests::independent::outer_binaries;
use mmtf_tests::library::columns::{self as library, Answer, Outcome};
use mmtf_tests::library::header::header;

use crate::table::Workloads;
use crate::timing::{alone, compare, Times};

pub fn rows(table: &Workloads) {
    whole_file(table);
    hostile(table);
}

/// A work as both do it, and the library's call.
pub struct Work<L, I> {
    call: &'static str,
    pub library: L,
    pub independent: I,
}

/// A work on a column of any kind.
pub type AnyWork<'a> = Work<Box<dyn FnMut() + 'a>, Box<dyn FnMut() + 'a>>;

impl<'a, L: FnMut() + 'a, I: FnMut() + 'a> Work<L, I> {
    pub fn times(self) -> Times {
        compare(self.call, self.library, self.independent)
    }

    pub fn boxed(self) -> AnyWork<'a> {
        Work {
            call: self.call,
            library: Box::new(self.library),
            independent: Box::new(self.independent),
        }
    }
}

/// The refusal number that both give, 0 for none.
fn number<T>(agreed: Result<Outcome<T>, String>) -> u8 {
    match agreed.expect("both give the same") {
        Outcome::Done(_) => 0,
        Outcome::Refused(number) | Outcome::Wrote(number, _) => number,
    }
}

/// Both decode the same column into the same buffer and give this number.
fn decoding<'a, T: Element + 'a>(
    decoder: &Decoder<T>,
    column: &'a [u8],
    room: usize,
    refusal: u8,
) -> Work<impl FnMut() + 'a, impl FnMut() + 'a> {
    assert_eq!(
        number(decoder.agree(column, room)),
        refusal,
        "as it is made"
    );
    let buffer = Rc::new(RefCell::new(vec![T::before(0); room]));
    let by = |decode: fn(&[u8], &mut [T]) -> Outcome<Answer>| {
        let buffer = Rc::clone(&buffer);
        move || {
            let buffer = &mut buffer.borrow_mut();
            black_box(decode(black_box(column), buffer));
        }
    };
    Work {
        call: decoder.name,
        library: by(decoder.library),
        independent: by(decoder.independent),
    }
}

/// Both encode the same values into the same buffer, which has just room.
fn encoding<'a, T: Element>(
    encoder: &Encoder<T>,
    [codec, parameter]: [i32; 2],
    values: &'a [T],
    room: usize,
) -> Work<impl FnMut() + 'a, impl FnMut() + 'a> {
    let agreed = encoder.agree([codec, parameter], values, room);
    assert_eq!(number(agreed), 0, "the codec holds them");
    let buffer = Rc::new(RefCell::new(vec![0; room]));
    let by = |encode: fn(i32, i32, &[T], &mut [u8]) -> Outcome<Answer>| {
        let buffer = Rc::clone(&buffer);
        move || {
            let buffer = &mut buffer.borrow_mut();
            black_box(encode(codec, parameter, black_box(values), buffer));
        }
    };
    Work {
        call: encoder.name,
        library: by(encoder.library),
        independent: by(encoder.independent),
    }
}

/// Both look for the same cell and give this number.
pub fn one_cell(
    column: &[u8],
    index: u64,
    refusal: u8,
) -> Work<impl FnMut() + '_, impl FnMut() + '_> {
    let agreed = agree_on_cell(column, index);
    assert_eq!(number(agreed), refusal, "as it is made");
    Work {
        call: "cell",
        library: move || {
            black_box(library::cell(black_box(column), black_box(index)));
        },
        independent: move || {
            let _ = black_box(own::cell(black_box(column), black_box(index)));
        },
    }
}

/// Both read the header of the same column, which has no fault.
fn one_header(column: &[u8]) -> Work<impl FnMut() + '_, impl FnMut() + '_> {
    assert_eq!(number(agree_on_header(column)), 0, "as it is made");
    Work {
        call: "header",
        library: move || {
            black_box(header(black_box(column)));
        },
        independent: move || {
            let _ = black_box(own::header(black_box(column)));
        },
    }
}

/// The elements of a column, as the calls of its kind have them.
pub enum Cells {
    Integers(Vec<i32>),
    /// Characters, or the bytes of names.
    Bytes(Vec<u8>),
    /// The bits of floats.
    Floats(Vec<u32>),
}

/// A column with its elements and the calls of its kind.
pub trait Column {
    fn bytes(&self) -> &[u8];

    /// How many elements it has: cells, but of names their bytes.
    fn elements(&self) -> usize;

    fn decoding(&self) -> AnyWork<'_>;

    fn encoding(&self) -> AnyWork<'_>;

    /// The time of copying its elements in memory.
    fn copying(&self) -> f64;

    fn kind(&self) -> Kind {
        kind(i32::from(self.bytes()[3]))
    }

    /// Its decoding to floats, if it is of fixed point.
    fn floats(&self) -> Option<AnyWork<'_>> {
        let work = || decoding(&FLOAT32, self.bytes(), self.elements(), 0).boxed();
        (self.kind() == Kind::FixedPoint).then(work)
    }
}

struct Typed<T: 'static> {
    decoder: &'static Decoder<T>,
    encoder: &'static Encoder<T>,
    header: [i32; 2],
    elements: Vec<T>,
    bytes: Vec<u8>,
}

impl<T: Element> Column for Typed<T> {
    fn bytes(&self) -> &[u8] {
        &self.bytes
    }

    fn elements(&self) -> usize {
        self.elements.len()
    }

    fn decoding(&self) -> AnyWork<'_> {
        decoding(self.decoder, &self.bytes, self.elements.len(), 0).boxed()
    }

    fn encoding(&self) -> AnyWork<'_> {
        encoding(self.encoder, self.header, &self.elements, self.bytes.len()).boxed()
    }

    fn copying(&self) -> f64 {
        let mut buffer = vec![T::before(0); self.elements.len()];
        alone(|| {
            let from = black_box(&self.elements[..]);
            // SAFETY: both are live, apart, and have as many elements.
            unsafe {
                std::ptr::copy_nonoverlapping(from.as_ptr(), buffer.as_mut_ptr(), from.len());
            }
            black_box(&mut buffer);
        })
    }
}

/// The elements as a column, by the independent encoder.
fn typed<T: Element>(
    decoder: &'static Decoder<T>,
    encoder: &'static Encoder<T>,
    header: [i32; 2],
    elements: Vec<T>,
) -> Box<dyn Column> {
    let mut bytes = vec![0; 12 + 16 * elements.len()];
    match (encoder.independent)(header[0], header[1], &elements, &mut bytes) {
        Outcome::Done(answer) => bytes.truncate(answer.count as usize),
        other => panic!("codec {}: {other:?}", header[0]),
    }
    Box::new(Typed {
        decoder,
        encoder,
        header,
        elements,
        bytes,
    })
}

/// The column of a codec and a parameter with these cells.
pub fn column(header: [i32; 2], cells: Cells) -> Box<dyn Column> {
    match (kind(header[0]), cells) {
        (Kind::Int32, Cells::Integers(cells)) => typed(&INT32, &TO_INT32, header, cells),
        (Kind::Int16, Cells::Integers(cells)) => typed(&INT16, &TO_INT16, header, cells),
        (Kind::Int8, Cells::Integers(cells)) => typed(&INT8, &TO_INT8, header, cells),
        (Kind::FixedPoint, Cells::Integers(cells)) => {
            typed(&FIXED_POINT, &TO_FIXED_POINT, header, cells)
        }
        (Kind::Chars, Cells::Bytes(cells)) => typed(&CHARS, &TO_CHARS, header, cells),
        (Kind::Strings, Cells::Bytes(cells)) => typed(&STRINGS, &TO_STRINGS, header, cells),
        (Kind::Float32, Cells::Floats(cells)) => typed(&FLOAT32, &TO_FLOAT32, header, cells),
        (kind, _) => panic!("cells of {kind:?} are given otherwise"),
    }
}

fn kind(codec: i32) -> Kind {
    Codec::of(codec).expect("a codec").kind
}

/// A column of a file, which both encoders write as it stands there.
fn given(bytes: &[u8]) -> Box<dyn Column> {
    let number = |at: usize| i32::from_be_bytes([0, 1, 2, 3].map(|place| bytes[at + place]));
    let [codec, length, parameter] = [number(0), number(4), number(8)];
    let cells = length as usize;
    let cells = match kind(codec) {
        Kind::Int32 => Cells::Integers(decoded(&INT32, bytes, cells)),
        Kind::Int16 => Cells::Integers(decoded(&INT16, bytes, cells)),
        Kind::Int8 => Cells::Integers(decoded(&INT8, bytes, cells)),
        Kind::FixedPoint => Cells::Integers(decoded(&FIXED_POINT, bytes, cells)),
        Kind::Chars => Cells::Bytes(decoded(&CHARS, bytes, cells)),
        Kind::Strings => Cells::Bytes(decoded(&STRINGS, bytes, cells * parameter as usize)),
        Kind::Float32 => Cells::Floats(decoded(&FLOAT32, bytes, cells)),
    };
    let column = column([codec, parameter], cells);
    assert_eq!(column.bytes(), bytes, "a column of the corpus");
    column
}

fn decoded<T: Element>(decoder: &Decoder<T>, column: &[u8], room: usize) -> Vec<T> {
    let mut elements = vec![T::before(0); room];
    let outcome = (decoder.independent)(column, &mut elements);
    assert!(matches!(outcome, Outcome::Done(_)), "a column of the file");
    elements
}

/// One run of 8 bytes that claims millions of cells: refused with 19 since the
/// header has another length, or else with 25.
fn hostile(table: &Workloads) {
    let column = |length: i32, count: i32| {
        let numbers = [8, length, 0, 1, count];
        numbers.map(i32::to_be_bytes).concat()
    };
    let larger = column(16_777_216, i32::MAX);
    let whole = column(16_777_216, 16_777_216);
    let rows = [
        (
            "decode, run of 2,147,483,647",
            "another length",
            decoding(&INT32, &larger, 1000, 19).times(),
        ),
        (
            "cell, run of 2,147,483,647",
            "another length",
            one_cell(&larger, 5, 19).times(),
        ),
        (
            "decode, run of 16,777,216",
            "no room",
            decoding(&INT32, &whole, 1000, 25).times(),
        ),
        (
            "cell, run of 16,777,216",
            "the last",
            one_cell(&whole, 16_777_215, 0).times(),
        ),
    ];
    for (on, which, times) in rows {
        table.row("one run, hostile", &format!("{on}: {which}"), 20, times);
    }
}

/// Adds up the times of all columns of the largest file.
fn whole_file(table: &Workloads) {
    let file = corpus::derived("4V5A");
    let mut bytes = 0;
    let mut decoded = Times::NONE;
    let mut encoded = Times::NONE;
    let mut headers = Times::NONE;
    for (_, column) in outer_binaries(file).expect("an accepted file") {
        let column = given(column);
        bytes += column.bytes().len();
        let as_floats = column.floats();
        decoded += as_floats.unwrap_or_else(|| column.decoding()).times();
        encoded += column.encoding().times();
        headers += one_header(column.bytes()).times();
    }
    table.row(
        "decode all columns",
        "4V5A, reals as float32",
        bytes,
        decoded,
    );
    table.row(
        "encode all columns",
        "4V5A, reals from fixed point",
        bytes,
        encoded,
    );
    table.row("headers of all columns", "4V5A", bytes, headers);
}
