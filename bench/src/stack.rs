//! The stack that each call takes: a part of a thread's stack is painted, the
//! call is made, and the lowest byte that changed is looked for.

use std::arch::asm;
use std::collections::BTreeSet;
use std::hint::black_box;
use std::process::ExitCode;

use mmtf_tests::check::bills::LONGEST;
use mmtf_tests::check::calls::*;
use mmtf_tests::check::sample::Sample;
use mmtf_tests::check::watch::Element;
use mmtf_tests::corpus;
use mmtf_tests::generate::bills::every_station;
use mmtf_tests::generate::files::Value::Written;
use mmtf_tests::independent::{outer_binaries, outer_keys};
use mmtf_tests::library::bill::bill;
use mmtf_tests::library::columns::cell;
use mmtf_tests::library::header::header;
use mmtf_tests::library::matrix::matrix;
use mmtf_tests::library::receipt::{read_receipt, write_receipt};
use mmtf_tests::library::words::{meaning, version};
use mmtf_tests::library::{container, verdict, view};

use crate::bills::usual;
use crate::check_data::{sawtooth, structure};
use crate::column_data::SHAPES;
use crate::coverage;
use crate::opening::by_library;
use crate::table::{grouped, Column, Table};

/// What the header says is enough for a call.
const ENOUGH: usize = 96 << 10;

/// How much of the stack is painted.
const PAINTED: usize = 512 << 10;

/// Right below the caller so many bytes are not painted, since they may be in
/// use: a call that takes fewer is not told from one that takes as many.
const LEFT: usize = 512;

const PAINT: u8 = 0xa5;

/// Measures every call in a thread of its own.
pub fn table() -> ExitCode {
    let thread = std::thread::Builder::new().stack_size(4 * PAINTED);
    let stack = thread.spawn(measure).expect("a thread").join();
    let Stack { most, calls, .. } = stack.expect("the calls end");
    if most > ENOUGH {
        eprintln!("A call took {most} bytes of stack; the header says {ENOUGH} are enough.");
        return ExitCode::FAILURE;
    }
    coverage::judged("stack", &coverage::without(&calls, |_| true))
}

/// The table, with the most that a call takes over its inputs, and the calls.
struct Stack {
    table: Table,
    most: usize,
    calls: BTreeSet<&'static str>,
}

impl Stack {
    fn row(&mut self, call: &'static str, bytes: usize) {
        self.calls.insert(call);
        let told = match bytes {
            ..=LEFT => format!("at most {LEFT}"),
            _ => grouped(bytes),
        };
        self.table.row([format!("`mmtf_{call}`"), told]);
        self.most = self.most.max(bytes);
    }
}

fn measure() -> Stack {
    let mut stack = Stack {
        table: Table::new(&[Column::Names("call", 26), Column::Numbers("bytes", 12)]),
        most: 0,
        calls: BTreeSet::new(),
    };
    of_files(&mut stack);
    let columns = columns();
    decoder(&mut stack, &INT32, &columns);
    decoder(&mut stack, &INT8, &columns);
    decoder(&mut stack, &INT16, &columns);
    decoder(&mut stack, &CHARS, &columns);
    decoder(&mut stack, &STRINGS, &columns);
    decoder(&mut stack, &FIXED_POINT, &columns);
    decoder(&mut stack, &FLOAT32, &columns);
    let cells = columns.iter().map(|column| {
        used(&mut || {
            black_box(cell(column, 7));
        })
    });
    stack.row("cell", cells.max().unwrap_or(0));
    let headers = columns.iter().map(|column| {
        used(&mut || {
            black_box(header(column));
        })
    });
    stack.row("header", headers.max().unwrap_or(0));
    encoder(&mut stack, &TO_INT32, &INT32, &columns);
    encoder(&mut stack, &TO_INT8, &INT8, &columns);
    encoder(&mut stack, &TO_INT16, &INT16, &columns);
    encoder(&mut stack, &TO_CHARS, &CHARS, &columns);
    encoder(&mut stack, &TO_STRINGS, &STRINGS, &columns);
    encoder(&mut stack, &TO_FIXED_POINT, &FIXED_POINT, &columns);
    encoder(&mut stack, &TO_FLOAT32, &FLOAT32, &columns);
    stack
}

/// Structure files, a made one, one of 4,096 group types, and one with twelve
/// levels, the most.
fn files() -> Vec<Vec<u8>> {
    let mut deep = vec![0x91; 11];
    deep.push(0x00);
    let mut files: Vec<_> = corpus::DERIVED
        .iter()
        .map(|(_, file)| file.to_vec())
        .collect();
    files.push(structure(15_625));
    files.push(sawtooth());
    files.push(Sample::full().with("deep", Written(deep)).bytes());
    files
}

/// The columns of the structure files, and those of the table of codecs.
fn columns() -> Vec<Vec<u8>> {
    let made = SHAPES
        .iter()
        .map(|shape| shape.column(15_625).bytes().to_vec());
    let of_files = corpus::DERIVED
        .iter()
        .flat_map(|(_, file)| outer_binaries(file).expect("an accepted container"))
        .map(|(_, column)| column.to_vec());
    of_files.chain(made).collect()
}

fn of_files(stack: &mut Stack) {
    let files = files();
    let most = |call: &mut dyn FnMut(&[u8])| {
        let of_file = |file: &Vec<u8>| used(&mut || call(file));
        files.iter().map(of_file).max().unwrap_or(0)
    };
    let mut buffer = [0; 128];
    let containers = most(&mut |file| {
        black_box(container(file));
    });
    stack.row("container", containers);
    let verdicts = most(&mut |file| {
        black_box(verdict(file));
    });
    stack.row("verdict", verdicts);
    let fields = most(&mut |file| {
        let _ = black_box(by_library(file));
    });
    stack.row("fields", fields);
    let keys: Vec<Vec<u8>> = files.iter().map(|file| last_key(file)).collect();
    let views = files.iter().zip(&keys).map(|(file, key)| {
        used(&mut || {
            black_box(view(file, key));
        })
    });
    stack.row("view", views.max().unwrap_or(0));
    let matrices = most(&mut |file| {
        black_box(matrix(file, 0, 0));
    });
    stack.row("matrix", matrices);
    let receipts = most(&mut |file| {
        black_box(write_receipt([7, 12], file, &mut buffer));
    });
    stack.row("write_receipt", receipts);
    let read = used(&mut || {
        black_box(read_receipt(&buffer));
    });
    stack.row("read_receipt", read);
    let run = usual(100_000, &every_station()).bytes;
    let mut room = [0; LONGEST];
    let bills = used(&mut || {
        black_box(bill(&run, &mut room));
    });
    stack.row("bill", bills);
    let meanings = (0..=u8::MAX).map(|number| {
        used(&mut || {
            black_box(meaning(number, &mut buffer));
        })
    });
    stack.row("meaning", meanings.max().unwrap_or(0));
    let versions = used(&mut || {
        black_box(version());
    });
    stack.row("version", versions);
}

fn last_key(file: &[u8]) -> Vec<u8> {
    let keys = outer_keys(file).expect("an accepted container");
    keys.last().map_or(Vec::new(), |key| key.to_vec())
}

fn decoder<T: Element>(stack: &mut Stack, decoder: &Decoder<T>, columns: &[Vec<u8>]) {
    let mut buffer = vec![T::before(0); ROOM];
    let of_column = |column: &Vec<u8>| {
        used(&mut || {
            black_box((decoder.library)(column, &mut buffer));
        })
    };
    let most = columns.iter().map(of_column).max().unwrap_or(0);
    stack.row(decoder.name, most);
}

/// More elements than a column of the structure files has.
const ROOM: usize = 1 << 20;

/// Encodes again what the columns of the kind decode to.
fn encoder<T: Element>(
    stack: &mut Stack,
    encoder: &Encoder<T>,
    decoder: &Decoder<T>,
    columns: &[Vec<u8>],
) {
    let mut values = vec![T::before(0); ROOM];
    let mut buffer = vec![0; 16 * ROOM];
    let mut most = 0;
    for column in columns {
        let decoded = (decoder.independent)(column, &mut values);
        let mmtf_tests::library::columns::Outcome::Done(answer) = decoded else {
            continue;
        };
        let number = |at: usize| i32::from_be_bytes([0, 1, 2, 3].map(|place| column[at + place]));
        let [codec, parameter] = [number(0), number(8)];
        let values = &values[..answer.count as usize];
        let bytes = used(&mut || {
            black_box((encoder.library)(codec, parameter, values, &mut buffer));
        });
        most = most.max(bytes);
    }
    stack.row(encoder.name, most);
}

/// How many bytes of stack a call takes, from its caller's down to the lowest
/// that it changed.
#[inline(never)]
fn used(call: &mut dyn FnMut()) -> usize {
    let top: usize;
    // SAFETY: only reads the stack pointer.
    unsafe { asm!("mov {}, rsp", out(reg) top) };
    // SAFETY: the thread's stack is four times as large, and what lies this far
    // below the stack pointer is not in use.
    unsafe { paint(top) };
    call();
    // SAFETY: as above.
    unsafe { lowest(top) }
}

#[inline(never)]
unsafe fn paint(top: usize) {
    for place in top - PAINTED..top - LEFT {
        std::ptr::write_volatile(place as *mut u8, PAINT);
    }
}

#[inline(never)]
unsafe fn lowest(top: usize) -> usize {
    let mut place = top - PAINTED;
    while place < top - LEFT && std::ptr::read_volatile(place as *const u8) == PAINT {
        place += 1;
    }
    top - place
}
