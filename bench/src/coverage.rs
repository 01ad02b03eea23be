//! What include/mmtf.h has, beside what is measured: a codec or a call that is
//! not measured is an error of the benchmark.

use std::collections::BTreeSet;
use std::process::ExitCode;
use std::sync::Mutex;

const HEADER: &str = include_str!("../../include/mmtf.h");

/// A codec of the header's table, with its kind's name.
pub struct Codec {
    pub number: i32,
    pub kind: &'static str,
}

/// The table of codecs: the lines below its head, up to an empty one.
pub fn codecs() -> Vec<Codec> {
    let text = |line: &'static str| line.strip_prefix(" *").unwrap_or(line).trim();
    let codecs: Vec<Codec> = HEADER
        .lines()
        .map(text)
        .skip_while(|line| !line.starts_with("codec "))
        .skip(1)
        .take_while(|line| !line.is_empty())
        .map(|line| {
            let (number, rest) = line.split_once(' ').expect("a number and a kind");
            let rest = rest.trim_start();
            let (kind, _payload) = rest.split_once("  ").expect("a kind and a payload");
            let number = number.parse().expect("a codec's number");
            Codec { number, kind }
        })
        .collect();
    assert!(!codecs.is_empty(), "the header has a table of codecs");
    codecs
}

/// The names of the C calls, without "mmtf_".
pub fn calls() -> Vec<&'static str> {
    let mut calls = Vec::new();
    let mut rest = HEADER;
    while let Some((code, comment)) = rest.split_once("/*") {
        calls.extend(declared(code));
        (_, rest) = comment.split_once("*/").expect("a comment ends");
    }
    calls.extend(declared(rest));
    assert!(!calls.is_empty(), "the header has calls");
    calls
}

/// The calls that a text without comments declares: what stands before a
/// parenthesis and begins with "mmtf_".
fn declared(code: &'static str) -> impl Iterator<Item = &'static str> {
    code.match_indices('(').filter_map(|(at, _)| {
        let name = code[..at].rsplit([' ', '*', '\n']).next()?;
        name.strip_prefix("mmtf_")
    })
}

/// Whether a call is on the cells of a column, which the part `codecs` measures.
/// Those on files, receipts, runs of these and headers are measured by
/// `workloads`.
pub fn is_on_column(call: &str) -> bool {
    call.starts_with("decode_") || call.starts_with("encode_") || call == "cell"
}

/// The calls whose time is not measured: the words of a number, which a program
/// asks for once before it says a sentence, and the version, which is a
/// constant.
const APART: [&str; 2] = ["meaning", "version"];

/// Whether the time of a call is measured by `workloads`.
pub fn is_on_file(call: &str) -> bool {
    !is_on_column(call) && !APART.contains(&call)
}

/// The calls that were measured so far.
static MEASURED: Mutex<BTreeSet<&'static str>> = Mutex::new(BTreeSet::new());

pub fn note(call: &'static str) {
    MEASURED.lock().expect("one thread").insert(call);
}

/// The calls of the header, of those asked for, that were not measured.
pub fn unmeasured(asked: fn(&str) -> bool) -> Vec<String> {
    let measured = MEASURED.lock().expect("one thread");
    without(&measured, asked)
}

/// The calls of the header, of those asked for, that are not among these.
pub fn without(these: &BTreeSet<&str>, asked: fn(&str) -> bool) -> Vec<String> {
    let missing = |call: &&str| asked(call) && !these.contains(call);
    let names = calls().into_iter().filter(missing);
    names.map(|call| format!("mmtf_{call}")).collect()
}

/// Says what a part leaves out, if it does.
pub fn judged(part: &str, missing: &[String]) -> ExitCode {
    match missing {
        [] => ExitCode::SUCCESS,
        _ => {
            let missing = missing.join(", ");
            eprintln!("The part \"{part}\" does not measure what include/mmtf.h has: {missing}.");
            ExitCode::FAILURE
        }
    }
}
