//! What the tests of public MMTF packages assert of columns and of their steps
//! (data/codec-vectors.json), held against both implementations.

use mmtf_tests::check::calls::*;
use mmtf_tests::check::made;
use mmtf_tests::check::watch::{Element, Output};
use mmtf_tests::json::Json;
use mmtf_tests::library::columns::Outcome;

fn vectors() -> Json {
    Json::read(include_str!("../data/codec-vectors.json"))
}

/// The bits of floats that are written in decimals.
fn bits(floats: &Json) -> Vec<u32> {
    floats
        .numbers::<f32>()
        .into_iter()
        .map(f32::to_bits)
        .collect()
}

/// The names of a vector, each a char or a list of them, padded.
fn names(integers: &Json, size: usize) -> Vec<u8> {
    let mut bytes = Vec::new();
    for name in integers.array() {
        let mut name: Vec<u8> = match name {
            Json::Array(_) => name.numbers(),
            _ => vec![name.number()],
        };
        name.resize(size, 0);
        bytes.extend(name);
    }
    bytes
}

/// Decodes a column to what the vector says, and encodes it back.
fn column(vector: &Json) {
    let integers = vector.at("integers");
    let parameter: i32 = vector.at("param").number();
    match vector.at("codec").number() {
        2 => both_ways(&INT8, &TO_INT8, vector, &integers.numbers()),
        3 => both_ways(&INT16, &TO_INT16, vector, &integers.numbers()),
        4 | 8 => both_ways(&INT32, &TO_INT32, vector, &integers.numbers()),
        5 => both_ways(
            &STRINGS,
            &TO_STRINGS,
            vector,
            &names(integers, parameter as usize),
        ),
        6 => both_ways(&CHARS, &TO_CHARS, vector, &integers.numbers()),
        9 | 10 => {
            both_ways(&FIXED_POINT, &TO_FIXED_POINT, vector, &integers.numbers());
            let column = vector.at("column_hex").bytes();
            FLOAT32.expect(&column, &bits(vector.at("as_floats")), None, "as floats");
        }
        codec => panic!("codec {codec} without a test"),
    }
}

fn both_ways<T: Element>(decoder: &Decoder<T>, encoder: &Encoder<T>, vector: &Json, values: &[T]) {
    let column = vector.at("column_hex").bytes();
    let codec: i32 = vector.at("codec").number();
    let parameter: i32 = vector.at("param").number();
    let divisor = (9..=13).contains(&codec).then_some(parameter);
    let case = format!("{vector:?}");
    decoder.expect(&column, values, divisor, &case);
    encoder.expect([codec, parameter], values, &column, &case);
}

/// The codec, length, parameter and payload stand in the column as the vector
/// has them apart.
fn parts(vector: &Json) {
    let mut parts = Vec::new();
    for key in ["codec", "length", "param"] {
        parts.extend(vector.at(key).number::<i32>().to_be_bytes());
    }
    parts.extend(vector.at("payload_hex").bytes());
    assert_eq!(parts, vector.at("column_hex").bytes(), "{vector:?}");
}

#[test]
fn columns() {
    let vectors = vectors();
    let columns = vectors.at("codec_columns").array();
    assert_eq!(columns.len(), 14);
    for vector in columns {
        parts(vector);
        column(vector);
    }
}

#[test]
fn steps() {
    let vectors = vectors();
    let steps = vectors.at("steps").array();
    assert_eq!(steps.len(), 13);
    for step in steps {
        let name = step.at("step").text();
        match name.split([' ', ':']).next() {
            Some("runlength") => run_length(step),
            Some("delta") => delta(step),
            Some("packed16") if step.get("encoded").is_some() => packed(step),
            Some("packed16") => integers_and_back(step, &[14]),
            Some("divisor") => divided(step),
            Some("letters") => letters(step),
            Some("header") => header(step),
            Some("round") if name.contains("int codec") => integers_and_back(step, &[2, 4, 8]),
            Some("round") => floats_and_back(step),
            Some("lossy") => lossy(step),
            _ => panic!("a step without a test: {name}"),
        }
    }
}

/// Codec 7 is this step alone.
fn run_length(step: &Json) {
    let decoded: Vec<i32> = step.at("decoded").numbers();
    let encoded: Vec<i32> = step.at("encoded").numbers();
    let payload: Vec<u8> = encoded.iter().flat_map(|n| n.to_be_bytes()).collect();
    let column = made::column([7, decoded.len() as i32, 0], &payload);
    INT32.expect(&column, &decoded, None, "run-length");
    TO_INT32.expect([7, 0], &decoded, &column, "run-length");
}

/// Codec 8 has this step after runs: here of one delta each, all different
/// from the one before.
fn delta(step: &Json) {
    let decoded: Vec<i32> = step.at("decoded").numbers();
    let encoded: Vec<i32> = step.at("encoded").numbers();
    let payload: Vec<u8> = encoded
        .iter()
        .flat_map(|&n| [n, 1])
        .flat_map(i32::to_be_bytes)
        .collect();
    let column = made::column([8, decoded.len() as i32, 0], &payload);
    INT32.expect(&column, &decoded, None, "delta");
    TO_INT32.expect([8, 0], &decoded, &column, "delta");
}

/// Codec 14 is this step alone.
fn packed(step: &Json) {
    let decoded: Vec<i32> = step.at("decoded").numbers();
    let encoded: Vec<i16> = step.at("encoded").numbers();
    let payload: Vec<u8> = encoded.iter().flat_map(|n| n.to_be_bytes()).collect();
    let column = made::column([14, decoded.len() as i32, 0], &payload);
    INT32.expect(&column, &decoded, None, "packed");
    TO_INT32.expect([14, 0], &decoded, &column, "packed");
}

/// Encodes with room enough.
fn encoded<T: Element>(encoder: &Encoder<T>, header: [i32; 2], values: &[T]) -> Vec<u8> {
    match encoder.agree(header, values, 4096) {
        Ok(Outcome::Done(Output { values, .. })) => values,
        other => panic!("{header:?}: {other:?}"),
    }
}

fn integers_and_back(step: &Json, codecs: &[i32]) {
    let values: Vec<i32> = step.at("decoded").numbers();
    for &codec in codecs {
        let (encoder, decoder) = match codec {
            2 => (&TO_INT8, &INT8),
            _ => (&TO_INT32, &INT32),
        };
        let column = encoded(encoder, [codec, 0], &values);
        decoder.expect(&column, &values, None, "there and back");
    }
}

/// Codec 11 does not hold the larger of these integers.
fn divided(step: &Json) {
    let values: Vec<i32> = step.at("encoded").numbers();
    let floats = bits(step.at("decoded_floats"));
    for codec in [9, 10, 12, 13] {
        let column = encoded(&TO_FIXED_POINT, [codec, 1000], &values);
        FLOAT32.expect(&column, &floats, None, "divided by 1000");
    }
    TO_FIXED_POINT.expect_refused([11, 1000], &values, 4096, 18, "16 bits");
}

fn letters(step: &Json) {
    let decoded: Vec<u8> = step.at("decoded_bytes").numbers();
    let runs: Vec<i32> = step.at("encoded").numbers();
    let payload: Vec<u8> = runs
        .iter()
        .flat_map(|&n| [n, 1])
        .flat_map(i32::to_be_bytes)
        .collect();
    let column = made::column([6, decoded.len() as i32, 0], &payload);
    CHARS.expect(&column, &decoded, None, "letters");
    TO_CHARS.expect([6, 0], &decoded, &column, "letters");
}

/// Only a header: the payload does not fill the length that it has.
fn header(step: &Json) {
    let bytes = step.at("bytes_hex").bytes();
    let (codec, length): (i32, i32) = (step.at("codec").number(), step.at("length").number());
    let parameter: i32 = step.at("param").number();
    let rest: usize = step.at("payload_bytes").number();
    assert_eq!(
        bytes,
        made::column([codec, length, parameter], &bytes[12..])
    );
    assert_eq!(bytes.len() - 12, rest);
    FLOAT32.expect_refused(&bytes, length as usize, 17, "a header");
    let whole = made::column([codec, length, parameter], &vec![0; 4 * length as usize]);
    FLOAT32.expect(
        &whole,
        &vec![0; length as usize],
        None,
        "the header, filled",
    );
}

/// The last of these is 32767000 thousandths: as integers they come back, as
/// floats they are not exact.
fn floats_and_back(step: &Json) {
    let floats: Vec<f64> = step.at("decoded_floats").numbers();
    let values: Vec<i32> = floats.iter().map(|f| (f * 1000.0).round() as i32).collect();
    for codec in [9, 10] {
        let column = encoded(&TO_FIXED_POINT, [codec, 1000], &values);
        FIXED_POINT.expect(&column, &values, Some(1000), "there and back");
        FLOAT32.expect_refused(&column, 3, 27, "32767000");
        let column = encoded(&TO_FIXED_POINT, [codec, 1000], &values[..2]);
        FLOAT32.expect(&column, &[0x3f80_0000, 0x4000_0000], None, "1 and 2");
    }
}

fn lossy(step: &Json) {
    let floats: Vec<f64> = step.at("in_floats").numbers();
    let values: Vec<i32> = floats.iter().map(|f| (f * 10.0).round() as i32).collect();
    let column = encoded(&TO_FIXED_POINT, [10, 10], &values);
    FLOAT32.expect(&column, &bits(step.at("decoded_floats")), None, "tenths");
}
