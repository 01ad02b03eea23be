//! Headers of columns of any kind, written down by hand: each codec, each fault,
//! and pairs of faults that show the order. Those of generated columns are
//! compared in columns_generated.rs.

use mmtf_tests::check::calls::agree_on_header;
use mmtf_tests::check::made::column;
use mmtf_tests::corpus;
use mmtf_tests::independent::outer_binaries;
use mmtf_tests::library::columns::Outcome;

#[track_caller]
fn has(header: [i32; 3], payload: &[u8], fields: [i32; 3]) {
    let agreed = agree_on_header(&column(header, payload));
    assert_eq!(agreed, Ok(Outcome::Done(fields)), "{header:?}");
}

#[track_caller]
fn refused(header: [i32; 3], payload: &[u8], number: u8) {
    let agreed = agree_on_header(&column(header, payload));
    assert_eq!(agreed, Ok(Outcome::Refused(number)), "{header:?}");
}

/// The bytes of a payload for two results by each codec. What a packed payload
/// or runs hold is not looked at.
const SIZES: [usize; 16] = [8, 2, 4, 8, 6, 8, 16, 24, 0, 2, 4, 6, 1, 8, 7, 8];

#[test]
fn each_codec() {
    for (codec, size) in (1..).zip(SIZES) {
        let kept = match codec {
            5 => 3,
            9..=13 => 3,
            _ => 0,
        };
        has([codec, 2, 3], &vec![0x7f; size], [codec, 2, kept]);
    }
}

#[test]
fn parameters() {
    for parameter in [0, -1, 1, i32::MAX, i32::MIN] {
        has([4, 1, parameter], &[0; 4], [4, 1, 0]);
        has([16, 1, parameter], &[], [16, 1, 0]);
    }
    for divisor in [1, 1_000, 16_777_217, i32::MAX] {
        has([11, 1, divisor], &[0; 2], [11, 1, divisor]);
    }
    for size in [1, 4, 255] {
        has([5, 1, size], &vec![0x80; size as usize], [5, 1, size]);
    }
    for parameter in [0, -1, i32::MIN] {
        refused([5, 0, parameter], &[], 16);
        refused([9, 0, parameter], &[], 16);
    }
    refused([5, 0, 256], &[], 16);
}

#[test]
fn faults_and_order() {
    for size in 0..12 {
        let short = vec![0; size];
        assert_eq!(agree_on_header(&short), Ok(Outcome::Refused(14)), "{size}");
    }
    for codec in [0, 17, -1, 256 + 4, i32::MIN, i32::MAX] {
        refused([codec, -1, 0], &[1], 15);
        refused([codec, 0, 0], &[], 15);
    }
    for length in [-1, i32::MIN, 16_777_217, i32::MAX] {
        refused([4, length, 0], &[1], 16);
        refused([7, length, 0], &[1], 16);
        refused([13, length, 1], &[1], 16);
    }
    has([7, 16_777_216, 0], &[], [7, 16_777_216, 0]);
    has([15, 16_777_216, 0], &[1], [15, 16_777_216, 0]);
    for (header, size) in [
        ([1, 1, 0], 3),
        ([2, 1, 0], 0),
        ([3, 1, 0], 4),
        ([4, 16_777_216, 0], 4),
        ([5, 2, 3], 5),
        ([6, 0, 0], 4),
        ([10, 1, 1], 3),
        ([11, 1, 1], 1),
        ([14, 1, 0], 1),
        ([16, 1, 0], 7),
    ] {
        refused(header, &vec![0; size], 17);
    }
}

/// A header says nothing of numbers that are not allowed, or of too few.
#[test]
fn payload_is_not_read() {
    has([7, 5, 0], &[0xff; 8], [7, 5, 0]);
    has([14, 0, 0], &[0x7f, 0xff], [14, 0, 0]);
    has([5, 1, 4], b"\0A\x80\0", [5, 1, 4]);
}

#[test]
fn columns_of_files() {
    let mut columns = 0;
    for (name, file) in corpus::DERIVED {
        for (key, bytes) in outer_binaries(file).expect("a container") {
            match agree_on_header(bytes) {
                Ok(Outcome::Done(_)) => columns += 1,
                other => panic!("{name} {key:?}: {other:?}"),
            }
            for size in 0..bytes.len().min(64) {
                agree_on_header(&bytes[..size]).expect("both alike on a part");
            }
        }
    }
    assert!(columns > 100, "{columns}");
}
