//! Buffers for the meanings of numbers beside an inaccessible page, so that a
//! write outside them ends the test.
#![cfg(all(target_os = "linux", target_arch = "x86_64"))]

use mmtf_tests::check::words::words;
use mmtf_tests::guard::{Guarded, Side};
use mmtf_tests::library::columns::Outcome;
use mmtf_tests::library::words::meaning;

#[test]
fn buffers_at_the_edge() {
    let mut page = Guarded::new(1 << 12);
    for number in 0..=u8::MAX {
        let words = words(number).unwrap_or("").as_bytes();
        for room in words.len().saturating_sub(1)..=words.len() + 1 {
            for side in [Side::Before, Side::After] {
                let before = vec![0xa5; room];
                let buffer = page.lend(&before, side);
                let done = matches!(meaning(number, buffer), Outcome::Done(_));
                assert_eq!(done, !words.is_empty() && words.len() <= room, "{number}");
                let end = if done { words.len() } else { 0 };
                assert_eq!(buffer[..end], words[..end], "{number}");
                assert_eq!(buffer[end..], before[end..], "{number}");
            }
        }
    }
}
