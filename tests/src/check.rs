//! Runs one file through the library and through the independent
//! implementation, the container and views by name; columns stand in `columns`,
//! values and their encoders in `values`, the whole check and matrices in
//! `files`, files opened in `opening`, receipts in `receipts`, bills in `bills`,
//! the words of numbers and the version in `words`.

pub mod bills;
pub mod calls;
pub mod columns;
pub mod files;
pub mod made;
pub mod opening;
pub mod receipts;
pub mod sample;
pub mod values;
pub mod watch;
pub mod words;

use crate::independent;
use crate::library::{self, View};

/// Compares both on one file. Gives the container's number, or says how the
/// two differ.
pub fn agree(file: &[u8]) -> Result<u8, String> {
    let file: Box<[u8]> = file.into();
    let number = independent::container(&file);
    let answer = library::container(&file);
    if answer != number {
        return Err(format!("container: library {answer}, expected {number}"));
    }
    for name in names(&file) {
        agree_on_view(&file, &name)?;
    }
    Ok(number)
}

/// Compares both on one view.
pub fn agree_on_view(file: &[u8], name: &[u8]) -> Result<(), String> {
    let name: Box<[u8]> = name.into();
    let expected = expected_view(file, &name);
    let answer = library::view(file, &name);
    if answer == expected {
        return Ok(());
    }
    let name = hex(&name);
    Err(format!(
        "view of [{name}]: library {answer:?}, expected {expected:?}"
    ))
}

/// What the library's view must answer.
pub fn expected_view(file: &[u8], name: &[u8]) -> View {
    match independent::view(file, name) {
        Ok(part) => View::Part {
            start: part.start as u64,
            length: part.len() as u64,
        },
        Err(refusal) => View::Refused(refusal.number()),
    }
}

/// The names to ask for: every outer key, names close to the first and the
/// last, an absent one, the empty one, and one that is not UTF-8.
pub fn names(file: &[u8]) -> Vec<Vec<u8>> {
    let mut names = vec![
        b"no such field".to_vec(),
        Vec::new(),
        vec![b'a', 0xff, 0x80],
    ];
    let keys = independent::outer_keys(file).unwrap_or_default();
    for key in keys.first().into_iter().chain(keys.last()) {
        names.extend(close(key));
    }
    names.extend(keys.into_iter().map(<[u8]>::to_vec));
    names
}

/// A name longer by one byte, one shorter, and one that ends otherwise.
fn close(key: &[u8]) -> Vec<Vec<u8>> {
    let mut close = vec![[key, &[0]].concat()];
    if let Some((last, rest)) = key.split_last() {
        close.push(rest.to_vec());
        close.push([rest, &[last ^ 1]].concat());
    }
    close
}

/// Holds both to a number written down beforehand, and compares their views.
pub fn expect(file: &[u8], number: u8, case: &str) {
    let own = independent::container(file);
    assert_eq!(own, number, "{case}: independent\n{}", hex(file));
    match agree(file) {
        Ok(agreed) => assert_eq!(agreed, number, "{case}"),
        Err(difference) => panic!("{case}: {difference}\n{}", hex(file)),
    }
}

/// Holds both to a view written down beforehand.
pub fn expect_view(file: &[u8], name: &[u8], expected: View, case: &str) {
    assert_eq!(expected_view(file, name), expected, "{case}: independent");
    assert_eq!(library::view(file, name), expected, "{case}: library");
}

/// The bytes in hexadecimal, a long file shortened.
pub fn hex(bytes: &[u8]) -> String {
    const SHOWN: usize = 4096;
    let shown = &bytes[..bytes.len().min(SHOWN)];
    let mut text: String = shown.iter().map(|b| format!("{b:02x} ")).collect();
    if bytes.len() > SHOWN {
        text += &format!("... {} bytes in all", bytes.len());
    }
    text
}
