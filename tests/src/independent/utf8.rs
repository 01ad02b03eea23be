//! UTF-8 by RFC 3629, section 4: the table of well-formed byte sequences.
//! The walk itself uses the standard library's check, which is faster; the two
//! are compared here.

/// Whether the bytes are UTF-8.
pub fn valid(mut bytes: &[u8]) -> bool {
    while let Some(size) = scalar(bytes) {
        bytes = &bytes[size..];
    }
    bytes.is_empty()
}

/// The size of the scalar at the start, if one stands there.
fn scalar(bytes: &[u8]) -> Option<usize> {
    match *bytes {
        [0x00..=0x7f, ..] => Some(1),
        [0xc2..=0xdf, 0x80..=0xbf, ..] => Some(2),
        [0xe0, 0xa0..=0xbf, 0x80..=0xbf, ..] => Some(3),
        [0xe1..=0xec | 0xee..=0xef, 0x80..=0xbf, 0x80..=0xbf, ..] => Some(3),
        [0xed, 0x80..=0x9f, 0x80..=0xbf, ..] => Some(3),
        [0xf0, 0x90..=0xbf, 0x80..=0xbf, 0x80..=0xbf, ..] => Some(4),
        [0xf1..=0xf3, 0x80..=0xbf, 0x80..=0xbf, 0x80..=0xbf, ..] => Some(4),
        [0xf4, 0x80..=0x8f, 0x80..=0xbf, 0x80..=0xbf, ..] => Some(4),
        _ => None,
    }
}

#[cfg(test)]
mod tests {
    use super::valid;
    use crate::generate::{text, Rng};

    fn same(bytes: &[u8]) {
        let expected = std::str::from_utf8(bytes).is_ok();
        assert_eq!(valid(bytes), expected, "{bytes:02x?}");
    }

    #[test]
    fn every_sequence_of_up_to_three_bytes() {
        for n in 0..=0xff_ffffu32 {
            let [_, a, b, c] = n.to_be_bytes();
            same(&[a, b, c]);
            if n <= 0xffff {
                same(&[b, c]);
            }
            if n <= 0xff {
                same(&[c]);
            }
        }
        same(&[]);
    }

    #[test]
    fn four_bytes_around_every_boundary() {
        let edges = [
            0x00, 0x7f, 0x80, 0x81, 0x8f, 0x90, 0x91, 0x9f, 0xa0, 0xbe, 0xbf, 0xc0, 0xff,
        ];
        for lead in 0x80..=0xff {
            for a in edges {
                for b in edges {
                    for c in edges {
                        same(&[lead, a, b, c]);
                        same(&[b'x', lead, a, b, c, b'y']);
                    }
                }
            }
        }
    }

    #[test]
    fn every_scalar() {
        for scalar in (0..=0x10_ffff).filter_map(char::from_u32) {
            assert!(valid(scalar.encode_utf8(&mut [0; 4]).as_bytes()));
        }
    }

    #[test]
    fn random_texts_whole_and_damaged() {
        let mut rng = Rng::new(3629);
        for _ in 0..200_000 {
            let mut bytes = text(&mut rng, 40);
            same(&bytes);
            if !bytes.is_empty() {
                let at = rng.below(bytes.len());
                bytes[at] = rng.byte();
                same(&bytes);
                same(&bytes[..at]);
            }
        }
    }
}
