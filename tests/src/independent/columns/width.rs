//! Big-endian numbers of 8, 16 and 32 bits.

pub trait Width {
    const BYTES: usize;
    /// The limits of the width.
    const LEAST: i32;
    const MOST: i32;

    /// The number in so many bytes.
    fn read(bytes: &[u8]) -> i32;

    /// Writes a number of this width into its bytes.
    fn write(number: i32, bytes: &mut [u8]);

    #[inline]
    fn is_limit(number: i32) -> bool {
        number == Self::LEAST || number == Self::MOST
    }

    /// The numbers of a payload.
    #[inline]
    fn numbers(payload: &[u8]) -> impl ExactSizeIterator<Item = i32> {
        payload.chunks_exact(Self::BYTES).map(Self::read)
    }
}

macro_rules! width {
    ($type:ty, $bytes:literal) => {
        impl Width for $type {
            const BYTES: usize = $bytes;
            const LEAST: i32 = <$type>::MIN as i32;
            const MOST: i32 = <$type>::MAX as i32;

            #[inline]
            fn read(bytes: &[u8]) -> i32 {
                let bytes = bytes.try_into().expect("as many bytes as the width");
                <$type>::from_be_bytes(bytes) as i32
            }

            #[inline]
            fn write(number: i32, bytes: &mut [u8]) {
                bytes.copy_from_slice(&(number as $type).to_be_bytes());
            }
        }
    };
}

width!(i8, 1);
width!(i16, 2);
width!(i32, 4);

/// The runs of a payload: value and count.
#[inline]
pub fn runs(payload: &[u8]) -> impl Iterator<Item = (i32, i32)> + '_ {
    payload
        .chunks_exact(8)
        .map(|run| (i32::read(&run[..4]), i32::read(&run[4..])))
}
