//! The refusal numbers.

/// Why a file, a view, a column, a matrix, a receipt or a run of receipts is
/// refused.
#[derive(Clone, Copy, Debug, PartialEq, Eq)]
#[repr(u8)]
pub enum Refusal {
    FileTooLarge = 1,
    CutShort = 2,
    UnknownLead = 3,
    UnsignedTooLarge = 4,
    NotUtf8 = 5,
    TooDeep = 6,
    TooManyEntries = 7,
    KeyNotString = 8,
    KeyRepeated = 9,
    OuterNotMap = 10,
    BytesAfter = 11,
    FieldMissing = 12,
    FieldType = 13,
    ColumnShort = 14,
    CodecUnknown = 15,
    HeaderRange = 16,
    PayloadSize = 17,
    NumberNotAllowed = 18,
    LengthDiffers = 19,
    CountsDisagree = 20,
    IndexOutside = 21,
    ValueOutside = 22,
    TooManyGroupTypes = 23,
    VersionNotOne = 24,
    BufferTooSmall = 25,
    NoSuchField = 26,
    NotExact = 27,
    NoSuchEntry = 28,
    ReceiptMalformed = 29,
    JobNotRising = 30,
}

/// How many numbers there are, 0 for none among them.
pub const NUMBERS: usize = Refusal::JobNotRising as usize + 1;

impl Refusal {
    /// The number in the table of refusals.
    pub fn number(self) -> u8 {
        self as u8
    }
}
