// made from fbcheck.h by bindings/make; don't edit
//! Why a message is refused.

/// Why a message is refused.
#[derive(Clone, Copy, Debug, PartialEq, Eq, PartialOrd, Ord, Hash)]
#[non_exhaustive]
pub enum Reason {
    /// The message has 2^31 bytes or more; nothing of it was read.
    TooLong = 0,
    /// The prefix isn't the number of bytes after it.
    WrongPrefix = 1,
    /// The data there doesn't lie wholly in the buffer.
    OutOfBuffer = 2,
    /// The position isn't a multiple of the alignment.
    Misaligned = 3,
    /// An offset is 0.
    ZeroOffset = 4,
    /// The file identifier isn't the one asked for.
    WrongIdentifier = 5,
    /// One table more than [`max_depth`](crate::Options::max_depth) allows.
    TooDeep = 6,
    /// One table more than [`max_tables`](crate::Options::max_tables) allows.
    TooManyTables = 7,
    /// A vtable's size is odd or below 4.
    BadVtable = 8,
    /// A required field is absent.
    MissingRequired = 9,
    /// The byte after a string isn't 0.
    NoTerminator = 10,
    /// A vector of unions and its vector of types differ in length.
    LengthsDiffer = 11,
    /// A field ends past its table's inline size.
    PastTable = 12,
    /// More reads were counted than the options allow.
    TooManyReads = 13,
    /// Strict: a field holds a flexbuffer, which isn't checked.
    FlexContent = 14,
    /// A string isn't UTF-8.
    NotUtf8 = 15,
    /// A table has a field that the schema lacks or deprecates.
    UnknownField = 16,
}

/// The reasons by their numbers.
pub(crate) const REASONS: [Reason; 17] = [
    Reason::TooLong,
    Reason::WrongPrefix,
    Reason::OutOfBuffer,
    Reason::Misaligned,
    Reason::ZeroOffset,
    Reason::WrongIdentifier,
    Reason::TooDeep,
    Reason::TooManyTables,
    Reason::BadVtable,
    Reason::MissingRequired,
    Reason::NoTerminator,
    Reason::LengthsDiffer,
    Reason::PastTable,
    Reason::TooManyReads,
    Reason::FlexContent,
    Reason::NotUtf8,
    Reason::UnknownField,
];
