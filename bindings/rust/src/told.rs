//! What calls report about messages, values and schema files.

use std::fmt;

use crate::calls;
use crate::reason::{Reason, REASONS};

/// What a check reports about a message: its counts, or its first fault.
pub type Verdict = Result<Report, Fault>;

/// The counts of an ok message.
#[derive(Clone, Copy, Debug, PartialEq, Eq)]
pub struct Report {
    /// The tables visited.
    pub tables: u32,
    /// The greatest depth of nested tables; the root alone is 1.
    pub depth: u32,
    /// The reads counted.
    pub reads: u64,
}

impl Report {
    pub(crate) fn of(verdict: &calls::Verdict) -> Report {
        Report {
            tables: verdict.tables,
            depth: verdict.depth,
            reads: verdict.reads,
        }
    }
}

impl fmt::Display for Report {
    fn fmt(&self, to: &mut fmt::Formatter) -> fmt::Result {
        let Report {
            tables,
            depth,
            reads,
        } = self;
        write!(to, "tables={tables} depth={depth} reads={reads}")
    }
}

impl Reason {
    /// The number of its code: 10 for `V10`, 0 for `TooLong`.
    pub fn code(self) -> u32 {
        self as u32
    }
}

impl fmt::Display for Reason {
    fn fmt(&self, to: &mut fmt::Formatter) -> fmt::Result {
        match self.code() {
            0 => write!(to, "{self:?}"),
            code => write!(to, "V{code} {self:?}"),
        }
    }
}

/// The first fault of a message.
#[derive(Clone, Debug, PartialEq, Eq)]
#[non_exhaustive]
pub struct Fault {
    /// Why the message is refused.
    pub reason: Reason,
    /// Where the fault is, in bytes from the message's beginning; a wrong offset may put it past the end.
    pub position: u64,
    /// The number of the object under check, which [`Schema::object_name`](crate::Schema::object_name) names.
    pub object: u32,
    /// The number of the field under check, unless it's the whole object.
    pub field: Option<u32>,
    /// The reads counted up to then.
    pub reads: u64,
    /// The place in words, such as `in items[2].name [game.Item.name]`, cut after 1,024 bytes.
    pub place: String,
}

impl Fault {
    pub(crate) fn of(verdict: &calls::Verdict, place: &[u8]) -> Fault {
        Fault {
            reason: REASONS[verdict.reason as usize],
            position: verdict.at,
            object: verdict.object,
            field: (verdict.field != calls::NONE).then_some(verdict.field),
            reads: verdict.reads,
            place: String::from_utf8_lossy(place).into_owned(),
        }
    }
}

/// The text of a number, or `-`.
fn number_or_dash(number: Option<u32>) -> String {
    number.map_or("-".to_owned(), |number| number.to_string())
}

/// What the program's line has after `bad`.
impl fmt::Display for Fault {
    fn fmt(&self, to: &mut fmt::Formatter) -> fmt::Result {
        let (reason, field) = (self.reason, number_or_dash(self.field));
        write!(to, "{reason} at={} object={}", self.position, self.object)?;
        write!(to, " field={field} reads={}", self.reads)?;
        if !self.place.is_empty() {
            write!(to, " {}", self.place)?;
        }
        Ok(())
    }
}

impl std::error::Error for Fault {}

/// The bytes aren't those of an ok message: see [`Schema::read_again`](crate::Schema::read_again).
#[derive(Clone, Copy, Debug, PartialEq, Eq)]
pub struct Changed(pub(crate) ());

impl fmt::Display for Changed {
    fn fmt(&self, to: &mut fmt::Formatter) -> fmt::Result {
        to.write_str("the bytes aren't those of an ok message")
    }
}

impl std::error::Error for Changed {}

/// The number up to which an `f64` holds all whole numbers.
const EXACT: u64 = 1 << 53;

/// What is at the end of a path. Bytes are slices of the message.
#[derive(Clone, Copy, Debug, PartialEq)]
pub enum Value<'m> {
    /// Nothing: the field, or one on the way, is absent and has no default.
    Absent,
    /// Nothing: the vector has fewer elements.
    NoElement,
    /// Nothing: the union has another type.
    OtherMember,
    /// A Bool.
    Bool(bool),
    /// A Byte, Short, Int or Long.
    Int(i64),
    /// A UType, UByte, UShort, UInt or ULong.
    UInt(u64),
    /// A Float or Double, or the default of an absent one.
    Float(f64),
    /// The bytes of a string, which need not be UTF-8.
    Text(&'m [u8]),
    /// The bytes of a struct, padding included.
    Struct(&'m [u8]),
    /// How many elements a vector or array has, and their bytes if they are scalars or structs (else none).
    Vector(u64, &'m [u8]),
    /// A table.
    Table,
    /// A union, with its type, which is 0 for none.
    Union(u64),
}

impl<'m> Value<'m> {
    pub(crate) fn of(value: &calls::Value, message: &'m [u8]) -> Value<'m> {
        let bytes = &message[value.at as usize..][..value.size as usize];
        match value.kind {
            calls::ABSENT => Value::Absent,
            calls::NO_ELEMENT => Value::NoElement,
            calls::OTHER_MEMBER => Value::OtherMember,
            calls::BOOL => Value::Bool(value.number != 0),
            calls::INT => Value::Int(value.integer),
            calls::UINT => Value::UInt(value.number),
            calls::FLOAT => Value::Float(float(bytes)),
            calls::DEFAULT_FLOAT => Value::Float(f64::from_bits(value.number)),
            calls::TEXT => Value::Text(bytes),
            calls::STRUCT => Value::Struct(bytes),
            calls::VECTOR => Value::Vector(value.number, bytes),
            calls::TABLE => Value::Table,
            calls::UNION => Value::Union(value.number),
            kind => unreachable!("fbcheck tells no kind {kind}"),
        }
    }

    /// The number, if this is an [`Int`](Value::Int) or [`UInt`](Value::UInt) that fits.
    pub fn as_u64(&self) -> Option<u64> {
        match *self {
            Value::UInt(number) => Some(number),
            Value::Int(number) => number.try_into().ok(),
            _ => None,
        }
    }

    /// The number, if this is an [`Int`](Value::Int) or [`UInt`](Value::UInt) that fits.
    pub fn as_i64(&self) -> Option<i64> {
        match *self {
            Value::UInt(number) => number.try_into().ok(),
            Value::Int(number) => Some(number),
            _ => None,
        }
    }

    /// The number, if this is one that an `f64` holds exactly (of whole numbers those up to 2^53).
    pub fn as_f64(&self) -> Option<f64> {
        match *self {
            Value::Float(number) => Some(number),
            Value::UInt(number) => (number <= EXACT).then_some(number as f64),
            Value::Int(number) => (number.unsigned_abs() <= EXACT).then_some(number as f64),
            _ => None,
        }
    }

    /// The text, if this is a string of UTF-8.
    pub fn as_str(&self) -> Option<&'m str> {
        match *self {
            Value::Text(bytes) => std::str::from_utf8(bytes).ok(),
            _ => None,
        }
    }
}

/// A string's text, a Bool or a number; otherwise the kind, with a vector's element count or a union's type.
impl fmt::Display for Value<'_> {
    fn fmt(&self, to: &mut fmt::Formatter) -> fmt::Result {
        match *self {
            Value::Bool(truth) => truth.fmt(to),
            Value::Int(number) => number.fmt(to),
            Value::UInt(number) => number.fmt(to),
            Value::Float(number) => number.fmt(to),
            Value::Text(bytes) => String::from_utf8_lossy(bytes).fmt(to),
            Value::Struct(_) => to.write_str("Struct"),
            Value::Vector(count, _) => write!(to, "Vector({count})"),
            _ => fmt::Debug::fmt(self, to),
        }
    }
}

/// The number of 4 or 8 bytes.
fn float(bytes: &[u8]) -> f64 {
    match bytes.try_into() {
        Ok(eight) => f64::from_le_bytes(eight),
        Err(_) => f32::from_le_bytes(bytes.try_into().expect("a Float has 4 bytes")).into(),
    }
}

/// Why no schema or path was made. Its text is the program's, with the root or path that was asked for.
#[derive(Clone, Debug, PartialEq, Eq)]
#[non_exhaustive]
pub enum Error {
    /// The schema file isn't a binary schema ([`Reason::WrongIdentifier`], or it's shorter than one), or is damaged.
    NotWellFormed(Fault),
    /// Its contents aren't a legal schema.
    BadSchema {
        /// The number of the code: 2 for `C2`.
        code: u32,
        /// The number of the object or enum.
        owner: u32,
        /// The index of the field or member in its list.
        part: Option<u32>,
    },
    /// Its root table isn't listed in it.
    RootNotListed,
    /// Memory was refused.
    NoMemory,
    /// The schema file has 2^31 bytes or more.
    TooLong,
    /// It has more rows, or longer names, than its length allows.
    TooMuchShared,
    /// The schema has no root table of its own.
    NoRoot,
    /// The schema has no table of this name.
    NoSuchRoot {
        /// The name that was asked for.
        root: String,
        /// The names of tables that exist.
        hint: String,
    },
    /// The schema's own identifier was asked for, and it declares one that isn't 4 bytes long.
    NoIdent,
    /// A depth above 4,096 was asked for.
    OutOfRange,
    /// The text isn't a path of the schema.
    BadPath {
        /// The number of the code: 2 for `P2`.
        code: u32,
        /// With `P1` the position in the text, else the index of the step.
        at: u64,
        /// The text.
        path: String,
        /// The names that exist, with the one that may have been meant, or what is there instead; empty with `P1`.
        hint: String,
    },
    /// This path has more than 31 steps.
    TooManySteps(String),
    /// [`Options::plain_bytes`](crate::Options::plain_bytes) was asked for without `strict`.
    UnknownOptions,
    /// The schema wasn't loaded with the demands of the options, such as [`Options::strict`](crate::Options::strict).
    NotPlanned,
    /// Strict checks can't tell whether this field of type `[ubyte]` is a nested buffer or flexbuffer.
    UnmarkedBytes(String),
    /// The schema file marks this field as a nested buffer of a table that the file doesn't have.
    NoSuchTable(String),
}

/// The code and name of a fault, by what a verdict tells of it.
fn fault_name(status: u32, reason: u32) -> String {
    // SAFETY: the text has as much room.
    crate::name(|text, room| unsafe { calls::fbcheck_fault_name(status, reason, text, room) })
        .unwrap_or_default()
}

/// What is said behind the fault of a file that isn't well-formed, which has a schema's identifier or hasn't.
const DAMAGED: &str = "; this binary schema is damaged or incomplete";
const NO_SCHEMA: &str = "; this is no binary schema, which flatc --binary --schema makes";

/// Why strict checks refuse a schema file with a field of bytes, and what lets them take it.
const UNMARKED: &str = "strict can't tell which bytes are nested buffers or flexbuffers";
const LOST: &str = "strict can't find the table of a nested buffer";
const BUILTINS: &str = "flatc --bfbs-builtins writes it to the .bfbs";
const AS_BYTES: &str = "plain_bytes takes such fields as bytes";

/// What is said where a schema is asked for other demands.
const OTHERS: &str = "the schema was loaded with other demands: ask for these when you load it";

/// What a file may be that isn't well-formed: its identifier is read before all else.
fn guess(fault: &Fault) -> &'static str {
    match fault.reason {
        Reason::WrongIdentifier => NO_SCHEMA,
        _ if fault.reads == 0 => NO_SCHEMA,
        _ => DAMAGED,
    }
}

/// A hint behind a text, where there is one.
fn behind(hint: &str) -> String {
    match hint {
        "" => String::new(),
        _ => format!("; {hint}"),
    }
}

impl Error {
    /// What a call told, which was asked for something, or for nothing that has a name.
    pub(crate) fn of(verdict: &calls::Verdict, asked: &str) -> Error {
        let part = (verdict.field != calls::NONE).then_some(verdict.field);
        match verdict.status {
            calls::OUT_OF_RANGE => Error::OutOfRange,
            calls::NO_IDENT => Error::NoIdent,
            calls::NO_ROOT => Error::NoRoot,
            calls::TOO_LONG => Error::TooLong,
            calls::NOT_WELL_FORMED => Error::NotWellFormed(Fault::of(verdict, b"")),
            calls::BAD_SCHEMA => Error::BadSchema {
                code: verdict.reason,
                owner: verdict.object,
                part,
            },
            calls::ROOT_NOT_LISTED => Error::RootNotListed,
            calls::NO_MEMORY => Error::NoMemory,
            calls::NO_ROOM => Error::TooManySteps(asked.to_owned()),
            calls::TOO_MUCH_SHARED => Error::TooMuchShared,
            calls::UNKNOWN_OPTIONS => Error::UnknownOptions,
            calls::NOT_PLANNED => Error::NotPlanned,
            calls::UNMARKED_BYTES => Error::UnmarkedBytes(asked.to_owned()),
            calls::NO_SUCH_TABLE => Error::NoSuchTable(asked.to_owned()),
            status => unreachable!("fbcheck answers {status}"),
        }
    }
}

impl fmt::Display for Error {
    fn fmt(&self, to: &mut fmt::Formatter) -> fmt::Result {
        match *self {
            Error::NotWellFormed(ref fault) => write!(to, "schema: L1 {fault}{}", guess(fault)),
            Error::BadSchema { code, owner, part } => {
                let (name, part) = (fault_name(calls::BAD_SCHEMA, code), number_or_dash(part));
                write!(to, "schema: L2 {name} owner={owner} part={part}")
            }
            Error::RootNotListed => write!(to, "schema: L3 RootNotListed"),
            Error::NoMemory => write!(to, "out of memory"),
            Error::TooLong => write!(to, "schema: L5 TooLong"),
            Error::TooMuchShared => write!(to, "schema: L6 TooMuchShared"),
            Error::NoRoot => write!(to, "no root table"),
            Error::NoSuchRoot { ref root, ref hint } => {
                write!(to, "no root table ({root:?}){}", behind(hint))
            }
            Error::NoIdent => write!(to, "the schema's identifier isn't four bytes"),
            Error::OutOfRange => write!(to, "max_depth is above {}", calls::DEEPEST),
            Error::BadPath {
                code,
                at,
                ref path,
                ref hint,
            } => {
                let name = fault_name(calls::BAD_PATH, code);
                let is_text = code == calls::BAD_TEXT;
                let at_or_step = if is_text { "at" } else { "step" };
                write!(
                    to,
                    "path: {name} {at_or_step}={at} ({path:?}){}",
                    behind(hint)
                )
            }
            Error::TooManySteps(ref path) => {
                let steps = calls::STEPS;
                write!(to, "the path has more than {steps} steps ({path:?})")
            }
            Error::UnknownOptions => write!(to, "plain_bytes needs strict"),
            Error::NotPlanned => write!(to, "{OTHERS}"),
            Error::UnmarkedBytes(ref field) => {
                write!(to, "{UNMARKED}: {field}; {BUILTINS}, {AS_BYTES}")
            }
            Error::NoSuchTable(ref field) => write!(to, "{LOST}: {field}; {AS_BYTES}"),
        }
    }
}

impl std::error::Error for Error {}
