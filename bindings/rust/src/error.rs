//! Why a call fails.

use std::fmt;
use std::io::{self, ErrorKind};

/// Why a call fails.
///
/// ```
/// use resp_c::{Error, Fault, Parser};
///
/// # fn main() -> Result<(), Error> {
/// let mut parser = Parser::new()?;
/// parser.feed(b":1\r\n:x\r\n")?;
/// assert!(parser.next()?.is_some());
/// let error = parser.next().unwrap_err();
/// assert_eq!(error, Error::Fault { fault: Fault::NotInteger, offset: 4 });
/// assert_eq!(error.to_string(), "NotInteger at byte 4");
/// # Ok(())
/// # }
/// ```
#[derive(Debug, Clone, Copy, PartialEq, Eq, Hash)]
#[non_exhaustive]
pub enum Error {
    /// The bytes can't begin a value.
    Fault {
        /// What is wrong with them.
        fault: Fault,
        /// How many bytes show it: those after the last value, up to and with the byte that shows
        /// it.
        offset: usize,
    },
    /// Memory ran out. After a call of [`Parser::next`](crate::Parser::next) that says so the parser
    /// has failed; after any other call nothing changed.
    OutOfMemory,
    /// The parser has failed before, by a fault or for want of memory.
    Failed,
    /// A limit is out of range.
    OutOfRange,
    /// A reply can't be sent: it isn't exactly one value, or no bytes spell that value in the version
    /// of the protocol, as a simple string with CR LF in it.
    NoEncoding,
    /// A value isn't of the type that is wanted, or out of its range.
    OtherType,
}

impl fmt::Display for Error {
    fn fmt(&self, f: &mut fmt::Formatter<'_>) -> fmt::Result {
        match self {
            Error::Fault { fault, offset } => write!(f, "{fault} at byte {offset}"),
            Error::OutOfMemory => f.write_str("out of memory"),
            Error::Failed => f.write_str("the parser has failed before"),
            Error::OutOfRange => f.write_str("a limit is out of range"),
            Error::NoEncoding => f.write_str("the reply has no encoding"),
            Error::OtherType => f.write_str("the value isn't of this type"),
        }
    }
}

impl std::error::Error for Error {}

/// As an error of input, of which it is the source.
///
/// ```
/// use resp_c::{Error, Fault};
/// use std::io;
///
/// let error = io::Error::from(Error::Fault { fault: Fault::BodyEnd, offset: 6 });
/// assert_eq!(error.kind(), io::ErrorKind::InvalidData);
/// assert_eq!(error.to_string(), "BodyEnd at byte 6");
/// ```
impl From<Error> for io::Error {
    fn from(error: Error) -> io::Error {
        let kind = match error {
            Error::Fault { .. } | Error::OtherType => ErrorKind::InvalidData,
            Error::OutOfMemory => ErrorKind::OutOfMemory,
            Error::OutOfRange | Error::NoEncoding => ErrorKind::InvalidInput,
            Error::Failed => ErrorKind::Other,
        };
        io::Error::new(kind, error)
    }
}

/// Why bytes can't begin a value.
///
/// ```
/// use resp_c::Fault;
///
/// assert_eq!(Fault::TooDeep.name(), "TooDeep");
/// assert_eq!(Fault::TooDeep.number(), 1);
/// ```
#[derive(Debug, Clone, Copy, PartialEq, Eq, Hash)]
#[non_exhaustive]
pub enum Fault {
    /// A value is deeper than the limit on the depth.
    TooDeep,
    /// The first byte of a value is no type byte.
    UnknownType,
    /// A line isn't UTF-8.
    LineNotUtf8,
    /// A line that has to be an integer is none, or one that doesn't fit 64 bits.
    NotInteger,
    /// A length is negative where none may be.
    NegativeLength,
    /// The bytes after a body aren't CR LF.
    BodyEnd,
    /// A boolean is neither `t` nor `f`.
    NotBoolean,
    /// A double isn't written as one.
    NotDouble,
    /// A verbatim string has no format.
    NoVerbatimFormat,
    /// The first element of a push doesn't name its kind.
    BadPushKind,
    /// A value is longer than the limit on the size.
    TooLong,
    /// A connection was sent more bytes of pushes than it sets aside; a parser never answers it.
    TooManyPushes,
}

/// The faults by their numbers, from 1.
const FAULTS: [Fault; 12] = [
    Fault::TooDeep,
    Fault::UnknownType,
    Fault::LineNotUtf8,
    Fault::NotInteger,
    Fault::NegativeLength,
    Fault::BodyEnd,
    Fault::NotBoolean,
    Fault::NotDouble,
    Fault::NoVerbatimFormat,
    Fault::BadPushKind,
    Fault::TooLong,
    Fault::TooManyPushes,
];

impl Fault {
    /// The fault of this number, which the C library gives.
    pub(crate) fn of_number(number: u32) -> Fault {
        FAULTS[number as usize - 1]
    }

    /// Its number in the C interface.
    ///
    /// ```
    /// assert_eq!(resp_c::Fault::TooLong.number(), 11);
    /// ```
    pub fn number(self) -> u32 {
        self as u32 + 1
    }

    /// Its name.
    ///
    /// ```
    /// assert_eq!(resp_c::Fault::NotInteger.name(), "NotInteger");
    /// ```
    pub fn name(self) -> &'static str {
        match self {
            Fault::TooDeep => "TooDeep",
            Fault::UnknownType => "UnknownType",
            Fault::LineNotUtf8 => "LineNotUtf8",
            Fault::NotInteger => "NotInteger",
            Fault::NegativeLength => "NegativeLength",
            Fault::BodyEnd => "BodyEnd",
            Fault::NotBoolean => "NotBoolean",
            Fault::NotDouble => "NotDouble",
            Fault::NoVerbatimFormat => "NoVerbatimFormat",
            Fault::BadPushKind => "BadPushKind",
            Fault::TooLong => "TooLong",
            Fault::TooManyPushes => "TooManyPushes",
        }
    }
}

impl fmt::Display for Fault {
    fn fmt(&self, f: &mut fmt::Formatter<'_>) -> fmt::Result {
        f.write_str(self.name())
    }
}
