//! Values as Rust's types.

use crate::error::Error;
use crate::view::{Kind, Value};

/// The text of a string, or of a number that is sent as one.
///
/// ```
/// # let mut parser = resp_c::Parser::new().unwrap();
/// parser.feed(b"$5\r\nhello\r\n:1\r\n").unwrap();
/// let view = parser.next().unwrap().unwrap();
/// let text: &str = view.value().try_into().unwrap();
/// assert_eq!(text, "hello");
/// let view = parser.next().unwrap().unwrap();
/// assert_eq!(<&str>::try_from(view.value()), Err(resp_c::Error::OtherType));
/// ```
impl<'a> TryFrom<Value<'a>> for &'a str {
    type Error = Error;

    fn try_from(value: Value<'a>) -> Result<&'a str, Error> {
        std::str::from_utf8(value.try_into()?).map_err(|_| Error::OtherType)
    }
}

/// The bytes of the same.
///
/// ```
/// # let mut parser = resp_c::Parser::new().unwrap();
/// parser.feed(b"$1\r\n\xFF\r\n").unwrap();
/// let view = parser.next().unwrap().unwrap();
/// let bytes: &[u8] = view.value().try_into().unwrap();
/// assert_eq!(bytes, b"\xFF");
/// ```
impl<'a> TryFrom<Value<'a>> for &'a [u8] {
    type Error = Error;

    fn try_from(value: Value<'a>) -> Result<&'a [u8], Error> {
        match value.kind() {
            Kind::ServerError => None,
            Kind::VerbatimString => value.verbatim().map(|(_, text)| text.as_bytes()),
            _ => value.bytes(),
        }
        .ok_or(Error::OtherType)
    }
}

/// A copy of the text.
///
/// ```
/// # let mut parser = resp_c::Parser::new().unwrap();
/// parser.feed(b"=8\r\ntxt:text\r\n").unwrap();
/// let view = parser.next().unwrap().unwrap();
/// assert_eq!(String::try_from(view.value()).unwrap(), "text");
/// ```
impl TryFrom<Value<'_>> for String {
    type Error = Error;

    fn try_from(value: Value<'_>) -> Result<String, Error> {
        <&str>::try_from(value).map(String::from)
    }
}

/// A copy of the bytes.
///
/// ```
/// # let mut parser = resp_c::Parser::new().unwrap();
/// parser.feed(b"+OK\r\n").unwrap();
/// let view = parser.next().unwrap().unwrap();
/// assert_eq!(Vec::<u8>::try_from(view.value()).unwrap(), b"OK");
/// ```
impl TryFrom<Value<'_>> for Vec<u8> {
    type Error = Error;

    fn try_from(value: Value<'_>) -> Result<Vec<u8>, Error> {
        <&[u8]>::try_from(value).map(<[u8]>::to_vec)
    }
}

/// The integer, or a text that is one.
macro_rules! integers {
    ($($kind:ty),*) => {$(
        /// An integer, or a text that spells one.
        impl TryFrom<Value<'_>> for $kind {
            type Error = Error;

            fn try_from(value: Value<'_>) -> Result<$kind, Error> {
                match value.int() {
                    Some(number) => number.try_into().ok(),
                    None => <&str>::try_from(value)?.parse().ok(),
                }
                .ok_or(Error::OtherType)
            }
        }
    )*};
}

integers!(i8, i16, i32, i64, i128, isize, u8, u16, u32, u64, u128, usize);

/// A double, an integer, or a text that spells one.
///
/// ```
/// # let mut parser = resp_c::Parser::new().unwrap();
/// parser.feed(b",1.5\r\n:2\r\n").unwrap();
/// for wanted in [1.5, 2.0] {
///     let view = parser.next().unwrap().unwrap();
///     assert_eq!(f64::try_from(view.value()), Ok(wanted));
/// }
/// ```
impl TryFrom<Value<'_>> for f64 {
    type Error = Error;

    fn try_from(value: Value<'_>) -> Result<f64, Error> {
        match value.int() {
            Some(number) => Ok(number as f64),
            None => <&str>::try_from(value)?
                .parse()
                .map_err(|_| Error::OtherType),
        }
    }
}
