//! Replies as the bytes that a server sends.

use crate::error::Error;
use crate::ffi::{self, status, Lent, RawToken};
use crate::output::{written, FRAME};
use crate::view::{Kind, Tokens, Value, View};

/// The version of the protocol in which a reply is sent.
///
/// A client is sent RESP2 until it asks for RESP3 by `HELLO 3` (RESP specification, "RESP versions").
///
/// ```
/// use resp_c::{Protocol, Reply};
///
/// # fn main() -> Result<(), resp_c::Error> {
/// let mut reply = Reply::new();
/// reply.nil();
/// assert_eq!(reply.encode(Protocol::Resp2)?, b"$-1\r\n");
/// assert_eq!(reply.encode(Protocol::Resp3)?, b"_\r\n");
/// # Ok(())
/// # }
/// ```
#[derive(Debug, Clone, Copy, PartialEq, Eq, Hash)]
pub enum Protocol {
    /// What RESP2 lacks is sent in its types. A map is an array of keys and values, a set or a push an
    /// array, a boolean 1 or 0, and a double, a big number or a verbatim string the bulk string of its
    /// text, without its format. Attributes are left out.
    Resp2 = 2,
    /// Each kind has a type of its own.
    Resp3 = 3,
}

/// A reply to be sent: values in preorder, each before those inside it.
///
/// A call adds one value, or the head of one whose parts are added after it: `array(2)` is complete
/// after two more values. [`Reply::encode`] makes the bytes, and refuses what isn't exactly one value.
/// The sections in quotes are those of the RESP specification.
///
/// To add is to take memory; where that runs out it aborts, as `Vec` does.
///
/// `{:?}` prints its value, as that of [`Value`] does, and its tokens where it isn't one value
/// or is too deep to be sent:
///
/// ```
/// let mut reply = resp_c::Reply::new();
/// reply.array(2).int(1);
/// assert_eq!(format!("{reply:?}"), "Reply[Array(2), Int(1)]");
/// reply.okay();
/// assert_eq!(format!("{reply:?}"), "array([int(1), ok])");
/// ```
///
/// ```
/// use resp_c::{Protocol, Reply};
///
/// # fn main() -> Result<(), resp_c::Error> {
/// let mut reply = Reply::new();
/// reply.array(3);
/// for name in ["a", "b"] {
///     reply.bulk_string(name);
/// }
/// reply.map(1).simple_string("ttl").int(60);
/// let bytes = reply.encode(Protocol::Resp3)?;
/// assert_eq!(bytes, b"*3\r\n$1\r\na\r\n$1\r\nb\r\n%1\r\n+ttl\r\n:60\r\n");
/// # Ok(())
/// # }
/// ```
#[derive(Clone, Default)]
pub struct Reply {
    tokens: Vec<RawToken>,
    text: Vec<u8>,
}

impl Reply {
    /// A reply without a value as yet.
    ///
    /// ```
    /// use resp_c::{Error, Protocol, Reply};
    ///
    /// assert_eq!(Reply::new().encode(Protocol::Resp3), Err(Error::NoEncoding));
    /// ```
    pub fn new() -> Reply {
        Reply::default()
    }

    /// Adds a null ("Nulls"); in RESP2 it is a bulk string of length -1.
    ///
    /// ```
    /// # use resp_c::{Protocol, Reply};
    /// let bytes = Reply::new().nil().encode(Protocol::Resp3).unwrap();
    /// assert_eq!(bytes, b"_\r\n");
    /// ```
    pub fn nil(&mut self) -> &mut Reply {
        self.add(Kind::Nil, 0, 0)
    }

    /// Adds the simple string `OK`.
    ///
    /// ```
    /// # use resp_c::{Protocol, Reply};
    /// let bytes = Reply::new().okay().encode(Protocol::Resp3).unwrap();
    /// assert_eq!(bytes, b"+OK\r\n");
    /// ```
    pub fn okay(&mut self) -> &mut Reply {
        self.add(Kind::Okay, 0, 0)
    }

    /// Adds an integer ("Integers").
    ///
    /// ```
    /// # use resp_c::{Protocol, Reply};
    /// let bytes = Reply::new().int(-5).encode(Protocol::Resp3).unwrap();
    /// assert_eq!(bytes, b":-5\r\n");
    /// ```
    pub fn int(&mut self, number: i64) -> &mut Reply {
        self.add(Kind::Int, 0, number)
    }

    /// Adds a line of text ("Simple strings"). With CR LF in it the reply has no bytes.
    ///
    /// ```
    /// # use resp_c::{Protocol, Reply};
    /// let bytes = Reply::new().simple_string("PONG").encode(Protocol::Resp3).unwrap();
    /// assert_eq!(bytes, b"+PONG\r\n");
    /// ```
    pub fn simple_string(&mut self, text: &str) -> &mut Reply {
        match text {
            "OK" => self.okay(),
            _ => self.add_text(Kind::SimpleString, text.as_bytes()),
        }
    }

    /// Adds any bytes ("Bulk strings").
    ///
    /// ```
    /// # use resp_c::{Protocol, Reply};
    /// let bytes = Reply::new().bulk_string(b"\xFF\r\n").encode(Protocol::Resp3).unwrap();
    /// assert_eq!(bytes, b"$3\r\n\xFF\r\n\r\n");
    /// ```
    pub fn bulk_string(&mut self, bytes: impl AsRef<[u8]>) -> &mut Reply {
        self.add_text(Kind::BulkString, bytes.as_ref())
    }

    /// Adds an array of the next values, so many ("Arrays").
    ///
    /// ```
    /// # use resp_c::{Protocol, Reply};
    /// let bytes = Reply::new().array(2).int(1).nil().encode(Protocol::Resp2).unwrap();
    /// assert_eq!(bytes, b"*2\r\n:1\r\n$-1\r\n");
    /// ```
    pub fn array(&mut self, values: usize) -> &mut Reply {
        self.add(Kind::Array, values, 0)
    }

    /// Adds a map of the next pairs, so many: of each the key, and then the value ("Maps").
    ///
    /// ```
    /// # use resp_c::{Protocol, Reply};
    /// let bytes = Reply::new().map(1).int(1).int(2).encode(Protocol::Resp3).unwrap();
    /// assert_eq!(bytes, b"%1\r\n:1\r\n:2\r\n");
    /// ```
    pub fn map(&mut self, pairs: usize) -> &mut Reply {
        self.add(Kind::Map, pairs, 0)
    }

    /// Adds the next pairs, so many, as attributes of the value after them ("Attributes").
    ///
    /// ```
    /// # use resp_c::{Protocol, Reply};
    /// let mut reply = Reply::new();
    /// reply.attribute(1).simple_string("ttl").int(3600);
    /// reply.int(7);
    /// assert_eq!(reply.encode(Protocol::Resp3).unwrap(), b"|1\r\n+ttl\r\n:3600\r\n:7\r\n");
    /// assert_eq!(reply.encode(Protocol::Resp2).unwrap(), b":7\r\n");
    /// ```
    pub fn attribute(&mut self, pairs: usize) -> &mut Reply {
        self.add(Kind::Attribute, pairs, 0)
    }

    /// Adds an error: its code and, where there is one, a space and the detail ("Simple errors"). A
    /// text with CR LF in it is sent in RESP3 as a bulk error, and has no bytes in RESP2.
    ///
    /// ```
    /// # use resp_c::{Protocol, Reply};
    /// let mut reply = Reply::new();
    /// reply.server_error("ERR unknown command");
    /// assert_eq!(reply.encode(Protocol::Resp3).unwrap(), b"-ERR unknown command\r\n");
    /// ```
    pub fn server_error(&mut self, text: &str) -> &mut Reply {
        self.add_text(Kind::ServerError, text.as_bytes())
    }

    /// Adds a truth value ("Booleans").
    ///
    /// ```
    /// # use resp_c::{Protocol, Reply};
    /// let bytes = Reply::new().boolean(false).encode(Protocol::Resp3).unwrap();
    /// assert_eq!(bytes, b"#f\r\n");
    /// ```
    pub fn boolean(&mut self, truth: bool) -> &mut Reply {
        self.add(Kind::Boolean, 0, i64::from(truth))
    }

    /// Adds a floating point number ("Doubles"): what `{}` prints of it, and `nan` of NaN.
    ///
    /// ```
    /// # use resp_c::{Protocol, Reply};
    /// let bytes = Reply::new().double(1.5).encode(Protocol::Resp3).unwrap();
    /// assert_eq!(bytes, b",1.5\r\n");
    /// ```
    pub fn double(&mut self, number: f64) -> &mut Reply {
        let text = if number.is_nan() {
            "nan".into()
        } else {
            number.to_string()
        };
        self.add_text(Kind::Double, text.as_bytes())
    }

    /// Adds an integer of any size, by its digits ("Big numbers"). These aren't checked, but with CR LF
    /// among them the reply has no bytes in RESP3.
    ///
    /// ```
    /// # use resp_c::{Protocol, Reply};
    /// let mut reply = Reply::new();
    /// reply.big_number(&i128::MAX.to_string());
    /// let bytes = reply.encode(Protocol::Resp3).unwrap();
    /// assert_eq!(bytes, b"(170141183460469231731687303715884105727\r\n");
    /// ```
    pub fn big_number(&mut self, digits: &str) -> &mut Reply {
        self.add_text(Kind::BigNumber, digits.as_bytes())
    }

    /// Adds a set of the next values, so many ("Sets").
    ///
    /// ```
    /// # use resp_c::{Protocol, Reply};
    /// let bytes = Reply::new().set(1).int(7).encode(Protocol::Resp3).unwrap();
    /// assert_eq!(bytes, b"~1\r\n:7\r\n");
    /// ```
    pub fn set(&mut self, values: usize) -> &mut Reply {
        self.add(Kind::Set, values, 0)
    }

    /// Adds a text for display ("Verbatim strings"). The format, as `txt` or `mkd`, should have no colon
    /// in it: what follows one is read as text.
    ///
    /// ```
    /// # use resp_c::{Protocol, Reply};
    /// let mut reply = Reply::new();
    /// reply.verbatim_string("txt", "Some string");
    /// assert_eq!(reply.encode(Protocol::Resp3).unwrap(), b"=15\r\ntxt:Some string\r\n");
    /// ```
    pub fn verbatim_string(&mut self, format: &str, text: &str) -> &mut Reply {
        self.add_text(Kind::VerbatimString, format!("{format}:{text}").as_bytes())
    }

    /// Adds out-of-band data, of the next values, so many ("Pushes"). The first of these names the kind
    /// of the data; it is a bulk string of UTF-8.
    ///
    /// ```
    /// # use resp_c::{Protocol, Reply};
    /// let mut reply = Reply::new();
    /// reply.push(2).bulk_string("invalidate").nil();
    /// assert_eq!(reply.encode(Protocol::Resp3).unwrap(), b">2\r\n$10\r\ninvalidate\r\n_\r\n");
    /// ```
    pub fn push(&mut self, values: usize) -> &mut Reply {
        self.add(Kind::Push, values, 0)
    }

    /// Adds a copy of a value that a parser returned, with those inside it.
    ///
    /// ```
    /// use resp_c::{Parser, Protocol, Reply};
    ///
    /// # fn main() -> Result<(), resp_c::Error> {
    /// let mut parser = Parser::new()?;
    /// let mut joined = Reply::new();
    /// joined.array(2);
    /// for answer in [b"*1\r\n$1\r\na\r\n", b"*1\r\n$1\r\nb\r\n"] {
    ///     parser.feed(answer)?;
    ///     let view = parser.next()?.expect("a whole value");
    ///     for element in view.value().elements() {
    ///         joined.value(element);
    ///     }
    /// }
    /// assert_eq!(joined.encode(Protocol::Resp3)?, b"*2\r\n$1\r\na\r\n$1\r\nb\r\n");
    /// # Ok(())
    /// # }
    /// ```
    pub fn value(&mut self, value: Value<'_>) -> &mut Reply {
        for token in &value.from.tokens[..value.token_count()] {
            match Kind::of(token) {
                kind if kind.has_text() => {
                    let end = token.start + token.size;
                    self.add_text(kind, &value.from.text[token.start..end])
                }
                kind => self.add(kind, token.size, token.number),
            };
        }
        self
    }

    /// The bytes that send this reply. It may be of 1000 levels; a value inside another is one level
    /// deeper.
    ///
    /// # Errors
    ///
    /// [`Error::NoEncoding`] where it isn't exactly one value, or no bytes spell that value: it is too
    /// deep; has CR LF in a simple string, in RESP3 in a big number, or in RESP2 in an error; or has a
    /// push whose first value isn't a bulk string of UTF-8. [`Error::OutOfMemory`].
    ///
    /// ```
    /// use resp_c::{Error, Protocol, Reply};
    ///
    /// # fn main() -> Result<(), Error> {
    /// let mut reply = Reply::new();
    /// reply.array(2).int(1);
    /// assert_eq!(reply.encode(Protocol::Resp3), Err(Error::NoEncoding));
    /// reply.int(2);
    /// assert_eq!(reply.encode(Protocol::Resp3)?, b"*2\r\n:1\r\n:2\r\n");
    /// # Ok(())
    /// # }
    /// ```
    pub fn encode(&self, protocol: Protocol) -> Result<Vec<u8>, Error> {
        encoded(self.lent(), protocol as u32)
    }

    /// The reply as a view of it; `None` where it isn't exactly one value.
    ///
    /// ```
    /// use resp_c::{Parser, Reply};
    ///
    /// # fn main() -> Result<(), resp_c::Error> {
    /// let mut parser = Parser::new()?;
    /// parser.feed(b"*2\r\n$1\r\na\r\n:1\r\n")?;
    /// let kept: Reply = parser.next()?.expect("a whole value").to_reply();
    /// drop(parser);
    /// let view = kept.view().expect("one value");
    /// assert_eq!(format!("{:?}", view.value()), r#"array([bulk-string('"a"'), int(1)])"#);
    /// assert!(Reply::new().array(2).int(1).view().is_none());
    /// # Ok(())
    /// # }
    /// ```
    pub fn view(&self) -> Option<View<'_>> {
        let mut missing = 1_usize;
        for token in &self.tokens {
            missing = missing
                .checked_sub(1)?
                .checked_add(Kind::of(token).checked_parts(token.size)?)?;
        }
        (missing == 0).then(|| View::of(self.lent()))
    }

    fn add(&mut self, kind: Kind, size: usize, number: i64) -> &mut Reply {
        self.tokens.push(RawToken {
            kind: kind as u8,
            size,
            number,
            start: self.text.len(),
        });
        self
    }

    fn add_text(&mut self, kind: Kind, text: &[u8]) -> &mut Reply {
        self.add(kind, text.len(), 0);
        self.text.extend_from_slice(text);
        self
    }

    /// How many levels its value has, where it is one value.
    pub(crate) fn levels(&self) -> usize {
        let mut missing = Vec::new();
        let mut most = 0;
        for token in &self.tokens {
            most = most.max(missing.len() + 1);
            if let Some(count) = missing.last_mut() {
                *count -= 1;
            }
            missing.push(Kind::of(token).parts(token.size));
            while missing.last() == Some(&0) {
                missing.pop();
            }
        }
        most
    }

    /// Its tokens, which may not be one value.
    pub(crate) fn tokens(&self) -> Tokens<'_> {
        View::of(self.lent()).tokens()
    }

    fn lent(&self) -> Lent<'_> {
        Lent {
            tokens: &self.tokens,
            text: &self.text,
        }
    }
}

impl View<'_> {
    /// A copy of this reply, which needs no parser.
    ///
    /// ```
    /// # let mut parser = resp_c::Parser::new().unwrap();
    /// # parser.feed(b"$1\r\na\r\n:2\r\n").unwrap();
    /// let mut kept = Vec::new();
    /// while let Some(view) = parser.next().unwrap() {
    ///     kept.push(view.to_reply());
    /// }
    /// let second = kept[1].view().unwrap();
    /// assert_eq!(second.value().int(), Some(2));
    /// ```
    pub fn to_reply(&self) -> Reply {
        Reply {
            tokens: self.lent.tokens.to_vec(),
            text: self.lent.text.to_vec(),
        }
    }

    /// The bytes that send this reply on. In RESP3 a parser reads them as the same reply; they may
    /// differ from those that were read, as `_` for a null of another form or `-` for an error in a body.
    ///
    /// # Errors
    ///
    /// [`Error::NoEncoding`], only in RESP2 and where an error has CR LF in it. [`Error::OutOfMemory`].
    ///
    /// ```
    /// use resp_c::{Parser, Protocol};
    ///
    /// # fn main() -> Result<(), resp_c::Error> {
    /// let mut parser = Parser::new()?;
    /// parser.feed(b"%1\r\n+pi\r\n,3.14\r\n")?;
    /// let view = parser.next()?.expect("a whole value");
    /// assert_eq!(view.encode(Protocol::Resp3)?, b"%1\r\n+pi\r\n,3.14\r\n");
    /// assert_eq!(view.encode(Protocol::Resp2)?, b"*2\r\n+pi\r\n$4\r\n3.14\r\n");
    /// # Ok(())
    /// # }
    /// ```
    pub fn encode(&self, protocol: Protocol) -> Result<Vec<u8>, Error> {
        encoded(self.lent, protocol as u32)
    }
}

/// The bytes of a reply, in the version of the protocol that has this number.
fn encoded(reply: Lent, protocol: u32) -> Result<Vec<u8>, Error> {
    let room = reply.text.len() + FRAME * reply.tokens.len();
    let call = |out: &mut [u8]| ffi::encode_reply(reply, protocol, out);
    written(room, call).map_err(|status| match status {
        status::MEMORY => Error::OutOfMemory,
        status::RANGE => Error::NoEncoding,
        _ => unreachable!("status {status}"),
    })
}

#[cfg(test)]
mod tests {
    use super::*;

    /// A token of this kind, size and place.
    fn token(kind: u8, size: usize, start: usize) -> RawToken {
        RawToken {
            kind,
            size,
            number: 0,
            start,
        }
    }

    fn encoded_of(tokens: &[RawToken], text: &[u8]) -> Result<Vec<u8>, Error> {
        encoded(Lent { tokens, text }, 3)
    }

    #[test]
    fn kinds_have_their_numbers() {
        for number in 0..15 {
            assert_eq!(Kind::of(&token(number, 0, 0)) as u8, number);
        }
    }

    #[test]
    fn there_are_two_versions() {
        let (tokens, text) = ([token(Kind::Nil as u8, 0, 0)], []);
        for protocol in [0, 1, 4, u32::MAX] {
            let reply = Lent {
                tokens: &tokens,
                text: &text,
            };
            assert_eq!(encoded(reply, protocol), Err(Error::NoEncoding));
        }
    }

    #[test]
    fn a_text_stands_where_its_token_says() {
        let kind = Kind::BulkString as u8;
        assert_eq!(
            encoded_of(&[token(kind, 1, 0)], b"a"),
            Ok(b"$1\r\na\r\n".to_vec())
        );
        for (size, start) in [(1, 1), (2, 0), (0, 0), (usize::MAX, 0), (1, usize::MAX)] {
            let refused = encoded_of(&[token(kind, size, start)], b"a");
            assert_eq!(refused, Err(Error::NoEncoding), "{size} from {start}");
        }
    }

    #[test]
    fn a_kind_that_is_none() {
        for kind in [15, 255] {
            let refused = encoded_of(&[token(kind, 0, 0)], b"");
            assert_eq!(refused, Err(Error::NoEncoding));
        }
    }
}
