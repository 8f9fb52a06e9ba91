//! The parser.

use crate::error::Error;
use crate::ffi::Handle;
use crate::view::View;
use std::fmt;
use std::io::{self, ErrorKind, Read};

/// How deep a value may be, and how many bytes may spell it.
///
/// ```
/// use resp_c::Limits;
///
/// let limits = Limits { bytes: 1 << 20, ..Limits::default() };
/// assert_eq!(limits.depth, 100);
/// ```
#[derive(Debug, Clone, Copy, PartialEq, Eq, Hash)]
pub struct Limits {
    /// The levels of a value, 1 to 1000: a value inside another is one level deeper.
    pub depth: usize,
    /// The bytes of the outermost value, 1 to 2^63 - 1.
    pub bytes: usize,
}

impl Default for Limits {
    /// 100 levels and 2^63 - 1 bytes.
    fn default() -> Limits {
        Limits {
            depth: 100,
            bytes: isize::MAX as usize,
        }
    }
}

/// The number of [`State::InProgress`].
const IN_PROGRESS: u32 = 2;

/// How many bytes are read at once.
const PIECE: usize = 16384;

/// What a parser can do next.
///
/// ```
/// use resp_c::{Parser, State};
///
/// # fn main() -> Result<(), resp_c::Error> {
/// let mut parser = Parser::new()?;
/// assert_eq!(parser.state(), State::BetweenValues);
/// parser.feed(b"+O")?;
/// assert_eq!(parser.state(), State::InProgress);
/// # Ok(())
/// # }
/// ```
#[derive(Debug, Clone, Copy, PartialEq, Eq, Hash)]
pub enum State {
    /// It has no bytes that it didn't hand out as values.
    BetweenValues,
    /// It has bytes that it didn't hand out: a part of a value, or more.
    InProgress,
    /// It has failed: it takes no more bytes and gives no more values.
    Failed,
}

/// A parser of replies.
///
/// Bytes go in by [`feed`](Parser::feed), and values come out by [`next`](Parser::next). After a
/// fault the parser has failed, since it can't know where the next value begins; both refuse then
/// with [`Error::Failed`]. Dropping it frees what it holds.
///
/// It may go to another thread, but is used by one at a time: it is `Send`, and not `Sync`.
///
/// ```
/// use resp_c::Parser;
///
/// # fn main() -> Result<(), resp_c::Error> {
/// let mut parser = Parser::new()?;
/// parser.feed(b":1\r\n:2\r\n:3")?;
/// let mut sum = 0;
/// while let Some(view) = parser.next()? {
///     sum += view.value().int().unwrap_or(0);
/// }
/// assert_eq!(sum, 3);
/// assert!(parser.in_progress());
/// # Ok(())
/// # }
/// ```
///
/// ```
/// fn is_send<T: Send>() {}
/// is_send::<resp_c::Parser>();
/// ```
///
/// ```compile_fail,E0277
/// fn is_sync<T: Sync>() {}
/// is_sync::<resp_c::Parser>();
/// ```
///
/// A view ends where the parser is used again:
///
/// ```compile_fail,E0499
/// # let mut parser = resp_c::Parser::new().unwrap();
/// parser.feed(b":1\r\n").unwrap();
/// let view = parser.next().unwrap().unwrap();
/// parser.feed(b":2\r\n").unwrap();
/// view.value();
/// ```
pub struct Parser {
    handle: Handle,
}

impl Parser {
    /// A parser with the usual limits: 100 levels, and 2^63 - 1 bytes a value.
    ///
    /// # Errors
    ///
    /// [`Error::OutOfMemory`].
    ///
    /// ```
    /// # fn main() -> Result<(), resp_c::Error> {
    /// let mut parser = resp_c::Parser::new()?;
    /// # Ok(())
    /// # }
    /// ```
    pub fn new() -> Result<Parser, Error> {
        Parser::with_limits(Limits::default())
    }

    /// A parser with these limits.
    ///
    /// # Errors
    ///
    /// [`Error::OutOfRange`] where a limit is, or [`Error::OutOfMemory`].
    ///
    /// ```
    /// use resp_c::{Error, Fault, Limits, Parser};
    ///
    /// # fn main() -> Result<(), Error> {
    /// let mut parser = Parser::with_limits(Limits { depth: 1, bytes: 1024 })?;
    /// parser.feed(b"*1\r\n:1\r\n")?;
    /// let error = parser.next().unwrap_err();
    /// assert_eq!(error, Error::Fault { fault: Fault::TooDeep, offset: 5 });
    /// # Ok(())
    /// # }
    /// ```
    pub fn with_limits(limits: Limits) -> Result<Parser, Error> {
        let handle = Handle::open(limits.depth, limits.bytes)?;
        Ok(Parser { handle })
    }

    /// Adds bytes. They are copied.
    ///
    /// # Errors
    ///
    /// [`Error::OutOfMemory`] and [`Error::Failed`]; nothing changed then.
    ///
    /// ```
    /// # fn main() -> Result<(), resp_c::Error> {
    /// let mut parser = resp_c::Parser::new()?;
    /// parser.feed(b"+PO")?;
    /// parser.feed(b"NG\r\n")?;
    /// assert!(parser.next()?.is_some());
    /// # Ok(())
    /// # }
    /// ```
    #[inline]
    pub fn feed(&mut self, bytes: &[u8]) -> Result<(), Error> {
        self.handle.feed(bytes)
    }

    /// Takes the next value; `None` where more bytes are needed.
    ///
    /// # Errors
    ///
    /// [`Error::Fault`] where the bytes can't begin a value, and [`Error::OutOfMemory`]; the parser
    /// has failed then. [`Error::Failed`] where it had before.
    ///
    /// ```
    /// # fn main() -> Result<(), resp_c::Error> {
    /// let mut parser = resp_c::Parser::new()?;
    /// parser.feed(b"$5\r\nhello\r\n$5\r\nwor")?;
    /// let view = parser.next()?.expect("a whole value");
    /// assert_eq!(view.value().bytes(), Some(b"hello".as_slice()));
    /// assert!(parser.next()?.is_none());
    /// # Ok(())
    /// # }
    /// ```
    // `Iterator` can't be implemented: the view borrows the parser.
    #[allow(clippy::should_implement_trait)]
    #[inline]
    pub fn next(&mut self) -> Result<Option<View<'_>>, Error> {
        Ok(self.handle.next()?.map(View::of))
    }

    /// Takes the next value, for which it reads as often as it needs; `None` where the reader ends
    /// before one begins. What is read beyond it is kept.
    ///
    /// # Errors
    ///
    /// Those of the reader, but for an interruption, after which it reads again. The parser is as it
    /// was then, and may go on. [`ErrorKind::UnexpectedEof`] where the reader ends within a value; and
    /// the errors of [`next`](Parser::next) and [`feed`](Parser::feed), as [`io::Error`] has them.
    ///
    /// ```
    /// # fn main() -> std::io::Result<()> {
    /// let mut connection: &[u8] = b"+PONG\r\n:7\r\n";
    /// let mut parser = resp_c::Parser::new()?;
    /// let view = parser.read_next(&mut connection)?.expect("a reply");
    /// assert_eq!(view.value().text(), Some("PONG"));
    /// let view = parser.read_next(&mut connection)?.expect("a reply");
    /// assert_eq!(view.value().int(), Some(7));
    /// assert!(parser.read_next(&mut connection)?.is_none());
    /// # Ok(())
    /// # }
    /// ```
    pub fn read_next<R: Read + ?Sized>(&mut self, reader: &mut R) -> io::Result<Option<View<'_>>> {
        let mut piece = [0; PIECE];
        let next = self.handle.next_after(|handle| loop {
            match reader.read(&mut piece) {
                Ok(0) if handle.state() == IN_PROGRESS => {
                    let within = "the reader ends within a value";
                    return Err(io::Error::new(ErrorKind::UnexpectedEof, within));
                }
                Ok(0) => return Ok(false),
                Ok(size) => {
                    handle.feed(&piece[..size])?;
                    return Ok(true);
                }
                Err(error) if error.kind() == ErrorKind::Interrupted => {}
                Err(error) => return Err(error),
            }
        })?;
        Ok(next.map(View::of))
    }

    /// The value at the start of bytes that are all there, and how many of them spell it; `None`
    /// where they are incomplete. The limits are this parser's. What it was fed isn't touched, and
    /// it may have failed.
    ///
    /// # Errors
    ///
    /// [`Error::Fault`], whose offset is after how many of the bytes the fault shows, and
    /// [`Error::OutOfMemory`]. The parser hasn't failed by either.
    ///
    /// ```
    /// # fn main() -> Result<(), resp_c::Error> {
    /// let mut parser = resp_c::Parser::new()?;
    /// let bytes = b":1\r\n:2\r\n";
    /// let (view, taken) = parser.first(bytes)?.expect("a whole value");
    /// assert_eq!(view.value().int(), Some(1));
    /// assert_eq!(&bytes[taken..], b":2\r\n");
    /// # Ok(())
    /// # }
    /// ```
    pub fn first(&mut self, bytes: &[u8]) -> Result<Option<(View<'_>, usize)>, Error> {
        let first = self.handle.first(bytes)?;
        Ok(first.map(|(lent, taken)| (View::of(lent), taken)))
    }

    /// The state of the parser.
    ///
    /// ```
    /// # fn main() -> Result<(), resp_c::Error> {
    /// let parser = resp_c::Parser::new()?;
    /// assert_eq!(parser.state(), resp_c::State::BetweenValues);
    /// # Ok(())
    /// # }
    /// ```
    pub fn state(&self) -> State {
        match self.handle.state() {
            1 => State::BetweenValues,
            IN_PROGRESS => State::InProgress,
            _ => State::Failed,
        }
    }

    /// Whether the parser has bytes that it didn't hand out as values. Where [`next`](Parser::next)
    /// has just given `None`, they are the beginning of a value.
    ///
    /// ```
    /// # fn main() -> Result<(), resp_c::Error> {
    /// let mut parser = resp_c::Parser::new()?;
    /// parser.feed(b"*1\r\n")?;
    /// assert!(parser.next()?.is_none());
    /// assert!(parser.in_progress());
    /// # Ok(())
    /// # }
    /// ```
    pub fn in_progress(&self) -> bool {
        self.state() == State::InProgress
    }
}

impl fmt::Debug for Parser {
    fn fmt(&self, f: &mut fmt::Formatter<'_>) -> fmt::Result {
        f.debug_struct("Parser")
            .field("state", &self.state())
            .finish()
    }
}
