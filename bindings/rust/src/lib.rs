//! A RESP (Redis protocol) parser, command packer and reply encoder over the C library of
//! `resp_core`, in which every function is proved to meet its contract. This wrapper isn't proved;
//! its unsafe code is in one private module, `ffi`.
//!
//! A [`Parser`] takes bytes in any pieces and gives whole replies, in RESP2 and RESP3. A reply is a
//! [`View`] of memory that the parser owns: nothing is copied, and it is valid until the parser is
//! used again.
//!
//! ```
//! use resp_c::{Kind, Parser};
//!
//! # fn main() -> Result<(), resp_c::Error> {
//! let mut parser = Parser::new()?;
//! parser.feed(b"*2\r\n$5\r\nhello\r\n:7")?;
//! assert!(parser.next()?.is_none());
//!
//! parser.feed(b"\r\n")?;
//! let view = parser.next()?.expect("the reply is whole");
//! let items: Vec<_> = view.value().elements().collect();
//! assert_eq!(items[0].bytes(), Some(b"hello".as_slice()));
//! assert_eq!(items[1].kind(), Kind::Int);
//! assert_eq!(items[1].int(), Some(7));
//! # Ok(())
//! # }
//! ```
//!
//! [`pack`] and [`pack_pipeline`] make the bytes of commands:
//!
//! ```
//! assert_eq!(resp_c::pack(&["GET", "key"]), b"*2\r\n$3\r\nGET\r\n$3\r\nkey\r\n");
//! ```
//!
//! A [`Command`] takes arguments of several types, as [`pack`] does by [`Arg`], and [`Parser::read_next`] reads replies from a
//! connection. A value is converted by [`TryFrom`]:
//!
//! ```
//! use resp_c::{Command, Parser};
//! use std::io::{self, Read, Write};
//!
//! fn visits(connection: &mut (impl Read + Write), parser: &mut Parser) -> io::Result<i64> {
//!     connection.write_all(&Command::new("INCRBY").arg("visits").arg(2).pack())?;
//!     let view = parser.read_next(connection)?.ok_or(io::ErrorKind::UnexpectedEof)?;
//!     Ok(view.value().try_into()?)
//! }
//! # struct Peer(&'static [u8], Vec<u8>);
//! # impl Read for Peer {
//! #     fn read(&mut self, out: &mut [u8]) -> io::Result<usize> { self.0.read(out) }
//! # }
//! # impl Write for Peer {
//! #     fn write(&mut self, bytes: &[u8]) -> io::Result<usize> { self.1.write(bytes) }
//! #     fn flush(&mut self) -> io::Result<()> { Ok(()) }
//! # }
//! # let mut peer = Peer(b":7\r\n", Vec::new());
//! # assert_eq!(visits(&mut peer, &mut Parser::new().unwrap()).unwrap(), 7);
//! # assert_eq!(peer.1, b"*3\r\n$6\r\nINCRBY\r\n$6\r\nvisits\r\n$1\r\n2\r\n");
//! ```
//!
//! A server or a mock makes a [`Reply`] and encodes it, in RESP3 or in RESP2. A proxy encodes a
//! [`View`] again, or puts parts of it into a reply:
//!
//! ```
//! use resp_c::{Parser, Protocol, Reply};
//!
//! # fn main() -> Result<(), resp_c::Error> {
//! let mut reply = Reply::new();
//! reply.map(1).bulk_string("key").boolean(true);
//! assert_eq!(reply.encode(Protocol::Resp3)?, b"%1\r\n$3\r\nkey\r\n#t\r\n");
//!
//! let mut parser = Parser::new()?;
//! parser.feed(b"%1\r\n$3\r\nkey\r\n#t\r\n")?;
//! let view = parser.next()?.expect("the reply is whole");
//! assert_eq!(view.encode(Protocol::Resp2)?, b"*2\r\n$3\r\nkey\r\n:1\r\n");
//! # Ok(())
//! # }
//! ```

#![deny(missing_docs)]
#![deny(unsafe_code)]

mod command;
mod convert;
mod encode;
mod error;
#[allow(unsafe_code)]
mod ffi;
mod output;
mod pack;
mod parser;
mod show;
mod view;

pub use command::{Arg, Argument, Command};
pub use encode::{Protocol, Reply};
pub use error::{Error, Fault};
pub use pack::{pack, pack_pipeline, version};
pub use parser::{Limits, Parser, State};
pub use view::{Elements, Kind, Pairs, Token, Tokens, Value, View};

/// The examples of README.md, which are tests, too.
#[cfg(doctest)]
#[doc = include_str!("../README.md")]
struct Readme;
