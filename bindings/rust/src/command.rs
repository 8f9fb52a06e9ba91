//! Commands of arguments of several types.

use crate::pack::Joined;
use std::fmt;
use std::io::Write;

/// A command as it is made, of arguments of several types.
///
/// To add is to take memory; where that runs out it aborts, as `Vec` does.
///
/// ```
/// use resp_c::Command;
///
/// let bytes = Command::new("SETEX").arg("key").arg(60).arg(b"\xFF").pack();
/// assert_eq!(bytes, b"*4\r\n$5\r\nSETEX\r\n$3\r\nkey\r\n$2\r\n60\r\n$1\r\n\xFF\r\n");
///
/// let bytes = Command::new("DEL").args(["a", "b"]).pack();
/// assert_eq!(bytes, b"*3\r\n$3\r\nDEL\r\n$1\r\na\r\n$1\r\nb\r\n");
/// ```
#[derive(Clone)]
pub struct Command {
    joined: Joined,
}

impl Command {
    /// A command of this name.
    ///
    /// ```
    /// assert_eq!(resp_c::Command::new("PING").pack(), b"*1\r\n$4\r\nPING\r\n");
    /// ```
    pub fn new(name: impl Argument) -> Command {
        let mut command = Command {
            joined: Joined::default(),
        };
        command.arg(name);
        command
    }

    /// Adds an argument.
    ///
    /// ```
    /// let bytes = resp_c::Command::new("GET").arg(String::from("key")).pack();
    /// assert_eq!(bytes, b"*2\r\n$3\r\nGET\r\n$3\r\nkey\r\n");
    /// ```
    pub fn arg(&mut self, argument: impl Argument) -> &mut Command {
        self.joined.add_written(|out| argument.write_to(out));
        self
    }

    /// Adds arguments.
    ///
    /// ```
    /// let bytes = resp_c::Command::new("RPUSH").arg("list").args([1, 2]).pack();
    /// assert_eq!(bytes, b"*4\r\n$5\r\nRPUSH\r\n$4\r\nlist\r\n$1\r\n1\r\n$1\r\n2\r\n");
    /// ```
    pub fn args(&mut self, arguments: impl IntoIterator<Item = impl Argument>) -> &mut Command {
        for argument in arguments {
            self.arg(argument);
        }
        self
    }

    /// The bytes that are sent.
    ///
    /// ```
    /// assert_eq!(resp_c::Command::new("ECHO").arg(1.5).pack(), b"*2\r\n$4\r\nECHO\r\n$3\r\n1.5\r\n");
    /// ```
    pub fn pack(&self) -> Vec<u8> {
        self.joined.packed()
    }
}

impl fmt::Debug for Command {
    fn fmt(&self, f: &mut fmt::Formatter<'_>) -> fmt::Result {
        write!(f, "Command({})", self.pack().escape_ascii())
    }
}

/// One argument of any type, as its bytes: it mixes types in the slices that [`pack`](crate::pack) and
/// [`pack_pipeline`](crate::pack_pipeline) take. A [`Command`] needs no memory for each argument.
///
/// ```
/// use resp_c::{pack_pipeline, Arg};
///
/// let set: Vec<Arg> = vec!["SET".into(), "key".into(), 1.5.into()];
/// let get: Vec<Arg> = vec!["GET".into(), b"key".into()];
/// let wanted = b"*3\r\n$3\r\nSET\r\n$3\r\nkey\r\n$3\r\n1.5\r\n*2\r\n$3\r\nGET\r\n$3\r\nkey\r\n";
/// assert_eq!(pack_pipeline(&[set, get], false), wanted);
/// ```
#[derive(Clone, PartialEq, Eq, Hash)]
pub struct Arg(Vec<u8>);

impl<T: Argument> From<T> for Arg {
    fn from(argument: T) -> Arg {
        let mut bytes = Vec::new();
        argument.write_to(&mut bytes);
        Arg(bytes)
    }
}

impl AsRef<[u8]> for Arg {
    fn as_ref(&self) -> &[u8] {
        &self.0
    }
}

impl fmt::Debug for Arg {
    fn fmt(&self, f: &mut fmt::Formatter<'_>) -> fmt::Result {
        write!(f, "Arg({})", self.0.escape_ascii())
    }
}

/// What is one argument of a command: bytes and texts as they are, and numbers as `{}` prints them.
///
/// ```
/// fn bytes_of(argument: impl resp_c::Argument) -> Vec<u8> {
///     let mut bytes = Vec::new();
///     argument.write_to(&mut bytes);
///     bytes
/// }
///
/// assert_eq!(bytes_of("text"), b"text");
/// assert_eq!(bytes_of(-1_i64), b"-1");
/// assert_eq!(bytes_of(&vec![0_u8, 255]), [0, 255]);
/// ```
pub trait Argument {
    /// Adds its bytes.
    ///
    /// ```
    /// use resp_c::Argument;
    ///
    /// let mut bytes = b"n=".to_vec();
    /// 7_u8.write_to(&mut bytes);
    /// assert_eq!(bytes, b"n=7");
    /// ```
    fn write_to(&self, out: &mut Vec<u8>);
}

impl<T: Argument + ?Sized> Argument for &T {
    fn write_to(&self, out: &mut Vec<u8>) {
        (**self).write_to(out);
    }
}

/// Texts and bytes.
macro_rules! arguments_as_bytes {
    ($($kind:ty),*) => {$(
        impl Argument for $kind {
            fn write_to(&self, out: &mut Vec<u8>) {
                out.extend_from_slice(self.as_ref());
            }
        }
    )*};
}

/// Numbers.
macro_rules! arguments_as_printed {
    ($($kind:ty),*) => {$(
        impl Argument for $kind {
            fn write_to(&self, out: &mut Vec<u8>) {
                write!(out, "{self}").expect("a vector takes all bytes");
            }
        }
    )*};
}

arguments_as_bytes!(str, String, [u8], Vec<u8>);
arguments_as_printed!(i8, i16, i32, i64, i128, isize, u8, u16, u32, u64, u128, usize, f32, f64);

impl<const N: usize> Argument for [u8; N] {
    fn write_to(&self, out: &mut Vec<u8>) {
        out.extend_from_slice(self);
    }
}
