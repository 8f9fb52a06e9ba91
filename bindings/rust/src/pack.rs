//! Commands as the bytes that are sent.

use crate::ffi::{self, status};
use crate::output::{written, FRAME};

/// The bytes of a command: its name and its arguments. No arguments give no bytes.
///
/// Aborts where memory runs out, as `Vec` does.
///
/// ```
/// let bytes = resp_c::pack(&["SET", "key", "1"]);
/// assert_eq!(bytes, b"*3\r\n$3\r\nSET\r\n$3\r\nkey\r\n$1\r\n1\r\n");
///
/// let bytes = resp_c::pack(&[b"GET".as_slice(), b"\xFF"]);
/// assert_eq!(bytes, b"*2\r\n$3\r\nGET\r\n$1\r\n\xFF\r\n");
/// ```
///
/// Arguments of several types are mixed by [`Arg`](crate::Arg), or added to a
/// [`Command`](crate::Command):
///
/// ```
/// use resp_c::{pack, Arg, Command};
///
/// let bytes = pack::<Arg>(&["SETEX".into(), b"k\xFF".into(), 60.into(), "v".into()]);
/// assert_eq!(bytes, b"*4\r\n$5\r\nSETEX\r\n$2\r\nk\xFF\r\n$2\r\n60\r\n$1\r\nv\r\n");
/// assert_eq!(bytes, Command::new("SETEX").arg(b"k\xFF").arg(60).arg("v").pack());
/// ```
pub fn pack<A: AsRef<[u8]>>(args: &[A]) -> Vec<u8> {
    let mut joined = Joined::default();
    joined.add(args);
    joined.packed()
}

/// The bytes of several commands, one after another; between `MULTI` and `EXEC` if `atomic`. A
/// command without arguments is an array of nothing there.
///
/// Aborts where memory runs out, as `Vec` does.
///
/// ```
/// let commands = [vec!["INCR", "a"], vec!["GET", "a"]];
/// let bytes = resp_c::pack_pipeline(&commands, false);
/// assert_eq!(bytes, b"*2\r\n$4\r\nINCR\r\n$1\r\na\r\n*2\r\n$3\r\nGET\r\n$1\r\na\r\n");
///
/// let bytes = resp_c::pack_pipeline(&[["PING"]], true);
/// assert_eq!(bytes, b"*1\r\n$5\r\nMULTI\r\n*1\r\n$4\r\nPING\r\n*1\r\n$4\r\nEXEC\r\n");
/// ```
pub fn pack_pipeline<C, A>(commands: &[C], atomic: bool) -> Vec<u8>
where
    C: AsRef<[A]>,
    A: AsRef<[u8]>,
{
    let mut joined = Joined::default();
    let mut counts = Vec::with_capacity(commands.len());
    for command in commands {
        joined.add(command.as_ref());
        counts.push(command.as_ref().len());
    }
    packed(joined.room(counts.len()), |out| {
        ffi::pack_pipeline(&joined.bytes, &joined.sizes, &counts, atomic, out)
    })
}

/// The version of the C library: major, minor and patch.
///
/// ```
/// let (major, minor, patch) = resp_c::version();
/// assert!((major, minor, patch) >= (0, 1, 0));
/// ```
pub fn version() -> (u8, u8, u8) {
    let [_, major, minor, patch] = ffi::version().to_be_bytes();
    (major, minor, patch)
}

/// The bytes of `MULTI` and `EXEC`.
const TRANSACTION: usize = 29;

/// Arguments one after another, and the size of each.
#[derive(Clone, Default)]
pub(crate) struct Joined {
    bytes: Vec<u8>,
    sizes: Vec<usize>,
}

impl Joined {
    /// The bytes of these arguments as one command.
    pub(crate) fn packed(&self) -> Vec<u8> {
        packed(self.room(0), |out| ffi::pack(&self.bytes, &self.sizes, out))
    }

    /// Adds an argument, which the function writes.
    pub(crate) fn add_written(&mut self, write: impl FnOnce(&mut Vec<u8>)) {
        let start = self.bytes.len();
        write(&mut self.bytes);
        self.sizes.push(self.bytes.len() - start);
    }

    fn add<A: AsRef<[u8]>>(&mut self, args: &[A]) {
        for arg in args {
            self.bytes.extend_from_slice(arg.as_ref());
            self.sizes.push(arg.as_ref().len());
        }
    }

    /// Room for them in this many commands, and one more.
    fn room(&self, commands: usize) -> usize {
        self.bytes.len() + FRAME * (self.sizes.len() + commands + 1) + TRANSACTION
    }
}

/// What a packer writes.
fn packed(room: usize, packer: impl Fn(&mut [u8]) -> (u32, usize)) -> Vec<u8> {
    match written(room, packer) {
        Ok(bytes) => bytes,
        Err(status::MEMORY) => out_of_memory(room),
        Err(status) => unreachable!("status {status}"),
    }
}

/// Aborts as an allocation of this many bytes does that fails.
fn out_of_memory(size: usize) -> ! {
    match std::alloc::Layout::array::<u8>(size) {
        Ok(layout) => std::alloc::handle_alloc_error(layout),
        Err(_) => panic!("capacity overflow"),
    }
}
