//! The C interface. All unsafe code of this crate is here.
//!
//! What the interface asks of its caller, in short:
//!
//! - a handle is all zero before it is opened; it is never copied, read or written by the program,
//!   and serves one call at a time;
//! - a slice is a pointer and a length; the pointer is never null, and may be anything else where
//!   the length is 0;
//! - a view is lent until the next call with the same handle.

use crate::error::{Error, Fault};
use std::cell::UnsafeCell;
use std::ffi::c_void;
use std::ptr;
use std::slice;

/// What the calls return.
pub(crate) mod status {
    pub(crate) const MORE: u32 = 0;
    pub(crate) const DONE: u32 = 1;
    pub(crate) const FAULT: u32 = 2;
    pub(crate) const MEMORY: u32 = 3;
    pub(crate) const FAILED: u32 = 4;
    pub(crate) const ROOM: u32 = 6;
    pub(crate) const RANGE: u32 = 7;
}

/// `resp_parser` of the C interface. Rust code reads neither field: `live` is a `bool` in C, and a
/// `u8` here has the same layout.
#[repr(C)]
struct RawParser {
    at: *mut c_void,
    live: u8,
}

/// `resp_token` of the C interface.
#[repr(C)]
#[derive(Clone, Copy)]
pub(crate) struct RawToken {
    pub(crate) kind: u8,
    pub(crate) size: usize,
    pub(crate) number: i64,
    pub(crate) start: usize,
}

/// `resp_view` of the C interface.
#[repr(C)]
struct RawView {
    tokens: *const RawToken,
    token_count: usize,
    text: *const u8,
    text_size: usize,
}

extern "C" {
    fn resp_parser_open_within(parser: *mut RawParser, depth: usize, bytes: usize) -> u32;
    fn resp_parser_close(parser: *mut RawParser);
    fn resp_parser_feed(parser: *mut RawParser, bytes: *const u8, size: usize) -> u32;
    fn resp_parser_next(parser: *mut RawParser, view: *mut RawView) -> u32;
    fn resp_parser_first(
        parser: *mut RawParser,
        bytes: *const u8,
        size: usize,
        view: *mut RawView,
        taken: *mut usize,
    ) -> u32;
    fn resp_parser_state(parser: *mut RawParser) -> u32;
    fn resp_parser_fault(parser: *mut RawParser, offset: *mut usize) -> u32;
    fn resp_pack(
        args: *const u8,
        args_size: usize,
        sizes: *const usize,
        count: usize,
        out: *mut u8,
        room: usize,
        size: *mut usize,
    ) -> u32;
    fn resp_pack_pipeline(
        args: *const u8,
        args_size: usize,
        sizes: *const usize,
        size_count: usize,
        counts: *const usize,
        command_count: usize,
        atomic: bool,
        out: *mut u8,
        room: usize,
        size: *mut usize,
    ) -> u32;
    fn resp_encode_reply(
        tokens: *const RawToken,
        token_count: usize,
        text: *const u8,
        text_size: usize,
        protocol: u32,
        out: *mut u8,
        room: usize,
        size: *mut usize,
    ) -> u32;
    fn resp_version() -> u32;
}

/// The tokens and the text of a reply, lent by a handle or by a [`Reply`](crate::Reply).
#[derive(Clone, Copy)]
pub(crate) struct Lent<'a> {
    pub(crate) tokens: &'a [RawToken],
    pub(crate) text: &'a [u8],
}

/// A handle with an open parser, which is closed when it is dropped.
///
/// It has no `Clone`, so that no copy is made; a move is none, since Rust doesn't use the old place
/// again. The cell lets [`Handle::state`] take a shared reference; it makes this type not `Sync`, so
/// that no other thread has one, and no call calls back, so that one call runs at a time.
pub(crate) struct Handle {
    raw: UnsafeCell<RawParser>,
}

// SAFETY: a handle may be used in another thread than the one that opened it, by one at a time and
// with an order between their calls. `Send` gives these: a value goes to a thread by what orders
// memory, and the type isn't `Sync`. The library is proved to own nothing that a thread is bound to
// (`law_of_sent_handles` of `crates/resp_c`). It frees by `free`, which may be called anywhere.
unsafe impl Send for Handle {}

impl Handle {
    /// Opens a parser within these limits.
    pub(crate) fn open(depth: usize, bytes: usize) -> Result<Handle, Error> {
        let mut handle = Handle {
            raw: UnsafeCell::new(RawParser {
                at: ptr::null_mut(),
                live: 0,
            }),
        };
        // SAFETY: the call asks for a handle that is all zero or open, and for one call at a time.
        // This one was made above, all zero, and nothing else has a reference to it.
        let status = unsafe { resp_parser_open_within(handle.raw.get_mut(), depth, bytes) };
        done(status).map(|()| handle)
    }

    /// Adds bytes.
    #[inline]
    pub(crate) fn feed(&mut self, bytes: &[u8]) -> Result<(), Error> {
        // SAFETY: the call asks for an open handle, which `self` is since `open`; for one call at
        // a time, which the unique reference gives; and for `size` readable bytes at a pointer that
        // isn't null, which a slice is. It keeps no pointer to them.
        done(unsafe { resp_parser_feed(self.raw.get_mut(), bytes.as_ptr(), bytes.len()) })
    }

    /// Takes the next value, if it is there.
    #[inline]
    pub(crate) fn next(&mut self) -> Result<Option<Lent<'_>>, Error> {
        let mut view = RawView::EMPTY;
        if !self.advance(&mut view)? {
            return Ok(None);
        }
        // SAFETY: `lend` asks for a view that a call of the handle showed, and for no call with the
        // handle as long as it is lent. It was the last call, and the result borrows `self` mutably.
        Ok(Some(unsafe { lend(&view) }))
    }

    /// The same; where it isn't there, `more` feeds bytes, and is asked again until it has none.
    pub(crate) fn next_after<E: From<Error>>(
        &mut self,
        mut more: impl FnMut(&mut Handle) -> Result<bool, E>,
    ) -> Result<Option<Lent<'_>>, E> {
        let mut view = RawView::EMPTY;
        while !self.advance(&mut view)? {
            if !more(self)? {
                return Ok(None);
            }
        }
        // SAFETY: as in `next`; `advance` was the last call.
        Ok(Some(unsafe { lend(&view) }))
    }

    /// Whether the next value is there, which the view shows then.
    #[inline]
    fn advance(&mut self, view: &mut RawView) -> Result<bool, Error> {
        // SAFETY: the call asks for an open handle and one call at a time, as in `feed`, and for a
        // view that it may write, which a unique reference gives.
        match unsafe { resp_parser_next(self.raw.get_mut(), view) } {
            status::DONE => Ok(true),
            status::MORE => Ok(false),
            status::FAULT => Err(self.fault(None)),
            status => Err(failure(status)),
        }
    }

    /// The value at the start of the bytes, if it is there, and how many bytes spell it.
    pub(crate) fn first(&mut self, bytes: &[u8]) -> Result<Option<(Lent<'_>, usize)>, Error> {
        let mut view = RawView::EMPTY;
        let mut taken = 0;
        // SAFETY: the call asks for an open handle and one call at a time, as in `feed`; for a
        // slice, as there; and for a view and a number that it may write, which the local ones are.
        let status = unsafe {
            resp_parser_first(
                self.raw.get_mut(),
                bytes.as_ptr(),
                bytes.len(),
                &mut view,
                &mut taken,
            )
        };
        match status {
            status::MORE => Ok(None),
            // SAFETY: as in `next`; the call showed it, and the result borrows `self` mutably.
            status::DONE => Ok(Some((unsafe { lend(&view) }, taken))),
            status::FAULT => Err(self.fault(Some(taken))),
            status => Err(failure(status)),
        }
    }

    /// The number of the state of the parser.
    pub(crate) fn state(&self) -> u32 {
        // SAFETY: the call asks for an open handle and for one call at a time. The handle is open
        // since `open`. Another call would have to come from another thread, which can't have a
        // reference since the type isn't `Sync`, or from within this one, which calls nothing back.
        // No reference into the cell and no view is alive: both borrow the handle mutably.
        unsafe { resp_parser_state(self.raw.get()) }
    }

    /// The fault that was met last, with this offset, or else the one that the parser has of it.
    fn fault(&mut self, place: Option<usize>) -> Error {
        let mut offset = 0;
        // SAFETY: the call asks for an open handle and one call at a time, as in `feed`, and for a
        // number that it may write, which the local one is.
        let number = unsafe { resp_parser_fault(self.raw.get_mut(), &mut offset) };
        Error::Fault {
            fault: Fault::of_number(number),
            offset: place.unwrap_or(offset),
        }
    }
}

/// Whether a call that returns no value was done.
#[inline]
fn done(status: u32) -> Result<(), Error> {
    match status {
        status::DONE => Ok(()),
        status => Err(failure(status)),
    }
}

/// The error of a status that stands for one, other than a fault.
fn failure(status: u32) -> Error {
    match status {
        status::MEMORY => Error::OutOfMemory,
        status::FAILED => Error::Failed,
        status::RANGE => Error::OutOfRange,
        _ => unreachable!("status {status}"),
    }
}

impl Drop for Handle {
    fn drop(&mut self) {
        // SAFETY: the call asks for a handle that is all zero or open, as every `Handle` is, and
        // for one call at a time, which the unique reference gives. Views have ended: they borrow
        // the handle.
        unsafe { resp_parser_close(self.raw.get_mut()) }
    }
}

impl RawView {
    /// A view of nothing.
    const EMPTY: RawView = RawView {
        tokens: ptr::null(),
        token_count: 0,
        text: ptr::null(),
        text_size: 0,
    };
}

/// What a view shows.
///
/// # Safety
///
/// A call with a handle showed the view, and no call is made with that handle in the lifetime `'a`.
#[inline]
unsafe fn lend<'a>(view: &RawView) -> Lent<'a> {
    Lent {
        // SAFETY: the handle shows initialised memory that it owns, and doesn't write it before the
        // next call, which the caller puts off.
        tokens: unsafe { slice_of(view.tokens, view.token_count) },
        // SAFETY: the same.
        text: unsafe { slice_of(view.text, view.text_size) },
    }
}

/// The slice of a pointer and a length. The pointer isn't looked at where the length is 0.
///
/// # Safety
///
/// Where `count` isn't 0, `count` values at `at` can be read in the lifetime `'a`, and nothing
/// writes them.
#[inline]
unsafe fn slice_of<'a, T>(at: *const T, count: usize) -> &'a [T] {
    if count == 0 {
        return &[];
    }
    // SAFETY: the caller promises what `from_raw_parts` asks.
    unsafe { slice::from_raw_parts(at, count) }
}

/// Packs a command: its arguments one after another, and the size of each. Returns the status and
/// how many bytes were written, or are needed.
pub(crate) fn pack(args: &[u8], sizes: &[usize], out: &mut [u8]) -> (u32, usize) {
    let mut size = 0;
    // SAFETY: the call asks for slices of bytes and of sizes to read, and for a slice of bytes and
    // a number to write, none of them null; references are all that. It keeps no pointer.
    let status = unsafe {
        resp_pack(
            args.as_ptr(),
            args.len(),
            sizes.as_ptr(),
            sizes.len(),
            out.as_mut_ptr(),
            out.len(),
            &mut size,
        )
    };
    (status, size)
}

/// The same of several commands; `counts` says how many arguments each has.
pub(crate) fn pack_pipeline(
    args: &[u8],
    sizes: &[usize],
    counts: &[usize],
    atomic: bool,
    out: &mut [u8],
) -> (u32, usize) {
    let mut size = 0;
    // SAFETY: as in `pack`, with one more slice of sizes to read.
    let status = unsafe {
        resp_pack_pipeline(
            args.as_ptr(),
            args.len(),
            sizes.as_ptr(),
            sizes.len(),
            counts.as_ptr(),
            counts.len(),
            atomic,
            out.as_mut_ptr(),
            out.len(),
            &mut size,
        )
    };
    (status, size)
}

/// Encodes a reply, in the version of the protocol that has this number. Returns the status and how
/// many bytes were written, or are needed.
pub(crate) fn encode_reply(reply: Lent, protocol: u32, out: &mut [u8]) -> (u32, usize) {
    let mut size = 0;
    // SAFETY: the call asks for slices of tokens and of bytes to read, and for a slice of bytes and
    // a number to write, none of them null; references are all that. Tokens may be any numbers. It
    // isn't a call with a handle, so what a handle lends stays lent. It keeps no pointer.
    let status = unsafe {
        resp_encode_reply(
            reply.tokens.as_ptr(),
            reply.tokens.len(),
            reply.text.as_ptr(),
            reply.text.len(),
            protocol,
            out.as_mut_ptr(),
            out.len(),
            &mut size,
        )
    };
    (status, size)
}

/// The version of the archive.
pub(crate) fn version() -> u32 {
    // SAFETY: the call asks for nothing.
    unsafe { resp_version() }
}
