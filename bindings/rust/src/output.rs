//! Room for what the C library writes.

use crate::ffi::status;

/// The most bytes before and after a text: a type byte, 20 digits, and CR LF twice.
pub(crate) const FRAME: usize = 25;

/// What a call writes, which is made again where the room isn't enough; or the status of a call that
/// writes nothing, [`status::MEMORY`] also where there is no memory for the room.
///
/// The call returns its status, and how many bytes it wrote or wants.
pub(crate) fn written(
    mut room: usize,
    call: impl Fn(&mut [u8]) -> (u32, usize),
) -> Result<Vec<u8>, u32> {
    let mut out = Vec::new();
    loop {
        if out.try_reserve_exact(room).is_err() {
            return Err(status::MEMORY);
        }
        out.resize(room, 0);
        match call(&mut out) {
            (status::DONE, size) => {
                out.truncate(size);
                return Ok(out);
            }
            (status::ROOM, size) => {
                out.clear();
                room = size;
            }
            (status, _) => return Err(status),
        }
    }
}

#[cfg(test)]
mod tests {
    use super::*;
    use crate::ffi;

    #[test]
    fn room_that_is_too_small_grows() {
        for room in [0, 1, 13, 14, 15] {
            let packed = written(room, |out| ffi::pack(b"PING", &[4], out));
            assert_eq!(packed, Ok(b"*1\r\n$4\r\nPING\r\n".to_vec()));
        }
    }

    #[test]
    fn room_that_no_memory_has_is_refused() {
        let packed = written(usize::MAX, |_| unreachable!("there is no room"));
        assert_eq!(packed, Err(status::MEMORY));
    }

    #[test]
    fn a_call_that_writes_nothing_gives_its_status() {
        // The sizes don't add up.
        let packed = written(9, |out| ffi::pack(b"PING", &[5], out));
        assert_eq!(packed, Err(status::RANGE));
    }
}
