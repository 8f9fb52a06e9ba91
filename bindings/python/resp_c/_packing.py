"""Commands as the bytes that are sent."""

from __future__ import annotations

import ctypes
from typing import TYPE_CHECKING, Iterable, List, Sequence, Sized, Union

from ._library import library
from ._output import FRAME, written

Argument = Union[bytes, bytearray, memoryview, str, int, float]
"""An argument of a command. Text is sent as UTF-8, and a number as Python writes it."""

if TYPE_CHECKING:
    from ._output import Buffer

# The bytes of MULTI and EXEC.
_TRANSACTION = 29


def pack(*args: Argument) -> bytes:
    """The bytes of a command: its name and its arguments. No arguments give no bytes.

    >>> pack("SET", "key", 1)
    b'*3\\r\\n$3\\r\\nSET\\r\\n$3\\r\\nkey\\r\\n$1\\r\\n1\\r\\n'
    """
    encoded = [_encoded(arg) for arg in args]
    joined, sizes = b"".join(encoded), _sizes(encoded)

    def packer(out: Buffer, size: ctypes.c_size_t) -> int:
        status: int = library.resp_pack(
            *(joined, len(joined)), *(sizes, len(encoded)), *(out, len(out)), size
        )
        return status

    return written(len(joined) + FRAME * (len(encoded) + 1), packer)


def pack_pipeline(commands: Iterable[Iterable[Argument]], atomic: bool = False) -> bytes:
    """The bytes of several commands, one after another; between MULTI and EXEC if `atomic`. A command
    without arguments is an array of nothing there.

    >>> pack_pipeline([("INCR", "a"), ("PING",)])
    b'*2\\r\\n$4\\r\\nINCR\\r\\n$1\\r\\na\\r\\n*1\\r\\n$4\\r\\nPING\\r\\n'
    """
    listed = [_encoded_command(command) for command in commands]
    encoded = [arg for command in listed for arg in command]
    joined, sizes = b"".join(encoded), _sizes(encoded)
    counts = _sizes(listed)

    def packer(out: Buffer, size: ctypes.c_size_t) -> int:
        status: int = library.resp_pack_pipeline(
            *(joined, len(joined)),
            *(sizes, len(encoded)),
            *(counts, len(listed)),
            bool(atomic),
            *(out, len(out)),
            size,
        )
        return status

    room = len(joined) + FRAME * (len(encoded) + len(listed)) + _TRANSACTION
    return written(room, packer)


def version() -> str:
    """The version of the C library, as '0.1.0'."""
    number = library.resp_version()
    return f"{number >> 16}.{number >> 8 & 255}.{number & 255}"


def _encoded(arg: Argument) -> bytes:
    if isinstance(arg, bytes):
        return arg
    if isinstance(arg, str):
        return arg.encode()
    if isinstance(arg, bool):
        raise TypeError("a bool isn't an argument; send an int or a text")
    if isinstance(arg, int):
        return b"%d" % arg
    if isinstance(arg, float):
        return float.__repr__(arg).encode()
    return memoryview(arg).tobytes()


def _encoded_command(command: Iterable[Argument]) -> List[bytes]:
    if isinstance(command, (str, bytes, bytearray, memoryview)):
        raise TypeError("a command is a sequence of arguments, not one argument")
    return [_encoded(arg) for arg in command]


def _sizes(parts: Sequence[Sized]) -> ctypes.Array[ctypes.c_size_t]:
    """The length of each part; one more place than parts, so that it is never empty."""
    sizes = [len(part) for part in parts]
    return (ctypes.c_size_t * (len(sizes) + 1))(*sizes)
