"""Room for what the C library writes."""

from __future__ import annotations

import ctypes
from typing import TYPE_CHECKING, Callable

from . import _library

if TYPE_CHECKING:
    Buffer = ctypes.Array[ctypes.c_char]

FRAME = 25
"""The most bytes before and after a text: a type byte, 20 digits, and CR LF twice."""


def written(room: int, call: Callable[[Buffer, ctypes.c_size_t], int]) -> bytes:
    """What a call writes, which is made again where the room isn't enough.

    The call is given the room, and a place for how many bytes it wrote or wants; it returns its status.
    Raises MemoryError where memory runs out, and ValueError where no bytes spell a reply.
    """
    size = ctypes.c_size_t()
    status = _library.ROOM
    while status == _library.ROOM:
        out = ctypes.create_string_buffer(max(room, 1))
        status = call(out, size)
        room = size.value
    if status == _library.MEMORY:
        raise MemoryError
    if status == _library.RANGE:
        raise ValueError("no bytes spell the reply")
    assert status == _library.DONE, status
    return ctypes.string_at(out, size.value)
