"""The C interface by ctypes."""

from __future__ import annotations

import ctypes
import importlib.util
import os
from ctypes import POINTER, c_bool, c_char_p, c_int64, c_size_t, c_uint8, c_uint32, c_void_p

MORE = 0
DONE = 1
FAULT = 2
MEMORY = 3
FAILED = 4
CLOSED = 5
ROOM = 6
RANGE = 7


class Kind:
    """The numbers of the kinds of tokens."""

    NIL = 0
    OKAY = 1
    INT = 2
    SIMPLE_STRING = 3
    BULK_STRING = 4
    ARRAY = 5
    MAP = 6
    ATTRIBUTE = 7
    SERVER_ERROR = 8
    BOOLEAN = 9
    DOUBLE = 10
    BIG_NUMBER = 11
    SET = 12
    VERBATIM_STRING = 13
    PUSH = 14


class Handle(ctypes.Structure):
    """A parser. All zero until it is opened, and never copied."""

    _fields_ = [("at", c_void_p), ("live", c_bool)]


class Token(ctypes.Structure):
    """One value of a reply. Those of a view are read as bytes."""

    _fields_ = [("kind", c_uint8), ("size", c_size_t), ("number", c_int64), ("start", c_size_t)]


class View(ctypes.Structure):
    """Where a reply lies, until the next call with its handle."""

    _fields_ = [
        ("tokens", c_void_p),
        ("token_count", c_size_t),
        ("text", c_void_p),
        ("text_size", c_size_t),
    ]

    def copied(self) -> tuple[bytes, bytes]:
        """Its tokens and its text."""
        tokens = _copied(self.tokens, self.token_count * ctypes.sizeof(Token))
        return tokens, _copied(self.text, self.text_size)


def _copied(at: int, size: int) -> bytes:
    return ctypes.string_at(at, size) if size else b""


_SIGNATURES = {
    "resp_parser_open_within": (c_uint32, [POINTER(Handle), c_size_t, c_size_t]),
    "resp_parser_close": (None, [POINTER(Handle)]),
    "resp_parser_feed": (c_uint32, [POINTER(Handle), c_char_p, c_size_t]),
    "resp_parser_next": (c_uint32, [POINTER(Handle), POINTER(View)]),
    "resp_parser_first": (
        c_uint32,
        [POINTER(Handle), c_char_p, c_size_t, POINTER(View), POINTER(c_size_t)],
    ),
    "resp_parser_state": (c_uint32, [POINTER(Handle)]),
    "resp_parser_fault": (c_uint32, [POINTER(Handle), POINTER(c_size_t)]),
    "resp_pack": (
        c_uint32,
        [c_char_p, c_size_t, POINTER(c_size_t), c_size_t, c_char_p, c_size_t, POINTER(c_size_t)],
    ),
    "resp_pack_pipeline": (
        c_uint32,
        [
            *(c_char_p, c_size_t),
            *(POINTER(c_size_t), c_size_t),
            *(POINTER(c_size_t), c_size_t),
            c_bool,
            *(c_char_p, c_size_t),
            POINTER(c_size_t),
        ],
    ),
    "resp_encode_reply": (
        c_uint32,
        [
            *(POINTER(Token), c_size_t),
            *(c_char_p, c_size_t),
            c_uint32,
            *(c_char_p, c_size_t),
            POINTER(c_size_t),
        ],
    ),
    "resp_version": (c_uint32, []),
}


def _path() -> str:
    """The library that RESP_C_SO names, or the extension module, which has the same functions."""
    named = os.environ.get("RESP_C_SO")
    if named:
        return named
    found = importlib.util.find_spec("resp_c._fast")
    if found is None or found.origin is None:
        raise ImportError("resp_c has no extension module, and RESP_C_SO names no library")
    return found.origin


def _load() -> ctypes.CDLL:
    library = ctypes.CDLL(_path())
    for name, (result, arguments) in _SIGNATURES.items():
        function = getattr(library, name)
        function.restype = result
        function.argtypes = arguments
    return library


library = _load()
