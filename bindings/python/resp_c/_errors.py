"""What the calls raise, beside MemoryError, ValueError and TypeError."""

from __future__ import annotations

import enum


class Fault(enum.IntEnum):
    """Why bytes can't begin a value, by the number that the C interface has for it."""

    TOO_DEEP = 1
    """A value is deeper than the limit on the depth."""
    UNKNOWN_TYPE = 2
    """The first byte of a value is no type byte."""
    LINE_NOT_UTF8 = 3
    """A line isn't UTF-8."""
    NOT_INTEGER = 4
    """A line that has to be an integer is none, or one that doesn't fit 64 bits."""
    NEGATIVE_LENGTH = 5
    """A length is negative where none may be."""
    BODY_END = 6
    """The bytes after a body aren't CR LF."""
    NOT_BOOLEAN = 7
    """A boolean is neither `t` nor `f`."""
    NOT_DOUBLE = 8
    """A double isn't written as one."""
    NO_VERBATIM_FORMAT = 9
    """A verbatim string has no format."""
    BAD_PUSH_KIND = 10
    """The first element of a push doesn't name its kind."""
    TOO_LONG = 11
    """A value is longer than the limit on the size."""
    TOO_MANY_PUSHES = 12
    """A connection was sent more bytes of pushes than it sets aside; a parser never answers it."""


class RespError(Exception):
    """What this package raises of its own."""


class ProtocolError(RespError):
    """The bytes can't begin a value.

    `fault` says why; `offset` is how many bytes show it, counted after the last value and with the
    byte that shows it.
    """

    def __init__(self, fault: Fault, offset: int) -> None:
        super().__init__(fault, offset)
        self.fault = fault
        self.offset = offset

    def __str__(self) -> str:
        return f"{self.fault.name} at byte {self.offset}"


class ParserFailedError(RespError):
    """The parser has failed before, and can't go on."""


class IncompleteError(RespError):
    """The bytes end within a value."""
