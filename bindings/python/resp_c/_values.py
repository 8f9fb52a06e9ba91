"""Replies as Python values, made of the tokens and the text that the C library shows."""

from __future__ import annotations

import enum
import re
import struct
from dataclasses import dataclass
from typing import Any, Callable, Dict, Hashable, List, Optional, Tuple, Union

from ._library import Kind


class More(enum.Enum):
    """The type of MORE."""

    MORE = enum.auto()

    def __bool__(self) -> bool:
        return False

    def __repr__(self) -> str:
        return "resp_c.MORE"


MORE = More.MORE
"""What `Parser.next` returns where more bytes are needed. It is false, as is None, which is a value."""


class Double(float):
    """A double; `text` is how the server wrote it."""

    __slots__ = ("text",)
    text: str

    def __new__(cls, text: str) -> Double:
        double = super().__new__(cls, text)
        double.text = text
        return double

    def __reduce__(self) -> Tuple[Any, ...]:
        return type(self), (self.text,)


class BigNumber(bytes):
    """The text of a big number that isn't written as one, or has more digits than `int` reads."""


class Verbatim(str):
    """A text for display; `text_format` is its format, as `txt` or `mkd`."""

    text_format: str

    def __new__(cls, text: str, text_format: str) -> Verbatim:
        verbatim = super().__new__(cls, text)
        verbatim.text_format = text_format
        return verbatim

    def __reduce__(self) -> Tuple[Any, ...]:
        return type(self), (str(self), self.text_format)


class Set(List[Any]):
    """The members of a set, as the server sent them. A list, since a member may be unhashable."""


class Pairs(List[Tuple[Any, Any]]):
    """The keys and values of a map that isn't a dict, since a key is unhashable or equals another."""


@dataclass
class Attribute:
    """A value, and the attributes that describe it."""

    attributes: Union[Dict[Any, Any], Pairs]
    value: Any


@dataclass
class Push:
    """Out-of-band data: the name of its kind, as `message`, and the values after that."""

    kind: str
    data: List[Any]


class ServerError(Exception):
    """An error that a server sent. It is returned, not raised, and may be raised.

    `code` is the first word, as `ERR` or `WRONGTYPE`, and `detail` what follows, or None.
    """

    def __init__(self, code: str, detail: Optional[str] = None) -> None:
        super().__init__(code, detail)
        self.code = code
        self.detail = detail

    def __str__(self) -> str:
        return self.code if self.detail is None else f"{self.code} {self.detail}"

    def __eq__(self, other: object) -> bool:
        if not isinstance(other, ServerError):
            return NotImplemented
        return (self.code, self.detail) == (other.code, other.detail)

    def __hash__(self) -> int:
        return hash((self.code, self.detail))


Value = Union[
    None, bool, int, float, str, bytes, List[Any], Dict[Any, Any], Attribute, Push, ServerError
]
"""A reply:

=====================================  ==================================
null                                   None
simple string                          str
bulk string                            bytes
integer                                int
error                                  ServerError, returned and not raised
array                                  list
boolean                                bool
double                                 Double, a float
big number                             int, or BigNumber where it is none
map                                    dict, or Pairs
set                                    Set, a list
verbatim string                        Verbatim, a str
push                                   Push
a value with attributes                Attribute
=====================================  ==================================
"""

# A token of the C interface: kind, size, number, start.
_TOKEN = struct.Struct("@BNqN")

_BIG_NUMBER = re.compile(rb"[+-]?[0-9]+")


def value_of(tokens: bytes, text: bytes) -> Value:
    """The value of a reply, from the memory of its tokens and its text.

    The tokens are in preorder. Read from the last one on, the values inside a value are made before
    it: they are the last ones made, in reverse. There is no recursion, however deep the reply is.
    """
    made: List[Any] = []
    for kind, size, number, start in reversed(list(_TOKEN.iter_unpack(tokens))):
        leaf = _LEAVES.get(kind)
        if leaf is not None:
            made.append(leaf(text[start : start + size], number))
        else:
            made.append(_AGGREGATES[kind](made, size))
    value: Value
    (value,) = made
    return value


def _take(made: List[Any], count: int) -> List[Any]:
    """Takes the values made last, in the order of the reply."""
    rest = len(made) - count
    taken = made[rest:]
    del made[rest:]
    taken.reverse()
    return taken


def _take_pairs(made: List[Any], size: int) -> Union[Dict[Any, Any], Pairs]:
    parts = _take(made, 2 * size)
    pairs = Pairs(zip(parts[::2], parts[1::2]))
    if not all(isinstance(key, Hashable) for key, _ in pairs):
        return pairs
    entries = dict(pairs)
    return entries if len(entries) == size else pairs


def _attribute(made: List[Any], size: int) -> Attribute:
    pairs = _take_pairs(made, size)
    return Attribute(pairs, made.pop())


def _push(made: List[Any], size: int) -> Push:
    name, *data = _take(made, size)
    return Push(name.decode(), data)


def big_number(text: bytes) -> Union[int, BigNumber]:
    if not _BIG_NUMBER.fullmatch(text):
        return BigNumber(text)
    try:
        return int(text)
    except ValueError:  # more digits than sys.get_int_max_str_digits()
        return BigNumber(text)


def _server_error(text: bytes) -> ServerError:
    code, space, detail = text.decode().partition(" ")
    return ServerError(code, detail if space else None)


def _verbatim(text: bytes) -> Verbatim:
    text_format, _, shown = text.decode().partition(":")
    return Verbatim(shown, text_format)


_LEAVES: Dict[int, Callable[[bytes, int], Any]] = {
    Kind.NIL: lambda text, number: None,
    Kind.OKAY: lambda text, number: "OK",
    Kind.INT: lambda text, number: number,
    Kind.SIMPLE_STRING: lambda text, number: text.decode(),
    Kind.BULK_STRING: lambda text, number: text,
    Kind.SERVER_ERROR: lambda text, number: _server_error(text),
    Kind.BOOLEAN: lambda text, number: number == 1,
    Kind.DOUBLE: lambda text, number: Double(text.decode()),
    Kind.BIG_NUMBER: lambda text, number: big_number(text),
    Kind.VERBATIM_STRING: lambda text, number: _verbatim(text),
}

_AGGREGATES: Dict[int, Callable[[List[Any], int], Any]] = {
    Kind.ARRAY: _take,
    Kind.MAP: _take_pairs,
    Kind.ATTRIBUTE: _attribute,
    Kind.SET: lambda made, size: Set(_take(made, size)),
    Kind.PUSH: _push,
}
