"""The parser."""

from __future__ import annotations

import enum
from typing import Iterator, Tuple, Union, cast

from ._core import Core
from ._values import MORE, Value

_DEPTH = 100
_SIZE = 2**63 - 1


class State(enum.IntEnum):
    """What a parser can do next, by the number that the C interface has for it."""

    CLOSED = 0
    """It was closed."""
    BETWEEN_VALUES = 1
    """It has no bytes that it didn't hand out as values."""
    IN_PROGRESS = 2
    """It has bytes that it didn't hand out: a part of a value, or more."""
    FAILED = 3
    """It has failed: it takes no more bytes and gives no more values."""


class Parser(Core):
    """A parser of replies: bytes go in by `feed`, and values come out by `next` or by iteration.

    >>> parser = Parser()
    >>> parser.feed(b":1\\r\\n+PONG\\r\\n$3\\r\\nab")
    >>> list(parser)
    [1, 'PONG']
    >>> parser.in_progress
    True

    `depth` limits the levels of a value (1 to 1000), `size` its bytes (1 to 2**63 - 1).

    A server's error is a value: it is returned as a ServerError. Where the bytes can't begin a value,
    ProtocolError is raised. The parser has failed then, and `feed` and `next` raise
    ParserFailedError.

    It may be used by one thread at a time; a call while another one runs raises RuntimeError. It is
    closed by `close`, at the end of a `with` statement, or when it is collected.
    """

    def __init__(self, *, depth: int = _DEPTH, size: int = _SIZE) -> None:
        if not (1 <= depth <= 1000 and 1 <= size <= _SIZE):
            raise ValueError("depth must be 1 to 1000, and size 1 to 2**63 - 1")
        super().__init__(depth, size)

    def __iter__(self) -> Iterator[Value]:
        """Takes values until more bytes are needed."""
        while (value := self.next()) is not MORE:
            yield cast(Value, value)

    @property
    def state(self) -> State:
        """The state of the parser."""
        return State(self._state())

    @property
    def in_progress(self) -> bool:
        """Whether the parser has bytes that it didn't hand out as values. After `next` has returned
        MORE, they are the beginning of a value."""
        return self._state() == State.IN_PROGRESS

    def __enter__(self) -> Parser:
        return self

    def __exit__(self, *_: object) -> None:
        self.close()

    def __reduce__(self) -> str:
        raise TypeError("a parser can't be copied or pickled")

    def __repr__(self) -> str:
        return f"<resp_c.Parser {self.state.name}>"


def parse_one(
    data: Union[bytes, bytearray, memoryview], *, depth: int = _DEPTH, size: int = _SIZE
) -> Tuple[Value, int]:
    """The value at the start of bytes that are all there, and how many of them spell it.

    >>> parse_one(b":1\\r\\n:2\\r\\n")
    (1, 4)

    Raises IncompleteError where they end within the value, and ProtocolError where they can't begin
    one. `depth` and `size` are limits, as of a Parser.
    """
    with Parser(depth=depth, size=size) as parser:
        return parser.first(data)
