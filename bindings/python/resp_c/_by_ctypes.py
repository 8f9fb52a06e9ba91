"""The calls of a parser by ctypes."""

from __future__ import annotations

import ctypes
import functools
import threading
from typing import Any, Callable, Tuple, TypeVar, Union, cast

from . import _library
from ._errors import Fault, IncompleteError, ParserFailedError, ProtocolError
from ._library import library
from ._values import MORE, More, Value, value_of

_Method = TypeVar("_Method", bound=Callable[..., Any])


def _alone(method: _Method) -> _Method:
    """A method during which no other call may use the parser: what it reads is lent to it."""

    @functools.wraps(method)
    def alone(self: Core, *args: Any, **keywords: Any) -> Any:
        if not self._lock.acquire(blocking=False):
            raise RuntimeError("the parser is in use by another call")
        try:
            return method(self, *args, **keywords)
        finally:
            self._lock.release()

    return cast(_Method, alone)


class Core:
    """What `Parser` is over, as the extension module has it."""

    def __init__(self, depth: int, size: int) -> None:
        self._lock = threading.Lock()
        self._view = _library.View()
        self._handle = _library.Handle()
        _check(library.resp_parser_open_within(self._handle, depth, size))

    @_alone
    def feed(self, data: Union[bytes, bytearray, memoryview]) -> None:
        """Adds bytes. They are copied."""
        data = _bytes(data)
        _check(library.resp_parser_feed(self._handle, data, len(data)))

    @_alone
    def next(self) -> Union[Value, More]:
        """Takes the next value; MORE where more bytes are needed."""
        status = library.resp_parser_next(self._handle, self._view)
        if status == _library.MORE:
            return MORE
        if status == _library.FAULT:
            raise ProtocolError(*self._fault())
        _check(status)
        return value_of(*self._view.copied())

    @_alone
    def first(self, data: Union[bytes, bytearray, memoryview]) -> Tuple[Value, int]:
        """The value at the start of bytes that are all there, and how many of them spell it."""
        data = _bytes(data)
        taken = ctypes.c_size_t()
        status = library.resp_parser_first(self._handle, data, len(data), self._view, taken)
        if status == _library.MORE:
            raise IncompleteError("the bytes end within a value")
        if status == _library.FAULT:
            fault, _ = self._fault()
            raise ProtocolError(fault, taken.value)
        _check(status)
        return value_of(*self._view.copied()), taken.value

    @_alone
    def close(self) -> None:
        """Frees what the parser holds. Later calls raise ValueError; closing it again does nothing."""
        library.resp_parser_close(self._handle)

    def __del__(self) -> None:
        if hasattr(self, "_handle"):
            library.resp_parser_close(self._handle)

    @_alone
    def _state(self) -> int:
        number: int = library.resp_parser_state(self._handle)
        return number

    def _fault(self) -> Tuple[Fault, int]:
        """The fault that was met last, and the offset that the parser has of it."""
        offset = ctypes.c_size_t()
        number = library.resp_parser_fault(self._handle, offset)
        return Fault(number), offset.value


def _bytes(data: Union[bytes, bytearray, memoryview]) -> bytes:
    return data if isinstance(data, bytes) else memoryview(data).tobytes()


def _check(status: int) -> None:
    """Raises the exception of a status other than DONE, MORE and FAULT."""
    if status == _library.MEMORY:
        raise MemoryError
    if status == _library.FAILED:
        raise ParserFailedError("the parser has failed before")
    if status == _library.CLOSED:
        raise ValueError("the parser is closed")
    if status == _library.RANGE:
        raise ValueError("a limit is out of range")
    assert status == _library.DONE, status
