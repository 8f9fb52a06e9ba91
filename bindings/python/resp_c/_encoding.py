"""Replies as the bytes that a server sends."""

from __future__ import annotations

import ctypes
from itertools import chain
from typing import (
    TYPE_CHECKING,
    Any,
    Callable,
    Dict,
    Iterable,
    Iterator,
    List,
    NamedTuple,
    Tuple,
    Union,
    cast,
)

from ._library import Kind, Token, library
from ._output import FRAME, written
from ._values import Attribute, BigNumber, Double, Pairs, Push, ServerError, Set, Value, Verbatim

if TYPE_CHECKING:
    from ._output import Buffer

# The most levels of values inside values.
_LEVELS = 1000


def encode(value: Value, protocol: int = 3) -> bytes:
    """The bytes that a server sends for a reply: in RESP3, or in RESP2 where `protocol` is 2.

    >>> encode({"ttl": 3600, "keys": [b"a", None]})
    b'%2\\r\\n+ttl\\r\\n:3600\\r\\n+keys\\r\\n*2\\r\\n$1\\r\\na\\r\\n_\\r\\n'
    >>> encode({"ttl": 3600}, protocol=2)
    b'*2\\r\\n+ttl\\r\\n:3600\\r\\n'

    The reply is made of the values that a parser returns, and a parser reads the bytes of RESP3 as an
    equal one. An `int` is an integer if it fits 64 bits, else a big number; a `float` is sent as Python
    writes it, and a Double as its text.

    What RESP2 lacks is sent in its types. A map is an array of keys and values, a set or a push an
    array, a boolean 1 or 0, and a double, a big number or a verbatim string the bulk string of its text.
    Attributes are left out.

    Raises TypeError where a value is none that a parser returns, as a tuple; and ValueError where no
    bytes spell it: CR LF in a simple string or, in RESP2, in an error; more than 1000 levels; a space in
    the code of an error, or a colon in the format of a verbatim string. Raises ValueError, too, where
    `protocol` is another number.
    """
    if protocol not in (2, 3):
        raise ValueError("protocol must be 2 or 3")
    listed, text = _flat(value)
    tokens = (Token * len(listed))(*cast(Any, listed))

    def encoder(out: Buffer, size: ctypes.c_size_t) -> int:
        status: int = library.resp_encode_reply(
            *(tokens, len(tokens)), *(text, len(text)), int(protocol), *(out, len(out)), size
        )
        return status

    return written(len(text) + FRAME * len(tokens), encoder)


class _Layer(NamedTuple):
    """A value without those inside it, and these."""

    kind: int
    size: int = 0
    number: int = 0
    text: bytes = b""
    parts: Iterable[Any] = ()


def _flat(value: Value) -> Tuple[List[Tuple[int, int, int, int]], bytes]:
    """The tokens of a reply in preorder, as the C interface has them, and its text.

    There is no recursion, and no value is entered below the last level: one may contain itself.
    """
    tokens: List[Tuple[int, int, int, int]] = []
    texts: List[bytes] = []
    at = 0
    open_parts: List[Iterator[Any]] = [iter((value,))]
    while open_parts:
        for item in open_parts[-1]:
            if len(open_parts) > _LEVELS:
                raise ValueError(f"a reply has at most {_LEVELS} levels")
            kind, size, number, text, parts = _layer(item)
            tokens.append((kind, size, number, at))
            texts.append(text)
            at += len(text)
            open_parts.append(iter(parts))
            break
        else:
            open_parts.pop()
    return tokens, b"".join(texts)


def _layer(value: Any) -> _Layer:
    for base in type(value).__mro__:
        layer = _LAYERS.get(base)
        if layer is not None:
            return layer(value)
    raise TypeError(f"a reply holds no {type(value).__name__}")


def _leaf(kind: int, text: bytes) -> _Layer:
    return _Layer(kind, len(text), text=text)


def _checked(value: Any, *types: type) -> Any:
    """The value, which has to be of one of these types."""
    if not isinstance(value, types):
        wanted = " or ".join(it.__name__ for it in types)
        raise TypeError(f"a {wanted} is wanted, not a {type(value).__name__}")
    return value


def _utf8(text: Any) -> bytes:
    encoded: bytes = _checked(text, str).encode()
    return encoded


def _integer(value: int) -> _Layer:
    if -(2**63) <= value < 2**63:
        return _Layer(Kind.INT, number=int(value))
    return _leaf(Kind.BIG_NUMBER, b"%d" % value)


def _simple_string(value: str) -> _Layer:
    text = _utf8(value)
    return _Layer(Kind.OKAY) if text == b"OK" else _leaf(Kind.SIMPLE_STRING, text)


def _server_error(value: ServerError) -> _Layer:
    text = _utf8(value.code)
    if b" " in text:
        raise ValueError("the code of an error has no space in it: what follows one is the detail")
    if value.detail is not None:
        text += b" " + _utf8(value.detail)
    return _leaf(Kind.SERVER_ERROR, text)


def _verbatim(value: Verbatim) -> _Layer:
    text_format = _utf8(value.text_format)
    if b":" in text_format:
        raise ValueError("the format of a verbatim string has no colon in it")
    return _leaf(Kind.VERBATIM_STRING, text_format + b":" + _utf8(value))


def _parts(pairs: Union[Dict[Any, Any], Pairs]) -> Iterator[Any]:
    """The keys and values, each key before its value."""
    entries: Iterable[Tuple[Any, Any]] = pairs.items() if isinstance(pairs, dict) else pairs
    for key, value in entries:
        yield key
        yield value


def _map(pairs: Union[Dict[Any, Any], Pairs]) -> _Layer:
    return _Layer(Kind.MAP, len(pairs), parts=_parts(pairs))


def _attribute(value: Attribute) -> _Layer:
    pairs = _checked(value.attributes, dict, Pairs)
    return _Layer(Kind.ATTRIBUTE, len(pairs), parts=chain(_parts(pairs), [value.value]))


def _push(value: Push) -> _Layer:
    data = _checked(value.data, list)
    return _Layer(Kind.PUSH, 1 + len(data), parts=[_utf8(value.kind), *data])


_LAYERS: Dict[type, Callable[[Any], _Layer]] = {
    type(None): lambda value: _Layer(Kind.NIL),
    bool: lambda value: _Layer(Kind.BOOLEAN, number=int(value)),
    int: _integer,
    float: lambda value: _leaf(Kind.DOUBLE, float.__repr__(value).encode()),
    str: _simple_string,
    bytes: lambda value: _leaf(Kind.BULK_STRING, bytes(value)),
    list: lambda value: _Layer(Kind.ARRAY, len(value), parts=value),
    dict: _map,
    Attribute: _attribute,
    BigNumber: lambda value: _leaf(Kind.BIG_NUMBER, bytes(value)),
    Double: lambda value: _leaf(Kind.DOUBLE, _utf8(value.text)),
    Pairs: _map,
    Push: _push,
    ServerError: _server_error,
    Set: lambda value: _Layer(Kind.SET, len(value), parts=value),
    Verbatim: _verbatim,
}
