"""A RESP (Redis protocol) parser, command packer and reply encoder over the C library of `resp_core`, in
which every function is proved to meet its contract. This wrapper isn't proved.

>>> from resp_c import MORE, Parser, encode, pack
>>> pack("GET", "key")
b'*2\\r\\n$3\\r\\nGET\\r\\n$3\\r\\nkey\\r\\n'
>>> parser = Parser()
>>> parser.feed(b"*2\\r\\n$5\\r\\nhello\\r\\n:7")
>>> parser.next() is MORE
True
>>> parser.feed(b"\\r\\n")
>>> parser.next()
[b'hello', 7]
>>> encode([b"hello", 7])
b'*2\\r\\n$5\\r\\nhello\\r\\n:7\\r\\n'
"""

from ._core import pack, pack_pipeline, version
from ._encoding import encode
from ._errors import Fault, IncompleteError, ParserFailedError, ProtocolError, RespError
from ._packing import Argument
from ._parser import Parser, State, parse_one
from ._values import (
    MORE,
    Attribute,
    BigNumber,
    Double,
    More,
    Pairs,
    Push,
    ServerError,
    Set,
    Value,
    Verbatim,
)

__version__ = version()

__all__ = [
    "MORE",
    "Argument",
    "Attribute",
    "BigNumber",
    "Double",
    "Fault",
    "IncompleteError",
    "More",
    "Pairs",
    "Parser",
    "ParserFailedError",
    "ProtocolError",
    "Push",
    "RespError",
    "ServerError",
    "Set",
    "State",
    "Value",
    "Verbatim",
    "__version__",
    "encode",
    "pack",
    "pack_pipeline",
    "parse_one",
    "version",
]
