"""A parser class for the connections of redis-py: `Connection(parser_class=Parser)`.

A pool takes it, too: `ConnectionPool(parser_class=Parser)`. It is for redis-py 4, whose connections speak
RESP2.
"""

from __future__ import annotations

import socket
import ssl
from typing import Any, Optional

from redis.connection import BaseParser  # type: ignore[import]
from redis.exceptions import ConnectionError, InvalidResponse  # type: ignore[import]

from .hiredis import Reader

_MORE = object()

# What a socket raises that has no bytes as yet.
_NOT_YET = (BlockingIOError, socket.timeout, ssl.SSLWantReadError, ssl.SSLWantWriteError)


class Parser(BaseParser):  # type: ignore[misc]
    """Reads the replies of a connection by a Reader."""

    def __init__(self, socket_read_size: int) -> None:
        self._piece = bytearray(socket_read_size)
        self._sock: Optional[socket.socket] = None
        self._reader: Optional[Reader] = None

    def on_connect(self, connection: Any) -> None:
        """Begins with a new connection."""
        encoder = connection.encoder
        self._sock = connection._sock
        self._reader = Reader(
            protocolError=InvalidResponse,
            replyError=self.parse_error,
            encoding=encoder.encoding if encoder.decode_responses else None,
            errors=encoder.encoding_errors,
            notEnoughData=_MORE,
        )

    def on_disconnect(self) -> None:
        """Forgets the connection."""
        self._sock = None
        self._reader = None

    def can_read(self, timeout: Optional[float]) -> bool:
        """Whether there are bytes of a reply, or come within `timeout` seconds."""
        sock, reader = self._open()
        if reader.has_data():
            return True
        before = sock.gettimeout()
        sock.settimeout(timeout)
        try:
            self._receive()
        except _NOT_YET:
            return False
        finally:
            sock.settimeout(before)
        return True

    def read_response(self, disable_decoding: bool = False) -> Any:
        """Waits for the next reply. An error is returned, but one of the connection is raised."""
        _, reader = self._open()
        while (reply := reader.gets(not disable_decoding)) is _MORE:
            self._receive()
        if isinstance(reply, ConnectionError):
            raise reply
        return reply

    def _open(self) -> tuple[socket.socket, Reader]:
        if self._sock is None or self._reader is None:
            raise ConnectionError("the connection isn't open")
        return self._sock, self._reader

    def _receive(self) -> None:
        """Feeds the bytes that the socket has next."""
        sock, reader = self._open()
        size = sock.recv_into(self._piece)
        if size == 0:
            raise ConnectionError("the server has closed the connection")
        reader.feed(self._piece, 0, size)
