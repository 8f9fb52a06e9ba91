"""What a Reader raises and makes of errors, by the names that hiredis-py has for these."""


class HiredisError(Exception):
    """An error of this interface."""

    __module__ = "resp_c.hiredis"


class ProtocolError(HiredisError):
    """The bytes can't begin a reply."""

    __module__ = "resp_c.hiredis"


class ReplyError(HiredisError):
    """An error that a server sent. It is returned, not raised."""

    __module__ = "resp_c.hiredis"
