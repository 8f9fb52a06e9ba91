"""hiredis-py's interface: `from resp_c import hiredis` stands for `import hiredis`.

>>> reader = Reader(encoding="utf-8")
>>> reader.feed(b"*2\\r\\n$5\\r\\nhello\\r\\n:7\\r\\n$3\\r\\nab")
>>> reader.gets()
['hello', 7]
>>> reader.gets()
False
>>> pack_command(("SET", "key", 1))
b'*3\\r\\n$3\\r\\nSET\\r\\n$3\\r\\nkey\\r\\n$1\\r\\n1\\r\\n'
"""

from ._fast import Reader, pack_command, version
from ._hiredis_errors import HiredisError, ProtocolError, ReplyError

__version__ = version()

__all__ = ["HiredisError", "ProtocolError", "Reader", "ReplyError", "__version__", "pack_command"]
