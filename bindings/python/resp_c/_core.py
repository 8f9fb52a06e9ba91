"""Which code the package is over: the extension module, or ctypes where RESP_C_SO names a library.

This is the only place that chooses. Both give the same values and raise the same errors.
"""

import os
from typing import TYPE_CHECKING

if TYPE_CHECKING or not os.environ.get("RESP_C_SO"):
    from ._fast import Core, pack, pack_pipeline, version
else:
    from ._by_ctypes import Core
    from ._packing import pack, pack_pipeline, version

__all__ = ["Core", "pack", "pack_pipeline", "version"]
