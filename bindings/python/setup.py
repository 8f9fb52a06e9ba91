"""Builds the extension module over the C library. The rest is in pyproject.toml.

Of the C library it takes the files in native/, as a source package has them. In the repository it copies
them there first: the archive from where `rt lib` leaves it or RESP_C_LIB says, the header and the
allocation functions from bindings/c, and the licences.
"""

import os
import pathlib
import shutil
import sys

from setuptools import Extension, setup

HERE = pathlib.Path(__file__).resolve().parent
BINDINGS = HERE.parent
ARCHIVE = BINDINGS.parent / "crates" / "resp_c" / "out" / "libresp_c.a"

# Everything in the archive is kept, for ctypes finds it here, too; and its calls stay within it.
LINKED = ["-Wl,--whole-archive", "native/libresp_c.a", "-Wl,--no-whole-archive", "-Wl,-Bsymbolic"]


def fill_native():
    """Copies the files of the C library, where this is the repository."""
    if not (BINDINGS / "c").is_dir():
        return
    archive = pathlib.Path(os.environ.get("RESP_C_LIB") or ARCHIVE)
    if not archive.is_file():
        sys.exit(f"{archive} isn't there: `rt lib` in crates/resp_c makes it; RESP_C_LIB names another")
    (HERE / "native").mkdir(exist_ok=True)
    shutil.copyfile(archive, HERE / "native" / "libresp_c.a")
    for source in ["c/resp_c.h", "c/resp_alloc.c", "../LICENSE", "../NOTICE"]:
        shutil.copy(BINDINGS / source, HERE / "native")


def extension():
    names = ["core", "module", "pack", "reader", "source", "values"]
    return Extension(
        "resp_c._fast",
        sources=["native/resp_alloc.c", *(f"extension/{name}.c" for name in names)],
        include_dirs=["native"],
        depends=["extension/fast.h", "native/resp_c.h", "native/libresp_c.a"],
        define_macros=[("Py_LIMITED_API", "0x03090000")],
        extra_compile_args=["-std=c11", "-O2", "-g0", "-fvisibility=hidden", "-Wall", "-Wextra"],
        extra_link_args=LINKED,
        py_limited_api=True,
    )


fill_native()
setup(ext_modules=[extension()], options={"bdist_wheel": {"py_limited_api": "cp39"}})
