"""The examples of the doc comments, and those of README.md."""

import doctest
import pathlib
import re
import unittest

import resp_c
from resp_c import _encoding, _packing, _parser

try:
    from resp_c import hiredis
except ImportError:
    hiredis = None  # the package is over ctypes

README = pathlib.Path(__file__).resolve().parent.parent / "README.md"


def load_tests(loader, tests, pattern):
    for module in filter(None, [resp_c, _parser, _packing, _encoding, hiredis]):
        tests.addTests(doctest.DocTestSuite(module))
    return tests


@unittest.skipIf(hiredis is None, "there is no extension module")
class Readme(unittest.TestCase):
    def test_the_examples_run(self):
        examples = re.findall(r"```python\n(.*?)```", README.read_text("utf-8"), re.S)
        printed = []
        for example in examples:
            exec(example, {"print": printed.append})
        sent = [b"%1\r\n+hits\r\n:42\r\n", b"*2\r\n+hits\r\n:42\r\n"]
        self.assertEqual(printed, [[b"hello", 7], 1, 2, *sent, ["hello", 7], False])


if __name__ == "__main__":
    unittest.main()
