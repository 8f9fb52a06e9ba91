"""Encoded replies. The wanted bytes are examples of the RESP specification, and for what RESP2 lacks
what Redis answers to a client of RESP2."""

import ctypes
import enum
import math
import subprocess
import sys
import textwrap
import unittest
from collections import OrderedDict

from resp_c import (
    Attribute,
    BigNumber,
    Double,
    Pairs,
    Push,
    ServerError,
    Set,
    Verbatim,
    _library,
    encode,
    parse_one,
)

DIGITS = 3492890328409238509324850943850943825024385


def nested(arrays):
    value = 7
    for _ in range(arrays):
        value = [value]
    return value


class Encoding(unittest.TestCase):
    def sent(self, value, resp2, resp3):
        """The value is sent as these bytes, and those of RESP3 are read as the value."""
        self.assertEqual(encode(value, protocol=2), resp2)
        self.assertEqual(encode(value, protocol=3), resp3)
        self.assertEqual(encode(value), resp3)
        again, taken = parse_one(resp3)
        self.assertEqual((again, taken), (value, len(resp3)))
        self.assertIs(type(again), type(value))

    def sent_alike(self, value, data):
        self.sent(value, data, data)


class BothVersions(Encoding):
    def test_simple_strings(self):
        self.sent_alike("OK", b"+OK\r\n")
        self.sent_alike("PONG", b"+PONG\r\n")
        self.sent_alike("", b"+\r\n")
        self.sent_alike("café", b"+caf\xc3\xa9\r\n")
        self.sent_alike("a\rb\n", b"+a\rb\n\r\n")

    def test_errors(self):
        self.sent_alike(ServerError("ERR", "unknown command 'asdf'"), b"-ERR unknown command 'asdf'\r\n")
        self.sent_alike(ServerError("CROSSSLOT"), b"-CROSSSLOT\r\n")
        self.sent_alike(ServerError("ERR", ""), b"-ERR \r\n")
        self.sent_alike(ServerError("Error", "message"), b"-Error message\r\n")

    def test_integers(self):
        for number in [0, 1000, -5, 2**63 - 1, -(2**63)]:
            self.sent_alike(number, b":%d\r\n" % number)

    def test_bulk_strings(self):
        self.sent_alike(b"hello", b"$5\r\nhello\r\n")
        self.sent_alike(b"", b"$0\r\n\r\n")
        self.sent_alike(b"OK", b"$2\r\nOK\r\n")
        self.sent_alike(b"\xff\x00\r\n", b"$4\r\n\xff\x00\r\n\r\n")

    def test_arrays(self):
        self.sent_alike([], b"*0\r\n")
        self.sent_alike([b"hello", b"world"], b"*2\r\n$5\r\nhello\r\n$5\r\nworld\r\n")
        self.sent_alike(
            [[1, 2, 3], ["Hello", ServerError("World")]],
            b"*2\r\n*3\r\n:1\r\n:2\r\n:3\r\n*2\r\n+Hello\r\n-World\r\n",
        )
        self.sent(
            [b"hello", None, b"world"],
            b"*3\r\n$5\r\nhello\r\n$-1\r\n$5\r\nworld\r\n",
            b"*3\r\n$5\r\nhello\r\n_\r\n$5\r\nworld\r\n",
        )


class Resp3Alone(Encoding):
    def test_null_and_booleans(self):
        self.sent(None, b"$-1\r\n", b"_\r\n")
        self.sent(True, b":1\r\n", b"#t\r\n")
        self.sent(False, b":0\r\n", b"#f\r\n")

    def test_doubles(self):
        for text in ["1.23", "10", "1.230", "inf", "-inf", "2.5E-1", ".5", "-0"]:
            data = text.encode()
            resp2 = b"$%d\r\n%s\r\n" % (len(data), data)
            self.sent(Double(text), resp2, b",%s\r\n" % data)
        self.assertEqual(encode(Double("nan")), b",nan\r\n")

    def test_floats(self):
        for number in [0.0, 1.5, -1e-7, 1e21, 0.1 + 0.2, sys.float_info.max, 5e-324]:
            value, _ = parse_one(encode(number))
            self.assertEqual((type(value), value), (Double, number))
        self.assertEqual(encode(1.5), b",1.5\r\n")
        self.assertEqual(encode(1.5, 2), b"$3\r\n1.5\r\n")
        self.assertEqual(encode(-math.inf), b",-inf\r\n")
        self.assertEqual(encode(math.nan), b",nan\r\n")

    def test_big_numbers(self):
        self.sent(DIGITS, b"$43\r\n%d\r\n" % DIGITS, b"(%d\r\n" % DIGITS)
        self.sent(2**63, b"$19\r\n9223372036854775808\r\n", b"(9223372036854775808\r\n")
        self.sent(-(2**63) - 1, b"$20\r\n-9223372036854775809\r\n", b"(-9223372036854775809\r\n")
        self.sent(BigNumber(b"1.5"), b"$3\r\n1.5\r\n", b"(1.5\r\n")
        self.assertEqual(encode(BigNumber(b"5")), b"(5\r\n")

    def test_verbatim_strings(self):
        self.sent(
            Verbatim("Some string", "txt"), b"$11\r\nSome string\r\n", b"=15\r\ntxt:Some string\r\n"
        )
        self.sent(Verbatim("a: \r\n", "mkd"), b"$5\r\na: \r\n\r\n", b"=9\r\nmkd:a: \r\n\r\n")
        again, _ = parse_one(encode(Verbatim("a", "mkd")))
        self.assertEqual(again.text_format, "mkd")

    def test_maps(self):
        self.sent(
            {"first": 1, "second": 2},
            b"*4\r\n+first\r\n:1\r\n+second\r\n:2\r\n",
            b"%2\r\n+first\r\n:1\r\n+second\r\n:2\r\n",
        )
        self.sent({}, b"*0\r\n", b"%0\r\n")
        self.sent(
            Pairs([([1], 2), ("a", 3)]),
            b"*4\r\n*1\r\n:1\r\n:2\r\n+a\r\n:3\r\n",
            b"%2\r\n*1\r\n:1\r\n:2\r\n+a\r\n:3\r\n",
        )

    def test_sets(self):
        self.sent(Set(), b"*0\r\n", b"~0\r\n")
        self.sent(Set([b"a", True]), b"*2\r\n$1\r\na\r\n:1\r\n", b"~2\r\n$1\r\na\r\n#t\r\n")

    def test_attributes(self):
        popular = {"key-popularity": {b"a": Double("0.1923"), b"b": Double("0.0012")}}
        self.sent(
            Attribute(popular, [2039123, 9543892]),
            b"*2\r\n:2039123\r\n:9543892\r\n",
            b"|1\r\n+key-popularity\r\n%2\r\n$1\r\na\r\n,0.1923\r\n$1\r\nb\r\n,0.0012\r\n"
            b"*2\r\n:2039123\r\n:9543892\r\n",
        )
        self.sent(
            [1, 2, Attribute({"ttl": 3600}, 3)],
            b"*3\r\n:1\r\n:2\r\n:3\r\n",
            b"*3\r\n:1\r\n:2\r\n|1\r\n+ttl\r\n:3600\r\n:3\r\n",
        )
        self.sent(
            Attribute(Pairs([("a", 1), ("a", 2)]), 3),
            b":3\r\n",
            b"|2\r\n+a\r\n:1\r\n+a\r\n:2\r\n:3\r\n",
        )

    def test_pushes(self):
        self.sent(
            Push("message", ["somechannel", "this is the message"]),
            b"*3\r\n$7\r\nmessage\r\n+somechannel\r\n+this is the message\r\n",
            b">3\r\n$7\r\nmessage\r\n+somechannel\r\n+this is the message\r\n",
        )


class Refusals(unittest.TestCase):
    def test_types_that_no_parser_returns(self):
        buffers = [bytearray(b"a"), memoryview(b"a")]
        for wrong in [*buffers, (1, 2), {1}, range(2), 1j, object(), int, KeyError("a")]:
            for value in [wrong, [wrong], {"key": wrong}, Attribute({}, wrong)]:
                with self.subTest(value=value), self.assertRaises(TypeError):
                    encode(value)

    def test_parts_of_wrong_types(self):
        double, verbatim = Double("1"), Verbatim("a", "txt")
        double.text, verbatim.text_format = 1, b"txt"
        wrong = [
            *(double, verbatim, Push(b"message", []), Push("message", (1,)), Push("message", "text")),
            *(ServerError(b"ERR"), ServerError("ERR", 5), Attribute([], 1), Attribute(None, 1)),
        ]
        for value in wrong:
            with self.subTest(value=value), self.assertRaises(TypeError):
                encode(value)

    def test_values_that_no_bytes_spell(self):
        double = Double("1")
        double.text = "one"
        wrong = [
            *("a\r\n", "a\r\nb", "\ud800", double, Pairs([(1, 2, 3)]), Pairs([(1,)])),
            *(ServerError("ERR unknown", "command"), ServerError("ERR x"), Verbatim("b", "a:")),
            *(BigNumber(b"1\r\n"), BigNumber(b"\xff")),
        ]
        for wrong_one in wrong:
            for value in [wrong_one, [wrong_one]]:
                with self.subTest(value=value), self.assertRaises(ValueError):
                    encode(value)

    def test_an_error_with_a_line_break(self):
        error = ServerError("ERR", "a\r\nb")
        self.assertEqual(encode(error), b"!8\r\nERR a\r\nb\r\n")
        with self.assertRaises(ValueError):
            encode(error, protocol=2)
        self.assertEqual(encode(Attribute({"e": error}, 1), protocol=2), b":1\r\n")

    def test_another_version(self):
        for protocol in [0, 1, 4, -3, 2**32 + 3, None, "3"]:
            with self.subTest(protocol=protocol), self.assertRaises(ValueError):
                encode(1, protocol=protocol)

    def test_levels(self):
        self.assertEqual(encode(nested(999)), b"*1\r\n" * 999 + b":7\r\n")
        with self.assertRaises(ValueError):
            encode(nested(1000))

    def test_a_value_in_itself(self):
        value = []
        value.extend([value, value])
        self.assertRaises(ValueError, encode, value)
        value = {}
        value["a"] = Attribute({}, Push("a", [value]))
        self.assertRaises(ValueError, encode, value)

    def test_memory_that_runs_out(self):
        program = """
            import pathlib
            import resource
            import resp_c

            def limit_to(size):
                resource.setrlimit(resource.RLIMIT_AS, (size, resource.RLIM_INFINITY))

            size = 1 << 26
            value = b"x" * size
            pages = int(pathlib.Path("/proc/self/statm").read_text().split()[0])
            for more in [size // 4, size + size // 4]:
                limit_to(pages * resource.getpagesize() + more)
                try:
                    resp_c.encode(value)
                except MemoryError:
                    print("refused")
                limit_to(resource.RLIM_INFINITY)
            print(len(resp_c.encode(value)) - size)
        """
        run = [sys.executable, "-c", textwrap.dedent(program)]
        result = subprocess.run(run, capture_output=True, text=True, check=False)
        self.assertEqual(result.stdout, "refused\nrefused\n13\n", result.stderr)


class TheCall(unittest.TestCase):
    """What the C library refuses and `encode` doesn't ask for."""

    def status_of(self, tokens, text, protocol=3, room=64):
        tokens = (_library.Token * len(tokens))(*tokens)
        out, size = ctypes.create_string_buffer(room), ctypes.c_size_t(77)
        status = _library.library.resp_encode_reply(
            tokens, len(tokens), text, len(text), protocol, out, room, size
        )
        return status, size.value

    def test_a_text_stands_where_its_token_says(self):
        kind, most = _library.Kind.BULK_STRING, 2**64 - 1
        self.assertEqual(self.status_of([(kind, 1, 0, 0)], b"a"), (_library.DONE, 7))
        for size, start in [(1, 1), (2, 0), (0, 0), (most, 0), (1, most)]:
            refused = self.status_of([(kind, size, 0, start)], b"a")
            self.assertEqual(refused, (_library.RANGE, 0), (size, start))

    def test_not_one_value(self):
        nil, array = (_library.Kind.NIL, 0, 0, 0), (_library.Kind.ARRAY, 2, 0, 0)
        for tokens in [[nil, nil], [array, nil], [array], [(15, 0, 0, 0)]]:
            self.assertEqual(self.status_of(tokens, b""), (_library.RANGE, 0), tokens)

    def test_versions(self):
        nil = (_library.Kind.NIL, 0, 0, 0)
        for protocol in [0, 1, 4, 2**32 - 1]:
            self.assertEqual(self.status_of([nil], b"", protocol), (_library.RANGE, 0))

    def test_room(self):
        nil = (_library.Kind.NIL, 0, 0, 0)
        self.assertEqual(self.status_of([nil], b"", room=2), (_library.ROOM, 3))


class Subclasses(unittest.TestCase):
    def test_a_subclass_is_sent_as_its_base(self):
        class Number(enum.IntEnum):
            SEVEN = 7

        class Name(str, enum.Enum):
            A = "a"

        self.assertEqual(encode(Number.SEVEN), b":7\r\n")
        self.assertEqual(encode(Name.A), b"+a\r\n")
        self.assertEqual(encode(OrderedDict(a=1)), b"%1\r\n+a\r\n:1\r\n")


if __name__ == "__main__":
    unittest.main()
