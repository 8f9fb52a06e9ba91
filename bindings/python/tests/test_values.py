"""A value of each type. What is wanted comes from the RESP specification."""

import math
import pickle
import unittest

from resp_c import (
    Attribute,
    BigNumber,
    Double,
    Pairs,
    Push,
    ServerError,
    Set,
    Verbatim,
    parse_one,
)


def value_of(data):
    value, taken = parse_one(data)
    assert taken == len(data)
    return value


class Resp2(unittest.TestCase):
    def same(self, data, wanted):
        value = value_of(data)
        self.assertEqual(value, wanted)
        self.assertIs(type(value), type(wanted))

    def test_simple_strings(self):
        self.same(b"+OK\r\n", "OK")
        self.same(b"+PONG\r\n", "PONG")
        self.same("+café\r\n".encode(), "café")

    def test_integers(self):
        self.same(b":0\r\n", 0)
        self.same(b":-9223372036854775808\r\n", -(2**63))
        self.same(b":9223372036854775807\r\n", 2**63 - 1)

    def test_bulk_strings(self):
        self.same(b"$5\r\nhello\r\n", b"hello")
        self.same(b"$0\r\n\r\n", b"")
        self.same(b"$4\r\n\xff\x00\r\n\r\n", b"\xff\x00\r\n")
        self.same(b"$2\r\nOK\r\n", b"OK")

    def test_nulls(self):
        self.same(b"$-1\r\n", None)
        self.same(b"*-1\r\n", None)

    def test_arrays(self):
        self.same(b"*0\r\n", [])
        self.same(b"*2\r\n$5\r\nhello\r\n:7\r\n", [b"hello", 7])
        self.same(b"*2\r\n*3\r\n:1\r\n:2\r\n:3\r\n*1\r\n+Hello\r\n", [[1, 2, 3], ["Hello"]])
        self.same(b"*3\r\n*0\r\n*1\r\n*0\r\n_\r\n", [[], [[]], None])

    def test_errors(self):
        self.same(b"-ERR unknown command\r\n", ServerError("ERR", "unknown command"))
        self.same(b"-CROSSSLOT\r\n", ServerError("CROSSSLOT"))
        self.same(b"-ERR \r\n", ServerError("ERR", ""))
        self.same(b"*1\r\n-ERR x\r\n", [ServerError("ERR", "x")])


class Resp3(unittest.TestCase):
    def test_null_and_booleans(self):
        self.assertIsNone(value_of(b"_\r\n"))
        self.assertIs(value_of(b"#t\r\n"), True)
        self.assertIs(value_of(b"#f\r\n"), False)

    def test_doubles(self):
        value = value_of(b",1.230\r\n")
        self.assertEqual(value, 1.23)
        self.assertEqual(value.text, "1.230")
        self.assertIsInstance(value, float)
        self.assertEqual(value_of(b",inf\r\n"), math.inf)
        self.assertEqual(value_of(b",-inf\r\n"), -math.inf)
        self.assertTrue(math.isnan(value_of(b",nan\r\n")))
        self.assertEqual(value_of(b",2.5E-1\r\n"), 0.25)

    def test_big_numbers(self):
        digits = b"3492890328409238509324850943850943825024385"
        self.assertEqual(value_of(b"(" + digits + b"\r\n"), int(digits))
        self.assertEqual(value_of(b"(-1\r\n"), -1)

    def test_big_numbers_that_are_none(self):
        for text in [b"x", b"", b"1_0", b" 1", b"1.5"]:
            value = value_of(b"(" + text + b"\r\n")
            self.assertEqual(value, text)
            self.assertIs(type(value), BigNumber)

    def test_a_big_number_of_many_digits(self):
        digits = b"7" * 100_000
        value = value_of(b"(" + digits + b"\r\n")
        self.assertTrue(value == digits or isinstance(value, int))

    def test_bulk_errors(self):
        value = value_of(b"!21\r\nSYNTAX invalid syntax\r\n")
        self.assertEqual(value, ServerError("SYNTAX", "invalid syntax"))
        self.assertEqual(str(value), "SYNTAX invalid syntax")

    def test_verbatim_strings(self):
        value = value_of(b"=15\r\ntxt:Some string\r\n")
        self.assertEqual(value, "Some string")
        self.assertIs(type(value), Verbatim)
        self.assertEqual(value.text_format, "txt")
        self.assertEqual(value_of(b"=7\r\nmkd:a:b\r\n"), "a:b")

    def test_sets(self):
        value = value_of(b"~3\r\n+a\r\n*1\r\n:1\r\n#t\r\n")
        self.assertEqual(value, ["a", [1], True])
        self.assertIs(type(value), Set)

    def test_pushes(self):
        value = value_of(b">3\r\n$7\r\nmessage\r\n+channel\r\n$2\r\nhi\r\n")
        self.assertEqual(value, Push("message", ["channel", b"hi"]))

    def test_attributes(self):
        value = value_of(b"|1\r\n+ttl\r\n:3600\r\n*2\r\n:1\r\n:2\r\n")
        self.assertEqual(value, Attribute({"ttl": 3600}, [1, 2]))
        value = value_of(b"*2\r\n:1\r\n|1\r\n+ttl\r\n:3600\r\n:3\r\n")
        self.assertEqual(value, [1, Attribute({"ttl": 3600}, 3)])


class Maps(unittest.TestCase):
    def test_a_dict(self):
        value = value_of(b"%2\r\n+first\r\n:1\r\n$6\r\nsecond\r\n*1\r\n:2\r\n")
        self.assertEqual(value, {"first": 1, b"second": [2]})
        self.assertIs(type(value), dict)
        self.assertEqual(list(value), ["first", b"second"])
        self.assertEqual(value_of(b"%0\r\n"), {})

    def test_an_unhashable_key(self):
        value = value_of(b"%2\r\n*1\r\n:1\r\n:2\r\n+a\r\n:3\r\n")
        self.assertEqual(value, [([1], 2), ("a", 3)])
        self.assertIs(type(value), Pairs)

    def test_equal_keys(self):
        value = value_of(b"%2\r\n+a\r\n:1\r\n+a\r\n:2\r\n")
        self.assertEqual(value, [("a", 1), ("a", 2)])
        self.assertIs(type(value), Pairs)

    def test_keys_that_python_takes_for_equal(self):
        self.assertEqual(value_of(b"%2\r\n:1\r\n:2\r\n#t\r\n:3\r\n"), [(1, 2), (True, 3)])


class Types(unittest.TestCase):
    def test_a_server_error_may_be_raised(self):
        with self.assertRaises(ServerError) as raised:
            raise value_of(b"-WRONGTYPE wrong kind\r\n")
        self.assertEqual(raised.exception.code, "WRONGTYPE")

    def test_values_are_pickled(self):
        data = b"*4\r\n,1.50\r\n=7\r\ntxt:abc\r\n-ERR x\r\n>2\r\n+k\r\n:1\r\n"
        value = value_of(data)
        again = pickle.loads(pickle.dumps(value))
        self.assertEqual(again, value)
        self.assertEqual((again[0].text, again[1].text_format), ("1.50", "txt"))

    def test_a_double_of_a_text(self):
        self.assertEqual(Double("1.50").text, "1.50")


if __name__ == "__main__":
    unittest.main()
