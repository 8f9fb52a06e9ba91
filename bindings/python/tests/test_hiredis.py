"""The interface of hiredis-py. The wanted values are what its versions 1.0.1 and, of RESP3 and of commands,
2.3.2 give. Where hiredis-py is installed, both read the same random replies.
"""

import gc
import random
import unittest
import weakref

from resp_c import version

try:
    from resp_c import hiredis
except ImportError:
    hiredis = None  # the package is over ctypes
try:
    import hiredis as theirs
except ImportError:
    theirs = None


def read(data, *decodes, **options):
    """The next reply of these bytes."""
    reader = hiredis.Reader(**options)
    reader.feed(data)
    return reader.gets(*decodes)


@unittest.skipIf(hiredis is None, "there is no extension module")
class Resp2(unittest.TestCase):
    def same(self, data, wanted, **options):
        value = read(data, **options)
        self.assertEqual(value, wanted)
        self.assertIs(type(value), type(wanted))

    def test_values(self):
        self.same(b"+OK\r\n", b"OK")
        self.same(b"+PONG\r\n", b"PONG")
        self.same(b":-7\r\n", -7)
        self.same(b"$3\r\nabc\r\n", b"abc")
        self.same(b"$0\r\n\r\n", b"")
        self.same(b"$-1\r\n", None)
        self.same(b"*-1\r\n", None)
        self.same(b"*0\r\n", [])
        self.same(b"*2\r\n:1\r\n*1\r\n$1\r\nx\r\n", [1, [b"x"]])

    def test_texts_are_decoded(self):
        self.same(b"+OK\r\n", "OK", encoding="utf-8")
        self.same(b"$2\r\n\xc3\xa9\r\n", "é", encoding="utf-8")
        self.same(b"$1\r\n\xff\r\n", "ÿ", encoding="latin-1")
        self.same(b"$1\r\n\xff\r\n", "\ufffd", encoding="utf-8", errors="replace")
        self.same(b"$1\r\n\xff\r\n", b"\xff", errors="replace")

    def test_texts_that_no_encoding_reads(self):
        reader = hiredis.Reader(encoding="utf-8")
        reader.feed(b"*2\r\n$1\r\n\xff\r\n:1\r\n:7\r\n")
        self.assertRaises(UnicodeDecodeError, reader.gets)
        self.assertEqual(reader.gets(), 7)
        self.assertRaises(LookupError, hiredis.Reader, encoding="no such encoding")
        self.assertRaises(LookupError, hiredis.Reader, errors="no such errors")

    def test_decoding_by_the_call(self):
        reader = hiredis.Reader(encoding="utf-8")
        reader.feed(b"$2\r\nab\r\n" * 3)
        self.assertEqual([reader.gets(False), reader.gets(True), reader.gets()], [b"ab", "ab", "ab"])

    def test_another_encoding(self):
        reader = hiredis.Reader()
        reader.set_encoding(encoding="latin-1", errors="strict")
        reader.feed(b"$1\r\n\xff\r\n" * 2)
        self.assertEqual(reader.gets(), "ÿ")
        reader.set_encoding()
        self.assertEqual(reader.gets(), b"\xff")
        for wrong in [{"errors": "no such errors"}, {"encoding": "no such encoding"}]:
            self.assertRaises(LookupError, reader.set_encoding, **wrong)

    def test_errors(self):
        for encoding in [None, "utf-8", "latin-1"]:
            error = read("-ERR é\r\n".encode(), encoding=encoding)
            self.assertIs(type(error), hiredis.ReplyError)
            self.assertEqual(error.args, ("ERR é",))
        (error,) = read(b"*1\r\n-ERR x\r\n")
        self.assertEqual(str(error), "ERR x")

    def test_errors_made_by_the_caller(self):
        self.assertIsInstance(read(b"-ERR x\r\n", replyError=RuntimeError), RuntimeError)
        self.assertEqual(read(b"*1\r\n-a\r\n", replyError=lambda text: 5), [5])
        for wrong in [{"replyError": 5}, {"protocolError": "x"}]:
            self.assertRaises(TypeError, hiredis.Reader, **wrong)

    def test_an_error_that_is_raised_in_the_making(self):
        def refuse(text):
            raise KeyError(text)

        reader = hiredis.Reader(replyError=refuse)
        reader.feed(b"*2\r\n:5\r\n-ERR a\r\n:1\r\n")
        self.assertRaises(KeyError, reader.gets)
        self.assertEqual(reader.gets(), 1)


@unittest.skipIf(hiredis is None, "there is no extension module")
class Resp3(unittest.TestCase):
    def test_leaves(self):
        self.assertIsNone(read(b"_\r\n"))
        self.assertIs(read(b"#t\r\n"), True)
        self.assertIs(read(b"#f\r\n"), False)
        self.assertEqual(read(b",1.5\r\n"), 1.5)
        self.assertIs(type(read(b",1.5\r\n")), float)
        self.assertEqual(read(b",-inf\r\n"), float("-inf"))
        self.assertEqual(read(b"(123456789012345678901234567890\r\n"), b"123456789012345678901234567890")
        self.assertEqual(read(b"(-12\r\n", encoding="utf-8"), "-12")
        self.assertEqual(read(b"=15\r\ntxt:Some string\r\n"), b"Some string")
        self.assertEqual(read(b"=7\r\ntxt:abc\r\n", encoding="utf-8"), "abc")
        self.assertEqual(str(read(b"!5\r\nERR x\r\n")), "ERR x")

    def test_aggregates(self):
        self.assertEqual(read(b"%2\r\n+a\r\n:1\r\n:2\r\n,4.5\r\n"), {b"a": 1, 2: 4.5})
        self.assertEqual(read(b"~3\r\n+a\r\n_\r\n,10.5\r\n"), {b"a", None, 10.5})
        self.assertEqual(read(b"~2\r\n+a\r\n+a\r\n", convertSetsToLists=True), [b"a", b"a"])
        self.assertEqual(read(b">2\r\n+message\r\n:1\r\n"), [b"message", 1])
        self.assertEqual(read(b"|1\r\n+ttl\r\n:1\r\n:2\r\n"), 2)

    def test_what_is_unhashable(self):
        for data in [b"~1\r\n*0\r\n", b"%1\r\n*0\r\n:1\r\n"]:
            reader = hiredis.Reader()
            reader.feed(data + b":7\r\n")
            self.assertRaises(TypeError, reader.gets)
            self.assertEqual(reader.gets(), 7)


@unittest.skipIf(hiredis is None, "there is no extension module")
class Feeding(unittest.TestCase):
    def test_not_enough_data(self):
        self.assertIs(read(b"$3\r\nab"), False)
        self.assertIs(read(b"", notEnoughData=Ellipsis), Ellipsis)

    def test_a_part_of_a_buffer(self):
        reader = hiredis.Reader()
        for args in [(b":1\r\n",), (bytearray(b"xx:2\r\nxx"), 2, 4), (b"xx:3\r\n", 2), (memoryview(b":4\r\n"),)]:
            self.assertIsNone(reader.feed(*args))
        reader.feed(":5\r\n")
        reader.feed(b"abc", 3)
        reader.feed(b":6\r\n", 0, -1)
        self.assertEqual([reader.gets() for _ in range(7)], [1, 2, 3, 4, 5, 6, False])

    def test_parts_that_are_none(self):
        reader = hiredis.Reader()
        for args in [(b"abc", -1), (b"abc", 4), (b"abc", 0, 4), (b"abc", 1, -2), (b"abc", 2, 2**62)]:
            self.assertRaises(ValueError, reader.feed, *args)
        for wrong in [5, None, [1]]:
            self.assertRaises(TypeError, reader.feed, wrong)
        self.assertFalse(reader.has_data())

    def test_how_much_is_held(self):
        reader = hiredis.Reader()
        self.assertEqual((reader.has_data(), reader.len()), (False, 0))
        reader.feed(b":1\r\n:")
        self.assertEqual((reader.has_data(), reader.len()), (True, 5))
        reader.gets()
        self.assertTrue(reader.has_data())
        reader.feed(b"2\r\n")
        reader.gets()
        self.assertEqual((reader.has_data(), reader.len()), (False, 0))

    def test_large_pieces(self):
        body = bytes(range(256)) * 400
        sent = b"$102400\r\n" + body + b"\r\n"
        reader = hiredis.Reader()
        reader.feed(b":1\r\n" + sent + b":2\r\n", 4)
        self.assertEqual((reader.has_data(), reader.len()), (True, len(sent) + 4))
        self.assertEqual([reader.gets(), reader.gets(), reader.gets()], [body, 2, False])
        self.assertEqual((reader.has_data(), reader.len()), (False, 0))
        reader.feed(sent, 0, 90000)
        self.assertIs(reader.gets(), False)
        reader.feed(sent, 90000)
        self.assertEqual((reader.has_data(), reader.len()), (True, len(sent)))
        self.assertEqual(reader.gets(), body)

    def test_maxbuf(self):
        reader = hiredis.Reader()
        self.assertEqual(reader.getmaxbuf(), 16384)
        reader.setmaxbuf(10)
        self.assertEqual(reader.getmaxbuf(), 10)
        reader.setmaxbuf(None)
        self.assertEqual(reader.getmaxbuf(), 16384)
        self.assertRaises(ValueError, reader.setmaxbuf, -1)
        self.assertRaises(TypeError, reader.setmaxbuf, "1")


@unittest.skipIf(hiredis is None, "there is no extension module")
class Faults(unittest.TestCase):
    def test_a_fault_stays(self):
        reader = hiredis.Reader()
        reader.feed(b"x")
        for _ in range(2):
            self.assertRaises(hiredis.ProtocolError, reader.gets)
            self.assertIsNone(reader.feed(b"+OK\r\n"))
        self.assertFalse(reader.has_data())

    def test_the_fault_is_named(self):
        with self.assertRaisesRegex(KeyError, "BODY_END at byte 6"):
            read(b"$1\r\nabc", protocolError=KeyError)

    def test_types(self):
        self.assertTrue(issubclass(hiredis.ProtocolError, hiredis.HiredisError))
        self.assertTrue(issubclass(hiredis.ReplyError, hiredis.HiredisError))
        self.assertEqual(hiredis.__version__, version())
        for wrong in [{"other": 1}, {"encoding": 5}]:
            self.assertRaises(TypeError, hiredis.Reader, **wrong)

    def test_a_call_within_a_call(self):
        for call in [lambda it: it.gets(), lambda it: it.feed(b""), lambda it: it.set_encoding()]:
            reader = hiredis.Reader(replyError=lambda text, call=call: call(reader))
            reader.feed(b"-ERR\r\n:1\r\n")
            self.assertRaises(RuntimeError, reader.gets)
            self.assertEqual(reader.gets(), 1)

    def test_a_reader_that_was_not_made(self):
        reader = hiredis.Reader.__new__(hiredis.Reader)
        for call in [reader.gets, lambda: reader.feed(b":1\r\n")]:
            self.assertRaises(ValueError, call)
        self.assertEqual((reader.has_data(), reader.len()), (False, 0))

    def test_a_reader_in_a_cycle_is_collected(self):
        class Owner:
            def __init__(self):
                self.reader = hiredis.Reader(replyError=self.made)

            def made(self, text):
                return text

        owner = weakref.ref(Owner())
        gc.collect()
        self.assertIsNone(owner())


@unittest.skipIf(hiredis is None, "there is no extension module")
class PackCommand(unittest.TestCase):
    def test_kinds_of_arguments(self):
        packed = hiredis.pack_command(("HSET", "foo", "key", "value", b"\xaa\x00", 67, 3.14159265359, 2**128))
        wanted = (
            b"*8\r\n$4\r\nHSET\r\n$3\r\nfoo\r\n$3\r\nkey\r\n$5\r\nvalue\r\n$2\r\n\xaa\x00\r\n$2\r\n67\r\n"
            b"$13\r\n3.14159265359\r\n$39\r\n340282366920938463463374607431768211456\r\n"
        )
        self.assertEqual(packed, wanted)
        self.assertEqual(hiredis.pack_command(()), b"*0\r\n")
        self.assertEqual(hiredis.pack_command((bytearray(b"a"), memoryview(b"b"))), b"*2\r\n$1\r\na\r\n$1\r\nb\r\n")

    def test_refused_arguments(self):
        for wrong in [True, None, object(), {}, ["a"]]:
            self.assertRaises(TypeError, hiredis.pack_command, ("HSET", "foo", wrong))
        for wrong in [["PING"], "PING", None]:
            self.assertRaises(TypeError, hiredis.pack_command, wrong)


def reply(choose, levels):
    """The bytes of a random reply of RESP2."""
    kind = choose.choice("+-:$$$n" + "*" * bool(levels) * 3)
    if kind == "*":
        count = choose.randrange(5)
        return b"*%d\r\n" % count + b"".join(reply(choose, levels - 1) for _ in range(count))
    if kind == ":":
        return b":%d\r\n" % choose.randrange(-(2**63), 2**63)
    if kind == "n":
        return choose.choice([b"$-1\r\n", b"*-1\r\n"])
    text = "".join(choose.choice("ab é\u20ac\U0001f600") for _ in range(choose.randrange(12))).encode()
    if kind == "$":
        text += bytes(choose.randrange(256) for _ in range(choose.randrange(3)))
        return b"$%d\r\n%s\r\n" % (len(text), text)
    return kind.encode() + text + b"\r\n"


@unittest.skipIf(hiredis is None or theirs is None, "there is no extension module, or no hiredis-py")
class Beside(unittest.TestCase):
    ROUNDS = 3000

    def taken(self, module, reader):
        """The next reply, or what is raised; errors as their names and arguments."""

        def shown(value):
            if isinstance(value, list):
                return [shown(it) for it in value]
            if isinstance(value, module.ReplyError):
                return ("ReplyError", value.args)
            return value

        try:
            return shown(reader.gets())
        except UnicodeDecodeError as error:
            return ("UnicodeDecodeError", error.args)

    def test_random_replies(self):
        choose = random.Random(1)
        compared = 0
        for _ in range(self.ROUNDS):
            options = choose.choice([{}, {"encoding": "utf-8"}, {"encoding": "utf-8", "errors": "replace"}])
            ours, other = hiredis.Reader(**options), theirs.Reader(**options)
            data = b"".join(reply(choose, 4) for _ in range(3))
            while data:
                size = choose.randrange(1, 40)
                for reader in [ours, other]:
                    reader.feed(data[:size])
                data = data[size:]
                value = None
                while value is not False:
                    value = self.taken(hiredis, ours)
                    wanted = self.taken(theirs, other)
                    self.assertEqual((type(value), value), (type(wanted), wanted))
                    if value is not False:
                        self.assertEqual(ours.has_data(), other.has_data())
                    compared += 1
        self.assertGreater(compared, 3 * self.ROUNDS)


if __name__ == "__main__":
    unittest.main()
