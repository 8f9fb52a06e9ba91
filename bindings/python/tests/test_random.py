"""Random inputs, a fixed number of them. The extension module and ctypes make values, faults and commands
each in code of its own, and must agree. `Reader` gives what `Parser` does, by the rules of hiredis-py. Bytes
that are no reply end in an error that is named. Each value is sent and read again: in RESP3 as an equal one.
"""

import random
import unittest

from resp_c import Fault, IncompleteError, Parser, ProtocolError, ServerError, Verbatim, encode, parse_one
from resp_c import _by_ctypes, _packing
from resp_c._values import MORE, Attribute, BigNumber, Double, Pairs, Push, Set

try:
    from resp_c import _fast, hiredis
except ImportError:
    _fast = hiredis = None

RUNS = 4000

PARTS = [
    *(b"+OK\r\n", b"+caf\xc3\xa9\r\n", b":1\r\n", b":-77\r\n", b"$3\r\nabc\r\n", b"$0\r\n\r\n", b"$-1\r\n"),
    *(b"*2\r\n", b"*0\r\n", b"*3\r\n", b"%1\r\n", b"%2\r\n", b"~2\r\n", b">2\r\n+kind\r\n", b"|1\r\n+ttl\r\n:9\r\n"),
    *(b"_\r\n", b"#t\r\n", b"#f\r\n", b",1.5\r\n", b",-inf\r\n", b"(123456789012345678901\r\n", b"(x\r\n"),
    *(b"-ERR x\r\n", b"-A\r\n", b"!5\r\nERR y\r\n", b"!8\r\nERR\r\nz y\r\n", b"=7\r\ntxt:abc\r\n"),
    *(b"$2\r\n\xff\xfe\r\n", b"=6\r\nmkd:\xff\xfe\r\n", b"*-1\r\n", b"|1\r\n"),
]
WRONG = [
    *(b"@", b"$2\r\nabc", b":x\r\n", b"+\xff\r\n", b"%-1\r\n", b">1\r\n:1\r\n", b"#x\r\n", b",x\r\n"),
    *(b"=3\r\nabc\r\n", b":99999999999999999999\r\n"),
]
BYTES = b"+-:$*_#,(!=%~>|\r\n\r\n\r\n0123tfx\xff"


def shown(value):
    """A value with its types and all that these have beside it."""
    if isinstance(value, (list, tuple)):
        return (type(value), [shown(it) for it in value])
    if isinstance(value, dict):
        return (dict, [(shown(key), shown(it)) for key, it in value.items()])
    if isinstance(value, (Attribute, Push)):
        return (type(value), shown(list(vars(value).values())))
    return (type(value), repr(value), shown(sorted(getattr(value, "__dict__", {}).items())))


def taken(core):
    """The next value, or the fault and its place."""
    try:
        value = core.next()
    except ProtocolError as error:
        return (Fault(error.fault), error.offset)
    return value if value is MORE else shown(value)


def pairs_of(value):
    return list(value.items()) if isinstance(value, dict) else value


def is_big(value):
    return isinstance(value, int) and not -(2**63) <= value < 2**63


class Random(unittest.TestCase):
    def setUp(self):
        self.choose = random.Random(1)

    def replies(self):
        parts = PARTS + WRONG if self.choose.random() < 0.2 else PARTS
        return b"".join(self.choose.choices(parts, k=self.choose.randrange(1, 14)))

    def pieces(self, data):
        while data:
            size = self.choose.randrange(1, 30)
            yield data[:size]
            data = data[size:]

    def damaged(self):
        """Replies of which bytes were dropped, doubled or replaced, or random bytes that replies are made of."""
        if self.choose.random() < 0.3:
            return bytes(self.choose.choices(BYTES, k=self.choose.randrange(30)))
        data = bytearray(self.replies())
        for _ in range(self.choose.randrange(4)):
            at = self.choose.randrange(len(data))
            one = bytes(data[at : at + 1])
            data[at : at + 1] = self.choose.choice([b"", 2 * one, bytes([self.choose.randrange(256)])])
            data = data or bytearray(b"*")
        return bytes(data)


@unittest.skipIf(_fast is None, "there is no extension module")
class Both(Random):
    def test_replies_in_pieces(self):
        ends = set()
        for _ in range(RUNS):
            cores = [_fast.Core(100, 1000), _by_ctypes.Core(100, 1000)]
            for piece in self.pieces(self.replies()):
                for core in cores:
                    core.feed(piece)
                one = None
                while one is not MORE and not (one and isinstance(one[0], Fault)):
                    one, other = (taken(core) for core in cores)
                    self.assertEqual(one, other)
                ends.add(one if one is MORE else one[0])
                if one is not MORE:
                    break
        self.assertGreater(len(ends), 5)

    def argument(self):
        kind = self.choose.randrange(6)
        number = self.choose.randrange(-(2**70), 2**70) >> self.choose.randrange(90)
        text = "".join(self.choose.choices("ab \r\n\x00é€", k=self.choose.randrange(30)))
        return [text, text.encode(), bytearray(text.encode()), memoryview(text.encode()), number, number / 7][kind]

    def test_commands(self):
        for _ in range(RUNS):
            commands = [[self.argument() for _ in range(self.choose.randrange(4))] for _ in range(3)]
            self.assertEqual(_fast.pack(*commands[0]), _packing.pack(*commands[0]))
            self.assertEqual(_fast.pack_command(tuple(commands[1])), _packing.pack_pipeline(commands[1:2]))
            atomic = self.choose.random() < 0.5
            self.assertEqual(_fast.pack_pipeline(commands, atomic), _packing.pack_pipeline(commands, atomic))


def as_hiredis(value, text):
    """What stands for a value of `Parser` by the rules of hiredis-py, which reads bytes by `text`."""
    if isinstance(value, Attribute):
        for pair in pairs_of(value.attributes):
            as_hiredis(list(pair), text)
        return as_hiredis(value.value, text)
    if isinstance(value, (dict, Pairs)):
        return dict([[as_hiredis(it, text) for it in pair] for pair in pairs_of(value)])
    if isinstance(value, Push):
        return as_hiredis([value.kind, *value.data], text)
    if isinstance(value, list):
        parts = [as_hiredis(it, text) for it in value]
        return set(parts) if isinstance(value, Set) else parts
    if isinstance(value, ServerError):
        return hiredis.ReplyError(str(value))
    if isinstance(value, str):
        return text(value.encode())
    if isinstance(value, bytes) or is_big(value):
        return text(b"%d" % value if is_big(value) else bytes(value))
    return float(value) if isinstance(value, Double) else value


def shown_by_hiredis(value):
    """A value with its types; a set without an order."""
    if isinstance(value, (list, set)):
        parts = [shown_by_hiredis(it) for it in value]
        return (type(value), parts if isinstance(value, list) else sorted(parts, key=repr))
    if isinstance(value, dict):
        return (dict, [(shown_by_hiredis(key), shown_by_hiredis(it)) for key, it in value.items()])
    return (type(value), repr(value))


@unittest.skipIf(hiredis is None, "there is no extension module")
class Reading(Random):
    """`Reader` beside `Parser`."""

    WAYS = [
        ({}, bytes),
        ({"encoding": "utf-8"}, bytes.decode),
        ({"encoding": "latin-1"}, lambda it: it.decode("latin-1")),
        ({"encoding": "utf-8", "errors": "replace"}, lambda it: it.decode(errors="replace")),
    ]

    def data(self):
        """Replies, or damaged ones without big numbers: a short one is an `int` of `Parser`, too."""
        return self.replies() if self.choose.random() < 0.5 else self.damaged().replace(b"(", b"*")

    def result(self, take):
        """What a call returns or raises."""
        try:
            value = take()
        except ProtocolError as error:
            return (hiredis.ProtocolError, f"Protocol error, {error}")
        except (hiredis.ProtocolError, TypeError, UnicodeDecodeError) as error:
            return (type(error), str(error) if isinstance(error, hiredis.ProtocolError) else None)
        return value if value is MORE else shown_by_hiredis(value)

    def both(self, parser, reader, text):
        """What both give next, which has to be the same."""

        def by_parser():
            value = parser.next()
            return value if value is MORE else as_hiredis(value, text)

        wanted = self.result(by_parser)
        self.assertEqual(self.result(reader.gets), wanted)
        return wanted

    def test_replies_in_pieces(self):
        ends = set()
        for _ in range(RUNS):
            options, text = self.choose.choice(self.WAYS)
            parser, reader = Parser(), hiredis.Reader(notEnoughData=MORE, **options)
            for piece in self.pieces(self.data()):
                parser.feed(piece)
                reader.feed(piece)
                result = None
                while result is not MORE and not (result and result[0] is hiredis.ProtocolError):
                    result = self.both(parser, reader, text)
                    ends.add(result if result is MORE else result[0])
                if result is not MORE:
                    self.assertEqual(self.result(reader.gets), result)
                    break
        self.assertLessEqual({MORE, hiredis.ProtocolError, TypeError, UnicodeDecodeError, dict, set}, ends)


def first(data):
    """What `parse_one` returns, or the error that it names."""
    try:
        value, size = parse_one(data)
    except ProtocolError as error:
        return (Fault(error.fault), error.offset)
    except IncompleteError:
        return (MORE, 0)
    return (shown(value), size)


class ParsingOne(Random):
    def test_damaged_replies(self):
        ends = set()
        for _ in range(RUNS):
            data = self.damaged()
            found, size = first(data)
            parser = Parser()
            parser.feed(data)
            self.assertEqual(taken(parser), (found, size) if isinstance(found, Fault) else found)
            if found is not MORE:
                self.assertEqual(first(data[:size] + b"x\r\n"), (found, size))
                self.assertEqual(first(data[: size - 1]), (MORE, 0))
            ends.add(found[0] if isinstance(found, tuple) else found)
        self.assertGreater(len(ends), 20)


def as_resp2(value):
    """What a client of RESP2 reads for a value."""
    if isinstance(value, Attribute):
        return as_resp2(value.value)
    if isinstance(value, (dict, Pairs)):
        return [as_resp2(it) for pair in pairs_of(value) for it in pair]
    if isinstance(value, Push):
        return [value.kind.encode(), *map(as_resp2, value.data)]
    if isinstance(value, list):
        return [as_resp2(it) for it in value]
    if isinstance(value, BigNumber) or is_big(value):
        return b"%d" % value if is_big(value) else bytes(value)
    if isinstance(value, Double):
        return value.text.encode()
    if isinstance(value, Verbatim):
        return value.encode()
    return int(value) if isinstance(value, bool) else value


def read_resp2(data):
    """A reply of RESP2, as the specification has these, and the bytes after it."""
    line, rest = data.split(b"\r\n", 1)
    kind, text = line[:1], line[1:].decode()
    if kind == b"+":
        return text, rest
    if kind == b"-":
        return ServerError(*text.split(" ", 1)), rest
    size = int(text)
    if kind == b":":
        return size, rest
    if kind == b"$":
        if size == -1:
            return None, rest
        assert rest[size : size + 2] == b"\r\n"
        return rest[:size], rest[size + 2 :]
    assert kind == b"*"
    parts = []
    for _ in range(size):
        part, rest = read_resp2(rest)
        parts.append(part)
    return parts, rest


class Sending(Random):
    def values(self):
        """The values of random replies."""
        for _ in range(RUNS):
            parser = Parser()
            parser.feed(self.choose.choice([self.replies, self.damaged])())
            try:
                yield from parser
            except ProtocolError:
                pass

    def test_values_are_sent(self):
        sent = 0
        for value in self.values():
            data = encode(value)
            again, size = parse_one(data)
            self.assertEqual((shown(again), size), (shown(value), len(data)))
            sent += 1
        self.assertGreater(sent, RUNS)

    def test_values_are_sent_in_resp2(self):
        sent = refused = 0
        for value in self.values():
            wanted = as_resp2(value)
            try:
                data = encode(value, protocol=2)
            except ValueError:
                self.assertRegex(repr(wanted), r"ServerError\(.*\\r\\n")
                refused += 1
                continue
            again, rest = read_resp2(data)
            self.assertEqual((shown(again), rest), (shown(wanted), b""))
            again, size = parse_one(data)
            self.assertEqual((shown(again), size), (shown(wanted), len(data)))
            sent += 1
        self.assertGreater(sent, RUNS)
        self.assertGreater(refused, 0)


if __name__ == "__main__":
    unittest.main()
