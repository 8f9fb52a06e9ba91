"""Parsers by hand: cuts, faults, limits, states. The places of faults are those of docs/GRAMMAR.md."""

import copy
import pathlib
import pickle
import subprocess
import sys
import textwrap
import threading
import unittest
import unittest.mock

import resp_c
from resp_c import (
    MORE,
    Fault,
    IncompleteError,
    Parser,
    ParserFailedError,
    ProtocolError,
    RespError,
    ServerError,
    State,
    Verbatim,
    parse_one,
    version,
)

REPLY = b"*3\r\n$5\r\nhello\r\n%1\r\n+a\r\n:1\r\n=7\r\ntxt:abc\r\n"
VALUE = [b"hello", {"a": 1}, Verbatim("abc", "txt")]


def fed(data, **limits):
    parser = Parser(**limits)
    parser.feed(data)
    return parser


class Feeding(unittest.TestCase):
    def test_values_come_in_order(self):
        parser = fed(b":1\r\n+OK\r\n$-1\r\n:2")
        self.assertEqual([parser.next(), parser.next(), parser.next()], [1, "OK", None])
        self.assertIs(parser.next(), MORE)
        parser.feed(b"2\r\n")
        self.assertEqual(parser.next(), 22)

    def test_iteration_goes_on_after_more_bytes(self):
        parser = fed(b":1\r\n:2\r\n:")
        self.assertEqual(list(parser), [1, 2])
        parser.feed(b"3\r\n")
        self.assertEqual(list(parser), [3])

    def test_byte_by_byte(self):
        parser = Parser()
        for n in range(len(REPLY)):
            self.assertIs(parser.next(), MORE)
            parser.feed(REPLY[n : n + 1])
        self.assertEqual(parser.next(), VALUE)

    def test_each_cut(self):
        parser = Parser()
        for cut in range(1, len(REPLY)):
            parser.feed(REPLY[:cut])
            self.assertIs(parser.next(), MORE)
            parser.feed(REPLY[cut:])
            self.assertEqual(parser.next(), VALUE)

    def test_large_pieces(self):
        body = bytes(range(256)) * 400
        sent = b"$102400\r\n" + body + b"\r\n"
        for cut in [0, 1, 9, 256, 300, 50000, len(sent)]:
            parser = fed(sent[:cut])
            parser.feed(sent[cut:] + b":1\r\n")
            parser.feed(b":2\r\n")
            self.assertIs(parser.state, State.IN_PROGRESS)
            self.assertEqual(list(parser), [body, 1, 2])
            self.assertIs(parser.state, State.BETWEEN_VALUES)

    def test_many_values_in_a_large_piece(self):
        parser = fed(b":1\r\n" * 20000)
        self.assertEqual([parser.next() for _ in range(64)], [1] * 64)
        self.assertIs(parser.state, State.IN_PROGRESS)
        self.assertEqual(list(parser), [1] * 19936)

    def test_a_large_piece_is_let_go(self):
        for end in [Parser.close, lambda it: it.__init__(), lambda it: list(it)]:
            piece = b":1\r\n" * 20000
            before = sys.getrefcount(piece)
            parser = fed(piece)
            end(parser)
            self.assertEqual(sys.getrefcount(piece), before)

    def test_a_fault_in_a_large_piece(self):
        for at in [0, 10, 300, 70000]:
            parser = fed(b"+" + b"a" * at + b"\xff\r\n" + b":1\r\n" * 20000)
            with self.assertRaises(ProtocolError) as raised:
                parser.next()
            self.assertEqual((raised.exception.fault, raised.exception.offset), (Fault.LINE_NOT_UTF8, at + 4))
            with self.assertRaises(ParserFailedError):
                parser.feed(b":1\r\n" * 20000)

    def test_kinds_of_bytes(self):
        parser = Parser()
        parser.feed(bytearray(b":1\r\n"))
        parser.feed(memoryview(b":2\r\n"))
        parser.feed(memoryview(b":x3x\rx\nx")[::2])
        parser.feed(b"")
        self.assertEqual(list(parser), [1, 2, 3])
        for wrong in [":1\r\n", 5, None, [1]]:
            with self.assertRaises(TypeError):
                parser.feed(wrong)

    def test_the_argument_has_a_name(self):
        parser = Parser()
        parser.feed(data=b":1\r\n")
        self.assertEqual(parser.next(), 1)
        self.assertEqual(parser.first(data=b":2\r\n"), (2, 4))
        for wrong in [{}, {"other": b""}, {"data": b"", "other": b""}]:
            with self.assertRaises(TypeError):
                parser.feed(**wrong)
        self.assertRaises(TypeError, parser.feed, b"", b"")

    def test_what_was_taken_stays(self):
        parser = fed(b"$3\r\nabc\r\n$3\r\nxyz\r\n")
        first = parser.next()
        parser.next()
        parser.close()
        self.assertEqual(first, b"abc")

    def test_more_is_false_and_no_value(self):
        self.assertFalse(MORE)
        self.assertIsNotNone(MORE)
        self.assertEqual(repr(MORE), "resp_c.MORE")


class Faults(unittest.TestCase):
    CASES = [
        (b"*1\r\n" * 100 + b":", Fault.TOO_DEEP, 401),
        (b"@", Fault.UNKNOWN_TYPE, 1),
        (b"+\xff\r\n", Fault.LINE_NOT_UTF8, 4),
        (b":1\r\n:abc\r\n", Fault.NOT_INTEGER, 6),
        (b"%-1\r\n", Fault.NEGATIVE_LENGTH, 5),
        (b"$1\r\nabc", Fault.BODY_END, 6),
        (b"#x\r\n", Fault.NOT_BOOLEAN, 4),
        (b",1e\r\n", Fault.NOT_DOUBLE, 5),
        (b"=3\r\ntxt\r\n", Fault.NO_VERBATIM_FORMAT, 9),
        (b">1\r\n:1\r\n", Fault.BAD_PUSH_KIND, 8),
    ]

    def test_each_fault(self):
        for data, fault, offset in self.CASES:
            with self.subTest(fault=fault), self.assertRaises(ProtocolError) as raised:
                list(fed(data))
            error = raised.exception
            self.assertEqual((error.fault, error.offset), (fault, offset))
            self.assertEqual(str(error), f"{fault.name} at byte {offset}")
            self.assertIsInstance(error, RespError)

    def test_a_value_that_is_too_long(self):
        with self.assertRaises(ProtocolError) as raised:
            fed(b":1234\r\n", size=6).next()
        self.assertEqual((raised.exception.fault, raised.exception.offset), (Fault.TOO_LONG, 7))

    def test_a_fault_is_the_end(self):
        parser = fed(b":1\r\n@")
        self.assertEqual(parser.next(), 1)
        with self.assertRaises(ProtocolError):
            parser.next()
        self.assertEqual(parser.state, State.FAILED)
        with self.assertRaises(ParserFailedError):
            parser.feed(b":1\r\n")
        with self.assertRaises(ParserFailedError):
            parser.next()


class Limits(unittest.TestCase):
    def test_out_of_range(self):
        for limits in [{"depth": 0}, {"depth": 1001}, {"size": 0}, {"size": 2**63}, {"size": 2**64 + 1}]:
            with self.subTest(**limits), self.assertRaises(ValueError):
                Parser(**limits)
        with self.assertRaises(TypeError):
            Parser(depth="1")

    def test_the_greatest(self):
        parser = Parser(depth=1000, size=2**63 - 1)
        parser.feed(b"*1\r\n" * 999 + b":7\r\n")
        value, levels = parser.next(), 1
        while isinstance(value, list):
            (value,) = value
            levels += 1
        self.assertEqual((value, levels), (7, 1000))

    def test_depth(self):
        self.assertEqual(fed(b"*1\r\n:1\r\n", depth=2).next(), [1])
        with self.assertRaises(ProtocolError) as raised:
            fed(b"*1\r\n*1\r\n:", depth=2).next()
        self.assertEqual((raised.exception.fault, raised.exception.offset), (Fault.TOO_DEEP, 9))


class First(unittest.TestCase):
    def test_one_value(self):
        self.assertEqual(parse_one(b":1\r\n:2\r\n"), (1, 4))
        self.assertEqual(parse_one(bytearray(b"+OK\r\n")), ("OK", 5))

    def test_incomplete(self):
        for data in [b"", b"*1\r\n", b"$3\r\nabc"]:
            with self.assertRaises(IncompleteError):
                parse_one(data)

    def test_fault(self):
        with self.assertRaises(ProtocolError) as raised:
            parse_one(b":x\r\n:1\r\n")
        self.assertEqual((raised.exception.fault, raised.exception.offset), (Fault.NOT_INTEGER, 4))

    def test_limits(self):
        with self.assertRaises(ProtocolError):
            parse_one(b"*1\r\n:1\r\n", depth=1)
        with self.assertRaises(ValueError):
            parse_one(b":1\r\n", size=0)

    def test_the_parser_goes_on(self):
        parser = fed(b"$3\r\na")
        self.assertEqual(parser.first(b":1\r\n:2\r\n"), (1, 4))
        with self.assertRaises(ProtocolError):
            parser.first(b"@")
        with self.assertRaises(IncompleteError):
            parser.first(b"+")
        self.assertTrue(parser.in_progress)
        parser.feed(b"bc\r\n")
        self.assertEqual(parser.next(), b"abc")

    def test_after_a_failure(self):
        parser = fed(b"@")
        self.assertRaises(ProtocolError, parser.next)
        self.assertEqual(parser.first(b"+PONG\r\n"), ("PONG", 7))
        self.assertEqual(parser.state, State.FAILED)


class Lives(unittest.TestCase):
    def test_states(self):
        parser = Parser()
        self.assertEqual(parser.state, State.BETWEEN_VALUES)
        self.assertEqual(repr(parser), "<resp_c.Parser BETWEEN_VALUES>")
        parser.feed(b"+O")
        self.assertEqual(parser.state, State.IN_PROGRESS)
        self.assertTrue(parser.in_progress)
        parser.feed(b"K\r\n")
        self.assertTrue(parser.in_progress)
        self.assertEqual(parser.next(), "OK")
        self.assertFalse(parser.in_progress)
        parser.close()
        self.assertEqual(parser.state, State.CLOSED)

    def test_a_closed_parser(self):
        with fed(b":1\r\n") as parser:
            pass
        parser.close()
        for call in [parser.next, lambda: parser.feed(b""), lambda: parser.first(b"")]:
            self.assertRaises(ValueError, call)

    def test_a_parser_is_not_copied(self):
        for copier in [copy.copy, copy.deepcopy, pickle.dumps]:
            self.assertRaises(TypeError, copier, Parser())

    def test_a_second_call_is_refused_while_one_runs(self):
        for call in ["next", "close", "_state"]:
            parser = fed(b"-ERR\r\n:1\r\n")

            def made(error, *_, parser=parser, call=call):
                getattr(parser, call)()

            with unittest.mock.patch.object(ServerError, "__init__", made):
                self.assertRaises(RuntimeError, parser.next)
            self.assertEqual(parser.next(), 1)

    def test_another_thread_may_go_on(self):
        parser, values = fed(b":1\r\n:2"), []

        def go_on():
            values.extend(parser)
            parser.feed(b"\r\n")

        thread = threading.Thread(target=go_on)
        thread.start()
        thread.join()
        self.assertEqual((values, list(parser)), ([1], [2]))

    def test_memory_that_runs_out(self):
        program = """
            import pathlib
            import resource
            import sys
            import resp_c

            def limit_to(size):
                resource.setrlimit(resource.RLIMIT_AS, (size, resource.RLIM_INFINITY))

            piece = bytearray(1 << 26)
            parser = resp_c.Parser()
            parser.feed(b"+O")
            pages = int(pathlib.Path("/proc/self/statm").read_text().split()[0])
            limit_to(pages * resource.getpagesize() + (1 << 24))
            try:
                parser.feed(piece)
            except MemoryError:
                print("refused")
            limit_to(resource.RLIM_INFINITY)
            parser.feed(b"K\\r\\n")
            print(parser.next())
        """
        run = [sys.executable, "-c", textwrap.dedent(program)]
        result = subprocess.run(run, capture_output=True, text=True, check=False)
        self.assertEqual(result.stdout, "refused\nOK\n", result.stderr)

    def test_memory_that_runs_out_over_a_large_piece(self):
        program = """
            import pathlib
            import resource
            import resp_c

            def limit_to(size):
                resource.setrlimit(resource.RLIMIT_AS, (size, resource.RLIM_INFINITY))

            def taken(parser, pieces):
                while pieces:
                    parser.feed(pieces[0])
                    pieces.pop(0)
                return parser.next()

            pieces = [b"+" + b"x" * (1 << 26)]
            parser = resp_c.Parser()
            pages = int(pathlib.Path("/proc/self/statm").read_text().split()[0])
            limit_to(pages * resource.getpagesize() + (1 << 24))
            try:
                taken(parser, pieces)
            except MemoryError:
                print("refused")
            limit_to(resource.RLIM_INFINITY)
            print(taken(parser, pieces) is resp_c.MORE)
            parser.feed(b"y\\r\\n")
            print(len(parser.next()) - (1 << 26))
        """
        run = [sys.executable, "-c", textwrap.dedent(program)]
        result = subprocess.run(run, capture_output=True, text=True, check=False)
        self.assertEqual(result.stdout, "refused\nTrue\n1\n", result.stderr)

    def test_the_version(self):
        project = pathlib.Path(__file__).resolve().parent.parent / "pyproject.toml"
        self.assertIn(f'version = "{version()}"', project.read_text("utf-8").split("\n"))
        self.assertEqual(resp_c.__version__, version())


if __name__ == "__main__":
    unittest.main()
