"""The rows of `crates/resp_vectors` that speak of what this package has: `read`, `cut`, `limits` and
`encode` of replies, `pack` and `pipeline` of commands. ROWS.md there says how a row is written. The rows
with cursor arguments (`@N`) are left out, since the C interface has none, and so are those of other
tasks, and two of `encode`, whose big numbers are `int`s that are sent in other bytes. Each reply of a
row is sent and read again, too.
"""

import collections
import pathlib
import re
import sys
import unicodedata
import unittest

from resp_c import (
    Attribute,
    BigNumber,
    Double,
    IncompleteError,
    Pairs,
    Parser,
    ProtocolError,
    Push,
    ServerError,
    Set,
    Verbatim,
    encode,
    pack,
    pack_pipeline,
    parse_one,
)

DATA = pathlib.Path(__file__).resolve().parents[3] / "crates" / "resp_vectors" / "data"

# The most bytes that are cut at each place.
CUT = 60

Row = collections.namedtuple("Row", "task words answer place")

QUOTED = re.compile(r'(?:(\d+)\*)?"((?:[^"\\]|\\.)*)"|([^ "]+?)(?=\d+\*"|[ "]|$)')
ESCAPE = re.compile(r"\\(?:x([0-9A-Fa-f]{2})|(.))")
ESCAPED = {"r": "\r", "n": "\n", "t": "\t", '"': '"', "\\": "\\"}


def rows():
    """The rows of all files."""
    for file in sorted(DATA.glob("*.rows")):
        for n, line in enumerate(file.read_text("utf-8").split("\n"), 1):
            if line and not line.startswith("#"):
                yield row(line, f"{file.name}:{n}")


def row(line, place):
    question, _, answer = line.partition(" =>")
    task, _, words = question.partition(" ")
    return Row(task, words_of(words), answer[1:], place)


def words_of(line):
    """The words of a row, with their escapes undone."""
    words, at = [], 0
    while at < len(line):
        word = b""
        while at < len(line) and line[at] != " ":
            part = QUOTED.match(line, at)
            word += part_of(*part.groups())
            at = part.end()
        words.append(word)
        at += 1
    return words


def part_of(times, quoted, bare):
    if bare is not None:
        return bare.encode()
    return unescaped(quoted) * int(times or 1)


def unescaped(text):
    def undone(escape):
        return chr(int(escape[1], 16)) if escape[1] else ESCAPED[escape[2]]

    return ESCAPE.sub(undone, text).encode("latin-1")


def debug(text):
    """A text as Rust's `{:?}` prints it."""
    return '"' + "".join(map(debug_letter, text)) + '"'


def debug_letter(letter):
    names = {"\r": "\\r", "\n": "\\n", "\t": "\\t", '"': '\\"', "\\": "\\\\", "\0": "\\0"}
    if letter in names:
        return names[letter]
    extends = unicodedata.category(letter) in ("Mn", "Me")
    return letter if letter.isprintable() and not extends else f"\\u{{{ord(letter):x}}}"


PUSH_KINDS = {
    "invalidate": "Invalidate",
    "message": "Message",
    "pmessage": "PMessage",
    "smessage": "SMessage",
    "unsubscribe": "Unsubscribe",
    "punsubscribe": "PUnsubscribe",
    "sunsubscribe": "SUnsubscribe",
    "subscribe": "Subscribe",
    "psubscribe": "PSubscribe",
    "ssubscribe": "SSubscribe",
}
FORMATS = {"txt": "Text", "mkd": "Markdown"}


def shown(value):
    """A value as the rows show it, which is how the Rust crate `redis` prints it."""
    return SHOWN[type(value)](value)


def all_shown(values):
    return "[" + ", ".join(map(shown, values)) + "]"


def pairs_shown(pairs):
    return "map([" + ", ".join(f"({shown(key)}, {shown(value)})" for key, value in pairs) + "])"


def bytes_shown(data):
    try:
        return f"bulk-string('{debug(data.decode())}')"
    except UnicodeDecodeError:
        return f"binary-data({list(data)})"


def verbatim_shown(value):
    name = FORMATS.get(value.text_format, f"Unknown({debug(value.text_format)})")
    return f"verbatim-string({name},{debug(str(value))})"


def push_shown(push):
    kind = PUSH_KINDS.get(push.kind, f"Other({debug(push.kind)})")
    return f"push({kind}, {all_shown(push.data)})"


def error_shown(error):
    detail = "" if error.detail is None else f": {error.detail}"
    return f"Server error: `{error.code}{detail}`"


SHOWN = {
    type(None): lambda value: "nil",
    bool: lambda value: f"boolean({str(value).lower()})",
    int: lambda value: f"int({value})",
    str: lambda value: "ok" if value == "OK" else f"simple-string({debug(value)})",
    bytes: bytes_shown,
    list: lambda value: f"array({all_shown(value)})",
    dict: lambda value: pairs_shown(value.items()),
    Attribute: lambda value: f"attribute({shown(value.value)})",
    BigNumber: lambda value: f"big-number({list(value)})",
    Double: lambda value: f"double({value.text})",
    Pairs: pairs_shown,
    Push: push_shown,
    ServerError: error_shown,
    Set: lambda value: f"set({all_shown(value)})",
    Verbatim: verbatim_shown,
}


def with_big_integers(answer):
    """An answer where a big number that is an integer is shown as one, as it is in Python."""

    def read(number):
        text = bytes(map(int, filter(None, number[1].split(", "))))
        return f"int({int(text)})" if re.fullmatch(rb"[+-]?[0-9]+", text) else number[0]

    return re.sub(r"big-number\(\[([0-9, ]*)\]\)", read, answer)


def escaped(text):
    """A text with its ASCII control characters as escapes."""
    names = {"\r": "\\r", "\n": "\\n", "\t": "\\t"}

    def escape(control):
        return names.get(control[0], f"\\x{ord(control[0]):02X}")

    return re.sub(r"[\x00-\x1f\x7f]", escape, text)


def fault_shown(error):
    name = error.fault.name.title().replace("_", "")
    return f"{name}@{error.offset}"


def read(pieces, **limits):
    """What a parser with these limits makes of bytes, fed in these pieces."""
    parts = []
    with Parser(**limits) as parser:
        try:
            for piece in pieces:
                parser.feed(piece)
                parts.extend(map(shown, parser))
        except ProtocolError as error:
            parts.append(fault_shown(error))
        if parser.in_progress:
            parts.append("..")
    return escaped(" ".join(parts))


def read_by_first(data, **limits):
    """The same by `first`, value after value."""
    parts = []
    with Parser(**limits) as parser:
        try:
            while data:
                value, taken = parser.first(data)
                parts.append(shown(value))
                data = data[taken:]
        except ProtocolError as error:
            parts.append(fault_shown(error))
        except IncompleteError:
            parts.append("..")
    return escaped(" ".join(parts))


def values_of(data, **limits):
    """The values of these bytes, up to a fault or to the end of those that are whole."""
    with Parser(**limits) as parser:
        parser.feed(data)
        try:
            yield from parser
        except ProtocolError:
            return


BIG_NUMBER = re.compile(rb"\(([+-]?[0-9]+)\r\n")


def is_sent_as_read(data):
    """Whether no big number of these bytes is an `int` that is sent in other bytes: as an integer, or
    without a sign and zeros before it."""
    numbers = BIG_NUMBER.findall(data)
    return not any(-(2**63) <= int(it) < 2**63 or b"%d" % int(it) != it for it in numbers)


def is_cursor(word):
    return word.startswith(b"@")


def commands_of(words):
    """The commands of a pipeline, without the marks that an answer is ignored."""
    commands = [[]] if words else []
    for word in words:
        if word == b",":
            commands.append([])
        else:
            commands[-1].append(word)
    return [command[:-1] if command[-1:] == [b"!"] else command for command in commands]


class Rows(unittest.TestCase):
    def setUp(self):
        # A value may be shown that is 1000 levels deep.
        before = sys.getrecursionlimit()
        self.addCleanup(sys.setrecursionlimit, before)
        sys.setrecursionlimit(max(before, 10_000))

    def check_reading(self, row, data, **limits):
        """Reads the bytes whole, one by one, value by value and cut at each place."""
        wanted = with_big_integers(row.answer)
        self.assertEqual(read([data], **limits), wanted, row.place)
        self.assertEqual(read(map(bytes, zip(data)), **limits), wanted, f"{row.place} by bytes")
        self.assertEqual(read_by_first(data, **limits), wanted, f"{row.place} by first")
        if len(data) <= CUT:
            for cut in range(1, len(data)):
                pieces = [data[:cut], data[cut:]]
                self.assertEqual(read(pieces, **limits), wanted, f"{row.place} cut at {cut}")
        for value in values_of(data, **limits):
            self.check_sent(row, value)

    def check_sent(self, row, value):
        """What is sent in RESP3 is read as the same reply; and what is sent in RESP2 is sent again as it
        is."""
        resp3 = encode(value)
        again, taken = parse_one(resp3, depth=1000)
        self.assertEqual(taken, len(resp3), row.place)
        self.assertEqual(shown(again), shown(value), row.place)
        self.assertEqual(encode(again), resp3, row.place)
        try:
            resp2 = encode(value, protocol=2)
        except ValueError:
            self.assertIn(b"!", resp3, f"{row.place}: only an error in a body has no bytes in RESP2")
            return
        form, taken = parse_one(resp2, depth=1000)
        self.assertEqual(taken, len(resp2), row.place)
        self.assertEqual(encode(form, protocol=2), resp2, row.place)

    def check_encode(self, row):
        """Whether the row was checked: the bytes of both versions, or why there are none."""
        try:
            value, _ = parse_one(row.words[0])
        except ProtocolError as error:
            fault, _, _ = fault_shown(error).partition("@")
            self.assertEqual(row.answer, f"refused: parse error ({fault})", row.place)
            return True
        self.check_sent(row, value)
        if row.answer.startswith("refused: client error"):
            self.assertRaises(ValueError, encode, value, protocol=2)
            return True
        resp3, resp2 = words_of(row.answer)
        if not is_sent_as_read(resp3):
            return False
        self.assertEqual((encode(value), encode(value, protocol=2)), (resp3, resp2), row.place)
        return True

    def check_limits(self, row):
        depth, size, data = row.words
        limits = {"depth": int(depth), "size": int(size)}
        if row.answer.startswith("refused"):
            self.assertRaises(ValueError, Parser, **limits)
        else:
            self.check_reading(row, data, **limits)

    def check_pack(self, row):
        self.assertEqual(pack(*row.words), words_of(row.answer)[0], row.place)

    def check_pipeline(self, row):
        atomic = row.words[:1] == [b"--atomic"]
        commands = commands_of(row.words[atomic:])
        self.assertEqual(pack_pipeline(commands, atomic), words_of(row.answer)[0], row.place)

    def check(self, row):
        """Whether the row speaks of what this package has; if so it is checked."""
        if row.task in ("read", "cut"):
            self.check_reading(row, row.words[0])
        elif row.task == "limits":
            self.check_limits(row)
        elif row.task == "encode":
            return self.check_encode(row)
        elif row.task not in ("pack", "pipeline") or any(map(is_cursor, row.words)):
            return False
        elif row.task == "pack":
            self.check_pack(row)
        else:
            self.check_pipeline(row)
        return True

    def test_rows_hold(self):
        checked, skipped = collections.Counter(), collections.Counter()
        for row in rows():
            (checked if self.check(row) else skipped)[row.task] += 1
        print("rows checked:", dict(sorted(checked.items())))
        print("rows skipped, with cursors, of other tasks or with such numbers:", dict(sorted(skipped.items())))
        for task in ["read", "cut", "limits"]:
            self.assertTrue(checked[task] and not skipped[task], task)
        for task in ["encode", "pack", "pipeline"]:
            self.assertTrue(checked[task], task)
        self.assertEqual(skipped["encode"], 2)


if __name__ == "__main__":
    unittest.main()
