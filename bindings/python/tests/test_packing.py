"""Packed commands, as "Sending commands to a Redis server" of the RESP specification has them."""

import unittest

from resp_c import Double, _output, _packing, pack, pack_pipeline, parse_one


class Pack(unittest.TestCase):
    def test_a_command_is_an_array_of_bulk_strings(self):
        self.assertEqual(pack("LLEN", "mylist"), b"*2\r\n$4\r\nLLEN\r\n$6\r\nmylist\r\n")
        self.assertEqual(pack("PING"), b"*1\r\n$4\r\nPING\r\n")
        self.assertEqual(pack(b"k", b""), b"*2\r\n$1\r\nk\r\n$0\r\n\r\n")
        self.assertEqual(pack(""), b"*1\r\n$0\r\n\r\n")

    def test_kinds_of_arguments(self):
        packed = pack(b"\xff\x00", bytearray(b"a"), memoryview(b"b"), "é", -5, 1.5, Double("2.50"))
        wanted = [b"\xff\x00", b"a", b"b", "é".encode(), b"-5", b"1.5", b"2.5"]
        self.assertEqual(parse_one(packed), (wanted, len(packed)))

    def test_refused_arguments(self):
        for wrong in [None, True, ["a"], {}]:
            with self.subTest(wrong=wrong), self.assertRaises(TypeError):
                pack("GET", wrong)

    def test_no_arguments_give_no_bytes(self):
        self.assertEqual(pack(), b"")

    def test_room_that_is_too_small_grows(self):
        def packer(out, size):
            sizes = _packing._sizes([b"PING"])
            return _packing.library.resp_pack(b"PING", 4, sizes, 1, out, len(out), size)

        for room in [0, 1, 13, 14, 15]:
            self.assertEqual(_output.written(room, packer), b"*1\r\n$4\r\nPING\r\n")

    def test_many_long_arguments(self):
        args = [b"x" * n for n in range(1000)]
        packed = pack(*args)
        self.assertEqual(parse_one(packed), (args, len(packed)))


class Pipelines(unittest.TestCase):
    COMMANDS = [("A",), ["SET", "k", 1]]
    PACKED = b"*1\r\n$1\r\nA\r\n*3\r\n$3\r\nSET\r\n$1\r\nk\r\n$1\r\n1\r\n"

    def test_commands_one_after_another(self):
        self.assertEqual(pack_pipeline(self.COMMANDS), self.PACKED)
        self.assertEqual(pack_pipeline(iter(self.COMMANDS)), self.PACKED)
        self.assertEqual(pack_pipeline([]), b"")

    def test_a_transaction(self):
        wanted = b"*1\r\n$5\r\nMULTI\r\n" + self.PACKED + b"*1\r\n$4\r\nEXEC\r\n"
        self.assertEqual(pack_pipeline(self.COMMANDS, atomic=True), wanted)

    def test_an_argument_in_the_place_of_a_command(self):
        for wrong in ["PING", b"PING", 5]:
            with self.subTest(wrong=wrong), self.assertRaises(TypeError):
                pack_pipeline([wrong])


if __name__ == "__main__":
    unittest.main()
