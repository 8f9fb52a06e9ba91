"""The parser class for redis-py, over a redis-server that is started here; redis-py's own parser gives the
wanted replies.
"""

import contextlib
import pathlib
import shutil
import socket
import subprocess
import tempfile
import time
import unittest

try:
    import redis
    from redis.connection import PythonParser

    from resp_c.redis_py import Parser
except ImportError:
    redis = None  # or the package is over ctypes

SERVER = shutil.which("redis-server")


def listens(path):
    """Whether a server takes connections at this path."""
    with socket.socket(socket.AF_UNIX) as tried:
        return tried.connect_ex(str(path)) == 0


@contextlib.contextmanager
def server():
    """The path of the socket of a server."""
    with tempfile.TemporaryDirectory() as folder:
        path = pathlib.Path(folder) / "socket"
        command = [SERVER, "--port", "0", "--unixsocket", str(path), "--save", "", "--dir", folder]
        process = subprocess.Popen(command, stdout=subprocess.DEVNULL)
        try:
            while not listens(path) and process.poll() is None:
                time.sleep(0.02)
            yield str(path)
        finally:
            process.terminate()
            process.wait()


def commands():
    """Two hundred commands and more, of replies of each type of RESP2."""
    yield ("PING",)
    yield ("NO-SUCH-COMMAND",)
    for n in range(40):
        key = f"key:{n}"
        yield ("SET", key, "é" * n)
        yield ("GET", key)
        yield ("GET", f"missing:{n}")
        yield ("RPUSH", "list", n, "x" * n)
        yield ("LRANGE", "list", 0, -1)
    yield ("HSET", "hash", "a", 1, "b", "\r\n")
    yield ("HGETALL", "hash")
    yield ("INCR", "hash")
    yield ("SET", "bytes", b"\x00\xff\r\n" * 5000)
    yield ("GET", "bytes")
    yield ("EVAL", "return {1, {'a', {false, redis.status_reply('FINE')}}, redis.error_reply('MY error')}", 0)
    yield ("COMMAND",)


@unittest.skipIf(redis is None or SERVER is None, "there is no extension module, redis-py or redis-server")
class Commands(unittest.TestCase):
    @classmethod
    def setUpClass(cls):
        cls.stack = contextlib.ExitStack()
        cls.path = cls.stack.enter_context(server())

    @classmethod
    def tearDownClass(cls):
        cls.stack.close()

    def client(self, parser, **options):
        pool = redis.ConnectionPool(
            connection_class=redis.UnixDomainSocketConnection, path=self.path, parser_class=parser, **options
        )
        client = redis.Redis(connection_pool=pool)
        self.addCleanup(pool.disconnect)
        return client

    def answers(self, parser, **options):
        """What each command gives, from an empty server."""
        client = self.client(parser, **options)
        client.flushall()
        return [self.answer(client, command) for command in commands()]

    def answer(self, client, command):
        try:
            return client.execute_command(*command)
        except redis.RedisError as error:
            return (type(error), error.args)
        except UnicodeDecodeError as error:
            return UnicodeDecodeError

    def same(self, one, other):
        """Whether answers are equal; errors within arrays are compared by their texts."""
        self.assertEqual(type(one), type(other))
        if isinstance(one, list):
            self.assertEqual(len(one), len(other))
            for pair in zip(one, other):
                self.same(*pair)
        elif isinstance(one, Exception):
            self.assertEqual(one.args, other.args)
        else:
            self.assertEqual(one, other)

    def test_commands(self):
        self.assertGreater(sum(1 for _ in commands()), 200)
        for options in [{}, {"decode_responses": True}, {"socket_read_size": 7}]:
            with self.subTest(**options):
                self.same(self.answers(Parser, **options), self.answers(PythonParser, **options))

    def test_pipelines(self):
        client = self.client(Parser)
        client.flushall()
        pipeline = client.pipeline()
        for n in range(100):
            pipeline.rpush("list", n)
        self.assertEqual(pipeline.execute(), list(range(1, 101)))
        pipeline = client.pipeline(transaction=False).get("list").lrange("list", 0, 1)
        error, values = pipeline.execute(raise_on_error=False)
        self.assertIsInstance(error, redis.ResponseError)
        self.assertEqual(values, [b"0", b"1"])

    def test_subscriptions(self):
        client = self.client(Parser)
        subscription = client.pubsub()
        subscription.subscribe("news")
        self.assertEqual(subscription.get_message(timeout=5)["type"], "subscribe")
        self.assertIsNone(subscription.get_message(timeout=0.01))
        self.assertIsNone(subscription.get_message())
        for n in range(20):
            self.assertEqual(client.publish("news", f"item {n}"), 1)
        for n in range(20):
            self.assertEqual(subscription.get_message(timeout=5)["data"], f"item {n}".encode())
        subscription.close()

    def test_an_error_of_the_connection(self):
        client = self.client(Parser)
        number = client.client_id()
        with self.assertRaises(redis.ConnectionError):
            other = self.client(Parser, retry=None).connection_pool.get_connection("PING")
            other.send_command("CLIENT", "ID")
            killed = other.read_response()
            client.client_kill_filter(_id=killed)
            other.send_command("PING")
            other.read_response()
        self.assertEqual(client.client_id(), number)

    def test_a_reply_that_takes_too_long(self):
        client = self.client(Parser, socket_timeout=0.05)
        with self.assertRaises(redis.TimeoutError):
            client.blpop("nothing", 1)
        self.assertTrue(client.ping())

    def test_bytes_that_are_no_reply(self):
        connection = self.client(Parser).connection_pool.get_connection("PING")
        connection._parser._reader.feed(b"@")
        self.assertRaises(redis.InvalidResponse, connection.read_response)


if __name__ == "__main__":
    unittest.main()
