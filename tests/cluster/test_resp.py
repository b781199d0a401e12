"""The protocol of Redis, and proxies that carry its bytes."""
import asyncio
import unittest
from collections import Counter

from scripted import until_at_rest

from cluster.faults.dice import Dice, Rates
from cluster.faults.proxies import Link, open_proxy
from cluster.launch.processes import Ports
from cluster.resp import ErrorReply, Parser, Redis, encode_command, encode_reply

TEXT = b"+OK\r\n:-7\r\n$5\r\na\r\nbc\r\n$-1\r\n*-1\r\n*0\r\n*3\r\n:1\r\n*2\r\n$0\r\n\r\n+x\r\n$1\r\ny\r\nPING now\r\n"
VALUES = [b"OK", -7, b"a\r\nbc", None, None, [], [1, [b"", b"x"], b"y"], [b"PING", b"now"]]


class ParserTest(unittest.TestCase):
    """Replies out of bytes."""

    def test_bytes_may_come_in_any_pieces(self):
        for size in range(1, len(TEXT) + 1):
            parser, found = Parser(), []
            for at in range(0, len(TEXT), size):
                found += parser.feed(TEXT[at:at + size])
            self.assertEqual((found, parser.rest, parser.lists), (VALUES, [], []), size)

    def test_errors_are_values(self):
        (error,) = Parser().feed(b"-NOTHERE s\r\n")
        self.assertEqual((type(error), error.kind), (ErrorReply, "NOTHERE"))

    def test_no_number(self):
        for text in (b"$x\r\n", b"*\r\n", b":1.5\r\n"):
            with self.assertRaises(ValueError):
                Parser().feed(text)

    def test_what_is_written_is_read(self):
        value = [b"a", 5, None, [b"b\r\n", []]]
        self.assertEqual(Parser().feed(encode_reply(value)), [value])
        self.assertEqual(Parser().feed(encode_command(("SET", "k", 3))), [[b"SET", b"k", b"3"]])


class BytesTest(unittest.IsolatedAsyncioTestCase):
    """Commands through a proxy of bytes."""

    async def asyncSetUp(self):
        ports = Ports()
        self.addCleanup(ports.end)
        self.addAsyncCleanup(until_at_rest)
        self.far, self.near = ports.take(2)
        self.server = await asyncio.start_server(self.count, "127.0.0.1", self.far)
        self.addCleanup(self.server.close)

    async def count(self, reader, writer):
        """Answers each command with its second word, which is a number."""
        parser = Parser()
        while data := await reader.read(100):
            for command in parser.feed(data):
                writer.write(encode_reply(int(command[1])))
        writer.close()

    async def open(self, **rates):
        """A connection through a proxy with such rates, and the proxy's link."""
        link = Link("client c a", Dice(1, "client c a", Rates(**rates), Counter()), "127.0.0.1", self.far)
        self.addCleanup((await open_proxy(self.near, "bytes", link)).close)
        redis = await Redis.open_port("127.0.0.1", self.near)
        self.addCleanup(redis.close)
        return redis, link

    async def test_late_bytes_stay_in_order(self):
        redis, link = await self.open(delay=0.5, longest=0.02)
        replies = []
        for start in range(0, 200, 5):
            replies += [redis.send("COUNT", start + it) for it in range(5)]
            await asyncio.sleep(0)
        self.assertEqual(await asyncio.wait_for(asyncio.gather(*replies), 60), list(range(200)))
        self.assertTrue(link.dice.counts["client delayed"])

    async def test_a_loss_ends_the_connection(self):
        redis, _ = await self.open(drop=1.0)
        with self.assertRaises(ConnectionError):
            await asyncio.wait_for(redis.call("COUNT", 1), 60)
        self.assertTrue(redis.is_closed)

    async def test_nothing_gets_through_a_link_that_is_cut(self):
        redis, link = await self.open()
        self.assertEqual(await asyncio.wait_for(redis.call("COUNT", 1), 60), 1)
        link.is_cut = True
        with self.assertRaises(ConnectionError):
            await asyncio.wait_for(redis.call("COUNT", 2), 60)

    async def test_nobody_listens_at_the_far_end(self):
        self.server.close()
        await self.server.wait_closed()
        redis, _ = await self.open()
        with self.assertRaises(ConnectionError):
            await asyncio.wait_for(redis.call("COUNT", 1), 60)
