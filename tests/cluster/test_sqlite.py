"""The store in SQLite replies as a redis-server does, and keeps what it has answered."""
import asyncio
import random
import shutil
import unittest

from cluster.launch.directory import new_directory
from cluster.resp import ErrorReply
from cluster.servers.engines import open_redis, start_redis
from cluster.servers.sqlite import Sqlite

KEYS, WORDS = ("k", "l", "m"), ("x", "y", "zz")


def command(dice):
    """One of the commands that servers send."""
    key, word, number = dice.choice(KEYS), dice.choice(WORDS), dice.randint(-3, 3)
    return dice.choice([
        ("SET", key, word), ("GET", key), ("INCR", "n"), ("APPEND", key, word), ("STRLEN", key), ("RPUSH", f"list{key}", word, word + "1"), ("LLEN", f"list{key}"),
        ("LRANGE", f"list{key}", number, dice.randint(-3, 3)), ("LTRIM", f"list{key}", -4, -1), ("HSET", "h", word, key), ("HGET", "h", word), ("HDEL", "h", word),
        ("SADD", "s", word), ("SREM", "s", word), ("SMEMBERS", "s"), ("UNLINK", key, "none"), ("DEL", f"list{key}"), ("TYPE", key), ("TYPE", f"list{key}"),
        ("RENAME", f"list{key}", f"list{dice.choice(KEYS)}"), ("RPUSH", key, word), ("LLEN", key), ("GET", f"list{key}"), ("HSCAN", "h", 0, "COUNT", 1000)])


async def replied(engine, words):
    """A reply, or the first word of an error. What has no order is sorted."""
    try:
        reply = await engine.call(*words)
    except ErrorReply as error:
        return error.kind
    if words[0] == "HSCAN":
        return sorted(zip(reply[1][::2], reply[1][1::2]))
    return sorted(reply) if words[0] == "SMEMBERS" else reply


class SqliteTest(unittest.IsolatedAsyncioTestCase):
    """A store in a folder of its own."""

    def setUp(self):
        self.folder = new_directory("cluster-sqlite-", None)
        self.addCleanup(shutil.rmtree, self.folder)

    @unittest.skipUnless(shutil.which("redis-server"), "there is no redis-server")
    async def test_it_replies_as_redis_does(self):
        other = self.folder / "redis"
        other.mkdir()
        child = start_redis(other)
        redis, sqlite, dice = await open_redis(other), Sqlite(self.folder), random.Random(7)
        try:
            for _ in range(1000):
                words = command(dice)
                expected, found = await replied(redis, words), await replied(sqlite, words)
                self.assertEqual(found, expected, words)
        finally:
            sqlite.close()
            redis.close()
            child.kill()
            child.wait()

    async def test_a_transaction_has_its_effect_as_a_whole_or_not_at_all(self):
        sqlite = Sqlite(self.folder)
        with self.assertRaises(ErrorReply):
            await sqlite.transaction([("SET", "k", "x"), ("RENAME", "none", "l")])
        self.assertIsNone(await sqlite.call("GET", "k"))
        sqlite.close()

    async def test_values_go_from_one_store_to_another(self):
        sqlite = Sqlite(self.folder)
        await sqlite.transaction([("SET", "k", b"\x00\xff"), ("RPUSH", "l", b"\xfe", "b")])
        for key, name in (("k", "k2"), ("l", "l2")):
            await sqlite.call("RESTORE", name, 0, await sqlite.call("DUMP", key), "REPLACE")
        self.assertEqual((await sqlite.call("GET", "k2"), await sqlite.call("LRANGE", "l2", 0, -1)), (b"\x00\xff", [b"\xfe", b"b"]))
        self.assertEqual(await sqlite.call("MEMORY", "USAGE", "l2"), 2)
        sqlite.close()

    async def test_what_was_answered_is_there_again(self):
        sqlite = Sqlite(self.folder)
        await asyncio.gather(*(sqlite.transaction([("RPUSH", "l", it), ("HSET", "h", it, "x")]) for it in range(50)))
        sqlite.close()
        again = Sqlite(self.folder)
        self.assertEqual(await again.call("LRANGE", "l", 0, -1), [b"%d" % it for it in range(50)])
        cursor, found = await again.call("HSCAN", "h", 0, "COUNT", 30)
        rest = (await again.call("HSCAN", "h", cursor, "COUNT", 30))[1]
        self.assertEqual(len(found + rest), 100)
        again.close()
