"""A log is cut to what was synced last, which a library notes."""
import os
import shutil
import unittest
from pathlib import Path
from unittest.mock import patch

from cluster.launch.cluster import ROOT
from cluster.launch.directory import new_directory
from cluster.launch.syncs import VARIABLE, cut_back, library
from cluster.servers.engines import open_redis, start_redis


class RedisTest(unittest.IsolatedAsyncioTestCase):
    """A redis-server that a test starts and ends."""

    async def start(self, folder, syncs="always"):
        """Starts the redis-server of a folder, and connects to it. It ends with the test at the latest."""
        child = start_redis(folder, syncs)
        self.addCleanup(child.wait)
        self.addCleanup(child.kill)
        redis = await open_redis(folder)
        self.addCleanup(redis.close)
        return child, redis

    def end(self, child, redis):
        """Kills a redis-server."""
        redis.close()
        child.kill()
        child.wait()


@unittest.skipUnless(shutil.which("redis-server") and shutil.which("cc"), "there is no redis-server or no compiler")
class CutTest(RedisTest):
    """A redis-server that is killed, and whose log is cut then."""

    async def count_left(self, syncs):
        """How many of ten values are there again."""
        folder: Path = new_directory("cluster-syncs-", None)
        self.addCleanup(shutil.rmtree, folder)
        with patch.dict(os.environ, {VARIABLE: str(library(ROOT / "build"))}):
            for turn in range(2):
                child, redis = await self.start(folder, syncs)
                if not turn:
                    for number in range(10):
                        await redis.call("RPUSH", "values", number)
                count = await redis.call("LLEN", "values")
                self.end(child, redis)
                cut_back(folder)
        return count

    async def test_what_is_synced_before_the_answer_stays(self):
        self.assertEqual(await self.count_left("always"), 10)

    async def test_what_is_not_is_lost(self):
        self.assertLess(await self.count_left("no"), 10)


@unittest.skipUnless(shutil.which("redis-server"), "there is no redis-server")
class TornTest(RedisTest):
    """A redis-server is killed while it writes a transaction to its log."""

    async def test_a_torn_transaction_is_never_carried_out(self):
        folder: Path = new_directory("cluster-torn-", None)
        self.addCleanup(shutil.rmtree, folder)
        log = folder / "appendonlydir" / "appendonly.aof.1.incr.aof"
        for turn in range(3):
            child, redis = await self.start(folder)
            if turn < 2:
                for command in (("MULTI",), ("RPUSH", "values", "one"), ("SET", "count", 1), ("EXEC",)):
                    await redis.call(*command)
            found = await redis.call("LRANGE", "values", 0, -1)
            self.end(child, redis)
            if not turn:
                text = log.read_bytes()
                log.write_bytes(text[: text.index(b"count") + 2])
        self.assertEqual(found, [b"one"])
