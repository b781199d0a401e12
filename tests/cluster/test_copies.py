"""A shard of 10 MB is handed over while it is used: it is copied piece by piece, and requests go on. A shard with a value that is too large is not
moved: the order is told why, and requests go on, although the order comes again and again. $MEGABYTES may say how
large the first one is.
"""
from __future__ import annotations

import asyncio
import os
import random
import time

from scripted import PATIENCE, Scripted, ServersTest

from cluster.resp import ErrorReply, Redis
from cluster.servers.engines import open_redis
from cluster.wire import Failed

# How many bytes each text of the shard has, and how many there are; and the end of a value that no line takes.
BYTES = 200_000
TEXTS = int(os.environ.get("MEGABYTES", "10")) * 1_000_000 // BYTES
END = 48 << 20
# What a request waits at most meanwhile: so many seconds, or so many times as long as at rest, or this part of the time that the copy takes. (a machine with
# other work is slow; who held requests back for a copy would do so for all of it)
QUICK, TIMES, PART = 0.2, 10, 0.5
dice = random.Random(1)


def text(size: int) -> bytes:
    """A text that cannot be made shorter by much."""
    return dice.randbytes(size // 2).hex().encode()


async def fill(redis: Redis) -> dict[str, bytes]:
    """Writes the shard's texts, and returns them."""
    texts = {f"s:text{it}": text(BYTES) for it in range(TEXTS)}
    for key, value in texts.items():
        await redis.call("SET", key, value)
    return texts


class Users:
    """A client that pushes, reads, sets and deletes, one request after the other, and notes how long each took."""

    def __init__(self, it: Scripted) -> None:
        self.it, self.redis = it, {}
        self.pushed: list[bytes] = []
        self.waits: list[tuple[float, float]] = []
        self.set: dict[str, bytes] = {}

    async def ask(self, *words: object) -> object:
        """Asks whichever server has the shard."""
        begun = time.monotonic()
        while True:
            for name, redis in self.redis.items():
                try:
                    reply = await redis.call(*words)
                    self.waits.append((begun, time.monotonic() - begun))
                    return reply
                except ErrorReply as error:
                    if error.kind not in ("NOTHERE", "TRYAGAIN", "LOST"):
                        raise
            await asyncio.sleep(0.002)

    async def use(self) -> None:
        """Uses the shard until it is cancelled."""
        for name, entry in self.it.cluster.servers.items():
            self.redis[name] = await Redis.open_port("127.0.0.1", entry.clients.port)
        while True:
            value = f"v{len(self.pushed)}".encode()
            await self.ask("DO", value, "RPUSH", "s:list", value)
            self.pushed.append(value)
            key, small = f"s:text{len(self.pushed) % TEXTS}", b"anew%d" % len(self.pushed)
            if len(self.pushed) % 5 == 0:
                await self.ask("DO", small, "SET", key, small)
                self.set[key] = small
            await self.ask("INCR", "s:count")
            await self.ask("GET", "s:count")

    def slowest(self, start: float, end: float) -> tuple[float, float]:
        """The longest that a request waited which had its reply before a handover, and the longest of those that met it."""
        before = [wait for begun, wait in self.waits if begun + wait < start]
        return max(before, default=0.0), max((wait for begun, wait in self.waits if begun + wait >= start and begun < end), default=0.0)


async def answered(it: Scripted, order: dict) -> float:
    """Sends an order until it is answered; how many seconds that takes."""
    begun = time.monotonic()
    while True:
        try:
            await it.channels[order["server"]].ask(PATIENCE, order=order)
            return time.monotonic() - begun
        except Failed:
            await asyncio.sleep(0.05)


async def moved() -> dict[str, bool]:
    """What is found of a large shard that is handed over."""
    it = Scripted("ab")
    try:
        await it.start()
        await it.open({"s": {"a": "primary"}})
        redis = await Redis.open_port("127.0.0.1", it.cluster.servers["a"].clients.port)
        texts = await fill(redis)
        users = Users(it)
        using = asyncio.create_task(users.use())
        await asyncio.sleep(2)
        start = time.monotonic()
        copying, *_ = [await answered(it, order) for order in it.handover("s", "a", "b", ["a"])]
        end = time.monotonic()
        await asyncio.sleep(0.5)
        using.cancel()
        await asyncio.gather(using, return_exceptions=True)
        usual, slowest = users.slowest(start, end)
        met = sum(start <= at < end for at, _ in users.waits)
        figures = f"{TEXTS * BYTES / 1e6:.0f} MB were copied in {copying:.1f} s; the slowest of {met} requests took {slowest:.2f} s, and {usual:.2f} s before"
        for one in (redis, *users.redis.values()):
            one.close()
        new = await Redis.open_port("127.0.0.1", it.cluster.servers["b"].clients.port)
        found = {key: await new.call("GET", key) for key in texts}
        pushed, count = await new.call("LRANGE", "s:list", "0", "-1"), int(await new.call("GET", "s:count"))
        new.close()
        wanted = texts | users.set
        unsure = {key for key in wanted if found[key] != wanted[key] and found[key].startswith(b"anew")}
        return {
            "all texts are there": all(found[key] == wanted[key] for key in wanted if key not in unsure) and len(unsure) <= 1,
            "each push is there once": pushed[:len(users.pushed)] == users.pushed and len(pushed) <= len(users.pushed) + 1,
            "each increment is there once": len(users.pushed) - 1 <= count <= len(users.pushed) + 1,
            f"requests go on: {figures}": slowest < max(QUICK, TIMES * usual, PART * copying),
        }
    finally:
        it.close()


async def said_by(it: Scripted, order: dict) -> str:
    """What a new owner says when it is told to prepare."""
    try:
        await it.channels["b"].ask(PATIENCE, order=order)
        return "answered"
    except Failed as failed:
        return str(failed)


async def refusals(it: Scripted, order: dict, seconds: float) -> list[str]:
    """What it says while it is told again and again."""
    said, until = [], time.monotonic() + seconds
    while time.monotonic() < until:
        said.append(await said_by(it, order))
        await asyncio.sleep(0.1)
    return said


async def slowest_read(redis: Redis, seconds: float) -> float:
    """The longest that one read after the other waits."""
    slowest, until = 0.0, time.monotonic() + seconds
    while time.monotonic() < until:
        begun = time.monotonic()
        await redis.call("GET", "s:small")
        slowest = max(slowest, time.monotonic() - begun)
        await asyncio.sleep(0.01)
    return slowest


async def refused() -> dict[str, bool]:
    """What is found of a shard with a value that is too large."""
    it = Scripted("ab")
    try:
        await it.start()
        await it.open({"s": {"a": "primary"}})
        redis = await Redis.open_port("127.0.0.1", it.cluster.servers["a"].clients.port)
        await redis.call("SET", "s:large", "x")
        store = await open_redis(it.dir / "a")
        await store.call("SETRANGE", "d:s:large", END, "x")
        store.close()
        usual = await slowest_read(redis, 2)
        order = it.handover("s", "a", "b", ["a"])[0]
        first = await said_by(it, order)
        said, slowest = await asyncio.gather(refusals(it, order, 5), slowest_read(redis, 5))
        usual = max(usual, await slowest_read(redis, 2))
        redis.close()
        silent = [text for text in [first, *said] if "bytes" not in text]
        figures = f"the slowest took {slowest:.2f} s while the order came {len(said)} times, and {usual:.2f} s at rest"
        return {f"the order is told how large the value is: {silent[:1]}": not silent, f"reads go on: {figures}": slowest < max(QUICK, TIMES * usual)}
    finally:
        it.close()


class CopiesTest(ServersTest):
    """Shards that are large."""

    def test_a_shard_is_handed_over_while_it_is_used(self):
        self.finds(moved)

    def test_a_shard_with_a_value_that_is_too_large(self):
        self.finds(refused)
