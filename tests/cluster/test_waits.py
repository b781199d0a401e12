"""A secondary that is killed is waited for once, for three seconds: not anew by each new owner of its shard, be it by a
handover, a change of roles or a reopening in a handover. Who was connected until a handover is waited for behind it. A
request that waits for an old owner which is down is not acknowledged, and ends.

A machine with other work may take so long for anything that it looks like such a wait: then servers wait for longer.
"""
from __future__ import annotations

import asyncio
import functools
import time

from scripted import PATIENCE, Scripted, ServersTest

from cluster.resp import ErrorReply, Redis
from cluster.servers.limits import ACKNOWLEDGING, DEAD_AFTER

CELLS = {"s": {"a": "primary", "c": "secondary", "d": "secondary", "e": "secondary"}}
# Which part of the wait for who is away a write takes at most beside it, and how many times as long that wait is when the play is played again.
QUICK, TIMES = 0.5, 6.0


async def push(it: Scripted, server: str, value: str) -> float:
    """Pushes a value at the shard's owner, and returns for how many seconds that waited."""
    redis, begun = await Redis.open_port("127.0.0.1", it.cluster.servers[server].clients.port), time.monotonic()
    try:
        async with asyncio.timeout(PATIENCE):
            await redis.call("DO", value, "RPUSH", "s:k", value)
        return time.monotonic() - begun
    finally:
        redis.close()


async def exchange(it: Scripted, old: str, new: str, replicas: list[str]) -> None:
    """A primary and a secondary exchange their roles."""
    more = {"primary": old, "replicas": replicas}
    await it.send(it.order(old, "change", "s", **{"from": "primary"}, to="secondary", **more))
    await it.send(it.order(new, "change", "s", **{"from": "secondary"}, to="primary", **more))


async def reopen_in_handover(it: Scripted, old: str, new: str, others: list[str]) -> None:
    """A reopening makes a new owner the primary that has all writes up to the cut."""
    for order in it.handover("s", old, new, [old, *others])[:2]:
        await it.send(order)
    await asyncio.sleep(1)
    await it.settle(await it.fence(*it.processes), {"s": {new: "primary", **dict.fromkeys(others, "secondary")}})


async def ends() -> dict[str, bool]:
    """What is found of requests of a new owner while the old one is down."""
    it = Scripted("abc")
    try:
        await it.start()
        await it.open({"s": {"a": "primary", "c": "secondary"}})
        for order in it.handover("s", "a", "b", ["a", "c"])[:3]:
            await it.send(order)
        it.kill("a")
        begun, said = time.monotonic(), []
        for value in ("1", "1", "2"):
            try:
                await push(it, "b", value)
            except ErrorReply as error:
                said.append(error.kind)
        running = (await it.channels["b"].ask(PATIENCE, status={}))["status"]["running"]
        found = {"none is acknowledged": said == ["LOST"] * 3, "each has waited": time.monotonic() - begun > 3 * ACKNOWLEDGING, "none runs": running == 0}
        await it.start("a")
        for value in ("1", "2"):
            await push(it, "b", value)
        redis = await Redis.open_port("127.0.0.1", it.cluster.servers["b"].clients.port)
        found["each is executed once"] = await redis.call("LRANGE", "s:k", "0", "-1") == [b"1", b"2"]
        redis.close()
        return found
    finally:
        it.close()


async def waits(times: float = 1.0) -> dict[str, bool]:
    """What is found of the waits, which are so many times as long as they are usually."""
    it = Scripted("abcde", times=times)
    try:
        return await found_of(it)
    finally:
        it.close()


async def found_of(it: Scripted) -> dict[str, bool]:
    """What is found of the waits at servers that this starts."""
    found, wait = {}, DEAD_AFTER * it.times
    quick = QUICK * wait
    await it.start()
    await it.open(CELLS)
    await asyncio.sleep(1)
    found["a write waits for nobody who is there"] = await push(it, "a", "1") < quick
    killed = time.monotonic()
    it.kill("c")
    await push(it, "a", "2")
    found["a write waits for a secondary that was killed"] = time.monotonic() - killed > wait
    await it.move("s", "a", "b", ["a", "d", "e"])
    found["the new owner of a handover does not wait for it anew"] = await push(it, "b", "3") < quick
    await asyncio.sleep(1)
    await exchange(it, "b", "d", ["b", "d", "e"])
    found["nor does a secondary that becomes the primary"] = await push(it, "d", "4") < quick
    await asyncio.sleep(1)
    await reopen_in_handover(it, "d", "a", ["b", "e"])
    found["nor does a new owner that a reopening makes the primary"] = await push(it, "a", "5") < quick
    await asyncio.sleep(1)
    killed = time.monotonic()
    it.kill("e")
    await it.move("s", "a", "d", ["a", "b"])
    await push(it, "d", "6")
    found["who was connected until a handover is waited for behind it"] = time.monotonic() - killed > wait
    return found


class WaitsTest(ServersTest):
    """A secondary that is killed."""

    def test_it_is_waited_for_once(self):
        self.finds(waits, functools.partial(waits, TIMES))


class EndsTest(ServersTest):
    """An old owner that is down."""

    def test_requests_that_wait_for_it_end(self):
        self.finds(ends)
