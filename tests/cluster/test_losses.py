"""A write that was acknowledged while a secondary was away is gone once a reopening makes that one the primary: the checkers excuse it if the reopening
names the shard as lost, and tell it otherwise. That it was acknowledged so stands in the server's history by then."""
from __future__ import annotations

import asyncio

from scripted import PATIENCE, Scripted, ServersTest

from cluster.checkers.servers import Checker
from cluster.resp import Redis
from cluster.servers.engines import open_redis, start_redis
from cluster.servers.history import history_of

CELLS = {"s": {"a": "primary", "c": "secondary"}}
SWAPPED = {"s": {"a": "secondary", "c": "primary"}}


async def push(it: Scripted, server: str, *values: str) -> None:
    """Pushes values at the shard's owner."""
    redis = await Redis.open_port("127.0.0.1", it.cluster.servers[server].clients.port)
    try:
        async with asyncio.timeout(PATIENCE):
            for value in values:
                await redis.call("DO", value, "RPUSH", "s:k", value)
    finally:
        redis.close()


async def told(it: Scripted, server: str) -> dict:
    """What a server tells of the shard."""
    return next(iter((await it.channels[server].ask(PATIENCE, audit={}))["audit"]["slots"]))


async def has(it: Scripted, server: str, position: int) -> None:
    """Waits until a server has so many writes."""
    async with asyncio.timeout(PATIENCE):
        while (await told(it, server))["position"] != position:
            await asyncio.sleep(0.05)


async def lost_alone(it: Scripted) -> None:
    """The secondary is killed, and the primary acknowledges two writes without it, and is killed at once. It comes back without its slots, so that a
    reopening makes the secondary the primary."""
    await it.start()
    await it.open(CELLS)
    await push(it, "a", "one")
    await has(it, "c", 1)
    it.kill("c")
    await push(it, "a", "two", "three")
    it.kill("a")
    await it.start("a", loses_slots=True)
    await it.start("c")


async def named() -> dict[str, bool]:
    """What is found of a reopening that names the shard, and of one that does not."""
    it = Scripted("ac")
    try:
        await lost_alone(it)
        await it.settle(await it.fence(), SWAPPED)
        await push(it, "c", "four")
        await has(it, "a", 2)
        for name in list(it.processes):
            it.kill(name)
        lines = [line for name in it.names for line in await history_of(it.dir / name)]
        checkers = [Checker({"s": 1}, {}, names) for names in ({"s": [it.base]}, {})]
        for checker in checkers:
            checker.walk(lines)
            checker.look_at_data(line for line in lines if line["kind"] == "data")
        by_name, without = checkers
        return {"what is named is no fault": not by_name.faults, "it is gone": [line["identity"] for line in by_name.gone] == ["two", "three"],
                "without a name it is one": len(without.faults) == 1 and "nobody named it as lost" in without.faults[0] and not without.gone}
    finally:
        it.close()


async def set_aside() -> dict[str, bool]:
    """What a server has of a copy that a settle takes away."""
    it = Scripted("ac")
    try:
        await it.start()
        await it.open(CELLS)
        view = it.base
        await push(it, "a", "one")
        await has(it, "c", 1)
        await it.settle(await it.fence(), {"s": {"a": "primary"}})
        await it.channels["c"].ask(PATIENCE, audit={})
        it.kill("c")
        child = start_redis(it.dir / "c")
        engine = await open_redis(it.dir / "c")
        try:
            values = await engine.call("LRANGE", f"aside:s:{view}:1:k", 0, -1)
            return {"its values are there": values == [b"one"], "its keys, too": await engine.call("SMEMBERS", f"aside:s:{view}:1") == [b"k"],
                    "the shard has none": await engine.call("SMEMBERS", "keys:s") == []}
        finally:
            engine.close()
            child.kill()
            child.wait()
    finally:
        it.close()


class LossesTest(ServersTest):
    """Writes that are gone with a reopening."""

    def test_what_was_acknowledged_while_its_new_primary_was_away(self):
        self.finds(named)

    def test_what_a_settle_takes_away(self):
        self.finds(set_aside)
