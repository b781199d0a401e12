"""A server that was given up is told so by the others, also by one that was restored meanwhile, and serves nobody any longer; with a lease it does
not either if nobody tells it. Who takes part in a reopening is told nothing that makes it forget its slots. A server that has
lost its data takes no restore by which it is to serve.
"""
from __future__ import annotations

import asyncio
import functools
import json
import shutil
import time

from scripted import JOURNAL, PATIENCE, Scripted, ServersTest, until

from cluster.resp import ErrorReply, Redis
from cluster.wire import Failed

CELLS = {"s": {"a": "primary", "b": "secondary", "c": "secondary"}}
# A server asks for the answer again and again, and each time waits for a sixth of the lease: if the machine is too slow for that the play is played again
# with the second one.
LEASE, LONG_LEASE = 2.0, 12.0


class Desk(Scripted):
    """Servers with a lease, if it is not 0, and who lets them serve."""

    def __init__(self, names: str, lease: float = 0.0) -> None:
        super().__init__(names)
        self.file.write_text(json.dumps({**json.loads(self.file.read_text()), "lease": lease}))
        self.lets: set[str] = set(names)

    async def hear(self, message: dict) -> dict:
        """A server asks whether it may serve, or for its slots."""
        if "serve" not in message:
            return await super().hear(message)
        if message["serve"]["server"] not in self.lets:
            raise Failed("GivenUp")
        return {"serves": {}}


async def replies(it: Scripted, server: str) -> bool:
    """Whether a server serves the shard."""
    redis = await Redis.open_port("127.0.0.1", it.cluster.servers[server].clients.port)
    try:
        async with asyncio.timeout(PATIENCE):
            await redis.call("LRANGE", "s:k", "0", "-1")
        return True
    except (ErrorReply, TimeoutError):
        return False
    finally:
        redis.close()


async def comes_to(it: Scripted, server: str, serves: bool) -> bool:
    """Waits until a server serves, or serves no longer; false if it does not come to that."""
    deadline = time.monotonic() + PATIENCE
    while time.monotonic() < deadline:
        if await replies(it, server) == serves:
            return True
        await asyncio.sleep(0.1)
    return False


async def is_known(it: Scripted, server: str) -> bool:
    """Whether a server has its slots."""
    return (await it.channels[server].ask(PATIENCE, audit={}))["audit"]["known"]


async def told_by_peers() -> dict[str, bool]:
    """What is found of a server that others give up."""
    it = Desk("abc")
    try:
        await it.start()
        await it.open(CELLS)
        served = await comes_to(it, "a", serves=True)
        fenced = await it.fence("b", "c")
        # (one is settled, the other one is yet to be: it is not told that it was left behind)
        settles = it.settles(fenced, {"s": {"b": "primary", "c": "secondary"}})
        await it.channels["b"].ask(PATIENCE, settle=settles[0])
        await asyncio.sleep(5)
        still = await is_known(it, "c")
        await it.channels["c"].ask(PATIENCE, settle=settles[1])
        gone = await comes_to(it, "a", serves=False)
        return {"it serves before": served, "who takes part in a reopening keeps its slots": still,
                "who was given up turns Unknown": gone and not await is_known(it, "a"), "the new primary serves": await comes_to(it, "b", serves=True)}
    finally:
        it.close()


async def with_lease(lease: float = LEASE) -> dict[str, bool]:
    """What is found of a server that no controller answers."""
    it = Desk("ab", lease)
    try:
        await it.start()
        await it.open({"s": {"a": "primary", "b": "secondary"}})
        served = await comes_to(it, "a", serves=True)
        it.lets.discard("a")
        ceased = await comes_to(it, "a", serves=False)
        it.lets.add("a")
        again = await comes_to(it, "a", serves=True)
        return {"with a lease it serves": served, "it serves nobody without an answer": ceased, "it keeps its slots": await is_known(it, "a"),
                "it serves once it has an answer": again}
    finally:
        it.close()


async def restored(it: Scripted, server: str, cells: dict[str, dict[str, str]]) -> str:
    """What a server that asks for its slots says to those that it is brought. What it asked before it was killed may come late, and is asked no more."""
    while True:
        await until(lambda: server in it.asked)
        restore = {"server": server, "nonce": it.asked.pop(server), "journal": JOURNAL, "fence": it.base, "base": it.number + 1, "slots": it.slots(server, cells)}
        try:
            await it.channels[server].ask(PATIENCE, restore=restore)
            return "restored"
        except Failed as failed:
            if failed.kind != "Ignored":
                return failed.kind


async def without_data() -> dict[str, bool]:
    """What is found of servers that have lost their slots, with and without their data."""
    it = Desk("abc")
    try:
        await it.start()
        await it.open(CELLS)
        it.kill("a")
        await it.start("a", loses_slots=True)
        kept = await restored(it, "a", CELLS)
        for name in "ab":
            it.kill(name)
            shutil.rmtree(it.dir / name)
            it.asked.clear()
            await it.start(name)
        lost, other = await restored(it, "a", CELLS), await restored(it, "b", CELLS)
        return {"who has its data is restored": kept == "restored", "who has lost it is no primary": lost == "NoData", "a secondary copies anew": other == "restored"}
    finally:
        it.close()


class GivenUpTest(ServersTest):
    """Servers that were given up, or have lost what they had."""

    def test_a_server_that_others_give_up(self):
        self.finds(told_by_peers)

    def test_a_server_that_no_controller_answers(self):
        self.finds(with_lease, functools.partial(with_lease, LONG_LEASE))

    def test_servers_that_have_lost_their_slots(self):
        self.finds(without_data)
