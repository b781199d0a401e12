"""Leave: a secondary drops its copy once the primary, or another server that has all, gives leave; nobody who has less gives it, and nothing that is over counts."""
from __future__ import annotations

import unittest
from types import SimpleNamespace

from scripted import Scripted, ServersTest
from test_losses import has, lost_alone, push

from smplan.agent import Base, Cell, Slot, ViewStart

from cluster.servers.history import history_of
from cluster.servers.leaves import Leaves
from cluster.servers.peers import Hearsay
from cluster.servers.shard import Shard
from cluster.wire import Failed

CELLS = {"s": {"a": "primary", "b": "secondary", "c": "secondary"}}
ROLES = {"primary": "a", "replicas": ["a", "b", "c"]}
# How long a server is watched that is not to do something, in seconds: longer than it tries once.
WATCHING = 4.0


async def said(it: Scripted, order: dict) -> str:
    """What a server says to an order in a while."""
    try:
        await it.channels[order["server"]].ask(WATCHING, order=order)
        return "answered"
    except Failed as failed:
        return failed.kind


async def of_primary() -> dict[str, bool]:
    """A secondary drops its copy: not while the primary is away, and then with its leave, which is in the histories."""
    it, found = Scripted("abc"), {}
    try:
        await it.start()
        await it.open(CELLS)
        await push(it, "a", "one")
        await has(it, "c", 1)
        it.kill("a")
        order = it.order("c", "drop", "s", **ROLES)
        found["nobody gives leave"] = await said(it, order) != "answered"
        await has(it, "c", 1)
        await it.start("a")
        await it.send(order)
        await push(it, "a", "two")
        for name in list(it.processes):
            it.kill(name)
        lines = [line for name in it.names for line in await history_of(it.dir / name)]
        questions = [line["leave"] for line in lines if line["kind"] == "commit" and line["call"] == "drop"]
        found["the primary gave it"] = [(line["server"], line["question"]) for line in lines if line["kind"] == "leave"][-1:] == [("a", it) for it in questions]
        return found
    finally:
        it.close()


async def beside() -> dict[str, bool]:
    """Without a primary a secondary that has less gives no leave, and one that has all does."""
    it, found = Scripted("ac"), {}
    try:
        await lost_alone(it)
        await it.settle(await it.fence(), {"s": {"a": "secondary", "c": "secondary"}})
        roles = {"primary": None, "replicas": ["a", "c"]}
        found["who has less gives none"] = await said(it, it.order("a", "drop", "s", **roles)) != "answered"
        await it.send(it.order("c", "drop", "s", **roles))
        found["who has all gives it"] = True
        await it.send(it.order("a", "drop", "s", primary=None, replicas=["a"]))
        found["who is alone needs none"] = True
        return found
    finally:
        it.close()


class ServersLeaveTest(ServersTest):
    """Drops of real servers."""

    def test_of_the_primary(self):
        self.finds(of_primary)

    def test_beside(self):
        self.finds(beside)


class Peers:
    """Servers that ask one another in this process; what `lost` names comes to nobody."""

    def __init__(self, names: str) -> None:
        servers = {name: SimpleNamespace(number=number) for number, name in enumerate(names)}
        self.cluster, self.lost, self.asked = SimpleNamespace(servers=servers, copies=1), set(), []
        self.servers = {name: self.server(name) for name in names}

    def server(self, name: str) -> SimpleNamespace:
        """One server."""
        shards: dict[str, Shard] = {}

        async def save(commands, kind=None, **more) -> None:
            pass

        store = SimpleNamespace(shards=shards, base=Base(journal=7, number=1, known=1), opened=1, save=save)
        server = SimpleNamespace(name=name, cluster=self.cluster, store=store, peer=lambda to: SimpleNamespace(ask=lambda seconds, **it: self.ask(to, **it)),
                                 sources=SimpleNamespace(have=lambda shard, position, without: True, count_anew=lambda shard: None))
        server.hearsay, server.leaves = Hearsay(server), Leaves(server)
        return server

    async def ask(self, to: str, leave: dict, heard: dict) -> dict:
        """One asks another."""
        self.asked.append((leave["from"], to))
        if to in self.lost:
            raise Failed("Lost")
        return await self.servers[to].leaves.give(leave, heard)

    def put(self, name: str, cell: Cell, position: int, view: int = 0) -> Shard:
        """A server has a copy of the shard."""
        shard = self.servers[name].store.shards["s"] = Shard("s", Slot(cell=cell), position, str(position), True, (ViewStart(view, 0),))
        return shard

    async def why(self, name: str, primary: str | None, replicas: str) -> str:
        """Why a server gets no leave."""
        shard = self.servers[name].store.shards["s"]
        shard.work = SimpleNamespace(told={"primary": primary, "replicas": list(replicas)})
        return await self.servers[name].leaves.ask(shard, shard.work)


class LeavesTest(unittest.IsolatedAsyncioTestCase):
    """Who gives leave, and for what."""

    async def test_by_what_the_other_has(self):
        for (cell, position, view), gives in {
            (Cell.PRIMARY, 5, 0): True, (Cell.PRIMARY, 4, 1): True, (Cell.PRIMARY, 4, 0): False, (Cell.SECONDARY, 9, 0): False, (Cell.FORWARDING, 9, 0): False,
            (Cell.PREPARED, 9, 0): False, (Cell.ABSENT, 0, 0): False,
        }.items():
            with self.subTest(cell=cell, position=position, view=view):
                peers = Peers("ab")
                peers.put("a", cell, position, view)
                peers.put("b", Cell.SECONDARY, 5)
                self.assertEqual(await peers.why("b", "a", "ab") == "", gives)

    async def test_without_a_primary(self):
        for position, view, gives in ((5, 0, True), (9, 0, True), (4, 0, False), (4, 1, False), (9, 1, False)):
            with self.subTest(position=position, view=view):
                peers = Peers("abc")
                peers.put("a", Cell.SECONDARY, position, view)
                peers.put("b", Cell.SECONDARY, 5)
                peers.lost.add("c")
                self.assertEqual(await peers.why("b", None, "abc") == "", gives)

    async def test_two_that_ask_each_other(self):
        peers = Peers("ab")
        for name in "ab":
            peers.put(name, Cell.SECONDARY, 5).question = 1
        self.assertIn("it leaves, too", await peers.why("b", None, "ab"))
        self.assertEqual(await peers.why("a", None, "ab"), "")
        self.assertIn("it leaves, too", await peers.why("b", None, "ab"))

    async def test_a_question_that_is_over(self):
        peers = Peers("ab")
        peers.put("a", Cell.PRIMARY, 5)
        shard = peers.put("b", Cell.SECONDARY, 5)
        give = peers.servers["a"].leaves.give

        async def late(asked, heard):
            shard.question += 1
            return await give(asked, heard)

        peers.servers["a"].leaves.give = late
        self.assertEqual(await peers.why("b", "a", "ab"), "the question is over")
        self.assertFalse(shard.has_leave)

    async def test_of_another_reopening(self):
        peers = Peers("ab")
        peers.put("a", Cell.PRIMARY, 5)
        peers.put("b", Cell.SECONDARY, 5)
        peers.servers["b"].store.opened = 2
        self.assertIn("another reopening", await peers.why("b", "a", "ab"))

    async def test_numbers_rise_over_starts(self):
        numbers = [Leaves(self.server()).number() for _ in range(3)]
        self.assertEqual(numbers, sorted(set(numbers)))

    @staticmethod
    def server() -> SimpleNamespace:
        """A server that has just begun."""
        return SimpleNamespace(store=None)
