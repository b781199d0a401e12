"""What servers are counted by that are to have each write twice: acknowledgements, leave, and the line `copied`."""
from __future__ import annotations

import asyncio
import json
import tempfile
import unittest
from types import SimpleNamespace
from unittest.mock import AsyncMock, Mock

from scripted import Scripted, ServersTest, until
from test_leaves import CELLS, ROLES, said
from test_losses import has, push

from smplan.agent import Base, Cell, Slot, ViewStart

from cluster.servers.copied import Copied
from cluster.servers.following import Following
from cluster.servers.reopenings import Reopenings
from cluster.servers.shard import Shard
from cluster.servers.sources import Sources, Stream
from cluster.servers.work import Orders
from cluster.wire import Cluster, Failed

# How long a request is watched that is not to be acknowledged, in seconds: longer than others are waited for that are gone.
WATCHING = 5.0


async def is_acknowledged(it: Scripted, value: str) -> bool:
    """Whether a push is acknowledged in a while."""
    try:
        await asyncio.wait_for(push(it, "a", value), WATCHING)
        return True
    except TimeoutError:
        return False


def lines_of(it: Scripted) -> set[tuple[int, int]]:
    """The reopenings and copies that were told of the shard."""
    return {(line["fence"], line["copies"]) for line in it.copied if line["shard"] == "s"}


async def counted() -> dict[str, bool]:
    """The primary alone acknowledges nothing, gives no leave and tells no copies; with one secondary it does, and leave takes one more."""
    it, found = Scripted("abc", copies=2), {}
    try:
        await it.start()
        await it.open(CELLS)
        await push(it, "a", "one")
        await has(it, "c", 1)
        await until(lambda: lines_of(it) == {(it.base, 2)})
        found["it is told under the reopening"] = True
        it.kill("b")
        found["two are enough"] = await is_acknowledged(it, "two")
        found["leave takes a third"] = await said(it, it.order("c", "drop", "s", **ROLES)) != "answered"
        it.kill("c")
        found["one is not enough"] = not await is_acknowledged(it, "three")
        it.kill("a")
        it.copied.clear()
        await it.start("a")
        await asyncio.sleep(1.0)
        found["nobody is told while it is alone"] = not it.copied
        await it.start("b", "c")
        await until(lambda: lines_of(it) == {(it.base, 2)})
        found["it is told again after a start"] = True
        found["all is acknowledged then"] = await is_acknowledged(it, "four")
        await it.send(it.order("c", "drop", "s", **ROLES))
        found["with the others it gets leave"] = await is_acknowledged(it, "five")
        return found
    finally:
        it.close()


async def handed_over() -> dict[str, bool]:
    """The new owner of a handover tells, and so does who is primary by a reopening; one that has given leave counts the other no more until it connects anew."""
    it, found = Scripted("abc", copies=2), {}
    try:
        await it.start()
        await it.open({"s": {"a": "primary", "c": "secondary"}})
        await it.move("s", "a", "b", ["a", "c"])
        await push(it, "b", "one")
        await has(it, "c", 1)
        it.copied.clear()
        await it.settle(await it.fence(), {"s": {"b": "secondary", "c": "primary"}})
        await push(it, "c", "two")
        await until(lambda: lines_of(it) == {(it.base, 2)})
        found["under the later reopening"] = True
        order = it.order("b", "drop", "s", primary="c", replicas=["b", "c"])
        found["two are needed for leave"] = await said(it, order) != "answered"
        await push(it, "c", "three")
        found["who got none counts"] = True
        return found
    finally:
        it.close()


class CountedTest(ServersTest):
    """Servers with two copies of each write."""

    def test_who_counts(self):
        self.finds(counted)

    def test_who_tells(self):
        self.finds(handed_over)


class CopiedTest(unittest.IsolatedAsyncioTestCase):
    """What a server tells controllers."""

    async def test_it_is_told_until_whoever_leads_knows_or_refuses(self):
        shard = Shard("s", Slot(cell=Cell.PRIMARY), 5, "c", True, (ViewStart(9, 0),))
        store = SimpleNamespace(base=Base(journal=7, number=12, known=1), opened=9, note=Mock())
        it, found = Copied(SimpleNamespace(store=store, cluster=SimpleNamespace(controllers={}, copies=2))), []
        it.channels = [SimpleNamespace(ask=AsyncMock(side_effect=Failed("NotLeader"))), SimpleNamespace(ask=AsyncMock())]
        for it.channels[1].ask.side_effect in (Failed("Lost"), Failed("NotYet"), Failed("Refused"), None):
            shard.begin_to_lead(0)
            await it.tell_one(shard)
            found.append((shard.lead.told, store.note.call_count))
        self.assertEqual(found, [(-1, 0), (-1, 0), (9, 0), (9, 1)])


class OrdersTest(unittest.IsolatedAsyncioTestCase):
    """What a server does with orders."""

    async def test_an_order_that_was_done_is_answered_while_requests_wait_for_the_shard(self):
        shard = Shard("s", Slot(cell=Cell.SECONDARY, last=12), 5, "c", True, (ViewStart(9, 0),))
        store = SimpleNamespace(base=Base(journal=7, number=9, known=1), shard=lambda _: shard, used=lambda: 0, note=Mock())
        it = Orders(SimpleNamespace(store=store, heed=AsyncMock()))
        told = {"call": "add", "shard": "s", "role": "secondary", "journal": "7", "fence": 9, "number": 12, "load": 1, "room": 9, "plan": 3, "stream": 0}
        async with shard.lock, asyncio.timeout(5):
            self.assertEqual(await it.take(told), {"answered": {"plan": 3, "stream": 0, "number": 12}})


class FollowingTest(unittest.IsolatedAsyncioTestCase):
    """What a server has that follows."""

    async def test_who_follows_an_empty_list_has_a_copy(self):
        store = SimpleNamespace(base=Base(), mark_commands=Mock(return_value=[]), trim_commands=Mock(return_value=[]), view_commands=Mock(return_value=[]), save=AsyncMock())
        it, shard = object.__new__(Following), Shard("s", Slot(cell=Cell.SECONDARY))
        it.server, it.store, it.shard = SimpleNamespace(cluster=SimpleNamespace(copies=2)), store, shard
        self.assertFalse(shard.has_copy)
        await it.apply([], (ViewStart(9, 0),))
        self.assertEqual((shard.has_copy, shard.position, shard.views, store.save.await_count), (True, 0, (ViewStart(9, 0),), 1))


class ClusterTest(unittest.TestCase):
    """The file that says where everybody is."""

    def test_a_write_is_at_one_server_at_least(self):
        with tempfile.NamedTemporaryFile("w+") as file:
            for copies in (0, -1, "2", True):
                file.seek(0)
                file.truncate()
                json.dump({"servers": {}, "copies": copies}, file)
                file.flush()
                with self.assertRaisesRegex(ValueError, "a write is at one server at least"):
                    Cluster.read(file.name)


class SourcesTest(unittest.TestCase):
    """Which followers a primary counts, of a reopening with number 9 and a view that began with it."""

    def setUp(self):
        store = SimpleNamespace(base=Base(journal=7, number=12, known=1), opened=9)
        self.sources = Sources(SimpleNamespace(store=store, cluster=SimpleNamespace(copies=2), name="a"))
        self.shard = Shard("s", Slot(cell=Cell.PRIMARY), 5, "c", True, (ViewStart(9, 0),))
        self.shard.begin_to_lead(3)

    def follow(self, name="b", acked=5, view=9, number=20, question=0, holds=True, journal="7", base=9):
        """A follower connects, and has something."""
        ask = {"from": name, "takes_over": False, "number": number, "question": question, "holds": holds, "heard": {"journal": journal, "base": base}}
        stream = self.shard.streams[name] = Stream(None, 5, ask)
        stream.acked, stream.view = acked, view
        self.sources.count(self.shard)
        return stream

    def test_who_counts(self):
        for more, enough in (({}, 5), ({"acked": 4}, 4), ({"base": 12}, 5), ({"base": 8}, -1), ({"journal": "8"}, -1), ({"holds": False}, -1), ({"question": 3}, -1),
                             ({"number": 10}, -1), ({"view": 8}, -1)):
            with self.subTest(more):
                self.setUp()
                self.shard.left["b"] = 10
                self.follow(**more)
                self.assertEqual(self.shard.lead.enough, enough)

    def test_what_was_at_enough_servers_once(self):
        self.follow(acked=4)
        del self.shard.streams["b"]
        self.follow("c", acked=3)
        self.assertEqual([self.sources.may_acknowledge(self.shard, it) for it in (4, 5)], [True, False])

    def test_leave_takes_what_is_not_acknowledged(self):
        self.follow(acked=5)
        self.follow("c", acked=4)
        self.shard.lead.acknowledged = 4
        self.assertTrue(self.sources.have(self.shard, 4, "b"))
        self.assertFalse(self.sources.have(self.shard, 5, "b"))
        self.shard.left["b"] = 21
        self.sources.count_anew(self.shard)
        self.assertEqual([self.sources.may_acknowledge(self.shard, it) for it in (4, 5)], [True, False])

    def test_who_was_settled_before_the_primary_counts_once_that_is(self):
        for base, enough in ((12, 5), (9, -1)):
            self.setUp()
            self.follow(base=base)
            server = self.sources.server
            server.sources, server.store.opened = self.sources, 12
            Reopenings(server).put(self.shard, Slot(cell=Cell.PRIMARY), self.shard.views)
            self.assertEqual((self.shard.lead.noted, self.shard.lead.enough), (5, enough))

    def test_one_copy_needs_nobody(self):
        self.sources.server.cluster.copies = 1
        self.assertTrue(self.sources.may_acknowledge(self.shard, 5) and self.sources.have(self.shard, 5, "b"))
