"""Parts of a story in which orders, fences and losses meet what is at work: slow disks, copies that are begun, restarts in time."""
import asyncio
import signal
import unittest
from contextlib import asynccontextmanager
from types import SimpleNamespace
from unittest.mock import AsyncMock, patch

from cluster.faults.handovers import Handovers, HandoverStory
from cluster.launch.moving import Mover
from cluster.launch.shape import Shape
from cluster.servers.requests import Requests
from cluster.servers.shard import Shard
from smplan.agent import Answer, Request, Slot

PRIMARY, SECONDARY = "primary", "secondary"


def row(shard, **cells):
    """A shard as it is recorded."""
    return {"shard": shard, "load": 1, "listed": None, "cells": [{"server": it, "state": word} for it, word in cells.items()]}


def recorded(*rows):
    """What is recorded: each server has room for one replica more."""
    servers = [{"server": it, "room": 9, "load": 8, "held": 0, "permit": None} for it in "abc"]
    return {"is": "open", "servers": servers, "shards": list(rows)}


class AtWorkTest(unittest.IsolatedAsyncioTestCase):
    """A story over three servers, whose lines and signals are noted."""

    def setUp(self):
        self.done, self.state = [], recorded(row("s", a=PRIMARY, b=SECONDARY), row("t", a=PRIMARY, b=SECONDARY), row("u", b=PRIMARY, c=SECONDARY))
        self.process = SimpleNamespace(kill=AsyncMock(), start=AsyncMock(), is_running=True)
        self.operator = SimpleNamespace(patience=1.0, do=self.do, ask=AsyncMock(side_effect=lambda line: {"state": self.state}))
        cluster = SimpleNamespace(shape=Shape(servers=3, controllers=1), processes={it: self.process for it in "abc"}, tell_proxies=self.tell_proxies,
                                  proxies=SimpleNamespace(rates={}))
        self.story = HandoverStory(cluster, self.operator, Mover(self.operator, 1), 1, lambda text: None)
        self.story.signal_store = lambda name, number: self.done.append((name, number))

    async def do(self, line):
        self.done.append([(it["do"], it["server"]) for it in line["plan"]["streams"][0]["code"] if "server" in it])
        return {"begun": {}}

    async def tell_proxies(self, **message):
        self.done.append(message)
        return {}

    async def test_primaries_change_roles_while_their_disk_is_slow(self):
        self.story.dice = SimpleNamespace(choice=lambda names: "a", uniform=lambda low, high: 0.0)
        with patch("cluster.faults.absences.RUNS", 0.0):
            await self.story.stop_store()
        swap, stop = [("change", "a"), ("change", "b")], [("a", signal.SIGSTOP), ("a", signal.SIGCONT)]
        self.assertEqual(self.done, [swap, *stop, swap, *stop, *stop])
        self.assertFalse(self.story.mover.busy)

    async def test_a_disk_stops_for_a_moment_in_which_something_is_begun(self):
        self.story.dice = SimpleNamespace(uniform=lambda low, high: 0.1)
        with patch("cluster.faults.absences.RUNS", 0.05):
            async with self.story.stopped_store("b"):
                self.assertEqual(self.done, [("b", signal.SIGSTOP)])
        self.assertEqual(self.done[1:], [("b", signal.SIGCONT)])

    async def test_orders_come_through_before_connections_last_again(self):
        found = Handovers("c", {"s": "a"}, [], self.state)
        with patch("asyncio.sleep", AsyncMock()):
            self.assertTrue(await self.story.let_pass(found))
        self.assertEqual(self.done, [{"links": ["order k0 c"], "hold": []}])

    async def test_orders_come_once_more_behind_a_handover(self):
        self.story.passing_handovers = AsyncMock(side_effect=lambda *_: self.done.append("passing"))
        self.operator.patience = 0.01
        self.assertFalse(await self.story.in_handovers(None, None))
        links = ["order k0 a", "order k0 b", "order k0 c"]
        self.assertEqual(self.done, [{"links": links, "orders": True}, "passing", {"links": links, "orders": False}])

    async def test_a_copy_is_begun_of_a_shard_that_rests(self):
        self.story.mover.busy = {"s"}
        await self.story.begin_copy(["c"])
        self.assertEqual(self.done, [[("add", "c"), ("drop", "b")]])
        self.state = recorded(row("u", b=PRIMARY, c=SECONDARY))
        await self.story.begin_copy(["c"])
        self.assertEqual(len(self.done), 1)

    async def test_a_reopening_amid_passing_finds_a_slow_disk(self):
        doing = []

        @asynccontextmanager
        async def stopped_store(name):
            doing.append(name)
            yield
            doing.append("runs")

        async def reopen(document, lost, why):
            doing.append("reopen")
            return True

        self.story.stopped_store, self.story.reopen, self.story.wait_for_work = stopped_store, reopen, AsyncMock()
        found = Handovers("c", {"s": "a"}, [], self.state)
        self.assertTrue(await self.story.reopen_slowly(found))
        self.assertTrue(await self.story.reopen_at_work(found))
        self.assertEqual(doing, ["c", "reopen", "runs", "reopen"])

    async def test_what_is_handed_over_is_used_until_something_was_done(self):
        found = Handovers("c", {"s": "a"}, [], self.state)

        @asynccontextmanager
        async def held_handovers(most):
            yield found

        self.story.held_handovers, self.story.wait_for_cells, busy = held_handovers, AsyncMock(return_value=True), []

        async def act(found):
            busy.append(set(self.story.mover.handed_over))
            return True

        self.assertTrue(await self.story.in_handovers(self.story.undisturbed, act))
        self.assertEqual((busy, self.story.mover.busy), ([{"s"}], set()))

    async def test_a_restart_that_takes_too_long_is_made_again(self):
        self.story.wait_until_caught_up = AsyncMock(side_effect=[True, False])
        with patch("cluster.faults.losses.IN_TIME", -1.0):
            self.assertFalse(await self.story.restart_in_time("b"))
        self.assertEqual(self.process.start.await_count, 2)
        self.assertTrue(await self.story.restart_in_time("b"))
        self.assertEqual(self.process.start.await_count, 3)

    async def test_a_restarted_secondary_follows_late_until_its_primary_is_lost(self):
        self.story.may_lose, self.story.reopen = AsyncMock(return_value=True), AsyncMock()

        async def lose(server, how):
            self.done.append(server)

        self.story.lose = lose
        await self.story.lose_beside_restart()
        slow, lost, usual = self.done
        self.assertEqual((slow["links"], lost, usual["links"]), (("peer b a",), "a", ("peer b a",)))
        self.assertEqual((slow["rates"]["shortest"], usual["rates"]["shortest"]), (0.6, 0.0))
        self.assertEqual(self.process.start.await_count, 1)


class LateRequestsTest(unittest.IsolatedAsyncioTestCase):
    """Requests that wait for a shard's lock."""

    async def asked(self, seconds):
        """A request's reply, or the error, if the lock is held for so long before it; and whether it was executed."""
        shard, requests = Shard("s", Slot()), object.__new__(Requests)
        requests.store, requests.execute = SimpleNamespace(shards={"s": shard}), AsyncMock(return_value=b"done")
        requests.route, requests.may_not_serve = lambda shard, how: (Answer.EXECUTE, Request()), lambda: False
        requests.server = SimpleNamespace(think=lambda shard, how: 0, sources=SimpleNamespace(replicated=AsyncMock()))
        async with shard.lock:
            task = asyncio.create_task(requests.request("s", None, ("GET", "k")))
            await asyncio.sleep(seconds)
        (reply,) = await asyncio.gather(task, return_exceptions=True)
        self.assertEqual(shard.running, 0)
        return str(reply), requests.execute.await_count

    async def test_who_has_waited_too_long_is_to_ask_again(self):
        with patch("cluster.servers.limits.WAITING", 0.1):
            self.assertEqual(await self.asked(0.2), ("TRYAGAIN s", 0))
        self.assertEqual(await self.asked(0.0), ("b'done'", 1))
