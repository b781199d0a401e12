"""smplan.control over handlers, stores and sessions that misbehave: none of them stops a controller silently."""
import asyncio
import json
import logging
import sys
import unittest

from smplan.control import DONE, Controller, Pace, Session, SessionEnded, StoreLost, StoreRefused, text_of

QUICK = Pace(timeout=0.05, again=0.01)
ORDER = {"journal": "9f2c", "epoch": 0, "fence": 0, "plan": 0, "stream": 0, "number": 7, "server": "a", "call": "add", "shard": "s"}
FENCES = [{"server": it, "journal": "9f2c", "base": 100} for it in (None, "a", "b")]
PROPOSAL = {"base": 100, "cells": [], "lost": [], "floors": [], "carried": ["b"]}

# (asyncio tells in its debug mode of each step that a busy machine made slow)
logging.getLogger("asyncio").setLevel(logging.ERROR)


class FakeSession:
    """A session of one order and one reopening, in which b, which is down, need not answer."""

    def __init__(self, orders=()):
        self.orders, self.fences, self.proposal, self.lines = list(orders), [], None, []

    def feed(self, text, heed=None):
        self.lines.append(json.loads(text))
        reply = self.reply(self.lines[-1])
        if heed:
            heed(reply)
        told = asyncio.get_running_loop().create_future()
        told.set_result(reply)
        return told

    async def ask(self, line, heed=None):
        return await self.feed(text_of(line), heed)

    def reply(self, line):
        if line["do"] == "reopen":
            self.fences, self.proposal = list(FENCES), None
            return {"fence": self.fences}
        if line["do"] == "fenced":
            self.fences = [it for it in self.fences if it["server"] != line["server"]]
            waiting = [it["server"] for it in self.fences]
            self.proposal = PROPOSAL if waiting == ["b"] else None
            return {"proposal": self.proposal} if self.proposal else {"waiting": waiting}
        if line["do"] == "answered":
            self.orders = []
        if line["do"] == "orders":
            return {"orders": self.orders, "fence": self.fences, "settle": [], "notice": []}
        return {"state": {}} if line["do"] == "state" else {}

# A session that replies to nothing once it was told to sleep.
SLEEPER = """
import json, sys, time
for line in sys.stdin:
    if json.loads(line)["do"] == "sleep":
        time.sleep(600)
    print("{}", flush=True)
"""


async def store(lines):
    """A store that keeps nothing, and never fails."""
    return lines


class SlowServers:
    """Servers that answer a fence after a while, and b never."""

    def __init__(self, seconds):
        self.seconds, self.fences = seconds, []

    async def fence(self, fence):
        self.fences.append(fence["server"])
        await asyncio.sleep(60 if fence["server"] == "b" else self.seconds)
        return {}


class FaultsTest(unittest.IsolatedAsyncioTestCase):
    """What a controller does when something else fails."""

    async def led(self, session, servers, pace=QUICK, stores=store):
        controller = Controller(session, servers, stores, pace)
        await controller.lead()
        self.addAsyncCleanup(controller.rest)
        return controller

    async def until(self, condition, seconds=5):
        async with asyncio.timeout(seconds):
            while not condition():
                await asyncio.sleep(0.005)

    async def test_a_slow_fence_is_answered_although_others_refresh(self):
        session, servers = FakeSession(), SlowServers(0.2)
        controller = await self.led(session, servers, Pace(timeout=5.0))
        await controller.do({"do": "reopen"})
        for _ in range(10):
            await asyncio.sleep(0.05)
            await controller.refresh()
        await self.until(lambda: controller.proposal)
        self.assertEqual(servers.fences, [None, "a", "b"])
        self.assertEqual([it["server"] for it in session.lines if it["do"] == "fenced"], [None, "a"])
        self.assertGreater(controller.outgoing["fence", "b"].age, 0.4)
        self.assertEqual(controller.proposal, PROPOSAL)

    async def test_a_reopening_anew_forgets_the_proposal_and_fences_again(self):
        session, servers = FakeSession(), SlowServers(0)
        controller = await self.led(session, servers, Pace(timeout=5.0))
        await controller.do({"do": "reopen"})
        await self.until(lambda: controller.proposal)
        await controller.do({"do": "reopen"})
        self.assertIsNone(controller.proposal)
        await self.until(lambda: controller.proposal)
        self.assertEqual(servers.fences, [None, "a", "b"] * 2)

    async def test_who_waits_for_a_line_that_is_being_stored_hears_that_this_one_leads_no_longer(self):
        begun = asyncio.Event()

        async def standing(lines):
            begun.set()
            await asyncio.Event().wait()

        controller = await self.led(FakeSession(), SlowServers(0), stores=standing)
        waiting = [asyncio.create_task(controller.do({"do": "reopen"}))]
        await begun.wait()
        waiting.append(asyncio.create_task(controller.do({"do": "reopen"})))
        await asyncio.sleep(0)
        await controller.rest()
        for it in waiting:
            with self.assertRaisesRegex(StoreLost, "does not lead"):
                await asyncio.wait_for(it, 60)

    async def test_whatever_a_store_raises_ends_leading(self):
        for fault in (RuntimeError("connection lost"), KeyError("kvs"), asyncio.CancelledError(), OSError("disk full")):
            async def failing(lines, fault=fault):
                raise fault

            with self.subTest(fault=type(fault)):
                controller = await self.led(FakeSession(), None, QUICK, failing)
                async with asyncio.timeout(60):
                    told = await asyncio.gather(*(controller.do({"do": "begin"}) for _ in range(3)), return_exceptions=True)
                self.assertEqual({type(it) for it in told}, {StoreLost})
                self.assertIs(controller.lost, told[0])
                with self.assertRaises(StoreLost):
                    await controller.do({"do": "begin"})

    async def test_a_line_that_is_too_long_is_refused_before_it_is_stored(self):
        batches = []

        async def store(lines):
            batches.append([len(it) for it in lines])
            return lines

        controller = await self.led(FakeSession(), None, Pace(batch_bytes=1000), store)
        with self.assertRaisesRegex(StoreRefused, "the journal takes 1000"):
            await controller.do({"do": "begin", "name": "x" * 1000})
        self.assertEqual(batches, [])
        async with asyncio.timeout(60):
            await asyncio.gather(*(controller.do({"do": "begin", "name": "x" * 400}) for _ in range(5)))
        self.assertEqual([len(it) for it in batches], [2, 2, 1])
        self.assertLessEqual(max(map(sum, batches)), 1000)
        self.assertIsNone(controller.lost)

    async def test_lines_beside_one_that_the_store_refuses_are_stored(self):
        stored = []

        async def store(lines):
            if any("long" in it for it in lines):
                raise StoreRefused("request is too large")
            stored.extend(json.loads(it)["name"] for it in lines)
            return lines

        controller = await self.led(FakeSession(), None, QUICK, store)
        told = await asyncio.gather(*(controller.do({"do": "begin", "name": it}) for it in ("a", "long", "b")), return_exceptions=True)
        self.assertEqual([type(it) for it in told], [dict, StoreRefused, dict])
        self.assertEqual(stored, ["a", "b"])
        self.assertEqual(await controller.do({"do": "begin", "name": "c"}), {})

    async def test_an_answer_that_the_store_refuses_is_told(self):
        async def store(lines):
            raise StoreRefused("request is too large")

        class Servers:
            async def order(self, order):
                return DONE

        controller = await self.led(FakeSession([ORDER]), Servers(), QUICK, store)
        await self.until(lambda: controller.counts["order again"] > 1 and controller.outgoing["order", 0, 0].said == "request is too large")
        self.assertIsNone(controller.lost)

    async def test_a_handler_whose_own_task_is_cancelled_is_called_again(self):
        class Servers:
            calls = 0

            async def order(self, order):
                self.calls += 1
                if self.calls == 1:
                    work = asyncio.create_task(asyncio.sleep(5))
                    asyncio.get_running_loop().call_later(0.01, work.cancel)
                    await work
                return DONE

        session, servers = FakeSession([ORDER]), Servers()
        controller = await self.led(session, servers, Pace(again=0.05))
        await self.until(lambda: servers.calls == 1)
        await self.until(lambda: not controller.outgoing)
        self.assertEqual((servers.calls, session.lines[-1]["do"]), (2, "answered"))

    async def test_a_message_that_is_given_up_ends_its_handler(self):
        ended = []

        class Servers:
            async def order(self, order):
                try:
                    await asyncio.sleep(5)
                finally:
                    await asyncio.sleep(0)
                    ended.append(order["number"])

        controller = await self.led(FakeSession([ORDER]), Servers(), Pace())
        await self.until(lambda: controller.counts["order"] == 1)
        await asyncio.sleep(0.01)
        await controller.rest()
        self.assertEqual(ended, [7])

    async def test_rests_grow_with_tries(self):
        times = []

        class Servers:
            async def order(self, order):
                times.append(asyncio.get_running_loop().time())
                return "working"

        await self.led(FakeSession([ORDER]), Servers(), Pace(again=0.02, longest=0.1))
        await self.until(lambda: len(times) == 6)
        rests = [after - before for before, after in zip(times, times[1:])]
        for rest, least in zip(rests, (0.02, 0.04, 0.08, 0.1, 0.1)):
            self.assertGreaterEqual(rest, least * 0.9)
        self.assertEqual([Pace().rest_behind(it) for it in (1, 2, 3, 4, 1000)], [0.2, 0.4, 0.8, 1.0, 1.0])


class SessionFaultsTest(unittest.IsolatedAsyncioTestCase):
    """What a controller does when its session misbehaves."""

    async def test_a_session_that_hangs_is_ended(self):
        session = await Session.start([sys.executable, "-c", SLEEPER])
        controller = Controller(session, None, store, QUICK)
        await controller.lead()
        self.assertEqual(await controller.ask({"do": "hello"}), {})
        session.patience = 4.0
        async with asyncio.timeout(60):
            sleep = asyncio.create_task(controller.do({"do": "sleep"}))
            await asyncio.sleep(0.1)
            told = await asyncio.gather(sleep, controller.ask({"do": "hello"}), return_exceptions=True)
        self.assertEqual([str(it) for it in told], ["the session gave no reply for 4 s"] * 2)
        self.assertIsInstance(controller.lost, SessionEnded)
        with self.assertRaises(SessionEnded):
            await controller.refresh()
        await controller.rest()
        self.assertLess(await session.close(), 0)

    async def test_a_session_that_is_busy_is_not(self):
        session = await Session.start([sys.executable, "-c", SLEEPER.replace("time.sleep(600)", "time.sleep(0.7)")])
        self.assertEqual(await session.feed('{"do":"hello"}'), {})
        session.patience = 4.0
        replies = [session.feed('{"do":"sleep"}') for _ in range(8)]
        self.assertEqual([await it for it in replies], [{}] * 8)
        self.assertEqual(await session.close(), 0)

    async def test_a_reply_that_nobody_can_heed_ends_the_session(self):
        session = await Session.start([sys.executable, "-c", SLEEPER])

        def heed(reply):
            raise KeyError("server")

        async with asyncio.timeout(60):
            with self.assertRaisesRegex(SessionEnded, "KeyError 'server'"):
                await session.ask({"do": "hello"}, heed)
        await session.close()
