"""smplan.control: lines are stored before they are fed, and messages go out until they are answered."""
import asyncio
import json
import logging
import sys
import unittest

from fixtures import ROOT
from smplan.control import DONE, Controller, Pace, Session, SessionEnded, StoreLost, text_of

QUICK = Pace(timeout=0.05, again=0.01)
ORDER = {"plan": 0, "stream": 0, "number": 7, "server": "a", "call": "add", "shard": "s"}

# A session that has one order as long as it is not answered, and tells which lines it was fed.
ECHO = """
import json, sys
order, fed = json.loads(sys.argv[1]), 0
begun = answered = False
for line in sys.stdin:
    told = json.loads(line)
    fed += 1
    reply = {"id": told.get("id"), "fed": fed}
    begun = begun or told["do"] == "begin"
    if told["do"] in ("begin", "orders"):
        reply["orders"] = [order] if begun and not answered else []
    if told["do"] == "state":
        reply["state"] = {"servers": [{"server": "a", "permit": None}, {"server": "b", "permit": 7}]}
    if told["do"] == "answered":
        answered = True
        reply["moved"] = {}
    if told["do"] == "stop":
        break
    print(json.dumps(reply), flush=True)
"""


# (asyncio tells in its debug mode of each step that a busy machine made slow)
logging.getLogger("asyncio").setLevel(logging.ERROR)

class FakeServers:
    """Handlers that answer after some tries, and remember what they were given."""

    def __init__(self, tries=1):
        self.tries, self.orders = tries, []

    async def order(self, order):
        self.orders.append(order)
        if len(self.orders) == 1 and self.tries > 2:
            await asyncio.sleep(10)
        if len(self.orders) < self.tries:
            raise OSError("no way")
        return DONE


class ControlTest(unittest.IsolatedAsyncioTestCase):
    """A controller over a small session of its own."""

    async def asyncSetUp(self):
        self.stored, self.between = [], []
        self.session = await Session.start([sys.executable, "-c", ECHO, json.dumps(ORDER)])

    async def asyncTearDown(self):
        await self.session.close()

    async def store(self, lines):
        await asyncio.sleep(0)
        between, self.between = self.between, []
        self.stored += [*between, *lines]
        return [*between, *lines]

    async def led(self, servers, store=None):
        controller = Controller(self.session, servers, store or self.store, QUICK)
        await controller.lead()
        return controller

    async def until_idle(self, controller):
        async with asyncio.timeout(60):
            while controller.outgoing:
                await asyncio.sleep(0.005)

    async def test_answer_is_recorded(self):
        servers = FakeServers()
        controller = await self.led(servers)
        await controller.do({"do": "begin"})
        await self.until_idle(controller)
        await controller.rest()
        self.assertEqual([json.loads(it)["do"] for it in self.stored], ["begin", "answered"])
        self.assertEqual(json.loads(self.stored[1])["number"], 7)
        self.assertEqual(servers.orders, [ORDER])

    async def test_order_goes_again(self):
        servers = FakeServers(tries=4)
        controller = await self.led(servers)
        await controller.do({"do": "begin"})
        await asyncio.sleep(0.02)
        self.assertEqual(list(controller.outgoing), [("order", 0, 0)])
        await self.until_idle(controller)
        await controller.rest()
        self.assertEqual(len(servers.orders), 4)
        self.assertEqual(controller.counts["order again"], 3)
        self.assertEqual([json.loads(it)["do"] for it in self.stored], ["begin", "answered"])

    async def test_faulty_handler_is_called_again(self):
        class Faulty(FakeServers):
            async def order(self, order):
                self.orders.append(order)
                return DONE if len(self.orders) == 3 else {}["no"]

        servers = Faulty()
        controller = await self.led(servers)
        await controller.do({"do": "begin"})
        await self.until_idle(controller)
        await controller.rest()
        self.assertEqual(len(servers.orders), 3)

    async def test_restart_ends_with_the_base_that_the_server_tells(self):
        class Based(FakeServers):
            told = [8, None, OSError("gone"), TimeoutError()]

            async def base(self, server):
                self.orders.append(server)
                found = self.told.pop(0)
                if isinstance(found, Exception):
                    raise found
                return found

        servers = Based()
        controller = await self.led(servers)
        for permit in (7, 7, 7, 7, 9):
            await controller.restarted(permit)
        await controller.rest()
        lines = [json.loads(it) for it in self.stored]
        self.assertEqual([(it["permit"], it["base"]) for it in lines], [(7, 8), (7, None), (7, None), (7, None), (9, None)])
        self.assertEqual(servers.orders, ["b"] * 4)

    async def test_age_is_kept_when_a_message_comes_anew(self):
        controller = await self.led(FakeServers(tries=1000))
        await controller.do({"do": "begin"})
        outgoing = controller.outgoing["order", 0, 0]
        controller.send("order", {**ORDER, "replicas": ["a", "b"]})
        self.assertIs(controller.outgoing["order", 0, 0], outgoing)
        self.assertEqual(outgoing.message["replicas"], ["a", "b"])
        await controller.refresh()
        self.assertIs(controller.outgoing["order", 0, 0], outgoing)
        controller.send("order", {**ORDER, "number": 8})
        self.assertIsNot(controller.outgoing["order", 0, 0], outgoing)
        await controller.refresh()
        self.assertEqual(controller.outgoing["order", 0, 0].message["number"], 7)
        await controller.rest()

    async def test_stored_before_fed(self):
        fed_when_stored = []

        async def store(lines):
            fed_when_stored.append(self.session.fed)
            await asyncio.sleep(0.01)
            fed_when_stored.append(self.session.fed)
            return lines

        controller = await self.led(FakeServers(), store)
        before = self.session.fed
        await controller.do({"do": "approve"})
        self.assertEqual(fed_when_stored, [before, before])
        self.assertEqual(self.session.fed, before + 1)
        await controller.rest()

    async def test_lines_that_come_together_are_stored_together(self):
        controller = await self.led(FakeServers())
        await asyncio.gather(*(controller.do({"do": "approve", "by": str(it)}) for it in range(5)))
        self.assertEqual(controller.counts["appends"], 1)
        self.assertEqual(len(set(self.stored)), 5)
        await controller.rest()

    async def test_lines_of_others_come_first(self):
        servers = FakeServers()
        controller = await self.led(servers)
        self.between = [text_of({"do": "begin", "id": "other"})]
        reply = await controller.do({"do": "approve"})
        self.assertEqual(reply["fed"], 4)
        await self.until_idle(controller)
        self.assertEqual(servers.orders, [ORDER])
        await controller.rest()

    async def test_follower_sends_nothing(self):
        servers = FakeServers()
        controller = Controller(self.session, servers, self.store, QUICK)
        await controller.follow([text_of({"do": "begin"})])
        self.assertEqual(controller.outgoing, {})
        with self.assertRaises(StoreLost):
            await controller.do({"do": "begin"})
        await controller.lead()
        await self.until_idle(controller)
        self.assertEqual(servers.orders, [ORDER])
        await controller.rest()

    async def test_lost_store_ends_leading(self):
        async def store(lines):
            raise StoreLost("gone")

        controller = await self.led(FakeServers(), store)
        with self.assertRaises(StoreLost):
            await controller.do({"do": "begin"})
        self.assertIsInstance(controller.lost, StoreLost)
        self.assertEqual(self.session.fed, 2)
        await controller.rest()

    async def test_lines_that_change_are_not_asked(self):
        controller = await self.led(FakeServers())
        with self.assertRaises(ValueError):
            await controller.ask({"do": "begin"})
        await controller.rest()

    async def test_end_of_the_session_is_told(self):
        controller = await self.led(FakeServers())
        with self.assertRaises(SessionEnded):
            await controller.do({"do": "stop"})
        await controller.rest()


class FullLogTest(unittest.IsolatedAsyncioTestCase):
    """A controller over the reference, with a log in which one plan of four calls fits."""

    SERVERS = [{"name": it, "region": it, "room": 10} for it in "ab"]
    SHARDS = [{"name": it, "load": 4, "want": 1, "cap": 0, "spread": 1, "listed": "a", "cells": [{"server": "a", "state": "primary"}]} for it in "st"]

    async def asyncSetUp(self):
        self.session = await Session.start([sys.executable, str(ROOT / "tools/smpland_model.py"), "-"])
        self.addAsyncCleanup(self.session.close)
        self.is_slow = asyncio.Event()

        async def store(lines):
            return lines
        self.controller = Controller(self.session, self, store, QUICK)
        await self.controller.lead()
        self.addAsyncCleanup(self.controller.rest)
        await self.controller.do({"do": "open", "document": {"limit": 1, "log": 8, "servers": self.SERVERS, "shards": self.SHARDS}, "journal": "9f2c", "epoch": 0})
        for it in "ab":
            await self.controller.do({"do": "restore", "server": it, "nonce": "1f"})
        await self.until_idle()

    async def restore(self, _):
        return DONE

    async def order(self, _):
        return "working" if self.is_slow.is_set() else DONE

    async def publish(self, _):
        return DONE

    def move(self, shard, budget=4):
        """A plan that hands a shard over from a to b."""
        code = [{"do": "prepare_add", "server": "b", "other": "a"}, {"do": "prepare_drop", "server": "a", "other": "b"}, {"do": "add", "server": "b", "role": "primary"},
                {"do": "publish"}, {"do": "drop", "server": "a"}]
        holds = {"cells": [{"shard": shard, "server": "b", "state": "absent"}], "crowns": [{"shard": shard, "lead": "at", "server": "a", "listed": "a"}],
                 "room": [{"server": "b", "amount": 4}]}
        return {"budget": budget, "streams": [{"budget": budget, "holds": holds, "code": [{**it, "shard": shard} for it in code]}]}

    async def begin(self, shard, budget=4):
        return await self.controller.do({"do": "begin", "plan": self.move(shard, budget), "name": f"move-{shard}"})

    async def until_idle(self):
        async with asyncio.timeout(60):
            while self.controller.outgoing:
                await asyncio.sleep(0.005)

    async def test_the_log_is_emptied_once_nothing_runs(self):
        self.is_slow.set()
        self.assertEqual(0, (await self.begin("s"))["begun"]["epoch"])
        self.assertEqual("LogFull", (await self.begin("t"))["refused"]["kind"])
        self.is_slow.clear()
        await self.until_idle()
        self.assertEqual(1, (await self.begin("t"))["begun"]["epoch"])
        await self.until_idle()

    async def test_no_epoch_opens_for_a_plan_that_never_fits(self):
        self.assertEqual("LogFull", (await self.begin("s", 9))["refused"]["kind"])
        self.assertEqual(0, (await self.controller.ask({"do": "hello"}))["hello"]["epoch"])
