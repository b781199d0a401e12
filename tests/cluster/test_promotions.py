"""The operator's promotions of shards that a reopening left without a primary, over the reference."""
import json
import unittest
from types import SimpleNamespace

from cluster.faults.absences import AbsenceStory
from cluster.faults.reopenings import ReopeningStory, lacking, without
from cluster.launch.plans import move_stream, plan_of, swap_stream
from cluster.launch.shape import Shape
from smpland_model.session import Session


class SessionOperator:
    """An operator of the reference. After each line that begins a plan, some orders are answered."""

    def __init__(self, shards):
        self.session, self.patience, self.replies, self.orders = Session(), 360.0, {}, []
        servers = [{"name": it, "region": "r", "room": 10} for it in "abc"]
        self.send({"do": "open", "document": {"limit": 1, "servers": servers, "shards": shards}, "journal": "1", "epoch": 1})
        for server in "abc":
            self.send({"do": "restore", "server": server, "nonce": "1"})

    def send(self, line):
        """Feeds a line, and keeps the orders that it brings."""
        reply = self.session.reply(json.dumps(line).encode())
        self.orders += reply.get("orders", [])
        return reply

    def answer(self, count=100):
        """Answers the last order that was sent, and those that follow it, up to so many."""
        while self.orders and count:
            count -= 1
            order = self.orders.pop()
            self.send({"do": "answered", **{it: order[it] for it in ("plan", "stream", "number")}})

    async def do(self, line):
        """Feeds a line that may change something."""
        self.replies[line["name"]] = reply = self.send(line)
        return reply

    async def ask(self, line):
        """Feeds a line that asks; meanwhile everything that was sent is done."""
        self.answer()
        return self.send(line)

    def state(self):
        """What is recorded."""
        return self.send({"do": "state"})["state"]


class PromotionTest(unittest.IsolatedAsyncioTestCase):
    """Shards that a reopening left without a primary, while others move."""

    def shard(self, name, primary, secondary):
        cells = {primary: "primary", secondary: "secondary"} if primary else {"b": "secondary", secondary: "secondary"}
        return {"name": name, "load": 1, "want": 2, "cap": 1, "spread": 1, "listed": primary,
                "cells": [{"server": server, "state": state} for server, state in cells.items()]}

    async def test_moves_keep_no_shard_from_its_primary(self):
        operator = SessionOperator([self.shard("bare", None, "c"), self.shard("moved", "a", "b"), self.shard("swapped", "a", "c")])
        shards = {it["shard"]: it for it in operator.state()["shards"]}
        for name, stream in (("handover", move_stream(shards["moved"], "a", "c")), ("swap", swap_stream(shards["swapped"], "a", "c"))):
            operator.send({"do": "begin", "plan": plan_of([stream]), "name": name})
            operator.answer(2)
        cells = {it["shard"]: [cell["state"] for cell in it["cells"]] for it in operator.state()["shards"]}
        self.assertEqual(cells, {"bare": ["secondary"] * 2, "moved": ["forwarding", "secondary", "prepared"], "swapped": ["secondary"] * 2})
        story = ReopeningStory(SimpleNamespace(shape=Shape()), operator, None, 1, lambda text: None)
        story.lost = set("abc")
        await story.promote(operator.state())
        operator.answer()
        self.assertEqual(sorted("refused" in it for it in operator.replies.values()), [False, True])
        primaries = {it["shard"]: sum(cell["state"] == "primary" for cell in it["cells"]) for it in operator.state()["shards"]}
        self.assertEqual(primaries, {"bare": 1, "moved": 1, "swapped": 1})


class SecondariesTest(unittest.IsolatedAsyncioTestCase):
    """A server that is to have secondaries alone, so that it may be carried over a reopening."""

    async def test_others_take_its_primaries(self):
        cells = [{"server": "a", "state": "primary"}, {"server": "b", "state": "secondary"}]
        shards = [{"name": it, "load": 1, "want": 2, "cap": 1, "spread": 1, "listed": "a", "cells": cells} for it in ("s", "t")]
        operator = SessionOperator(shards)
        story = AbsenceStory(SimpleNamespace(shape=Shape()), operator, None, 1, lambda text: None)
        self.assertTrue(await story.take_primaries("a", 60.0))
        found = {it["shard"]: {cell["server"]: cell["state"] for cell in it["cells"]} for it in operator.state()["shards"]}
        self.assertEqual(found, dict.fromkeys(("s", "t"), {"a": "secondary", "b": "primary"}))


class DocumentTest(unittest.TestCase):
    """The document of a reopening."""

    def test_without_a_server_and_without_what_another_one_had(self):
        servers = [{"name": it} for it in "abc"]
        row = [{"server": "a", "state": "primary"}, {"server": "b", "state": "secondary"}, {"server": "c", "state": "secondary"}, {"server": "d", "state": "prepared"}]
        state = {"shards": [{"shard": "s", "cells": row}]}
        document = {"servers": servers, "shards": [{"name": "s", "cells": [], "listed": "a"}]}
        found = without(state, document, {"a"}, frozenset("b"))
        self.assertEqual([it["name"] for it in found["servers"]], ["b", "c"])
        self.assertEqual(found["shards"], [{"name": "s", "cells": [{"server": "c", "state": "secondary"}], "listed": None}])


class RefillTest(unittest.IsolatedAsyncioTestCase):
    """Shards that lack a replica."""

    async def test_a_secondary_is_added(self):
        shard = {"name": "s", "load": 1, "want": 2, "cap": 1, "spread": 1, "listed": "a", "cells": [{"server": "a", "state": "primary"}]}
        full = {**shard, "name": "t", "cells": [*shard["cells"], {"server": "b", "state": "secondary"}]}
        operator = SessionOperator([shard, full])
        rooms = {"b": 5, "c": 9}
        story = ReopeningStory(SimpleNamespace(shape=Shape()), operator, SimpleNamespace(busy=set(), rooms=lambda state: dict(rooms)), 1, lambda text: None)
        story.document = {"shards": [shard, full]}
        await story.refill()
        operator.answer()
        cells = {it["shard"]: {cell["server"]: cell["state"] for cell in it["cells"]} for it in operator.state()["shards"]}
        self.assertEqual(cells, {"s": {"a": "primary", "c": "secondary"}, "t": {"a": "primary", "b": "secondary"}})

    def test_the_two_of_a_handover_are_one(self):
        rows = {"s": ("forwarding", "prepared"), "t": ("forwarding", "prepared", "secondary"), "u": ("primary", "forwarding"), "v": ("secondary", "secondary")}
        state = {"shards": [{"shard": name, "cells": [{"state": it} for it in row]} for name, row in rows.items()]}
        document = {"shards": [{"name": it, "want": 2} for it in rows]}
        self.assertEqual([it["shard"] for it in lacking(state, document)], ["s", "u"])
