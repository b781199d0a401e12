"""A server whose disk was replaced while it was down under its permit: who confirms the reopening that is to give its replicas up, and when."""
import unittest
from types import SimpleNamespace
from unittest.mock import AsyncMock, patch

from cluster.controllers.member import Member, Past
from cluster.faults.handovers import HandoverStory
from cluster.launch.shape import Shape

BASE = 2097152


def recorded(is_carried):
    """What is recorded once a reopening has ended: a is the primary of s00, or b is, if a was not left as it was."""
    first, second = ("primary", "secondary") if is_carried else ("secondary", "primary")
    servers = [{"server": "a", "permit": 7, "carried": is_carried}, {"server": "b", "permit": None, "carried": False}]
    cells = [{"server": "a", "state": first}, {"server": "b", "state": second}]
    return {"is": "open", "fence": BASE, "servers": servers, "shards": [{"shard": "s00", "cells": cells}]}


def proposed(waiting, lost):
    """The state of a reopening that waits to be confirmed."""
    return {"is": "reopening", "reopening": {"is": "confirm", "base": BASE, "waiting": waiting, "proposal": {"lost": lost, "carried": waiting}}}


class ControllerTest(unittest.IsolatedAsyncioTestCase):
    """What a controller that may confirm by itself does with a proposal."""

    async def confirmed(self, lost, carried):
        """Whether a controller confirms it, and what it logs when it looks at it twice."""
        logged, member = [], object.__new__(Member)
        member.settings, member.past = SimpleNamespace(confirm=True, log=logged.append), Past()
        member.controller = SimpleNamespace(proposal={"base": BASE, "lost": lost, "carried": carried}, do=AsyncMock())
        await member.confirm()
        await member.confirm()
        return member.controller.do.await_count > 0, logged

    async def test_it_confirms_what_loses_nothing_once_all_have_told(self):
        self.assertEqual(await self.confirmed([], []), (True, []))

    async def test_it_leaves_to_an_operator_whom_to_leave_as_recorded(self):
        self.assertEqual(await self.confirmed([], ["a"]), (False, [
            f"leaves the proposal of base {BASE} to an operator: servers that are down, and have not told what they have: a"]))
        is_confirmed, logged = await self.confirmed(["s"], ["a"])
        self.assertEqual((is_confirmed, len(logged)), (False, 1))
        self.assertIn("shards that may be lost: s; servers", logged[0])


class OperatorTest(unittest.IsolatedAsyncioTestCase):
    """What the storm's operator does about a, which is up by now, or down."""

    def story(self, before, after, is_up=True):
        """A story in which one of these states is told after the other, the last one again and again, and once something is confirmed those `after`. The
        lines that are sent are noted."""
        sent, left = [], {"reopen": list(before), "confirm": list(after)}

        async def ask(line):
            states = left[sent[-1]["do"]]
            return {"state": states.pop(0) if len(states) > 1 else states[0]}

        async def do(line):
            sent.append(line)
            return {"settle": []}

        async def reopen(line):
            sent.append(line)
            return {"fence": [{"base": BASE}]}

        cluster = SimpleNamespace(shape=Shape(servers=2, shards=1, want=2), lease=0.0, processes={"a": SimpleNamespace(is_running=is_up)})
        operator = SimpleNamespace(ask=ask, do=do, reopen=reopen, patience=240.0)
        story = HandoverStory(cluster, operator, None, 1, lambda text: None)
        story.promote = story.refill = AsyncMock()
        return story, sent

    def has_cell(self, line):
        """Whether the document of a reopening has a cell of a."""
        return any(cell["server"] == "a" for shard in line["document"]["shards"] for cell in shard["cells"])

    async def test_who_is_up_is_waited_for_and_then_named_as_lost(self):
        with patch("cluster.faults.reopenings.CONFIRMING", 0.1):
            story, sent = self.story([proposed(["a"], [])] * 2 + [proposed([], ["s00"])], [recorded(False)])
            await story.reopen_emptied("a", recorded(True))
        self.assertFalse(self.has_cell(sent[0]))
        self.assertEqual({it["do"]: it.get("lost") for it in sent}, {"reopen": [], "confirm": ["s00"]})

    async def test_who_is_down_is_not_waited_for(self):
        story, sent = self.story([proposed(["a"], [])], [recorded(True)], is_up=False)
        self.assertTrue(await story.reopen(story.document, [], "a look at all slots"))
        self.assertEqual([it["do"] for it in sent], ["reopen", "confirm"])

    def test_for_how_long_it_rests(self):
        state = recorded(True)
        rests = [[self.story([], [], is_up)[0].rest_before(it) for it in (state, proposed(["a"], []), proposed(["a"], ["s00"]), proposed([], ["s00"]))] for is_up in (True, False)]
        self.assertEqual(rests, [[2.0, 60.0, 60.0, 2.0], [2.0, 0.0, 2.0, 2.0]])

    def test_with_a_lease_it_rests_for_none_but_those_that_are_named(self):
        story, _ = self.story([], [])
        story.cluster.lease = 4.0
        rests = [story.rest_before(it) for it in (proposed(["a"], []), proposed(["a"], ["s00"]), proposed([], ["s00"]))]
        self.assertEqual(rests, [60.0, 60.0, 0.0])

    async def test_who_was_left_as_recorded_is_emptied_by_one_more_reopening(self):
        story, sent = self.story([recorded(True)] * 2 + [recorded(False)], [])
        await story.reopen_emptied("a", recorded(True))
        self.assertEqual([it["do"] for it in sent], ["reopen", "reopen"])
        self.assertFalse(any(map(self.has_cell, sent)))
        self.assertEqual(story.counts["disks that a reopening left as they are recorded"], 1)
