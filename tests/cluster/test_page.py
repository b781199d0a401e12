"""What a controller's page shows."""
import unittest
from types import SimpleNamespace

from cluster.controllers.alarms import Alarms
from cluster.controllers.page import figures_of, reopening_rows, shard_rows


def shard(name, **states):
    """A shard as `state` tells it, by the state of each of its servers."""
    return {"shard": name, "cells": [{"server": server, "state": state} for server, state in states.items()]}


class PageTest(unittest.IsolatedAsyncioTestCase):
    """Figures of a page."""

    async def figures(self, leads):
        """The figures of a controller in epoch 3 that has an order outstanding, if it leads."""
        async def ask(line):
            return {"state": {"is": "open", "epoch": 3}}

        async def get(key):
            return SimpleNamespace(value="k1")

        order = SimpleNamespace(message={"call": "drop", "shard": "s", "server": "a", "number": 5}, age=1.0, tries=2, said="")
        controller = SimpleNamespace(ask=ask, outgoing={("order", 5): order} if leads else {}, counts={}, may_still_serve=lambda state: ({"c"}, 1.5))
        alarms = Alarms(lambda text: None)
        alarms.give("b", "ahead", "it has done more")
        member = SimpleNamespace(controller=controller, alarms=alarms, leads=leads, etcd=SimpleNamespace(get=get), settings=SimpleNamespace(name="k1" if leads else "k0"),
                                 journal=SimpleNamespace(place=9, counts={}), owner=SimpleNamespace(counts={}), past=SimpleNamespace(terms=1))
        return await figures_of(member)

    async def test_who_leads_tells_what_is_outstanding(self):
        figures = await self.figures(True)
        self.assertEqual([(it["to"], it["what"]) for it in figures["orders"]], [("a", "drop s")])
        self.assertEqual(figures["summary"], "Epoch 3, line 9 of the journal, 1 message outstanding.")
        self.assertEqual([(it["about"], it["what"]) for it in figures["alarms"]], [("b", "ahead")])
        self.assertIn("may serve for 1.5 s", figures["reopening"][0]["what"])

    async def test_who_follows_does_not_say_that_nothing_is(self):
        figures = await self.figures(False)
        self.assertNotIn("orders", figures)
        self.assertEqual(figures["leader"], "k1")
        self.assertNotIn("0 messages", figures["summary"])

    def test_a_shard_is_served_by_its_old_owner_until_the_new_one_takes_over(self):
        handover = [shard("s", a="primary", b="prepared"), shard("s", a="forwarding", b="prepared"), shard("s", a="forwarding", b="primary")]
        self.assertEqual([it["serves"] for it in shard_rows({"shards": handover})], ["a", "a", "b"])
        self.assertEqual([it["serves"] for it in shard_rows({"shards": [shard("s", a="secondary"), shard("t")]})], [None, None])

    def test_a_reopening_shows_what_is_to_be_confirmed(self):
        proposal = {"base": 8, "cells": [shard("s", a="primary", b="secondary"), shard("t")], "lost": ["t"], "floors": [{"shard": "s", "live": 1, "floor": 2}],
                    "carried": ["b"]}
        rows = reopening_rows({"reopening": {"base": 8, "is": "confirm", "waiting": ["b"], "proposal": proposal}})
        self.assertEqual([it["names"] for it in rows], ["b", "t", "s (1 of 2)", "s: a, t: none"])
        self.assertEqual([it["names"] for it in reopening_rows({"reopening": {"base": 8, "is": "fence", "waiting": [None, "a"]}})], ["the map's owner, a"])
        self.assertEqual(reopening_rows({}), [])
