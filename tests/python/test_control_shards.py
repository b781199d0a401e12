"""smplan-control add-shard and remove-shard: their plans, what they refuse, and that they go on after any interruption."""
import signal
import subprocess
import sys
import unittest
from types import SimpleNamespace

from control_story import DOCUMENT, ENVIRONMENT, ScriptedStory, shard
from smplan.control_shards import data_gone, drop_plan, refuse_other, replicas_to_come
from smplan.failure import Failure
from smplan.files import document_from
from smplan.model import plan_of
from smplan.placement import Placement
from smplan.verdict import holding_findings, plan_findings


class ShardsTest(unittest.TestCase):
    """The plans that bring shards and take them away."""

    def check(self, plan, document):
        """What is wrong with a plan at a document."""
        placement, found = Placement(document_from(document, "it")), plan_of(plan)
        return [it.line for it in plan_findings(found, placement) + holding_findings(found, placement)]

    def arguments(self, **more):
        return SimpleNamespace(**{"shard": ["v"], "load": 2, "want": 2, "cap": 1, "spread": 1, "at": "a", **more})

    def test_replicas_to_come(self):
        for cells, added in (("", [("v", "a", "primary"), ("v", "s", "secondary")]), ("c*", [("v", "s", "secondary")]), ("a*c", [])):
            document = {**DOCUMENT, "shards": [*DOCUMENT["shards"], shard("v", 2, cells, cap=2)]}
            found, plan = replicas_to_come(document, self.arguments())
            self.assertEqual(([(it.shard, it.server, it.role) for it in found.additions], found.left, self.check(plan, document)), (added, [], []))
        for more, cells, fault in (({"load": 7}, "", "a has room for 6 more, and v needs 7: name another server by --at"), ({"want": 5}, "", "v has 3 of 5 replicas: its load is 2, and no"),
                                   ({}, "bc", "v has secondaries alone: `smplan-control repair --promote`")):
            told = self.arguments(**more)
            document = {**DOCUMENT, "shards": [*DOCUMENT["shards"], shard("v", told.load, cells, told.want, told.want)]}
            self.assertEqual([it[:len(fault)] for it in replicas_to_come(document, told)[0].left], [fault])

    def test_a_shard_that_is_there_otherwise(self):
        refuse_other(DOCUMENT, self.arguments(shard=["s"], load=4))
        for more, fault in (({"shard": ["v", "s"]}, "s is there already, with load 4: `smplan-control resize --load s=N` changes that"), ({"at": "A"}, "no server is named 'A'; did you mean 'a'?")):
            with self.assertRaises(Failure) as raised:
                refuse_other(DOCUMENT, self.arguments(**more))
            self.assertEqual(str(raised.exception), fault)

    def test_what_drops_a_shard(self):
        shards = [shard("s", 4, "a*b", cap=2), shard("t", 5, "b*c", cap=2), shard("u", 1, "c", want=3, cap=3)]
        for unlisted in (False, True):
            gone = [{**it, "listed": None} for it in shards] if unlisted else shards
            plan = drop_plan(gone)
            self.assertEqual(self.check(plan, {**DOCUMENT, "shards": gone}), [])
            self.assertEqual([[it["do"] for it in stream["code"]] for stream in plan["streams"]],
                             [["drop", "drop"], ["drop", "drop"], ["drop"]] if unlisted else [["unlist", "drop", "drop"], ["unlist", "drop", "drop"], ["drop"]])
        self.assertEqual(self.check(drop_plan([DOCUMENT["shards"][0]]), DOCUMENT), ["held: 4 ShortSpare shard s free 1 declared 2"])
        self.assertEqual(len(drop_plan([shard(str(it), 1, "a*") for it in range(100)])["streams"]), 64)
        self.assertEqual(data_gone([shard("s", 4, "a*b"), shard("v", 1, "")]), "s, load 4: its data at a (primary), b (secondary) is gone for good. v, load 1: no server has data of it. ")


class ShardStory(ScriptedStory):
    """add-shard and remove-shard over servers: b withholds what it is to do, the command gives up or is killed, b goes on, and the command is said again."""

    ADD = ("add-shard", "t", "--load", "3", "--want", "2", "--at", "b", "--yes")
    REMOVE = ("remove-shard", "t", "--yes")
    THERE, GONE = ({"b": "primary", "c": "secondary"}, 2, 1, 3), None

    def let_go(self):
        self.servers["b"].withholds = lambda kind, message: False

    def withhold(self, kind, number):
        """Has b withhold its messages of a kind, from the one of this number on."""
        server, before = self.servers["b"], len([it for it in self.servers["b"].heard if it[0] == kind])
        server.withholds = lambda it, message: it == kind and len([told for told in server.heard if told[0] == kind]) >= before + number

    def interrupted(self, words, kind, number, is_killed):
        """Says a command that comes no further than a message to b."""
        self.withhold(kind, number)
        if not is_killed:
            self.assertEqual(self.control(*words, "--wait", "1")[0], 1)
            return
        process = subprocess.Popen([sys.executable, "-m", "smplan.control_commands", *words, "--controller", self.controller], env=ENVIRONMENT, cwd=self.path,
                                   stdin=subprocess.DEVNULL, stdout=subprocess.DEVNULL, stderr=subprocess.DEVNULL)
        self.until(lambda: any(it["kind"] == kind and it["message"]["server"] == "b" and it["tries"] for it in self.ask("/outgoing")))
        process.send_signal(signal.SIGKILL)
        process.wait()

    def test_they_go_on_wherever_they_were_interrupted(self):
        for at, (words, kind, number, end) in enumerate((
                (self.ADD, "fence", 0, self.THERE), (self.REMOVE, "fence", 0, self.GONE), (self.ADD, "settle", 0, self.THERE), (self.REMOVE, "order", 0, self.GONE),
                (self.ADD, "order", 0, self.THERE), (self.REMOVE, "fence", 1, self.GONE), (self.ADD, "fence", 1, self.THERE), (self.REMOVE, "settle", 1, self.GONE))):
            with self.subTest(words[0], kind=kind, number=number):
                self.interrupted(words, kind, number, at % 4 in (1, 2))
                self.let_go()
                status, text = self.control(*words)
                is_over = kind == "settle" and "no shard is named 't'" in text  # (it may have ended before the command was said again)
                self.assertTrue(is_over or (status == 0 and ("t is there, with 2 replicas" if end else "t is gone") in text), (status, text))
                self.assertEqual(self.recorded("t"), end)
                self.assertEqual({it for it, server in self.servers.items() if "t" in server.slots}, set(end[0] if end else ()))
        self.assertEqual((self.recorded("s"), self.listed()), (({"a": "primary", "b": "secondary"}, 2, 1, 4), "a"))

    def test_what_is_asked_and_refused(self):
        self.check(self.ADD[:-1], 1, "t: b gets an empty primary; t: c gets a secondary. It takes a reopening, and a second one once these are there")
        self.check((*self.ADD[:-1], "--dry-run", "--json"), 0, '"name": "t", "load": 3, "want": 2, "cap": 2, "spread": 1, "listed": null, "cells": []')
        self.check(("add-shard", "t", "--load", "9", "--want", "1", "--at", "b"), 1, "b has room for 6 more, and t needs 9")
        self.check(("add-shard", "t", "--load", "1", "--want", "4", "--at", "b"), 1, "t has 3 of 4 replicas")
        self.check(("add-shard", "t", "--load", "1", "--want", "2", "--cap", "3", "--at", "b"), 2, "of 2 replicas no more than 2 may be away")
        self.check(("add-shard", "t:", "--load", "1", "--want", "2", "--at", "b"), 2, "'t:' is no name")
        self.check(("remove-shard", "t"), 2, "no shard is named 't'")
        self.check(("remove-shard", "s"), 1, "s, load 4: its data at a (primary), b (secondary) is gone for good. Clients find no server for it from now on. It takes two reopenings and a plan.")
        self.check(("remove-shard", "s", "--dry-run"), 0, "is gone for good")
        self.assertEqual(self.epoch(), 0)

    def test_several_and_without_a_floor(self):
        self.check(("add-shard", "t", "u", "--load", "1", "--want", "3", "--cap", "3", "--at", "c", "--yes", "--json"), 0, '{"added": ["t", "u"]}')
        self.assertEqual((self.recorded("u"), self.epoch()), (({"a": "secondary", "b": "secondary", "c": "primary"}, 3, 3, 1), 1))
        self.check(("add-shard", "t", "u", "--load", "1", "--want", "3", "--cap", "1", "--at", "c", "--yes"), 0, "t, u are there, with 3 replicas")
        self.assertEqual((self.recorded("u")[2], self.epoch()), (1, 2))
        self.check(("remove-shard", "u", "x"), 2, "no shard is named 'x'")
        self.check(("remove-shard", "t", "s", "u", "--yes"), 0, "t, s, u are gone")
        self.assertEqual((self.ask("/document")["shards"], [it.slots for it in self.servers.values()]), ([], [{}, {}, {}]))
