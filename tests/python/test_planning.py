"""The commands that make plans for what operators want, over the examples."""
import json
import os
import stat
import tempfile
import unittest
from unittest import mock

from fixtures import example, load, program, tools, written
from smplan.reports import read_report

DRAIN, PLACEMENT = str(example("drain-berlin-1")), str(example("placement"))


def plans(done):
    """The documents that a command printed, a line each."""
    return [json.loads(it) for it in done.out.splitlines()]


def end(document):
    """Who has what of each shard after the program's run of a plan, the primary first."""
    report = read_report(program("run", document), "the report")
    return {it["name"]: " ".join(cell["server"] for cell in sorted(it["cells"], key=lambda it: it["state"])) for it in report.lists["shards"]}


class Commands(unittest.TestCase):
    def one(self, *words, status=0):
        """The one document that a command prints."""
        done = tools(*words)
        self.assertEqual(status, done.status, done.err)
        (document,) = plans(done)
        self.assertTrue(program("check", document).startswith("accepted: "))
        return document, done.err

    def test_demote(self):
        document, told = self.one("demote", PLACEMENT, "berlin-2")
        self.assertEqual("berlin-1 berlin-2", end(document)["orders"])
        self.assertIn("1 plan, 2 calls: 0 copies of load 0, 1 change of a primary by two roles", told)
        self.assertIn("for one call each nobody is the primary of orders", told)
        document, told = self.one("demote", PLACEMENT, "berlin-2", "--no-gap")
        self.assertEqual("berlin-1 berlin-2", end(document)["orders"])
        self.assertIn("1 plan, 6 calls: 2 copies of load 80, no change of roles", told)
        self.assertIn("2 replicas to copy, load 80, ", told)
        self.assertIn("0 replicas to add, 0 to drop, 2 to change role; load 80 to copy", tools("show", "--summary", text=json.dumps(document)).out)

    def test_demote_tells_what_is_left(self):
        document, told = self.one("demote", PLACEMENT, "region:oslo", status=1)
        self.assertEqual([], document["plan"]["streams"])
        self.assertIn("left: sessions keeps its primary at oslo-1: it has no other replica", told)

    def test_drain(self):
        document, told = self.one("drain", DRAIN, "berlin-1")
        self.assertNotIn("berlin-1", " ".join(end(document).values()))
        self.assertIn("2 copies of load 70", told)
        self.assertIn("2 replicas to copy, load 70, 46.67 % of all; the fullest server 70.00 % -> 70.00 %; most primaries at a server 1 -> 2", told)
        document, told = self.one("drain", DRAIN, "region:oslo", status=1)
        self.assertIn("left: accounts stays at oslo-1: at berlin-3 it would lie in fewer than 2 regions", told)
        self.assertEqual(["oslo-1"], [it for it in end(document)["accounts"].split() if it.startswith("oslo")])
        document, _ = self.one("drain", DRAIN, "berlin-1", "--avoid", "berlin-3", "--prefer-secondary", "--at-server", "1", status=1)
        self.assertNotIn("berlin-3", " ".join(end(document).values()))

    def test_balance(self):
        done = tools("balance", DRAIN, "--over", "40")
        self.assertEqual(0, done.status, done.err)
        self.assertRegex(done.err, r"use of room: mean 41\.67 %, most 70\.00 %, after 2 moves 50\.00 %")
        self.assertRegex(done.err, r"copies at least \d+, [0-9.]+ %")
        document, told = self.one("balance", DRAIN, "--primaries")
        self.assertEqual([], document["plan"]["streams"])

    def test_scale(self):
        document, told = self.one("scale", DRAIN, "orders=3", "accounts=1")
        found = end(document)
        self.assertEqual((3, 1), (len(found["orders"].split()), len(found["accounts"].split())))
        self.assertIn("'want' of orders is 2, and becomes 3: set it to that after the plan", told)
        self.assertEqual(1, next(it["want"] for it in document["shards"] if it["name"] == "accounts"))

    def test_reach_and_undo_with_what_was_made_of_a_campaign(self):
        done = tools("drain", DRAIN, "berlin-1", "--batch", "1")
        first, second = plans(done)
        self.assertEqual((0, 1), (done.status, len(first["plan"]["streams"])))
        with written(second) as half:
            document, told = self.one("undo", DRAIN, half)
            self.assertEqual(end({**load(example("drain-berlin-1")), "plan": {"budget": 0, "streams": []}}), end(document))
            document, told = self.one("reach", DRAIN, half)
            self.assertEqual(end(first), end(document))

    def test_plan_alone_and_pretty(self):
        done = tools("drain", DRAIN, "berlin-1", "--plan", "--pretty")
        self.assertEqual(["budget", "signals", "streams"], list(json.loads(done.out)))
        self.assertGreater(len(done.out.splitlines()), 20)


class Progress(unittest.TestCase):
    def test_long_work_tells_how_far_it_is(self):
        with mock.patch("smplan.planning.PATIENCE", -1.0):
            self.assertIn("smplan-tools: 1 of 2 replicas have another place\n", tools("drain", DRAIN, "berlin-1").err)
            told = tools("balance", DRAIN, "--over", "40", "--batch", "1").err
        self.assertIn("smplan-tools: 4 of 5 lists of moves are made\n", told)
        self.assertIn("smplan-tools: 1 of 2 steps are in plans; smplan checks plan 0\n", told)
        self.assertNotIn("lists", tools("balance", DRAIN).err)


class Faults(unittest.TestCase):
    def fails(self, status, text, *words):
        done = tools(*words)
        self.assertEqual((status, ""), (done.status, done.out), done.err)
        self.assertIn(text, done.err)

    def test_names_and_numbers(self):
        self.fails(2, "no server is named 'berlin2'; did you mean 'berlin-2'?", "demote", PLACEMENT, "berlin2")
        self.fails(2, "no region is named 'osl'", "drain", PLACEMENT, "region:osl")
        self.fails(2, "no shard is named 'order'; did you mean 'orders'?", "scale", PLACEMENT, "order=3")
        self.fails(2, "orders: how many replicas is it to have? Say SHARD=WANT, as orders=3", "scale", PLACEMENT, "orders")
        self.fails(2, "orders=0: a shard has 1 to 1024 replicas", "scale", PLACEMENT, "orders=0")
        self.fails(2, "65 is no whole number from 1 to 64", "drain", PLACEMENT, "berlin-1", "--streams", "65")

    def test_a_placement_that_may_not_be_opened(self):
        value = load(example("placement"))
        value["servers"][0]["room"] = 1
        with written(value) as path:
            self.fails(1, "placement refused: 7 OverRoom server berlin-1", "drain", path, "berlin-1")

    def test_the_other_document_has_a_server_that_is_not_there(self):
        self.fails(2, "the placement has no server 'berlin-3'", "reach", PLACEMENT, DRAIN)

    def test_no_plan_is_printed_that_the_program_refuses(self):
        with tempfile.TemporaryDirectory() as folder:
            path = os.path.join(folder, "smplan")
            with open(path, "w", encoding="utf-8") as file:
                file.write("#!/bin/sh\necho 'refused: 5 Stuck'\nexit 1\n")
            os.chmod(path, stat.S_IRWXU)
            self.fails(1, "smplan refuses a plan that was made, which is a fault of smplan-tools: refused: 5 Stuck", "drain", DRAIN, "berlin-1", "--program", path)
