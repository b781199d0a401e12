"""`repair`: plans after losses are admitted by the program, and its run ends with each shard repaired, or there is a reason."""
import json
import os
import random
import unittest

from fixtures import example, load, program, tools, written
from smplan.reports import read_report

# How many random losses are tried.
LOSSES = int(os.environ.get("LOSSES", "40"))


def random_document(dice):
    """A placement that may be opened: replicas stand where there is room, and floors are below what is live."""
    servers = [{"name": f"v{n}", "region": f"r{dice.randrange(3)}", "room": dice.randrange(20, 120)} for n in range(dice.randrange(2, 9))]
    left = {it["name"]: it["room"] for it in servers}
    shards = []
    for n in range(dice.randrange(1, 14)):
        size, want = dice.choice([0, 3, 8, 15, 25]), dice.randrange(0, 4)
        fitting = [name for name, room in left.items() if room >= size]
        chosen = dice.sample(fitting, min(want, len(fitting)))
        for name in chosen:
            left[name] -= size
        cells = [{"server": name, "state": "secondary" if at else "primary"} for at, name in enumerate(chosen)]
        cap = min(want, want - len(chosen) + dice.randrange(0, 2))
        listed = chosen[0] if chosen and dice.random() < 0.9 else None
        shards.append({"name": f"s{n}", "load": size, "want": want, "cap": max(0, cap), "spread": dice.randrange(0, 3), "listed": listed, "cells": cells})
    return {"limit": dice.randrange(0, 3), "servers": servers, "shards": shards}


def end_of(document):
    """The report of the program's run of a document's plan."""
    return read_report(program("run", document), "the report")


class Losses(unittest.TestCase):
    def check_end(self, document, words, told):
        """A repaired shard has a listed primary and what it wants, unless no server that is up has room for one more, or a reason is told."""
        self.assertTrue(program("check", document).startswith("accepted: "), program("check", document))
        report = end_of(document)
        servers = {it["name"]: it for it in report.lists["servers"]}
        shards = {it["name"]: it for it in document["shards"]}
        for shard in report.lists["shards"]:
            before, cells = shards[shard["name"]], {it["server"]: it["state"] for it in shard["cells"]}
            is_told = f"left: {shard['name']} " in told
            owners = [server for server, state in cells.items() if state == "primary"]
            if before["want"] and cells:
                self.assertEqual(1, len(owners), shard)
                self.assertIn(shard["listed"], owners + ([None] if before["listed"] is None else []), shard)
            if len(cells) < before["want"]:
                self.assertTrue(is_told, shard)
                may = [name for name, it in servers.items() if it["state"] == "up" and name not in cells and it["room"] - it["load"] >= before["load"]]
                self.assertTrue(not may or (not cells and "--empty" not in words), (shard, may))

    def test_random_losses(self):
        repaired = partly = refused = 0
        for number in range(LOSSES):
            dice = random.Random(number)
            document = random_document(dice)
            self.assertFalse(program("calls", document | {"calls": []}).startswith("placement refused"), number)
            lost = dice.sample([it["name"] for it in document["servers"]], dice.choice([1, 1, 1, 2]))
            words = [*(f"--lost={it}" for it in lost), *dice.choice([[], ["--relax"], ["--relax"], ["--relax", "--empty"]])]
            with self.subTest(number), written(document) as path:
                done = tools("repair", *words, path)
                if done.out:
                    self.check_end(json.loads(done.out), words, done.err)
                    repaired, partly = repaired + (done.status == 0), partly + (done.status == 1)
                    self.assertEqual(done.status == 1, "left: " in done.err)
                else:
                    refused += 1
                    self.assertEqual(1, done.status)
                    self.assertNotIn("--relax", words)
                    self.assertRegex(done.err, r"placement refused: (8 Short|9 TooManyDown)")
        if LOSSES >= 40:
            self.assertGreater(min(repaired, partly, refused), LOSSES // 20, (repaired, partly, refused))


class Told(unittest.TestCase):
    def test_a_secondary_is_promoted_and_published(self):
        done = tools("repair", "--lost", "berlin-2", str(example("placement")))
        value = json.loads(done.out)
        self.assertEqual(["change", "publish"], [it["do"] for it in value["plan"]["streams"][0]["code"]])
        self.assertEqual({"name": "berlin-2", "region": "berlin", "room": 100, "down": True}, value["servers"][1])
        self.assertIn("left: orders has 1 of 2 replicas: its load is 40, and no other server has more than 20 left", done.err)
        self.assertEqual(1, done.status)

    def test_the_document_of_the_example_is_repaired_whole(self):
        value = load(example("run-after-a-crash"))
        del value["plan"]
        with written(value) as path:
            done = tools("repair", path)
        self.assertEqual(0, done.status, done.err)
        wanted = example("run-after-a-crash").with_suffix(".txt").read_text().splitlines()
        end = program("run", json.loads(done.out)).splitlines()
        self.assertEqual(wanted[wanted.index("shard orders live 2 floor 1 listed berlin-1 version 1"):], end[end.index("shard orders live 2 floor 1 listed berlin-1 version 1"):])

    def test_a_primary_at_a_server_that_is_only_down_stays(self):
        value = load(example("placement"))
        value["servers"][1]["down"] = True
        with written(value) as path:
            done = tools("repair", path)
        self.assertEqual((1, []), (done.status, json.loads(done.out)["plan"]["streams"]))
        self.assertIn("orders has its primary at berlin-2, which is down; if its data is lost, say --lost berlin-2", done.err)

    def test_why_there_is_no_plan_and_what_helps(self):
        refused = tools("repair", "--lost", "oslo-1", str(example("placement")))
        self.assertEqual((1, ""), (refused.status, refused.out))
        self.assertIn("placement refused: 8 Short shard sessions: sessions has 0 live replicas, and its floor is 1", refused.err)
        lost = tools("repair", "--lost", "oslo-1", "--relax", str(example("placement")))
        self.assertIn("'cap' of sessions is 0, and is 1 in this document", lost.err)
        self.assertIn("left: sessions has no replica left, so its data is lost", lost.err)
        empty = tools("repair", "--lost", "oslo-1", "--relax", "--empty", "--plan", str(example("placement")))
        self.assertIn({"do": "add", "shard": "sessions", "server": "berlin-2", "role": "primary"}, [it for s in json.loads(empty.out)["streams"] for it in s["code"]])

    def test_an_unknown_server(self):
        done = tools("repair", "--lost", "berlin2", str(example("placement")))
        self.assertEqual(2, done.status)
        self.assertIn("did you mean 'berlin-2'?", done.err)

    def test_more_shards_than_streams(self):
        servers = [{"name": f"v{n}", "region": "r", "room": 1000} for n in range(4)]
        shards = [
            {"name": f"s{n}", "load": 1, "want": 2, "cap": 1, "spread": 1, "listed": "v0",
             "cells": [{"server": "v0", "state": "primary"}, {"server": f"v{1 + n % 3}", "state": "secondary"}]} for n in range(150)
        ]
        with written({"limit": 1, "servers": servers, "shards": shards}) as path:
            done = tools("repair", "--lost", "v0", path)
        self.assertEqual(0, done.status, done.err)
        value = json.loads(done.out)
        self.assertEqual(64, len(value["plan"]["streams"]))
        self.assertEqual("accepted: calls 300 streams 64\n", program("check", value))
