"""`explain`: the reason that it gives is the one that the program names, and there is none if the program names none."""
import copy
import json
import os
import random
import re
import unittest

import report_cases
from fault_cases import FILES, cases_of
from fixtures import EXAMPLES, command_of, example, load, program, tools, written
from test_repair import random_document
from smplan.explain import explained
from smplan.model import document_of
from smplan.moves import placed, signal_count
from smplan.placement import Placement

# A line of a report that says why there is nothing more.
REFUSAL = re.compile(r"(bad input|placement refused|log refused|refused|held|not begun|no plan|plan \d+: refused): ")
# How many documents of plans are changed at random.
CHANGED = int(os.environ.get("CHANGED_PLANS", "150"))


def refusal_of(report):
    return next((it for it in report.splitlines() if REFUSAL.match(it)), None)


class Reasons(unittest.TestCase):
    def test_each_report_of_the_tables(self):
        cases = list(report_cases.written())
        self.assertGreater(len(cases), 300)
        for where, command, text, report, _ in cases:
            with self.subTest(f"{where}, {command}"):
                self.assertEqual(refusal_of(report), explained(text.encode(), command).line)

    def test_each_example(self):
        for path in EXAMPLES:
            with self.subTest(path.name):
                self.assertEqual(refusal_of(path.with_suffix(".txt").read_text()), explained(path.read_bytes(), command_of(path)).line)

    def test_each_example_without_a_command(self):
        for path in EXAMPLES:
            with self.subTest(path.name):
                done = tools("explain", str(path))
                wanted = refusal_of(path.with_suffix(".txt").read_text())
                self.assertEqual(1 if wanted else 0, done.status, done.out)
                self.assertIn(wanted or "nothing is wrong", done.out)
                self.assertNotIn("The program's word counts", done.out)

    def test_members_of_which_one_is_too_much(self):
        """`explain` tells of them without a command, too, if a command reads both."""
        document = load(example("drain-berlin-1"))
        with_both = {"drain": document | {"moves": []}, "plans": load(example("play-two-plans")) | {"plan": load(example("plan-handover"))["plan"]}}
        for member, both in with_both.items():
            done = tools("explain", text=json.dumps(both))
            self.assertEqual(1, done.status)
            self.assertIn(f"'{member}' stands beside ", done.out)
        done = tools("explain", text=json.dumps(document | {"plan": load(example("plan-handover"))["plan"], "plans": []}))
        self.assertNotIn("stands beside", done.out)

    def test_a_plan_without_its_document(self):
        """It is told what to do with it, which works."""
        path = example("plan-handover")
        plan = load(path)["plan"]
        with written(plan) as file:
            done = tools("explain", file)
            self.assertEqual(1, done.status)
            self.assertIn(f"a plan without its document; put it into the document that it was made for:\n  smplan-tools put-plan DOCUMENT {file} | smplan-tools explain", done.out)
            document = tools("put-plan", str(path), file).out
        done = tools("explain", text=document)
        self.assertEqual(0, done.status, done.out)
        self.assertIn("put-plan DOCUMENT | smplan-tools explain", tools("explain", text=json.dumps(plan)).out)
        self.assertNotIn("put-plan", tools("explain", text=json.dumps({"streams": [], "servers": []})).out)

    def test_each_fault_of_the_tables_for_each_command(self):
        for path in FILES:
            for where, text, answer in cases_of(path):
                with self.subTest(where):
                    if answer:
                        self.assertEqual({f"bad input: {answer}"}, {explained(text, it).line for it in ("calls", "check", "play", "plan", "run", None)})
                    else:
                        self.assertNotIn("bad input", explained(text).line or "")


def lists_in(value):
    """All lists and objects in a value."""
    inner = value.values() if isinstance(value, dict) else value if isinstance(value, list) else ()
    if isinstance(value, (dict, list)) and value:
        yield value
    for it in inner:
        yield from lists_in(it)


def change(value, dice):
    """Changes a value at one place: a number, a text that stands elsewhere too, or a list's entries."""
    holder = dice.choice([*lists_in(value)])
    key = dice.choice([*holder]) if isinstance(holder, dict) else dice.randrange(len(holder))
    it = holder[key]
    if isinstance(it, int):
        holder[key] = max(0, it + dice.choice([-10, -1, 1, 10]))
    elif isinstance(it, str):
        texts = [other[key] for other in lists_in(value) if isinstance(other, dict) and isinstance(holder, dict) and isinstance(other.get(key), str)]
        holder[key] = dice.choice(texts or [it])
    elif isinstance(holder, list):
        dice.choice([lambda: holder.pop(key), lambda: holder.insert(0, holder.pop(key)), lambda: holder.append(copy.deepcopy(it))])()


class Changed(unittest.TestCase):
    """Plans that are changed at random are explained as the program answers them."""

    def test_changed_plans(self):
        documents = [load(path) for path in EXAMPLES if "plan" in load(path)]
        documents += [load(path) for path in EXAMPLES if command_of(path) == "plan"]
        reasons = set()
        for number in range(CHANGED):
            dice = random.Random(number)
            document = copy.deepcopy(dice.choice(documents))
            for _ in range(dice.randint(1, 3)):
                change(document, dice)
            command = "check" if "plan" in document else "plan"
            wanted = refusal_of(program(command, document))
            with self.subTest(number):
                self.assertEqual(wanted, explained(json.dumps(document).encode(), command).line)
            reasons.add(" ".join((wanted or "accepted").split()[:3]))
        self.assertGreater(len(reasons), min(10, CHANGED // 10), reasons)


def handing_on(count, free=0, before=0):
    """Moves of which the second half goes where the first half leaves room; beside it so much is free there, and so many moves stand before all."""
    servers = [{"name": "hub", "region": "r", "room": 10 * count + free}, {"name": "far", "region": "r", "room": 10 * (count + before)},
               {"name": "near", "region": "r", "room": 10 * (count + before)}]
    shards, moves = [], []
    for number in range(2 * count + before):
        source, target = ("near", "far") if number < before else ("hub", "far") if number < before + count else ("near", "hub")
        shards.append({"name": f"s{number}", "load": 10, "want": 1, "cap": 0, "spread": 1, "cells": [{"server": source, "state": "secondary"}]})
        moves.append({"shard": f"s{number}", "from": source, "to": target})
    return {"limit": 1, "servers": servers, "shards": shards, "moves": moves}


class Requests(unittest.TestCase):
    """Servers to empty and moves, at random, are refused for the reason that the program names."""

    def test_random_requests(self):
        lines = set()
        for number in range(CHANGED):
            dice = random.Random(number)
            document = random_document(dice)
            servers = [it["name"] for it in document["servers"]]
            if dice.random() < 0.5:
                document["drain"] = dice.choice(servers)
            else:
                cells = [(shard["name"], it["server"]) for shard in document["shards"] for it in shard["cells"]]
                picked = dice.sample(cells, min(len(cells), dice.randrange(1, 6)))
                document["moves"] = [{"shard": shard, "from": server, "to": dice.choice(servers)} for shard, server in picked]
            wanted = refusal_of(program("plan", document))
            with self.subTest(number):
                self.assertEqual(wanted, explained(json.dumps(document).encode(), "plan").line)
            lines.add(" ".join((wanted or "a plan").split()[:3]))
        self.assertGreater(len(lines), min(4, CHANGED // 20), lines)


class Signals(unittest.TestCase):
    def test_as_many_signals_as_the_plan_has(self):
        for document, count in [(handing_on(64), 0), (handing_on(64, before=1), 0), (handing_on(40), 40), (handing_on(40, free=5), 79), (handing_on(66), 66)]:
            plan = json.loads(program("plan", document))
            placement = Placement(document_of(document))
            moves = document_of(document).moves
            order, _ = placed(placement, moves)
            self.assertEqual((count, count), (len(plan["signals"]), signal_count(placement, [moves[it] for it in order])))

    def test_too_many_signals(self):
        document = handing_on(130, free=5)
        self.assertEqual("no plan: 8 TooMany\n", program("plan", document))
        self.assertEqual("no plan: 8 TooMany", explained(json.dumps(document).encode(), "plan").line)


class Told(unittest.TestCase):
    """What is told beside the reason."""

    def test_the_room_that_is_missing_and_who_frees_it(self):
        out = tools("explain", str(example("plan-without-its-signal"))).out
        self.assertIn("stream 1, instruction 0: add orders at oslo-1 as secondary", out)
        self.assertIn("the stream holds room 30 at oslo-1: 10 is missing", out)
        self.assertIn("oslo-1 has room 70 and load 40 before the plan: 30 is free", out)
        self.assertIn("stream 0, instruction 4 (drop sessions at oslo-1) frees 10 there", out)

    def test_where_a_signal_is_posted(self):
        value = load(example("plan-two-streams"))
        value["plan"]["streams"][1]["code"].insert(0, value["plan"]["streams"][1]["code"].pop(1))
        with written(value) as path:
            out = tools("explain", path).out
        self.assertIn("signal 0 carries room 10 at oslo-1: posted at stream 0, instruction 5, waited for at stream 1, instruction 1; wait for it before", out)

    def test_why_no_server_takes_a_shard(self):
        out = tools("explain", str(example("drain-without-a-place"))).out
        self.assertIn("berlin-1: it has a primary already", out)
        self.assertIn("berlin-2: the replicas would lie in 1 of 2 regions: berlin", out)

    def test_the_streams_that_wait_for_each_other(self):
        out = tools("explain", str(example("plan-waits-in-a-circle"))).out
        self.assertIn("stream 0 stops at instruction 0 and waits for signal 1, posted at stream 1, instruction 1", out)

    def test_faults_that_follow_from_others_are_not_told(self):
        value = load(example("placement"))
        value["servers"][0]["name"] = "berlin 1"
        with written(value) as path:
            done = tools("explain", path)
        self.assertEqual(1, done.status)
        self.assertTrue(done.out.startswith("1 fault:"), done.out)
        self.assertIn("'berlin 1' is no name", done.out)

    def test_as_many_as_are_asked_for(self):
        value = load(example("placement"))
        for server in value["servers"]:
            server["room"] = -1
        with written(value) as path:
            out = tools("explain", "--most", "2", path).out
        self.assertEqual(2, out.count("-1 is below 0"))
        self.assertIn("and 1 more", out)

    def test_what_stands_behind_the_answers_to_events(self):
        told = {name: tools("explain", str(example(name))).out for name in ("play-restarts", "play-restart-beside-a-plan", "play-request-too-late", "play-spent-allowance")}
        self.assertIn("event 1: denied 1 AlreadyDown: berlin-2 is down already", told["play-restarts"])
        self.assertIn("event 2: denied 3 GlobalCap: the limit of 1 servers down at once is reached (down: berlin-2)", told["play-restarts"])
        self.assertIn("event 4: denied 4 ShardCap shard sessions: the shard sessions can lose no replica now: live 1, floor 1", told["play-restarts"])
        self.assertIn("denied 2 Engaged stream 0: stream 0 has not ended and has oslo-1 in its code", told["play-restart-beside-a-plan"])
        self.assertIn("spent: stream 0 has made all tries that it may (its budget is 4, and its retries are 0)", told["play-spent-allowance"])

    def test_whose_clients_wait_while_a_server_is_down(self):
        value = load(example("placement")) | {"events": [{"event": "approve", "server": "berlin-2"}, {"event": "approve", "server": "berlin-1"}]}
        with written(value) as path:
            out = tools("explain", path).out
        self.assertIn("event 0: approved: clients of orders wait meanwhile: berlin-2 leads; 'smplan-tools demote' makes others lead first", out.splitlines())
        value["shards"][1]["cells"] = [{"server": "berlin-1", "state": "primary"}, {"server": "berlin-2", "state": "secondary"}]
        value["shards"][1]["listed"] = "berlin-1"
        with written(value) as path:
            self.assertNotIn("approved", tools("explain", path).out)

    def test_each_answer_of_the_tables_is_explained(self):
        kinds = set()
        for where, command, text, report, status in report_cases.written():
            if command == "play" and status == 0:
                with self.subTest(where), written(text) as path:
                    done = tools("explain", "--command", "play", path)
                    self.assertEqual(0, done.status, done.out + done.err)
                    answers = re.findall(r"^event (\d+): (\w+)", report, re.MULTILINE)
                    missing = [f"event {it}: {word}" for it, word in answers if word in ("denied", "unknown", "not", "unavailable", "spent", "blocked", "held", "log")]
                    for it in missing[:20]:
                        self.assertIn(it, done.out)
                    kinds |= {it.split()[2] for it in missing}
        self.assertGreater(len(kinds), 5, kinds)

    def test_without_a_program(self):
        done = tools("explain", "--program", "/no/such/program", str(example("plan-over-its-budget")))
        self.assertEqual(1, done.status)
        self.assertIn("No program smplan was found", done.out)

    def test_that_the_log_is_too_small(self):
        value = load(example("run-handover")) | {"log": 5}
        with written(value) as path:
            done = tools("explain", "--command", "run", path)
        self.assertEqual("not begun: 4 LogFull", refusal_of(program("run", value)))
        self.assertIn("the plan needs 6 places of the log, and 5 are free", done.out)
