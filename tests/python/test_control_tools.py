"""The operator's commands: drain, watch, metrics, audit-journal."""
import asyncio
import contextlib
import hashlib
import io
import json
import subprocess
import sys
import tempfile
import unittest
from unittest import mock

from smplan import __version__, control_audit, control_commands, control_watch
from smplan.control import Controller, Outgoing, Session
from smplan.control_drain import Campaign, moves_of
from smplan.control_http import Page, fetch, serve
from smplan.control_metrics import metrics_of, number_text
from smplan.control_serve import routes_of
from smplan.failure import Failure

STATE = {
    "journal": "9f2c", "epoch": 1, "place": 7, "fence": 0, "is": "open", "limit": 1, "log": {"places": 65536, "used": 7, "free": 65000},
    "servers": [
        {"server": "a", "region": "r", "room": 10, "load": 4, "held": 2, "permit": None, "carried": False},
        {"server": "b", "region": "r", "room": 10, "load": 4, "held": 0, "permit": 17, "carried": False},
    ],
    "shards": [
        {"shard": "s", "load": 4, "live": 1, "floor": 1, "listed": "a", "version": 0, "cells": [{"server": "a", "state": "primary"}]},
        {"shard": "t", "load": 4, "live": 0, "floor": 0, "listed": None, "version": 0, "cells": [{"server": "b", "state": "secondary"}]},
    ],
    "plans": [{"plan": 0, "name": "drain-b-1", "is": "running", "streams": [{"at": 1, "of": 5, "is": "ordered", "number": 9}]}],
}
HANDOVER = {"budget": 4, "holds": {}, "code": [
    {"do": "prepare_add", "shard": "s", "server": "c", "other": "a"}, {"do": "prepare_drop", "shard": "s", "server": "a", "other": "c"},
    {"do": "add", "shard": "s", "server": "c", "role": "primary"}, {"do": "publish", "shard": "s"}, {"do": "drop", "shard": "s", "server": "a"},
]}
SECONDARY = {"budget": 2, "holds": {}, "code": [
    {"do": "add", "shard": "t", "server": "b", "role": "secondary"}, {"do": "drop", "shard": "t", "server": "a"},
]}
STATES = f"import sys\nfor line in sys.stdin:\n    print({json.dumps(json.dumps({'state': STATE}))}, flush=True)\n"


def journal_of(*batches):
    """A journal as smpland writes it."""
    lines, after = [control_audit.HEAD], control_audit.NO_SUM
    for batch in batches:
        front = '{"entries":[' + ",".join(batch) + '],"after":"' + after + '"'
        after = hashlib.sha256(front.encode()).hexdigest()
        lines.append(front + ',"sum":"' + after + '"}')
    return "\n".join(lines) + "\n"


class FakeController:
    """Answers a campaign: every plan ends at once, and moves what it is to move."""

    def __init__(self, shards, ends=True):
        self.shards, self.ends, self.begun, self.batches = list(shards), ends, [], []

    def post(self, path, line):
        do = line["do"]
        if do == "drain":
            return {"plan": {"streams": [{"code": [{"do": "add", "shard": it, "server": "b", "role": "secondary"},
                                                   {"do": "drop", "shard": it, "server": "a"}]} for it in self.shards]}}
        if do == "moves":
            self.batches.append([it["shard"] for it in line["moves"]])
            return {"plan": {"streams": []}}
        if do == "begin":
            assert path == "/do"
            self.begun.append(line["name"])
            self.shards = [it for it in self.shards if it not in self.batches[-1]]
            return {"begun": {"plan": len(self.begun) - 1, "epoch": 1}}
        if do == "hello":
            return {"hello": {"epoch": 1}}
        if "plan" in line:
            return {"state": {"plan": {"is": "ended" if self.ends else "running"}}}
        return {"state": {"epoch": 1, "place": len(self.begun)}}


class DrainTest(unittest.TestCase):
    """A drain as a campaign."""

    def campaign(self, fake, **more):
        self.rests = []
        return Campaign(fake.post, "a", tell=lambda text: None, sleep=self.rests.append, **more)

    def test_moves_of_a_plan(self):
        plan = {"streams": [HANDOVER, SECONDARY]}
        self.assertEqual(moves_of(plan, "a"), [{"shard": "s", "from": "a", "to": "c"}, {"shard": "t", "from": "a", "to": "b"}])
        self.assertEqual(moves_of(plan, "c"), [])

    def test_batches_and_rests(self):
        fake = FakeController("stuvw")
        self.assertEqual(self.campaign(fake, batch=2, pause=3.0).run(), 0)
        self.assertEqual(fake.batches, [["s", "t"], ["u", "v"], ["w"]])
        self.assertEqual(self.rests.count(3.0), 2)
        self.assertEqual(len(set(fake.begun)), 3)

    def test_stops_when_a_plan_takes_long(self):
        fake = FakeController("stu", ends=False)
        self.assertEqual(self.campaign(fake, batch=1, patience=1.0).run(), 1)
        self.assertEqual(fake.batches, [["s"]])

    def test_stops_behind_the_present_plan(self):
        fake = FakeController("stu")
        campaign = self.campaign(fake, batch=1)
        campaign.sleep = lambda seconds: setattr(campaign, "is_stopped", True)
        self.assertEqual(campaign.run(), 1)
        self.assertEqual(fake.batches, [["s"]])

    def test_waits_for_running_plans(self):
        fake = FakeController("s")
        held = [{"refused": {"kind": "Held", "text": "no plan: 3 Held shard s server a"}}] * 2
        plans = {"state": {"epoch": 1, "place": 0, "plans": [{"name": "other", "is": "running"}]}}
        campaign = self.campaign(fake)
        campaign.post = lambda path, line: held.pop() if held and line["do"] == "drain" else plans if line == {"do": "state"} else fake.post(path, line)
        self.assertEqual(campaign.run(), 0)
        self.assertEqual(self.rests, [0.5, 0.5])

    def test_tries_again_if_the_plan_in_its_way_has_ended(self):
        fake = FakeController("s")
        held = [{"refused": {"kind": "Held", "text": "no plan: 3 Held shard s server a"}}]
        campaign = self.campaign(fake)
        campaign.post = lambda path, line: held.pop() if held and line["do"] == "drain" else fake.post(path, line)
        self.assertEqual(campaign.run(), 0)
        self.assertEqual(self.rests, [0.5])

    def test_refused_at_rest(self):
        asked = []
        refused = {"refused": {"kind": "Held", "text": "no plan: 3 Held shard s server a"}}
        rest = {"state": {"epoch": 1, "place": 7, "plans": [{"name": "other", "is": "ended"}]}}
        campaign = self.campaign(FakeController("s"))
        campaign.post = lambda path, line: asked.append(line["do"]) or (refused if line["do"] == "drain" else rest)
        with self.assertRaisesRegex(Failure, "Held"):
            campaign.run()
        self.assertEqual(asked, ["drain", "state", "drain", "state"])

    def test_waits_no_longer_than_its_patience(self):
        refused = {"refused": {"kind": "Taken", "text": "held: 2 Taken cell s b"}}
        campaign = Campaign(lambda path, line: refused if line["do"] == "drain" else {"state": STATE}, "a", patience=1.0, tell=lambda text: None, sleep=lambda seconds: None)
        with self.assertRaisesRegex(Failure, "Taken"):
            campaign.run()
        self.assertEqual(campaign.waited, 1.5)

    def test_numbers_of_the_command_line(self):
        for words in (["--batch", "0"], ["--pause", "-1"], ["--stop", "nan"]):
            with self.assertRaises(SystemExit), contextlib.redirect_stderr(io.StringIO()):
                control_commands.parser().parse_args(["drain", "a", "--controller", "http://c", *words])

    def test_unknown_server(self):
        bad = {"bad": {"kind": "UnknownName", "at": "$.server", "text": "bad input: 4 UnknownName server"}}
        state = {"state": {"servers": [{"server": "oslo-1"}, {"server": "berlin-1"}]}}
        campaign = Campaign(lambda path, line: bad if line["do"] == "drain" else state, "oslo-2")
        with self.assertRaisesRegex(Failure, "no server is named 'oslo-2'; did you mean 'oslo-1'") as raised:
            campaign.run()
        self.assertEqual(raised.exception.status, 2)

    def test_refusal_is_told(self):
        campaign = Campaign(lambda path, line: {"refused": {"text": "no plan: 6 NoPlace shard s"}}, "a")
        with self.assertRaisesRegex(Failure, "NoPlace"):
            campaign.run()


class WatchTest(unittest.TestCase):
    """What is shown, and what is scraped."""

    def test_whole_numbers_have_all_their_digits(self):
        self.assertEqual([number_text(it) for it in (1234567.0, 0.0, 0.5, 12.3456789)], ["1234567", "0", "0.5", "12.3457"])

    def test_screen(self):
        outgoing = [{"kind": "order", "message": {"server": "b", "call": "add", "shard": "s"}, "age": 2.5, "tries": 3, "said": "no answer"}]
        text = control_watch.screen(STATE, outgoing)
        self.assertIn("  a                ##########+++++.........      4 of 10\n", text)
        self.assertIn("down, permit 17", text)
        self.assertIn("2 shards, without a primary: t", text)
        self.assertIn("0 of 1 streams, 1 of 5 steps", text)
        self.assertIn("2.5 s  b                add s", text)
        self.assertNotIn("outstanding", control_watch.screen(STATE, [], leads=False))

    def test_metrics(self):
        async def figures():
            session = await Session.start([sys.executable, "-c", STATES])
            controller = Controller(session, None, None)
            controller.outgoing["order", 0, 0] = Outgoing({"server": "b"})
            controller.times.add(0.01)
            controller.times.add(3.0)
            text = await metrics_of(controller)
            await session.close()
            return text

        lines = asyncio.run(figures()).splitlines()
        self.assertIn('smplan_server_load{server="a"} 4', lines)
        self.assertIn('smplan_server_down{server="b"} 1', lines)
        self.assertIn("smplan_shards_without_primary 1", lines)
        self.assertIn("smplan_shards_at_floor 2", lines)
        self.assertIn('smplan_outstanding{kind="order"} 1', lines)
        self.assertIn('smplan_answer_seconds_bucket{le="0.02"} 1', lines)
        self.assertIn('smplan_answer_seconds_bucket{le="+Inf"} 2', lines)
        names = [it.split()[2] for it in lines if it.startswith("# TYPE")]
        self.assertEqual(len(names), len(set(names)))


class LeaderTest(unittest.TestCase):
    """A drain goes to the controller that leads."""

    def test_another_controller(self):
        async def told():
            async def metrics(_):
                return Page(b"# HELP smplan_leads whether this controller acts\n# TYPE smplan_leads gauge\nsmplan_leads 0\n", "text/plain")

            server = await serve("127.0.0.1", 0, {"GET /metrics": metrics})
            url = "http://127.0.0.1:%d" % server.port
            with contextlib.redirect_stderr(io.StringIO()) as err:
                status = await asyncio.to_thread(control_commands.main, ["drain", "a", "--controller", url + "/"])
            server.close()
            return status, err.getvalue().replace(url, "URL")

        self.assertEqual(asyncio.run(told()), (3, "smplan-control: URL: this controller does not lead\n"))


def commands():
    """The parsers of the commands, by their names."""
    return next(it.choices for it in control_commands.parser()._actions if isinstance(it.choices, dict))


def printed(*words):
    """What a command prints, and its exit status."""
    out, err = io.StringIO(), io.StringIO()
    with contextlib.redirect_stdout(out), contextlib.redirect_stderr(err):
        try:
            status = control_commands.main(list(words))
        except SystemExit as why:
            status = why.code
    return status, out.getvalue(), err.getvalue()


class CommandLineTest(unittest.TestCase):
    """How the commands are named, and what they say of themselves."""

    def test_each_command_has_an_example_and_its_exit_statuses(self):
        self.assertGreaterEqual(len(commands()), 15)
        for name, parser in commands().items():
            text = " ".join(parser.format_help().split())
            self.assertRegex(text, rf"example: smplan-control {name}\b|smplan-control {name} .*$", name)
            self.assertRegex(text, r"Exit status 0\b", name)

    def test_the_nearest_command_is_named(self):
        for word, meant in (("drian", "drain"), ("begn", "begin"), ("re-open", "reopen")):
            status, _, err = printed(word)
            self.assertEqual(status, 2)
            self.assertIn(f"did you mean '{meant}'?", err)

    def test_the_nearest_option_is_named(self):
        for words, meant in ((("drain", "a", "--contoller", "http://c"), "--controller"), (("reopen", "--dryrun"), "--dry-run"), (("begin", "-", "--nam=x", "--wiat"), "--wait")):
            status, _, err = printed(*words)
            self.assertEqual(status, 2)
            self.assertIn(f"did you mean '{meant}'?", err)
        self.assertNotIn("did you mean", printed("state", "more")[2])

    def test_the_version(self):
        self.assertEqual(printed("--version"), (0, f"smplan-control {__version__}\n", ""))

    def test_a_drain_and_a_look_for_programs(self):
        fake, state = FakeController("stu"), {"state": STATE}

        async def told(*words):
            async def ask(body):
                line = json.loads(body)
                return Page.of(state if line == {"do": "state"} else fake.post("/ask", line))

            async def do(body):
                return Page.of(fake.post("/do", json.loads(body)))

            async def metrics(_):
                return Page(b"\nsmplan_leads 1\n", "text/plain")

            async def outgoing(_):
                return Page.of([])

            server = await serve("127.0.0.1", 0, {"GET /metrics": metrics, "POST /ask": ask, "POST /do": do, "GET /outgoing": outgoing})
            found = await asyncio.to_thread(printed, *words, "--json", "--controller", f"http://127.0.0.1:{server.port}")
            await asyncio.to_thread(server.close)
            return found

        status, out, err = asyncio.run(told("watch", "--once"))
        self.assertEqual((status, json.loads(out)["state"], json.loads(out)["leads"], err), (0, STATE, True, ""))
        with mock.patch("signal.signal"):
            status, out, err = asyncio.run(told("drain", "a", "--pause", "0"))
        self.assertEqual((status, out), (0, '{"servers": ["a"], "empty": true}\n'), err)
        self.assertIn("3 replicas moved", err)

    def test_the_library_as_a_program(self):
        told = subprocess.run([sys.executable, "-m", "smplan.control", "--help"], capture_output=True, text=True, check=True)
        self.assertEqual((told.stdout, told.stderr), (control_commands.parser().format_help(), ""))


class ServeTest(unittest.TestCase):
    """What is answered to requests that are no lines."""

    def test_no_line(self):
        async def statuses():
            session = await Session.start([sys.executable, "-c", STATES])
            routes = routes_of(Controller(session, None, None))
            pages = [await routes[it](body) for it in ("POST /do", "POST /ask", "POST /restarted") for body in (b"[]", b"x", b"[" * 100000)]
            await session.close()
            return {it.status for it in pages}

        self.assertEqual(asyncio.run(statuses()), {400})


    def test_no_answer(self):
        async def told():
            async def conflict(_):
                return Page.of({"fault": "this controller does not lead"}, 409)

            async def broken(_):
                return Page(b"out of order\n", "text/plain", 503)

            server = await serve("127.0.0.1", 0, {"POST /do": conflict, "POST /ask": broken})
            url = "http://127.0.0.1:%d" % server.port
            found = []
            for path in ("/do", "/ask", "/nowhere"):
                try:
                    await asyncio.to_thread(fetch, url + path, {"do": "hello"})
                except Failure as why:
                    found.append((str(why).replace(url, ""), why.status))
            server.close()
            return found

        self.assertEqual(asyncio.run(told()), [
            ("/do: this controller does not lead", 3), ("/ask: out of order", 3), ("/nowhere: no such page", 3),
        ])


class AuditTest(unittest.TestCase):
    """Journals, right and wrong."""

    def audit(self, *words):
        out, err = io.StringIO(), io.StringIO()
        with contextlib.redirect_stdout(out), contextlib.redirect_stderr(err):
            status = control_commands.main(["audit-journal", *words])
        return status, out.getvalue(), err.getvalue()

    def test_what_cannot_be_read(self):
        with tempfile.TemporaryDirectory() as folder:
            path = f"{folder}/journal"
            self.assertEqual(self.audit(path), (2, "", f"smplan-control: {path}: No such file or directory\n"))
            with open(path, "wb") as file:
                file.write(b"ab\xff")
            self.assertEqual(self.audit(path), (2, "", f"smplan-control: {path} is no journal: its byte 2 is not UTF-8\n"))

    def test_sessions_that_do_not_answer(self):
        with tempfile.TemporaryDirectory() as folder:
            path = f"{folder}/journal"
            with open(path, "w", encoding="utf-8") as file:
                file.write(journal_of(['{"do":"new_epoch"}']))
            self.assertEqual(self.audit(path, "--session", f"{folder}/none"), (3, "", f"smplan-control: the session {folder}/none: No such file or directory\n"))
            self.assertEqual(self.audit(path, "--session", "false"), (3, "", "smplan-control: the session has ended\n"))

    def test_sums(self):
        text = journal_of(['{"do":"new_epoch"}', '{"a":"]}"}'], ['{"do":"x"}'])
        read = control_audit.read_journal(text)
        self.assertEqual(read.lines, ['{"do":"new_epoch"}', '{"a":"]}"}', '{"do":"x"}'])
        self.assertEqual((read.faults, read.is_torn), ([], False))

    def test_wrong_sums(self):
        text = journal_of(['{"do":"a"}'], ['{"do":"b"}'], ['{"do":"c"}'])
        lines = text.split("\n")
        for wrong in (text.replace('"b"', '"d"'), "\n".join(lines[:2] + lines[3:]), text.replace('"sum":"', '"sum":"0', 1)):
            self.assertEqual(len(control_audit.read_journal(wrong).faults), 1)

    def test_torn_end(self):
        read = control_audit.read_journal(journal_of(['{"do":"a"}']) + '{"entries":[')
        self.assertEqual((read.lines, read.faults, read.is_torn), (['{"do":"a"}'], [], True))

    def test_lines_of_a_host(self):
        self.assertEqual(control_audit.read_journal('{"do":"a"}\n{"do":"b"}\n').lines, ['{"do":"a"}', '{"do":"b"}'])

    def test_torn_end_of_a_host(self):
        read = control_audit.read_journal('{"do":"a"}\n{"do')
        self.assertEqual((read.lines, read.is_torn), (['{"do":"a"}'], True))

    def test_lines_that_are_no_commands(self):
        class Model:
            def reply(self, text):
                return {"bad": {}}

        faults = []
        self.assertEqual(list(control_audit.pieces_of(['{"x":1}', "[1]", "# no journal"], Model(), faults, False)), [])
        self.assertEqual(faults, ["entry 2 is no JSON object", "entry 3 is no JSON object"])

    def test_steps_that_need_nobody(self):
        piece = control_audit.Piece({}, {})
        wait = {"code": [{"do": "wait", "signal": 0}, {"do": "drop"}]}
        post = {"code": [{"do": "add"}, {"do": "signal", "signal": 0}]}
        piece.begin({"streams": [wait, post]})
        self.assertEqual(piece.streams, [[0, 0]])
        piece.step(0, 1)
        self.assertEqual([it["stream"] for it in piece.events[1:]], [1, 1, 0, 1])
        self.assertEqual(piece.streams, [[1, 3]])

    def test_placement_of_a_report(self):
        report = ["server a room 10 load 4 up", "shard s live 2 floor 1 listed a version 0", "  a primary", "  c secondary", "shard t live 0 floor 0 listed - version 0"]
        self.assertEqual(control_audit.placement_of(report), {"s": {"a": "primary", "c": "secondary"}, "t": {}})
