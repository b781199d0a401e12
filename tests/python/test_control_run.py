"""smplan-control run and its commands: the map's file, servers over HTTP, who may ask, and a fleet of examples/kv_http.py from its opening to its repair."""
import asyncio
import contextlib
import gc
import io
import json
import logging
import pathlib
import signal
import socket
import sys
import tempfile
import unittest
from http.client import HTTPConnection
from types import SimpleNamespace
from urllib.request import Request, urlopen

from control_story import ROOT, Story, free_ports
from smplan import control_commands
from smplan.control import DONE, Controller, Session, SessionEnded
from smplan.control_document import Unknown, document_of_state, without_servers
from smplan.control_fleet import FleetFile, HttpFleet
from smplan.control_http import NotThere, Page, serve
from smplan.control_leader import Controllers, controllers_of
from smplan.control_map import MapFile
from smplan.control_reopen import proposal_lines, wait_for_proposal
from smplan.control_repair import repair_of
from smplan.control_restart import unserved
from smplan.control_run import Running, Settings
from smplan.failure import Failure

REFERENCE = (sys.executable, str(ROOT / "tools/smpland_model.py"), "-")
OPEN = {"journal": "9f2c", "fence": 0, "is": "open"}

# (asyncio tells in its debug mode of each step that a busy machine made slow)
logging.getLogger("asyncio").setLevel(logging.ERROR)


def publication(version, to="b", fence=0, journal="9f2c"):
    return {"journal": journal, "fence": fence, "shard": "s", "to": to, "version": version}


def recorded(version, to="a"):
    return {"map": [{"shard": "s", "to": to, "version": version}]}


class MapTest(unittest.IsolatedAsyncioTestCase):
    """The published map in a file."""

    async def asyncSetUp(self):
        self.folder = tempfile.TemporaryDirectory()
        self.addCleanup(self.folder.cleanup)
        self.path = pathlib.Path(self.folder.name) / "map.json"
        logging.getLogger("smplan.map").setLevel(logging.CRITICAL)

    async def owner(self, published, state=OPEN, then=None):
        owner = MapFile(self.path, then)
        await owner.adopt(published, state)
        return owner

    def shown(self):
        return json.loads(self.path.read_text())["entries"].get("s")

    async def test_newer_entries_alone_are_shown(self):
        owner = await self.owner(recorded(0))
        self.assertEqual(self.shown(), {"to": "a", "version": 0})
        self.assertEqual([await owner.publish(publication(it, to)) for it, to in ((2, "b"), (1, "c"), (2, "c"))], [DONE] * 3)
        self.assertEqual(self.shown(), {"to": "b", "version": 2})
        self.assertEqual(await owner.publish(publication(3, journal="1")), "foreign")

    async def test_an_entry_that_was_shown_and_not_recorded_stays(self):
        await (await self.owner(recorded(0))).publish(publication(1))
        again = await self.owner(recorded(0))
        self.assertEqual(self.shown(), {"to": "b", "version": 1})
        self.assertEqual(await again.publish(publication(1)), DONE)

    async def test_a_file_that_is_gone_older_or_no_map_is_shown_all_entries_first(self):
        await self.owner(recorded(3))
        for text in (None, self.path.read_text(), "", "[]", '{"journal":"9f2c"}'):
            self.path.unlink(missing_ok=True)
            if text is not None:
                self.path.write_text(text)
            await self.owner(recorded(5, "c"))
            self.assertEqual(self.shown(), {"to": "c", "version": 5})

    async def test_a_file_of_another_journal_is_not_believed(self):
        await self.owner(recorded(9, "b"))
        await self.owner(recorded(1, "a"), {**OPEN, "journal": "77"})
        self.assertEqual(self.shown(), {"to": "a", "version": 1})

    async def test_a_file_that_is_deleted_or_replaced_is_written_anew(self):
        owner = await self.owner(recorded(0))
        old = self.path.read_text()
        await owner.publish(publication(1))
        for spoil in (self.path.unlink, lambda: self.path.write_text(old.replace(owner.nonce, "0" * 16))):
            spoil()
            await owner.look()
            self.assertEqual(self.shown(), {"to": "b", "version": 1})

    async def test_answered_once_the_command_has_ended_well(self):
        told, broken = pathlib.Path(self.folder.name) / "told", pathlib.Path(self.folder.name) / "broken"
        owner = await self.owner(recorded(0), then=f"test ! -e {broken} && cat {self.path} >> {told}")
        broken.touch()
        self.assertIn("ended with 1", await owner.publish(publication(1)))
        self.assertNotIn('"version":1', told.read_text())
        broken.unlink()
        self.assertEqual(await owner.publish(publication(1)), DONE)
        self.assertIn('"version":1', told.read_text())

    async def test_what_could_not_be_written_is_written_later(self):
        folder = pathlib.Path(self.folder.name) / "later"
        owner = MapFile(folder / "map.json")
        await owner.look()
        await owner.adopt(recorded(4), OPEN)
        self.assertIn("No such file", owner.said)
        folder.mkdir()
        await owner.look()
        self.assertEqual(json.loads(owner.path.read_text())["entries"]["s"]["version"], 4)

    async def test_publications_that_come_together_are_shown_together(self):
        owner = await self.owner({"map": [{"shard": f"s{it}", "to": None, "version": 0} for it in range(20)]}, then="sleep 0.1")
        before = owner.writes
        told = await asyncio.gather(*(owner.publish({**publication(1), "shard": f"s{it}"}) for it in range(20)))
        self.assertEqual(set(told), {DONE})
        self.assertLessEqual(owner.writes - before, 3)

    async def test_a_command_that_hangs_is_killed(self):
        owner = MapFile(self.path, "sleep 60", patience=0.1)
        await owner.adopt(recorded(0), OPEN)
        self.assertIn("has not ended within 0.1 s", owner.said)

    async def test_fenced_and_settled(self):
        owner = await self.owner(recorded(1))
        self.assertEqual([await owner.fence({"journal": "9f2c", "base": it}) for it in (100, 100, 50)], [{}, {}, None])
        self.assertEqual(await owner.publish(publication(2)), "not_ready")
        settle = {"journal": "9f2c", "base": 100, "entries": [{"shard": "s", "to": "c", "version": 100}]}
        self.assertEqual([await owner.settle(settle) for _ in range(2)], [DONE, DONE])
        self.assertEqual(self.shown(), {"to": "c", "version": 100})
        self.assertEqual(await owner.publish(publication(101, "a", 100)), DONE)

    async def test_a_reopening_goes_on_whatever_the_file_is(self):
        reopening = {**OPEN, "journal": "77", "is": "reopening", "reopening": {"base": 900, "is": "fence", "waiting": [None, "a"]}}
        await self.owner(recorded(3, "c"))
        owner = await self.owner({"map": []}, reopening)
        self.assertEqual((owner.base.journal, self.shown()), (0x9f2c, {"to": "c", "version": 3}))
        self.assertEqual((await owner.fence({"journal": "77", "base": 900}), self.shown()), ({}, {"to": "c", "version": 3}))
        for word, waiting, base, fenced in (("fence", [None, "a"], 0, 0), ("fence", ["a"], 100, 1), ("confirm", [], 100, 1), ("settle", [None], 100, 1), ("settle", ["a"], 100, 0)):
            self.path.unlink(missing_ok=True)
            owner = await self.owner(recorded(1), {**OPEN, "is": "reopening", "reopening": {"base": 100, "is": word, "waiting": waiting}})
            self.assertEqual((owner.base.number, owner.base.fenced, owner.base.known), (base, fenced, 1), (word, waiting))


class FleetTest(unittest.IsolatedAsyncioTestCase):
    """Servers over HTTP."""

    async def asyncSetUp(self):
        self.heard, self.answers = [], {}
        routes = {f"{method} /kv/{it}": self.route(it) for method, it in (
            ("POST", "order"), ("POST", "fence"), ("POST", "settle"), ("POST", "restore"), ("POST", "notice"), ("GET", "base"))}
        self.server = await serve("127.0.0.1", 0, routes, token="0123456789abcdef")
        url = f"http://127.0.0.1:{self.server.port}/kv"
        file = FleetFile.of({"servers": {"a": {"number": 1, "url": url}, "b": {"number": 2, "url": "http://127.0.0.1:1"}}, "map": {"file": "map.json"}}, "it")
        self.fleet = HttpFleet(file, None, 2.0, "0123456789abcdef")

    async def asyncTearDown(self):
        self.fleet.close()
        await asyncio.to_thread(self.server.close)

    def route(self, name):
        async def answer(body):
            self.heard.append((name, json.loads(body or b"null")))
            return self.answers.get(name, Page.of({"done": True}))
        return answer

    async def test_messages_are_the_lines_as_they_are(self):
        line = {"server": "a", "number": 7, "call": "drop", "shard": "s"}
        for name in ("order", "settle", "restore", "notice"):
            self.assertEqual(await getattr(self.fleet, name)(line), DONE)
        self.assertEqual(self.heard, [(it, line) for it in ("order", "settle", "restore", "notice")])

    async def test_what_a_server_says_else_is_kept(self):
        for page, said in ((Page.of({"said": "working"}), "working"), (Page.of({}), "no answer"), (Page.of({"fault": "no disk"}, 503), "503 no disk"),
                           (Page(b"<html>"), "JSONDecodeError"), (Page.of([]), "the answer is no JSON object"), (Page.of({"done": 1}), "no answer")):
            self.answers["order"] = page
            self.assertIn(said, await self.fleet.order({"server": "a"}))
        self.assertIn("refused", await self.fleet.order({"server": "b"}))
        self.assertIn("no such server", await self.fleet.order({"server": "z"}))

    async def test_fences_and_bases(self):
        slots = [{"shard": "s", "cell": "secondary", "position": 7, "view": 9}]
        for answer, told in (({"slots": []}, {"slots": []}), ({"slots": slots}, {"slots": slots}), ({"unknown": "c0de"}, {"unknown": "c0de"}), ({"said": "busy"}, None), ({"slots": 7}, None)):
            self.answers["fence"] = Page.of(answer)
            self.assertEqual(await self.fleet.fence({"server": "a", "base": 100}), told)
        for answer, told in (({"base": 0}, 0), ({"base": None}, None), ({"base": True}, None), ({}, None)):
            self.answers["base"] = Page.of(answer)
            self.assertEqual(await self.fleet.base("a"), told)
        self.assertIsNone(await self.fleet.base("b"))

    async def test_a_connection_that_has_ended_is_made_anew(self):
        self.assertEqual(await self.fleet.order({"server": "a"}), DONE)
        link = self.fleet.links["a"]
        link.idle[0].sock.shutdown(socket.SHUT_RDWR)
        self.assertEqual(await self.fleet.order({"server": "a"}), DONE)

    async def test_a_server_that_does_not_answer_keeps_no_other_waiting(self):
        with socket.create_server(("127.0.0.1", 0)) as silent:
            file = FleetFile.of({"servers": {"a": {"number": 1, "url": self.fleet.file.servers["a"].url},
                                             "c": {"number": 3, "url": f"http://127.0.0.1:{silent.getsockname()[1]}"}}, "map": {"file": "m"}}, "it")
            kept = self.fleet.links["a"]
            self.fleet.take(file)
            self.assertIs(self.fleet.links["a"], kept)
            waiting = [asyncio.create_task(self.fleet.order({"server": "c"})) for _ in range(300)]
            await asyncio.sleep(0.1)
            self.assertEqual(await asyncio.wait_for(self.fleet.order({"server": "a"}), 1.5), DONE)
            for it in waiting:
                it.cancel()
            await asyncio.gather(*waiting, return_exceptions=True)

    def test_faults_of_the_file(self):
        good = {"servers": {"a": {"number": 1, "url": "http://h:1"}}, "map": {"file": "m"}}
        for told, fault in (({}, "no file of a fleet"), ({**good, "map": {}}, "no file of a fleet"), ([], "no file of a fleet"),
                            ({**good, "servers": {"a": {"number": 1, "url": "h:1"}}}, "no URL"),
                            ({**good, "servers": {it: {"number": 1, "url": "http://h:1"} for it in "ab"}}, "a number of its own"),
                            ({**good, "servers": {"a": {"number": 0, "url": "http://h:1"}}}, "a number of its own")):
            with self.assertRaisesRegex(Failure, fault):
                FleetFile.of(told, "it")
        with self.assertRaisesRegex(Failure, "No such file"):
            FleetFile.read("/nowhere/fleet.json")


class WhoMayAskTest(unittest.IsolatedAsyncioTestCase):
    """What the controller's HTTP server lets in."""

    async def status(self, server, method, path, headers, body=None):
        def ask():
            connection = HTTPConnection("127.0.0.1", server.port, timeout=5)
            connection.request(method, path, body, headers)
            status = connection.getresponse().status
            connection.close()
            return status
        return await asyncio.to_thread(ask)

    async def test_token_site_and_size(self):
        async def page(body):
            return Page.of({"size": len(body)})

        async def broken(body):
            raise KeyError("x")

        logging.getLogger("smplan.http").setLevel(logging.CRITICAL)
        server = await serve("127.0.0.1", 0, {"POST /do": page, "GET /healthz": page, "GET /broken": broken}, token="0123456789abcdef")
        good = {"Authorization": "Bearer 0123456789abcdef"}
        for method, path, headers, status in (
                ("POST", "/do", {}, 401), ("POST", "/do", {"Authorization": "Bearer 0123456789abcdeX"}, 401), ("POST", "/do", good, 200),
                ("GET", "/healthz", {}, 200), ("POST", "/do", {**good, "Origin": "http://evil.example"}, 403),
                ("POST", "/do", {**good, "Origin": f"http://127.0.0.1:{server.port}"}, 200), ("POST", "/do", {**good, "Content-Length": str(1 << 40)}, 413),
                ("POST", "/do", {**good, "Content-Length": "-1"}, 413), ("GET", "/nowhere", good, 404), ("GET", "/broken", good, 500)):
            self.assertEqual(await self.status(server, method, path, headers), status, (method, path, headers))
        await asyncio.to_thread(server.close)

    def test_other_addresses_need_a_token(self):
        with tempfile.TemporaryDirectory() as folder:
            short = pathlib.Path(folder) / "token"
            short.write_text("short\n")
            for words, fault in (([], "can move everything"), (["--token", str(short)], "at least 16"), (["--token", f"{folder}/none"], "No such file")):
                with contextlib.redirect_stderr(io.StringIO()) as err:
                    status = control_commands.main(["run", "fleet.json", "--session", "true", "--http", "0.0.0.0:0", *words])
                self.assertEqual(status, 2)
                self.assertIn(fault, err.getvalue())


class FailoverTest(unittest.TestCase):
    """Commands find the controller that leads, and the next one."""

    def test_the_next_controller_is_asked(self):
        async def play():
            leading = {"first": True, "second": False}
            heard = []

            def routes(name):
                async def metrics(_):
                    return Page(f"x\nsmplan_leads {int(leading[name])}\n".encode(), "text/plain")

                async def do(body):
                    heard.append(name)
                    if not leading[name]:
                        return Page.of({"fault": "this controller does not lead"}, 409)
                    return Page.of({"begun": {}} if json.loads(body)["do"] == "begin" else {"refused": {"kind": "Held", "text": "held"}})
                return {"GET /metrics": metrics, "POST /do": do}

            servers = {it: await serve("127.0.0.1", 0, routes(it)) for it in leading}
            urls = [f"http://127.0.0.1:{it.port}" for it in servers.values()]
            found = Controllers(urls, patience=5.0, sleep=lambda seconds: leading.update(second=True))
            self.assertEqual(await asyncio.to_thread(found.do, {"do": "begin"}), {"begun": {}})
            leading["first"] = False
            with contextlib.redirect_stderr(io.StringIO()) as err:
                self.assertEqual(await asyncio.to_thread(found.do, {"do": "begin"}), {"begun": {}})
            self.assertIn("waits for one that leads", err.getvalue())
            with self.assertRaisesRegex(Failure, "held"):
                await asyncio.to_thread(found.do, {"do": "other"})
            leading["second"] = False
            for named, is_waited_for in ((urls, True), (urls[:1], False), (["http://127.0.0.1:1", "http://127.0.0.1:2"], False)):
                try:
                    await asyncio.to_thread(controllers_of, SimpleNamespace(controller=named, token=None))
                    self.assertTrue(is_waited_for, named)
                except NotThere:
                    self.assertFalse(is_waited_for, named)
            with self.assertRaises(NotThere), contextlib.redirect_stderr(io.StringIO()):
                await asyncio.to_thread(Controllers(urls, patience=1.0, sleep=lambda seconds: None).do, {"do": "begin"})
            for it in servers.values():
                await asyncio.to_thread(it.close)
            return heard

        self.assertEqual(asyncio.run(play()), ["first", "first", "second", "second"])


STATE = {
    "is": "open", "epoch": 0, "place": 9, "limit": 1, "log": {"places": 64}, "plans": [],
    "servers": [{"server": it, "region": "r", "room": 10, "permit": 7 if it == "c" else None} for it in "abc"],
    "shards": [
        {"shard": "s", "load": 4, "live": 1, "floor": 1, "listed": "a", "cells": [{"server": "a", "state": "forwarding"}, {"server": "b", "state": "prepared"}]},
        {"shard": "t", "load": 2, "live": 1, "floor": 1, "listed": "c", "cells": [{"server": "b", "state": "secondary"}, {"server": "c", "state": "primary"}]},
    ],
}
WANTS = {"shards": [{"name": it, "want": 2, "cap": 1, "spread": 1} for it in "stu"]}


class WordsTest(unittest.TestCase):
    """What commands make of what is recorded."""

    def test_the_service_as_a_document(self):
        document = document_of_state(STATE, WANTS)
        self.assertEqual(document["servers"][2], {"name": "c", "region": "r", "room": 10, "down": True})
        self.assertEqual(document["shards"][0], {"name": "s", "load": 4, "want": 2, "cap": 1, "spread": 1, "listed": "a", "cells": [{"server": "a", "state": "primary"}]})
        gone = without_servers(document, ["c"])
        self.assertEqual([it["name"] for it in gone["servers"]], ["a", "b"])
        self.assertEqual((gone["shards"][1]["listed"], gone["shards"][1]["cells"]), (None, [{"server": "b", "state": "secondary"}]))
        with self.assertRaisesRegex(Unknown, "does not know t"):
            document_of_state(STATE, {"shards": WANTS["shards"][:1]})

    def test_a_proposal_in_words(self):
        proposal = {"base": 1, "lost": ["t", "u"], "floors": [{"shard": "t", "floor": 0}], "carried": ["d"], "cells": [
            {"shard": "s", "cells": [{"server": "a", "state": "primary"}]}, {"shard": "t", "cells": [{"server": "b", "state": "primary"}]}, {"shard": "u", "cells": []},
            {"shard": "v", "cells": [{"server": "b", "state": "secondary"}]}]}
        before = {it["shard"]: it["cells"] for it in STATE["shards"]} | {"u": [{"server": "c", "state": "primary"}]}
        self.assertEqual(proposal_lines(proposal, before), [
            "proposed:", "  s                a primary", "  t                b primary  (primary before: c)", "  u                nobody has it  (primary before: c)",
            "  v                b secondary",
            "lost, or without writes that a server which is gone acknowledged alone: t, u",
            "without a primary, secondaries alone: v; promote the one that has most writes by a plan",
            "with fewer live replicas than their floor: t 0", "down, silent, and left as recorded: d"])

    def test_what_is_not_served_during_a_restart(self):
        self.assertEqual([unserved(STATE, it) for it in "abc"], [["s"], [], ["t"]])

    def test_a_repair_promotes_only_when_it_is_told_to(self):
        document = without_servers(document_of_state(STATE, WANTS), ["c"])
        found, _ = repair_of(document, False, False)
        self.assertEqual([(it.shard, it.server) for it in found.additions], [("s", "b")])
        self.assertRegex(found.left[0], "t has secondaries alone")
        found, plan = repair_of(document, True, False)
        self.assertEqual([(it.shard, it.server) for it in found.promotions], [("t", "b")])
        self.assertEqual(sum(len(it["code"]) for it in plan["streams"]), 4)


class FakeControllers:
    """Controllers that have a reopening. d, which was down, is up after some questions, and tells then what it has: nothing."""

    def __init__(self, silent):
        self.silent, self.asked, self.slept = silent, 0, 0

    def state(self):
        has_told = self.asked > self.silent
        return {"reopening": {"base": 100, "proposal": {"carried": [] if has_told else ["d"], "lost": ["s"] if has_told else []}}}

    def post(self, path, line):
        assert (path, line) == ("/base", {"server": "d"})
        self.asked += 1
        return {"answers": self.silent > 0}

    def sleep(self, seconds):
        self.slept += 1


class ProposalTest(unittest.TestCase):
    """Whom an operator waits for before a proposal is shown."""

    def waited(self, silent, patience=60.0):
        controllers, told = FakeControllers(silent), io.StringIO()
        with contextlib.redirect_stderr(told):
            return wait_for_proposal(controllers, 100, patience)["lost"], controllers.slept, told.getvalue()

    def test_who_is_down_is_left_as_recorded(self):
        self.assertEqual(self.waited(0), ([], 0, ""))

    def test_who_is_up_by_now_tells_first(self):
        self.assertEqual(self.waited(2), (["s"], 3, "waits for d\n"))

    def test_who_answers_and_tells_nothing_is_not_waited_for_longer(self):
        self.assertEqual(self.waited(2, 0.0), ([], 0, ""))


class RunningTest(unittest.IsolatedAsyncioTestCase):
    """A controller in this process, over a session that is written here."""

    async def running(self, session, port=0, document=None):
        self.folder = tempfile.TemporaryDirectory()
        self.addCleanup(self.folder.cleanup)
        fleet = pathlib.Path(self.folder.name) / "fleet.json"
        fleet.write_text(json.dumps({"servers": {"a": {"number": 1, "url": "http://127.0.0.1:1"}}, "map": {"file": f"{self.folder.name}/map.json"}}))
        program = (sys.executable, "-c", session) if isinstance(session, str) else tuple(session)
        return Running(Settings(str(fleet), program, "127.0.0.1", port, document))

    async def post(self, running, path, line):
        request = Request(f"http://127.0.0.1:{running.server.port}{path}", json.dumps(line).encode())
        return json.loads(await asyncio.to_thread(lambda: urlopen(request, timeout=10).read()))

    async def test_nothing_is_sent_if_the_address_is_taken(self):
        logging.getLogger("smplan.run").setLevel(logging.CRITICAL)
        with socket.create_server(("127.0.0.1", 0)) as taken:
            running = await self.running(REFERENCE, taken.getsockname()[1], {"no": "document"})
            self.assertEqual(await running.run(), 3)
        self.assertFalse(running.controller.leads)
        self.assertEqual(running.controller.session.fed, 0)

    async def test_the_end_of_the_session_ends_the_controller(self):
        logging.getLogger("smplan.run").setLevel(logging.CRITICAL)
        kill = "import os, signal, sys; sys.stdin.readline(); os.kill(os.getpid(), signal.SIGKILL)"
        stray = "import sys; sys.stdin.readline(); print('no reply', flush=True); sys.stdin.read()"
        ends = [(f"import sys; sys.stdin.readline(); sys.exit({it})", it if it in (5, 6) else 3) for it in (0, 1, 5, 6)]
        for session, status in [*ends, (kill, 3), (stray, 3)]:
            running = await self.running(session)
            self.assertEqual(await asyncio.wait_for(running.run(), 20), status, session)

    async def test_a_session_that_has_ended_is_told_to_who_asks_and_logged_once(self):
        running, heard = await self.running(REFERENCE), []
        asyncio.get_running_loop().set_exception_handler(lambda loop, context: heard.append(context))
        session = await Session.start([sys.executable, "-c", "import sys; sys.stdin.readline()"])
        running.controller = Controller(session, running.fleet, None)
        with self.assertRaises(SessionEnded):
            await running.controller.follow(['{"do":"hello"}'] * 3)
        self.assertEqual([(await it(b"")).status for it in (running.metrics, running.told_document, running.health)], [503, 503, 503])
        await session.close()
        running.fleet.close()
        gc.collect()
        self.assertEqual(heard, [])

    async def test_a_map_belongs_to_what_is_opened_by_a_line(self):
        running = await self.running(REFERENCE)
        task = asyncio.create_task(running.run())
        for _ in range(1200):
            if running.controller and running.controller.leads and running.server:
                break
            self.assertFalse(task.done())
            await asyncio.sleep(0.05)
        document = {"limit": 1, "servers": [{"name": "a", "region": "r", "room": 9}],
                    "shards": [{"name": "s", "load": 1, "want": 1, "cap": 0, "spread": 1, "listed": "a", "cells": [{"server": "a", "state": "primary"}]}]}
        self.assertIn("opened", await self.post(running, "/do", {"do": "open", "document": document, "journal": "9f2c", "epoch": 0}))
        told = json.loads((pathlib.Path(self.folder.name) / "map.json").read_text())
        self.assertEqual((told["journal"], told["entries"]), ("9f2c", {"s": {"to": "a", "version": 0}}))
        self.assertEqual(await self.post(running, "/base", {"server": "a"}) | {"said": ""}, {"answers": False, "base": None, "said": ""})
        running.stopping.set()
        self.assertEqual(await asyncio.wait_for(task, 30), 0)

    async def test_no_plan_begins_over_servers_without_slots_or_drops_a_last_replica_beside_an_add(self):
        async def base(_):
            return Page.of({"base": self.told})

        server = await serve("127.0.0.1", 0, {"GET /base": base})
        self.addAsyncCleanup(asyncio.to_thread, server.close)
        running = await self.running(REFERENCE)
        running.fleet.take(FleetFile.of({"servers": {"a": {"number": 1, "url": f"http://127.0.0.1:{server.port}"}, "b": {"number": 2, "url": "http://127.0.0.1:1"}},
                                         "map": {"file": "m"}}, "it"))
        heard = []

        async def route(body):
            heard.append(json.loads(body)["do"])
            return Page.of({})

        async def shards():
            return [{"shard": "s", "cells": [{"server": "a", "state": "secondary"}]}]

        running.shards = shards
        begin = json.dumps({"do": "begin", "plan": {"streams": [{"code": [{"do": "drop", "server": "a"}, {"do": "signal"}, {"do": "add", "server": "b"}]}]}}).encode()
        for self.told, lines, expected in ((None, [begin], []), (0, [begin], ["begin"]), (None, [b'{"do":"approve","server":"a"}', b'{"do":"begin"}'], ["approve", "begin"])):
            heard.clear()
            pages = [await running.beginning(route)(it) for it in lines]
            self.assertEqual(heard, expected)
        self.assertEqual((await running.beginning(route)(b"[]")).status, 400)
        self.assertEqual(pages[0].status, 200)
        self.told = 0
        codes = [[{"do": "drop", "shard": "s", "server": "a"}], [{"do": "add", "shard": "s", "server": "b", "role": "secondary"}]]
        for streams, kind in ((codes, "LastReplica"), ([codes[1] + codes[0]], None)):
            line = {"do": "begin", "plan": {"streams": [{"code": it} for it in streams]}}
            page = await running.beginning(route)(json.dumps(line).encode())
            self.assertEqual(json.loads(page.body).get("refused", {}).get("kind"), kind)
        running.fleet.close()


class StoryTest(Story):
    """Three servers of examples/kv_http.py, by the commands of docs/CONTROLLER.md."""

    def setUp(self):
        self.begin_with(dict(zip("abc", free_ports(3))))
        for it in "abc":
            self.start(it, str(ROOT / "examples/kv_http.py"), it, self.controller, f"{it}.sqlite", "--new")
        for it in "abc":
            self.until(lambda it=it: self.base(it) is not None)

    def test_from_the_opening_to_the_repair(self):
        self.assertEqual((self.listed(), self.request("a", 1), self.request("b", 2)), ("a", {"reply": "1"}, {"said": "not_here"}))
        self.assertEqual(self.control("drain", "a"), (0, "s to c\na is empty; 1 replicas moved\n"))
        self.assertEqual((self.listed(), self.request("c", 2), self.request("c", 1)), ("c", {"reply": "12"}, {"reply": "1"}))
        self.assertEqual(self.control("controllers")[0], 0)
        self.assertIn("s                load 4, 2 live, floor 1, listed c", self.control("state")[1])
        status, text = self.control("restart", "c", "--by", "r1", "--", "true")
        self.assertEqual((status, "Nobody serves s while c is down" in text), (1, True), text)
        alone = ("restart", "c", "--by", "r1", "--no-primaries", "--before", "was.json")
        self.check((*alone, "--", "true"), 1, "Others lead s while c is down, and it leads them again afterwards: each time nobody does for one call. Go on?")
        self.check((*alone, "--yes", "--", "false"), 1, "the command ended with 1; c keeps permit")
        self.assertEqual((self.listed(), self.request("b", 4)), ("b", {"reply": "124"}))
        self.check((*alone, "--yes", "--", "true"), 0, "c is up after")
        self.assertEqual((self.listed(), self.request("c", 4)), ("c", {"reply": "124"}))
        self.check((*alone, "--yes", "--", "false"), 0, "give-back has ended after 1 plan")
        self.check((*alone[:4], "--before", "was.json", "--", "true"), 2, "--before is of --no-primaries")
        self.check(("restart", "c", "--by", "r1", "--yes", "--", "true"), 1, "the restart of c by r1 has ended before; a new one needs another --by")
        status, text = self.control("restart", "b", "--by", "r2", "--", "false")
        self.assertEqual((status, "keeps permit" in text), (1, True), text)
        status, text = self.control("restart", "b", "--by", "r2", "--json", "--", "true")
        self.assertEqual((status, json.loads(text.splitlines()[0])["up"]), (0, "b"), text)
        status, text = self.control("reopen", "--lost", "c", "--yes")
        self.assertEqual((status, "c still answers" in text), (1, True), text)
        self.running["c"].kill()
        self.running["c"].wait()
        status, text = self.control("reopen", "--lost", "c", "--dry-run", "--json")
        self.assertEqual((status, [it["name"] for it in json.loads(text)["document"]["servers"]]), (0, ["a", "b"]), text)
        self.check(("reopen", "--lost", "c", "--yes"), 1, "s may be lost: only --accept-loss says yes to that")
        status, text = self.control("reopen", "--go-on", "--yes", "--accept-loss")
        self.assertEqual((status, "acknowledged alone: s" in text), (0, True), text)
        self.assertEqual((self.listed(), self.request("b", 3)), ("b", {"reply": "1243"}))
        status, text = self.control("repair", "--yes")
        self.assertEqual((status, "s: a gets a secondary" in text), (0, True), text)
        self.assertEqual(self.control("repair", "--yes"), (0, "nothing is missing\n"))
        self.running["run"].send_signal(signal.SIGTERM)
        self.assertEqual(self.running["run"].wait(20), 0)
        self.assertRegex((self.path / "run.log").read_text(), r"INFO stops\n$")

    def test_a_server_goes_and_another_one_comes(self):
        self.assertEqual(self.request("a", 1), {"reply": "1"})
        add = ("add-server", "d", "--region", "r", "--room", "9")
        self.check(("remove-server", "a", "--yes"), 1, "a still has s: `smplan-control drain a` empties it")
        self.check(("remove-server", "z", "--yes"), 2, "no server is named 'z'")
        self.check(("remove-server", "c"), 1, "Servers come and go by a reopening: every server is asked what it has, and serves meanwhile. No server is given up. Asked what they have: a, b, c.")
        self.check(("remove-server", "c", "--yes"), 0, "stop c, and take it out of fleet.json")
        self.check((*add, "--yes"), 1, "does not know where d is")
        told = json.loads((self.path / "fleet.json").read_text())
        self.running["c"].kill()
        self.urls["d"], = free_ports(1)
        del told["servers"]["c"]
        told["servers"]["d"] = {"number": 4, "url": f"http://127.0.0.1:{self.urls['d']}"}
        (self.path / "fleet.json").write_text(json.dumps(told))
        self.running["run"].send_signal(signal.SIGHUP)
        self.until(lambda: "d" in self.ask("/fleet")["servers"])
        self.check((*add, "--yes"), 1, "d does not answer: start it first")
        self.start("d", str(ROOT / "examples/kv_http.py"), "d", self.controller, "d.sqlite")
        self.until(lambda: self.base("d") is None)
        self.check((*add, "--dry-run", "--json"), 0, '{"name": "d", "region": "r", "room": 9}')
        self.check(("remove-server", "a", "b", "--dry-run"), 1, "a still has s")
        self.check((*add, "--yes"), 0, "open: epoch 2")
        self.check((*add, "--yes"), 1, "d is there already")
        for it in "ab":  # (these servers learn of others when they start)
            self.running[it].kill()
            self.running[it].wait()
            self.start(it, str(ROOT / "examples/kv_http.py"), it, self.controller, f"{it}.sqlite")
            self.until(lambda it=it: self.base(it) is not None)
        self.check(("drain", "a"), 0, "s to d")
        self.assertEqual((self.listed(), self.request("d", 2)), ("d", {"reply": "12"}))
        self.running["a"].kill()
        self.running["a"].wait()
        self.check(("remove-server", "a", "--yes"), 1, "a does not answer: if it is off for good, `smplan-control reopen --lost a`")
        reopening = {"do": "reopen", "document": self.ask("/document"), "lost": [], "why": "it"}
        urlopen(f"{self.controller}/do", json.dumps(reopening).encode(), timeout=10).close()
        self.check(("remove-server", "b", "--dry-run"), 1, "a reopening is under way: `smplan-control reopen --go-on` shows what it proposes")
        self.check(("remove-server", "b", "--yes", "--wait", "1"), 1, "a did not answer within 1 s")
