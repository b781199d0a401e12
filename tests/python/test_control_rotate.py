"""smplan-control rotate: a journal that ends, and one that goes on in its place, over build/smpland."""
import argparse
import asyncio
import base64
import contextlib
import io
import json
import logging
import os
import pathlib
import shutil
import signal
import subprocess
import sys
import tempfile
import threading
import time
import unittest
from types import SimpleNamespace
from unittest import mock
from urllib.request import Request, urlopen

from control_story import ENVIRONMENT, ROOT, ScriptedStory, Story, free_ports
from smplan import control_commands
from smplan.control_rotate import size_text
from smplan.control_rotated import CLOSED, HEAD, JournalFile, NotRotated, Origin, cells_of, names_in
from smplan.control_rotation import Rotation, again_of, differs, unrest
from smplan.control_rotation_etcd import Names
from smplan.control_run import size_of

SMPLAND = next((it for it in (ROOT / "build/smpland", ROOT / "build/smpland-unproved") if it.exists()), None)



class QuickStory(Story):
    """Commands are said in this process, which is quick."""

    def control(self, *words):
        out, words = io.StringIO(), [str(self.path / it) if it.startswith("journal") else it for it in words]
        with contextlib.redirect_stdout(out), contextlib.redirect_stderr(out), mock.patch.dict(os.environ, {"SMPLAN_CONTROLLER": self.controller}), mock.patch("sys.stdin", io.StringIO()):
            status = control_commands.main(words)
        return status, out.getvalue()


PLAN = {"streams": [{"code": [{"do": "add"}, {"do": "signal"}]}, {"code": [{"do": "prepare_add"}, {"do": "publish"}, {"do": "wait"}, {"do": "drop"}]}]}


def line_of(*entries):
    return json.dumps({"entries": entries, "after": "", "sum": ""}).encode() + b"\n"


class FilesTest(unittest.TestCase):
    """The files of a journal that ends."""

    def setUp(self):
        folder = tempfile.TemporaryDirectory()
        self.addCleanup(folder.cleanup)
        self.path = pathlib.Path(folder.name) / "journal"
        self.path.write_text(HEAD + "\n")
        self.journal = JournalFile.of(str(self.path))

    def origin(self, journal="1f", **members):
        return Origin(**{**dict(journal=journal, base=5 << 21, was="9f2c", epoch=4, place=7, size=33, file="journal.4", cells={}, plans={}, approved={}, ended=0.0), **members})

    def names(self):
        return sorted(it.name for it in self.path.parent.iterdir())

    def test_what_is_no_journal_here(self):
        for word in ("-", "/nowhere/journal", str(self.path.parent)):
            self.assertIsNone(JournalFile.of(word))
        self.path.write_text(CLOSED + "\n")
        self.assertIsNone(JournalFile.of(str(self.path)))

    def test_a_link_to_a_journal_stays_one(self):
        link = self.path.parent / "link"
        link.symlink_to("journal")
        self.assertEqual(JournalFile.of(str(link)).path, self.path.resolve())

    def test_names_of_the_last_epoch(self):
        begin = {"do": "begin", "plan": PLAN, "name": "p"}
        lines = [b"torn", line_of({"do": "open", "document": {}}), line_of(begin, {"do": "approve", "server": "a", "by": "r0"}), line_of({"do": "new_epoch"}),
                 line_of({"do": "answered"}), line_of({**begin, "name": "q"}, {"do": "approve", "server": "b", "by": "r1"}, begin), b'{"entries":[{"do":"approve"']
        self.assertEqual(names_in(lines), ({"q": {"plan": 0, "calls": 3, "streams": 2}, "p": {"plan": 1, "calls": 3, "streams": 2}}, {"r1": "b"}))
        self.assertEqual(names_in([*lines, line_of({"do": "reopen"})]), ({}, {}))
        for it in (lines, lines[:3], [*lines[:4], line_of({**begin, "name": "reopen"}, {"do": "approve", "server": "open", "by": "new_epoch"})], lines[:1], []):
            self.path.write_bytes(b"".join([HEAD.encode() + b"\n", *it[1:]]))
            self.assertEqual(self.journal.names(), names_in(it))

    def test_what_a_journal_goes_on_from_is_of_that_journal_alone(self):
        self.journal.write_origin(self.origin("9f2c"))
        self.journal.write_origin(self.origin("1f", plans={"p": {}}), beside="9f2c")
        self.assertEqual([self.journal.origin(it) and self.journal.origin(it).plans for it in ("009f2c", "1f", "77")], [{}, {"p": {}}, None])
        self.journal.write_origin(self.origin("1f", after={"size": 7}))
        self.assertEqual([self.journal.origin(it) is None for it in ("9f2c", "1f")], [True, False])
        self.path.with_name("journal.origin").write_text("[]")
        self.assertIsNone(self.journal.origin("1f"))

    def test_the_old_one_is_closed_and_only_then_another_file(self):
        old = self.journal.name_old(4)
        self.journal.close_old(self.origin())
        self.assertEqual((self.path.read_text(), self.journal.name_old(4)), (HEAD + "\n", old))
        self.journal.next.write_text(f'{HEAD}\nnew')
        self.journal.swap()
        for _ in range(2):
            self.journal.close_old(self.origin())
        self.assertEqual((self.path.read_text(), old.read_text(), self.names()), (f"{HEAD}\nnew", CLOSED + "\n", ["journal", "journal.4"]))
        with self.assertRaisesRegex(NotRotated, "journal.4 is there, and is another file"):
            self.journal.name_old(4)

    def test_what_was_broken_off_is_deleted_and_nothing_else(self):
        for name, text in (("journal.7", "it"), ("journal.old", "it"), ("journal.next", f'{HEAD}\n{{"entries":[{{"do":"reopen","why":"goes on from 1f"')):
            self.path.with_name(name).write_text(text)
        self.journal.name_old(4)
        self.assertEqual(self.journal.tidy("9f2c"), ["journal.4"])
        with self.assertRaisesRegex(NotRotated, "no rotation has left it"):
            self.journal.clear_next("9f2c")
        self.assertEqual(self.journal.tidy("1f"), ["journal.next"])
        self.journal.next.write_text(HEAD[:7])
        self.assertEqual((self.journal.tidy("1f"), self.names()), (["journal.next"], ["journal", "journal.7", "journal.old"]))

    def test_another_process_that_has_the_journal(self):
        with self.journal.locked(33):
            with self.assertRaisesRegex(NotRotated, "another process has the journal"), self.journal.locked():
                pass
        with self.assertRaisesRegex(NotRotated, "another process has written"), self.journal.locked(32):
            pass


class ProposalTest(unittest.TestCase):
    """What is confirmed, and what is told under names of before."""

    def test_a_proposal_that_changes_nothing_is_confirmed(self):
        cells = [{"server": "a", "state": "primary"}, {"server": "b", "state": "secondary"}]
        origin = SimpleNamespace(cells=cells_of([{"name": "s", "cells": cells}, {"name": "t", "cells": []}], "name"))
        proposal = {"lost": [], "floors": [], "carried": [], "cells": [{"shard": "t", "cells": []}, {"shard": "s", "cells": cells[::-1]}]}
        self.assertEqual(differs(proposal, origin), "")
        for member in ("lost", "floors", "carried"):
            self.assertIn(member, differs({**proposal, member: ["s"]}, origin))
        for changed in (cells[:1], [{**cells[1], "state": "primary"}, {**cells[0], "state": "secondary"}], []):
            self.assertEqual(differs({**proposal, "cells": [{"shard": "s", "cells": changed}, {"shard": "t", "cells": []}]}, origin), "s would have other replicas")
        self.assertEqual(differs({**proposal, "cells": proposal["cells"][1:]}, origin), "t would have other replicas")

    def test_unrest(self):
        state = {"is": "open", "plans": [{"name": "p", "is": "ended"}], "servers": [{"server": "a", "permit": None, "carried": False}]}
        self.assertEqual(unrest(state, 0), "")
        for change, outgoing, text in (({"is": "new"}, 0, "nothing is opened yet"), ({"is": "reopening"}, 0, "a reopening is under way"), ({"plans": [{"name": "p", "is": "running"}]}, 0, "p runs"),
                                       ({"servers": [{"server": "a", "permit": 7, "carried": False}]}, 0, "a is down"), ({}, 1, "messages are not answered")):
            self.assertIn(text, unrest({**state, **change}, outgoing))

    def test_names_of_before(self):
        origin = SimpleNamespace(epoch=4, plans={"p": {"plan": 2, "calls": 3, "streams": 1}}, approved={"r1": "c"})
        self.assertEqual(again_of(origin, {"do": "begin", "name": "p"}), {"begun": {"plan": 2, "calls": 3, "streams": 1, "epoch": 4}, "again": True, "orders": [], "ended": []})
        self.assertEqual(again_of(origin, {"do": "approve", "by": "r1", "server": "c"}), {"ended": {"server": "c", "permit": None}})
        self.assertEqual(again_of(origin, {"do": "approve", "by": "r1", "server": "a"})["refused"]["kind"], "OtherServer")
        for line in ({"do": "begin", "name": "q"}, {"do": "begin", "name": ["p"]}, {"do": "approve", "by": "r2"}, {"do": "approve", "by": {}}, {"do": "begin"}, {"do": "hello"}):
            self.assertIsNone(again_of(origin, line))

    def test_what_is_refused_is_left_to_an_operator_once(self):
        said, proposal = [], {"base": 5 << 21, "lost": [], "floors": [], "carried": [], "cells": []}

        async def ask(line):
            return {"state": {"is": "reopening"}}

        async def do(line):
            said.append(line)
            return {"refused": {"kind": "OverRoom", "text": "refused: OverRoom"}}

        rotation = Rotation(SimpleNamespace(ask=ask, controller=SimpleNamespace(proposal=proposal, do=do)))
        rotation.origin = Origin("1f", 5 << 21, "9f2c", 4, 7, 33, "journal.4", {}, {}, {}, 0.0)
        rotation.can_end = lambda: True
        logging.getLogger("smplan.run").setLevel(logging.CRITICAL)
        for _ in range(3):
            asyncio.run(rotation.step())
            rotation.ask_for(60.0)
        self.assertEqual((said, rotation.left, rotation.until), ([{"do": "confirm", "base": 5 << 21, "lost": []}], "refused: OverRoom", None))
        self.assertEqual(asyncio.run(rotation.told()), {"is": "left", "why": "refused: OverRoom", "was": "9f2c"})

    def test_names_by_replies(self):
        names = Names()
        for line, reply in (({"name": "p"}, {"begun": {"plan": 0, "calls": 3, "streams": 1, "epoch": 0}, "orders": []}), ({"by": "r1"}, {"approved": {"server": "a", "permit": 7}}),
                            ({"by": "r2"}, {"refused": {}}), ({"name": "q"}, {"begun": {"plan": 7, "calls": 3, "streams": 1, "epoch": 0}, "again": True})):
            names.take(json.dumps(line), reply)
        self.assertEqual((names.plans, names.approved), ({"p": {"plan": 0, "calls": 3, "streams": 1}}, {"r1": "a"}))
        names.take("{}", {"opened": {}})
        self.assertEqual((names.plans, names.approved), ({}, {}))

    def test_sizes(self):
        self.assertEqual([size_of(it) for it in ("7", "64M", "2g", "1K")], [7, 64 << 20, 2 << 30, 1024])
        for text in ("", "M", "0", "-1", "1.5M", "much"):
            with self.assertRaises(argparse.ArgumentTypeError):
                size_of(text)
        self.assertEqual([size_text(it) for it in (999, 1230, 124 * 10**6)], ["999 bytes", "1.2 kB", "124.0 MB"])


# A controller that is killed when a rotation has come so far.
DYING = """
import os, signal, sys
from smplan import control_commands, control_rotation, control_run, control_run_etcd

def dying(kind):
    class Dying(kind):
        def reached(self, step):
            if step == os.environ.get("DIE_AT") and (step not in ("leads", "closed") or (self.origin and self.origin.after is None)):
                os.kill(os.getpid(), signal.SIGKILL)
    return Dying

control_run.FileRotation = dying(control_run.FileRotation)
control_run_etcd.EtcdRotation = dying(control_run_etcd.EtcdRotation)
control_rotation.QUIET = float(os.environ["QUIET"])
sys.exit(control_commands.main(sys.argv[1:]))
"""


@unittest.skipUnless(SMPLAND, "there is no build/smpland")
class RotateStory(QuickStory, ScriptedStory):
    """Servers without data, and a controller whose journal is a file."""

    def run_controller(self, *more, die_at=None, quiet=60):
        words = ("run", "fleet.json", "--session", f"{SMPLAND} journal", "--http", f"127.0.0.1:{self.port}", "--open", "service.json", *more)
        with open(self.path / "run.log", "a", encoding="utf-8") as log:
            self.running["run"] = subprocess.Popen([sys.executable, "-c", DYING, *words], stdout=log, stderr=log, cwd=self.path, env={**ENVIRONMENT, "DIE_AT": die_at or "", "QUIET": str(quiet)})
        self.until(lambda: self.ask("/healthz")["leads"])

    def killed(self):
        self.running["run"].kill()
        self.running["run"].wait()

    def files(self):
        return {it.name for it in self.path.glob("journal*")}

    def is_closed(self, name):
        found = subprocess.run([SMPLAND, name], input="", capture_output=True, text=True, check=False, cwd=self.path)
        return found.returncode == 6

    def rest(self):
        """Waits until a journal is open, and nothing of a rotation is under way."""
        self.until(lambda: self.ask("/rotate")["is"] == "rests" and self.told("state")["is"] == "open")

    def told(self, question):
        with urlopen(f"{self.controller}/ask", json.dumps({"do": question}).encode(), timeout=10) as answer:
            return json.load(answer)[question]

    def test_a_journal_ends_and_another_one_goes_on(self):
        before = self.told("state")
        self.check(("rotate",), 1, "ends with 1.2 kB at place 4, and stays as a file in which nobody goes on")
        self.check(("rotate", "--dry-run"), 0, "epoch 1: every server is asked what it has")
        self.assertEqual(self.files(), {"journal"})
        status, text = self.control("rotate", "--yes", "--json")
        self.assertEqual(status, 0, text)
        last, after = json.loads(text.splitlines()[0])["rotated"], self.told("state")
        self.assertEqual((last["was"], last["journal"], last["place"]), (before["journal"], after["journal"], 4))
        self.assertNotEqual(before["journal"], after["journal"])
        self.assertEqual((after["is"], after["epoch"], after["shards"][0]["version"], self.listed()), ("open", 1, 1 << 21, "a"))
        self.assertEqual({**after, "servers": before["servers"]}["servers"], after["servers"])
        self.assertEqual((self.files(), self.is_closed("journal.0")), ({"journal", "journal.0", "journal.origin"}, True))
        for name in ("journal.0", "journal"):
            self.check(("audit-journal", name, "--strict"), 0, "0 faults")
        self.killed()
        self.run_controller()
        self.assertEqual(self.told("state"), after)
        self.check(("rotate", "--yes"), 0, "lines, in journal.1;")
        self.assertEqual((self.told("state")["epoch"], self.is_closed("journal.1"), self.is_closed("journal")), (2, True, False))

    def test_a_kill_at_each_step(self):
        epoch = 0
        for step, is_new in (("ended", False), ("named", False), ("made", False), ("written", False), ("swapped", True), ("closed", True), ("leads", True), ("proposed", True), ("confirmed", True)):
            with self.subTest(step):
                self.killed()
                self.run_controller(die_at=step)
                before = self.told("state")
                urlopen(Request(f"{self.controller}/rotate", b'{"wait":60}'), timeout=10).close()
                self.running["run"].wait(60)
                self.assertEqual(self.running["run"].returncode, -signal.SIGKILL)
                self.run_controller()
                self.rest()
                after = self.told("state")
                self.assertEqual(after["journal"] != before["journal"], is_new)
                epoch += is_new
                self.assertEqual(after["epoch"], epoch)
                if not is_new:
                    self.assertEqual(after, before)
                self.assertEqual([self.is_closed(f"journal.{it}") for it in range(epoch)], [True] * epoch)
                self.assertEqual(self.files() - {"journal.origin"}, {"journal", *(f"journal.{it}" for it in range(epoch))})
                self.assertEqual((self.recorded("s"), self.listed()), (({"a": "primary", "b": "secondary"}, 2, 1, 4), "a"))
                self.check(("resize", "--load", f"s={4}", "--yes"), 0, "nothing is left to change")

    def test_a_kill_while_servers_answer(self):
        for epoch, kind in enumerate(("fence", "settle"), 1):
            with self.subTest(kind):
                self.servers["b"].withholds = lambda it, message, kind=kind: it == kind
                self.check(("rotate", "--yes", "--wait", "0.1"), 1, "it takes longer than that, and goes on")
                before = self.told("state")
                self.check(("rotate", "--yes", "--wait", "0"), 1, "a rotation is under way")
                self.killed()
                self.run_controller()
                self.assertEqual((before["is"], self.told("state")["journal"]), ("reopening", before["journal"]))
                self.servers["b"].withholds = lambda kind, message: False
                self.rest()
                self.assertEqual((self.told("state")["journal"], self.told("state")["epoch"]), (before["journal"], epoch))
                self.check(("rotate", "--dry-run"), 0, f"epoch {epoch + 1}")

    def test_what_is_in_the_way(self):
        self.servers["b"].is_silent = True
        self.check(("rotate", "--yes", "--wait", "0"), 1, "the journal goes on: b does not answer")
        self.servers["b"].is_silent, self.servers["b"].base = False, None
        self.check(("rotate", "--yes", "--wait", "0"), 1, "the journal goes on: b has no slots")
        self.servers["b"].base = 0
        self.say({"do": "approve", "server": "c", "by": "r1"})
        self.check(("rotate", "--dry-run"), 0, "Now it would wait: c is down under a permit.")
        self.check(("rotate", "--yes", "--wait", "0"), 1, "the journal goes on: c is down under a permit")
        self.say({"do": "restarted", "permit": self.told("state")["servers"][2]["permit"], "base": 0})
        self.servers["c"].withholds = lambda kind, message: kind == "order"
        plan = self.say({"do": "drain", "server": "b"}, "/ask")["plan"]
        self.say({"do": "begin", "plan": plan, "name": "drain-b"})
        self.check(("rotate", "--yes", "--wait", "1"), 1, "waits: drain-b runs")
        self.servers["c"].withholds = lambda kind, message: False
        (self.path / "journal.0").write_text("it")
        self.check(("rotate", "--yes", "--wait", "20"), 1, "journal.0 is there, and is another file")
        (self.path / "journal.0").unlink()
        self.check(("rotate", "--yes"), 0, "has ended")
        self.names_are_known(plan)

    def names_are_known(self, plan):
        """Names of the epoch before are known in this one, and no longer."""
        begin, approve = {"do": "begin", "plan": plan, "name": "drain-b"}, {"do": "approve", "server": "c", "by": "r1"}
        self.assertEqual(self.say(begin)["begun"] | {"again": self.say(begin)["again"]}, {"plan": 0, "calls": 2, "streams": 1, "epoch": 0, "again": True})
        self.assertEqual(self.say(approve), {"ended": {"server": "c", "permit": None}})
        self.assertEqual(self.say({**approve, "server": "a"})["refused"]["kind"], "OtherServer")
        self.killed()
        self.run_controller()
        self.assertIn("ended", self.say(approve))
        self.assertIn("opened", self.say({"do": "new_epoch"}))
        self.assertEqual(self.say(begin)["refused"]["kind"], "Untrue")
        self.assertIn("approved", self.say(approve))

    def say(self, line, path="/do"):
        with urlopen(Request(self.controller + path, json.dumps(line).encode()), timeout=10) as answer:
            return json.load(answer)

    def test_a_proposal_that_changes_something_is_left_to_an_operator(self):
        slots = self.servers["b"].slots
        self.servers["b"].fence = lambda message: {"slots": []}
        self.check(("rotate", "--yes"), 1, "the new journal is there, and nothing moves until an operator has confirmed what it proposes: s would have other replicas")
        self.assertEqual((self.told("state")["is"], self.servers["b"].slots), ("reopening", slots))
        self.check(("rotate", "--yes"), 1, "a rotation is under way: this waits for its end")
        self.killed()
        self.run_controller()
        self.check(("reopen", "--go-on", "--yes"), 0, "open: epoch 1; at their floor: s")
        self.until(lambda: "a rotation is under way" not in self.control("rotate", "--dry-run")[1])
        self.check(("rotate", "--dry-run"), 0, "epoch 2")

    def test_a_journal_ends_by_itself(self):
        self.killed()
        self.run_controller("--rotate-at", "1K", quiet=1)
        journal = self.told("state")["journal"]
        self.until(lambda: self.told("state")["epoch"] == 1)
        self.assertNotEqual(self.told("state")["journal"], journal)
        self.rest()
        self.killed()
        self.run_controller("--rotate-at", "1K", quiet=1)
        time.sleep(3)  # (it would have to be twice as large as when it began)
        self.assertEqual(self.told("state")["epoch"], 1)


@unittest.skipUnless(SMPLAND, "there is no build/smpland")
class RotateDataStory(QuickStory):
    """Servers of examples/kv_http.py, of which two have what is acknowledged."""

    def run_controller(self, *more):
        self.start("run", "-m", "smplan.control_commands", "run", "fleet.json", "--session", f"{SMPLAND} journal", "--http", f"127.0.0.1:{self.port}", *more)
        self.until(lambda: self.ask("/healthz")["leads"])

    def setUp(self):
        self.begin_with(dict(zip("abc", free_ports(3))))
        for it in "abc":
            self.start(it, str(ROOT / "examples/kv_http.py"), it, self.controller, f"{it}.sqlite", "--new", "--copies", "2")
        for it in "abc":
            self.until(lambda it=it: self.base(it) is not None)

    def copies(self):
        return json.loads(self.control("state", "--json")[1])["shards"][0]["copies"]

    def test_requests_go_on_and_copies_are_told_anew(self):
        self.until(lambda: self.request("a", 1) == {"reply": "1"})
        self.until(lambda: self.copies() == 2)
        journal, waits, stop = self.ask("/rotate")["last"], [], threading.Event()

        def ask():
            number = 1
            while not stop.is_set():
                number, began = number + 1, time.monotonic()
                while "reply" not in self.request("a", number):
                    time.sleep(0.01)
                waits.append(time.monotonic() - began)

        asking = threading.Thread(target=ask)
        asking.start()
        try:
            self.check(("rotate", "--yes"), 0, "and no shard waited")
        finally:
            stop.set()
            asking.join()
        self.assertIsNone(journal)
        self.assertTrue(waits)
        self.until(lambda: self.copies() == 2)
        found = self.request("a", len(waits) + 2)["reply"]
        self.assertEqual(found, "".join(str(it + 1) for it in range(len(waits) + 2)))


@unittest.skipUnless(SMPLAND and shutil.which("etcd"), "there is no build/smpland, or no etcd")
class RotateEtcdStory(QuickStory, ScriptedStory):
    """Two controllers over an etcd."""

    def begin_with(self, urls):
        data = tempfile.TemporaryDirectory()
        self.addCleanup(data.cleanup)
        port, peer = free_ports(2)
        self.etcd, peers = f"http://127.0.0.1:{port}", f"http://127.0.0.1:{peer}"
        process = subprocess.Popen(["etcd", "--data-dir", data.name, "--listen-client-urls", self.etcd, "--advertise-client-urls", self.etcd, "--listen-peer-urls", peers,
                                    "--initial-advertise-peer-urls", peers, "--initial-cluster", f"default={peers}", "--log-level", "error"], stderr=subprocess.DEVNULL)
        self.addCleanup(process.wait)
        self.addCleanup(process.kill)
        self.ports = dict(zip(("k0", "k1"), free_ports(2)))
        super().begin_with(urls)

    def run_controller(self, *more):
        told = json.loads((self.path / "fleet.json").read_text())
        for name in self.ports:
            (self.path / f"{name}.json").write_text(json.dumps({**told, "map": {"file": f"{name}.map.json"}}))
            self.run_one(name)
        self.until(self.leads)

    def run_one(self, name, die_at=""):
        words = ("run", f"{name}.json", "--session", f"{SMPLAND} -", "--http", f"127.0.0.1:{self.ports[name]}", "--open", "service.json", "--etcd", self.etcd, "--name", name, "--lease", "2")
        with open(self.path / "run.log", "a", encoding="utf-8") as log:
            self.running[name] = subprocess.Popen([sys.executable, "-c", DYING, *words], stdout=log, stderr=log, cwd=self.path, env={**ENVIRONMENT, "DIE_AT": die_at, "QUIET": "60"})

    def leads(self):
        """Finds the controller that leads."""
        for name, port in self.ports.items():
            with contextlib.suppress(OSError):
                with urlopen(f"http://127.0.0.1:{port}/healthz", timeout=10) as answer:
                    if json.load(answer)["leads"]:
                        self.leader, self.controller = name, f"http://127.0.0.1:{port}"
                        return True
        return False

    def keys(self, first, end):
        """The keys in etcd from the first to before the end."""
        body = json.dumps({"key": base64.b64encode(first.encode()).decode(), "range_end": base64.b64encode(end.encode()).decode(), "keys_only": True}).encode()
        with urlopen(Request(f"{self.etcd}/v3/kv/range", body), timeout=10) as answer:
            return [base64.b64decode(it["key"]).decode() for it in json.load(answer).get("kvs", [])]

    def state(self, name):
        with urlopen(Request(f"http://127.0.0.1:{self.ports[name]}/ask", b'{"do":"state"}'), timeout=10) as answer:
            return json.load(answer)["state"]

    def say(self, line, path="/do"):
        with urlopen(Request(self.controller + path, json.dumps(line).encode()), timeout=10) as answer:
            return json.load(answer)

    def at_rest(self, epoch):
        """Both controllers have an open journal of this epoch, and nothing else of etcd's keys is left."""
        self.until(lambda: self.leads() and all(self.state(it).get("is") == "open" and self.state(it)["epoch"] == epoch for it in self.ports))
        self.until(lambda: self.ask("/rotate")["is"] == "rests")
        self.assertEqual(len({self.state(it)["journal"] for it in self.ports}), 1)
        self.until(lambda: len(self.keys("smplan/origin/", "smplan/origin0")) == min(epoch, 1))
        folders = ["journal/", *(f"journal.{it}/" for it in range(1, epoch + 1))]
        for it in folders[:-1]:
            self.until(lambda it=it: self.keys(f"smplan/{it}", f"smplan/{it}~~") == [f"smplan/{it}~"])
        self.assertNotIn(f"smplan/{folders[-1]}~", self.keys(f"smplan/{folders[-1]}", f"smplan/{folders[-1]}~~"))

    def test_all_controllers_go_on_in_the_new_journal(self):
        self.say({"do": "approve", "server": "c", "by": "r1"})
        self.say({"do": "restarted", "permit": self.state(self.leader)["servers"][2]["permit"], "base": 0})
        self.assertEqual(self.say({"do": "approve", "server": "a", "by": "r0"})["approved"]["server"], "a")
        self.assertEqual(self.say({"do": "approve", "server": "c", "by": "refused"})["refused"]["kind"], "GlobalCap")
        self.say({"do": "restarted", "permit": self.state(self.leader)["servers"][0]["permit"], "base": 0})
        urls = [word for port in self.ports.values() for word in ("--controller", f"http://127.0.0.1:{port}")]
        self.check(("rotate", "--yes", *urls), 0, " lines, which are deleted; ")
        self.at_rest(1)
        self.assertEqual(self.recorded("s"), ({"a": "primary", "b": "secondary"}, 2, 1, 4))
        self.assertEqual(self.say({"do": "approve", "server": "c", "by": "r1"}), {"ended": {"server": "c", "permit": None}})
        self.assertIn("approved", self.say({"do": "approve", "server": "c", "by": "refused"}))

    def test_a_kill_at_each_step(self):
        epoch = 0
        for step, is_new in (("ended", False), ("written", False), ("swapped", True), ("proposed", True), ("confirmed", True)):
            with self.subTest(step):
                self.at_rest(epoch)
                other = next(it for it in self.ports if it != self.leader)
                for name in (other, self.leader):  # (the one that is to die leads again)
                    self.running[name].terminate()
                    self.running[name].wait()
                self.run_one(self.leader, step)
                self.until(self.leads)
                dying, before = self.leader, self.state(self.leader)
                self.run_one(other)
                urlopen(Request(f"{self.controller}/rotate", b'{"wait":60}'), timeout=10).close()
                self.running[dying].wait(60)
                self.assertEqual(self.running[dying].returncode, -signal.SIGKILL)
                self.until(lambda other=other: self.leads() and self.leader == other)
                self.run_one(dying)
                epoch += is_new
                self.at_rest(epoch)
                self.assertEqual(self.state(other)["journal"] != before["journal"], is_new)
                self.assertEqual(self.recorded("s"), ({"a": "primary", "b": "secondary"}, 2, 1, 4))
