"""Controllers over an etcd that misbehaves: whatever it answers is told as a fault that they know; and one of several controllers, by smplan-control run."""
import asyncio
import json
import logging
import os
import pathlib
import shutil
import signal
import subprocess
import sys
import tempfile
import unittest
from dataclasses import replace
from types import SimpleNamespace

from cluster.controllers.etcd import Etcd, EtcdFault
from cluster.controllers.journal import LEADER, EtcdJournal, JournalLost, key_of
from cluster.controllers.member import Member, Settings
from cluster.wire import Cluster
from smplan import control_commands
from smplan.control import Pace, StoreLost, StoreRefused
from smplan.control_etcd import EtcdRefused, encoded
from smplan.control_etcd_journal import JournalEnded, Keys
from smplan.control_etcd_lease import Lease
from smplan.control_etcd_map import EtcdMap
from smplan.control_store import Trial, check
from smplan.control_run import Settings as RunSettings, etcd_of
from smplan.control_run_etcd import AmongOthers, EtcdSettings
from test_controllers import FakeEtcd
from server_fleet import free_ports

ROOT = pathlib.Path(__file__).resolve().parents[2]

# (asyncio tells in its debug mode of each step that a busy machine made slow)
logging.getLogger("asyncio").setLevel(logging.ERROR)


def page(text, status="200 OK"):
    """An answer over HTTP."""
    return f"HTTP/1.1 {status}\r\nContent-Length: {len(text)}\r\n\r\n{text}".encode()


class OddEtcd(unittest.IsolatedAsyncioTestCase):
    """A client of an etcd whose answers are written here."""

    async def client(self, *answers):
        """Answers come in turn, the last one again and again. `asked` has the paths."""
        self.asked, self.tokens = [], []

        async def serve(reader, writer):
            try:
                while head := await reader.readuntil(b"\r\n\r\n"):
                    await reader.readexactly(int(head.lower().split(b"content-length:")[1].split()[0]))
                    self.asked.append(head.split()[1].decode())
                    self.tokens.append(head.split(b"Authorization: ")[1].split()[0].decode() if b"Authorization: " in head else "")
                    writer.write(answers[min(len(self.asked), len(answers)) - 1])
            except EOFError:
                writer.close()

        server = await asyncio.start_server(serve, "127.0.0.1", 0)
        etcd = Etcd([server.sockets[0].getsockname()[:2]])

        async def close():
            await etcd.close()
            server.close()
            await asyncio.sleep(0.01)

        self.addAsyncCleanup(close)
        return etcd

    async def test_what_is_no_answer_is_a_fault(self):
        pages = [page("<html>502 Bad Gateway</html>", "502 Bad Gateway"), page("[]"), page("[" * 100_000), b"HTTP/1.1\r\n\r\n",
                 b"HTTP/1.1 200 OK\r\nField: " + b"x" * 100_000 + b"\r\n\r\n", page("\xff")]
        for answer in pages:
            etcd = await self.client(answer)
            with self.subTest(answer=answer[:60]), self.assertRaises(EtcdFault):
                await etcd.transact([], [])
        etcd = await self.client(page("no certificates with names here", "400 Bad Request"))
        with self.assertRaisesRegex(EtcdFault, "no certificates with names here"):
            await etcd.transact([], [])

    async def test_answers_without_their_members_are_faults(self):
        for text in ('{"kvs":[{}]}', '{"kvs":[{"key":"x","version":"1","mod_revision":"1"}]}', '{"kvs":7}', '{"result":[]}'):
            etcd = await self.client(page(text))
            for asked in (lambda it: it.get("k"), lambda it: it.changes("a", "b", 0), lambda it: it.grant(2), lambda it: it.keep_alive("7")):
                try:
                    await asked(etcd)
                except EtcdFault:
                    pass

    async def test_a_token_that_has_ended_is_asked_for_anew(self):
        etcd = await self.client(
            page('{"token":"t1"}'), page('{"succeeded":true}'), page('{"message":"etcdserver: invalid auth token","code":16}', "401 Unauthorized"),
            page('{"token":"t2"}'), page('{"succeeded":true}'))
        etcd.user = "k0", "secret"
        self.assertTrue(await etcd.transact([], []))
        with self.assertRaises(EtcdFault):
            await etcd.transact([], [])
        self.assertTrue(await etcd.transact([], []))
        self.assertEqual(self.tokens, ["", "t1", "t1", "", "t2"])
        self.assertEqual([it.rsplit("/", 1)[1] for it in self.asked], ["authenticate", "txn", "txn", "authenticate", "txn"])

    async def test_a_line_that_etcd_refuses_for_good_is_tried_once(self):
        refusals = [
            '{"error":"etcdserver: request is too large","message":"etcdserver: request is too large","code":3}',
            '{"message":"grpc: received message larger than max (2800000 vs. 2097152)","code":8}',
        ]
        for refusal in refusals:
            etcd = await self.client(page(refusal, "400 Bad Request"), page("{}"))
            with self.subTest(refusal=refusal), self.assertRaises(StoreRefused):
                await EtcdJournal(etcd, "k0").append(["a"])
            self.assertEqual(self.asked, ["/v3/kv/txn", "/v3/kv/range"])


# A session that proposes what it is told to, until this is confirmed.
PROPOSER = """
import json, sys
for line in sys.stdin:
    told = json.loads(line)
    print(json.dumps({"proposal": told.get("proposal")} if told["do"] in ("fenced", "confirm") else {"state": {}}), flush=True)
"""


class LeasingEtcd(FakeEtcd):
    """An etcd in memory, whose keys under a lease are deleted with it."""

    async def revoke(self, lease):
        await super().revoke(lease)
        for it in (LEADER, "x/leader"):
            self.keys.pop(it, None)

    async def close(self):
        """Has no connections."""


class LostLinesTest(unittest.IsolatedAsyncioTestCase):
    """An etcd that was restored from a backup: lines that were stored are gone, or are others."""

    async def journals(self):
        etcd = FakeEtcd()
        etcd.put(LEADER, "k0")
        writer, reader = EtcdJournal(etcd, "k0"), EtcdJournal(etcd, "k1")
        await writer.append(["a", "b", "c"])
        self.assertEqual(await reader.read(may_lag=True), ["a", "b", "c"])
        return etcd, writer, reader

    async def test_nothing_is_written_behind_lines_that_are_gone(self):
        etcd, writer, reader = await self.journals()
        del etcd.keys[key_of(3)]
        with self.assertRaisesRegex(JournalLost, "line 3 of the journal is not there any longer"):
            await writer.append(["d"])
        self.assertNotIn(key_of(4), etcd.keys)
        self.assertEqual(await reader.read(may_lag=True), [])
        with self.assertRaises(JournalLost):
            await reader.read()

    async def test_another_line_in_its_place(self):
        etcd, writer, reader = await self.journals()
        etcd.put(key_of(3), "x")
        for doing in (writer.append(["d"]), reader.read(), reader.read(may_lag=True)):
            with self.assertRaisesRegex(JournalLost, "or is another one"):
                await doing

    async def test_a_gap(self):
        etcd, _, reader = await self.journals()
        etcd.put(key_of(5), "e")
        for fresh in (reader, EtcdJournal(etcd, "k2")):
            with self.assertRaisesRegex(JournalLost, "line 4 of the journal is not there"):
                await fresh.read(may_lag=True)

    async def test_behind_the_end_nothing_is_stored(self):
        etcd, writer, reader = await self.journals()
        keys = replace(writer.keys, folder="journal.1/")
        self.assertFalse(await EtcdJournal(etcd, "k1").end(keys, "x"))
        etcd.faults.append("unanswered")
        with self.assertRaises(EtcdFault):
            await writer.end(keys, "x")
        self.assertFalse(await writer.end(keys, "y"))
        for doing in (writer.append(["d"]), reader.read(), reader.read(may_lag=True), EtcdJournal(etcd, "k0").append(["d"])):
            with self.assertRaises(JournalEnded) as ended:
                await doing
        for at in range(1, 4):
            del etcd.keys[key_of(at)]
        with self.assertRaises(JournalEnded):
            await reader.read()
        reader.go_on(ended.exception.folder)
        self.assertEqual((await reader.read(), reader.place, reader.bytes), (["x"], 1, 1))
        writer.go_on(ended.exception.folder)
        self.assertEqual(await writer.append(["e"]), ["x", "e"])
        self.assertNotIn(key_of(4), etcd.keys)

    async def test_lines_on_their_way_do_not_come_behind_the_end(self):
        etcd, writer, _ = await self.journals()
        late = EtcdJournal(etcd, "k0")
        await late.read()
        self.assertTrue(await writer.end(replace(writer.keys, folder="journal.1/"), "x"))
        self.assertFalse(await late.attempt([], ["d"]))

    async def test_services_side_by_side(self):
        etcd = FakeEtcd()
        journals = []
        for prefix in ("x/", "y/"):
            etcd.put(f"{prefix}leader", "k0")
            journals.append(EtcdJournal(etcd, "k0", keys=Keys(prefix)))
        for it in journals:
            await it.append([it.keys.prefix])
        self.assertEqual([await EtcdJournal(etcd, "k1", keys=it.keys).read() for it in journals], [["x/"], ["y/"]])


class MemoryStore:
    """A controller's handle of a journal in memory, which has a bug if one is named."""

    def __init__(self, journal, bug=""):
        self.journal, self.bug, self.place = journal, bug, 0

    async def read(self):
        found, self.place = self.journal.lines[self.place:], len(self.journal.lines)
        return found[::-1] if self.bug == "turns" else found

    async def append(self, lines):
        if len(lines[0]) > 100:
            self.journal.lines += lines if self.bug == "stores what it refuses" else []
            raise (RuntimeError if self.bug == "fails at long lines" else StoreRefused)("too long")
        if self.journal.leader is not self and self.bug != "heeds no leader":
            raise StoreRefused("no") if self.bug == "refuses the deposed" else StoreLost("another one leads")
        self.journal.lines += lines
        if self.journal.is_lost:
            self.journal.is_lost = False
            if self.bug != "finds nothing":
                raise StoreRefused("lost") if self.bug == "refuses what it has stored" else StoreLost("no answer")
            self.journal.lines += lines
        found = await self.read()
        return lines if self.bug == "forgets others" else found


class StoreTest(unittest.IsolatedAsyncioTestCase):
    """The test of stores: it passes those that are right, and finds each bug."""

    async def faults_of_memory(self, bug=""):
        journal = SimpleNamespace(lines=[], leader=None, is_lost=False)

        async def begin(name):
            return MemoryStore(journal, bug)

        async def lead(handle):
            journal.leader = handle

        def lose(handle):
            journal.is_lost = True

        return await check(Trial(begin, lead, lose, "x" * 1000))

    async def test_the_journal_in_etcd_passes(self):
        class Etcd(FakeEtcd):
            async def transact(self, guards, writes):
                if len(str(writes)) > 1000:
                    raise EtcdRefused("request is too large")
                return await super().transact(guards, writes)

        etcd = Etcd()

        async def begin(name):
            return EtcdJournal(etcd, name, tries=2)

        async def lead(handle):
            etcd.put(LEADER, handle.leader)

        self.assertEqual(await check(Trial(begin, lead, lambda _: etcd.faults.append("unanswered"), "x" * 2000)), [])

    async def test_each_bug_is_found(self):
        self.assertEqual(await self.faults_of_memory(), [])
        for bug in ("turns", "stores what it refuses", "fails at long lines", "heeds no leader", "refuses the deposed", "finds nothing",
                    "refuses what it has stored", "forgets others"):
            with self.subTest(bug):
                self.assertNotEqual(await self.faults_of_memory(bug), [])


class EtcdMapTest(unittest.IsolatedAsyncioTestCase):
    """What a journal was opened by is shown once."""

    async def test_adopted_once(self):
        etcd = FakeEtcd()
        owner, state = EtcdMap(etcd), {"journal": "9f2c", "fence": 0, "is": "open"}
        await owner.adopt({"map": [{"shard": "s", "to": "a", "version": 0}]}, state)
        publication = {"journal": "9f2c", "fence": 0, "shard": "s", "to": "b", "version": 1}
        self.assertEqual([await owner.publish(publication) for _ in range(2)], ["done"] * 2)
        await owner.adopt({"map": [{"shard": "s", "to": "a", "version": 0}]}, state)
        self.assertEqual(json.loads(etcd.keys["smplan/map/s"].value), {"to": "b", "version": 1})


class MemberTest(unittest.IsolatedAsyncioTestCase):
    """A controller process over an etcd in memory."""

    async def asyncSetUp(self):
        self.etcd, self.log = LeasingEtcd(), []
        settings = Settings("k0", (sys.executable, "-c", PROPOSER), Cluster(etcd=("http://localhost:1",)), follow=0.01, pace=Pace(), confirm=True, log=self.log.append)
        self.member = Member(settings)
        self.member.journal.etcd = self.member.lease.etcd = self.member.owner.etcd = self.etcd
        await self.member.start()
        self.running = asyncio.create_task(self.member.run())
        self.addAsyncCleanup(self.end)
        await self.until(lambda: self.log)

    async def end(self):
        self.running.cancel()
        await asyncio.wait([self.running])

    async def until(self, condition):
        async with asyncio.timeout(60):
            while not condition():
                await asyncio.sleep(0.01)

    def stored(self):
        return [it.value for key, it in sorted(self.etcd.keys.items()) if key != LEADER]

    async def test_sigterm_gives_the_lease_back(self):
        self.assertEqual((self.etcd.keys[LEADER].value, len(self.etcd.leases)), ("k0", 1))
        os.kill(os.getpid(), signal.SIGTERM)
        async with asyncio.timeout(60):
            await self.running
        self.assertEqual((LEADER in self.etcd.keys, self.etcd.leases), (False, set()))
        self.assertIsNotNone(self.member.controller.session.process.returncode)

    async def test_a_proposal_with_lost_shards_is_left_to_the_operator(self):
        for base, lost, carried in ((100, ["s", "t"], []), (150, [], ["b"]), (200, [], [])):
            await self.member.command({"do": "fenced", "proposal": {"base": base, "lost": lost, "carried": carried}})
            await asyncio.sleep(1.2)
        self.assertEqual(sum('"do":"confirm","base":200' in it for it in self.stored()), 1)
        self.assertEqual(sum('"do":"confirm"' in it for it in self.stored()), 1)
        left = [it.removeprefix("leaves the proposal of base ") for it in self.log if it.startswith("leaves")]
        self.assertEqual(left, ["100 to an operator: shards that may be lost: s, t",
                                "150 to an operator: servers that are down, and have not told what they have: b"])


@unittest.skipUnless(shutil.which("etcd") and shutil.which("openssl"), "there is no etcd or no openssl")
class SecretEtcdTest(unittest.IsolatedAsyncioTestCase):
    """A real etcd, which asks for certificates, and lets a user have the keys of one prefix."""

    async def asyncSetUp(self):
        folder = tempfile.TemporaryDirectory()
        self.addCleanup(folder.cleanup)
        self.folder, (port, peer) = pathlib.Path(folder.name), free_ports(2)
        self.certificate("server")
        self.certificate("other")
        (self.folder / "user").write_text("k0:secret\n")
        self.url, peers = f"https://127.0.0.1:{port}", f"http://127.0.0.1:{peer}"
        self.etcd = subprocess.Popen(
            ["etcd", "--data-dir", f"{folder.name}/data", "--listen-client-urls", self.url, "--advertise-client-urls", self.url, "--listen-peer-urls", peers,
             "--initial-advertise-peer-urls", peers, "--initial-cluster", f"default={peers}", "--cert-file", f"{folder.name}/server.cert",
             "--key-file", f"{folder.name}/server.key", "--client-cert-auth", "--trusted-ca-file", f"{folder.name}/server.cert", "--bcrypt-cost", "4", "--log-level", "error"],
            stdout=subprocess.DEVNULL, stderr=subprocess.DEVNULL)
        self.addCleanup(self.etcd.wait)
        self.addCleanup(self.etcd.kill)
        await self.let_in()

    def certificate(self, name):
        subprocess.run(["openssl", "req", "-x509", "-newkey", "ec", "-pkeyopt", "ec_paramgen_curve:prime256v1", "-nodes", "-keyout", self.folder / f"{name}.key", "-out", self.folder / f"{name}.cert",
                        "-subj", "/O=it", "-addext", "subjectAltName=IP:127.0.0.1", "-days", "1"], check=True, capture_output=True)

    def settings(self, ca="server", cert="server", user="user"):
        words = ["run", "fleet.json", "--session", "it", "--name", "k0", "--etcd-prefix", "x/", "--etcd", self.url, "--etcd-ca", f"{self.folder}/{ca}.cert"]
        words += ["--etcd-cert", f"{self.folder}/{cert}.cert", f"{self.folder}/{cert}.key"] if cert else []
        return etcd_of(control_commands.parser().parse_args(words + (["--etcd-user", f"{self.folder}/{user}"] if user else [])))

    async def let_in(self):
        """Makes the user, whose are the keys of its prefix."""
        client = self.settings(user=None).client(30.0)
        asked = [("user/add", {"name": "root", "password": "it"}), ("role/add", {"name": "root"}), ("user/grant", {"user": "root", "role": "root"}),
                 ("user/add", {"name": "k0", "password": "secret"}), ("role/add", {"name": "of-x"}), ("user/grant", {"user": "k0", "role": "of-x"}),
                 ("role/grant", {"name": "of-x", "perm": {"permType": "READWRITE", "key": encoded("x/"), "range_end": encoded("x0")}}), ("enable", {})]
        for path, line in asked:
            await client.post_again(f"/v3/auth/{path}", line, 200)
        await client.close()

    async def kept(self, settings, prefix="x/"):
        """Leads and appends, as a controller does, and returns what a follower reads."""
        keys, client = Keys(prefix), settings.client(10.0)
        try:
            lease = Lease(client, "k0", 60, keys, is_told=True)
            if not await lease.campaign():
                raise EtcdFault("nobody leads")
            await EtcdJournal(client, lease.leader, 2, keys).append(["a"])
            await lease.leave()
            return await EtcdJournal(client, "", keys=keys).read()
        finally:
            await client.close()

    async def test_a_user_and_certificates_are_asked_for(self):
        self.assertEqual(await self.kept(self.settings()), ["a"])
        (self.folder / "wrong").write_text("k0:guessed\n")
        for what, settings, prefix in (("prefix", self.settings(), "y/"), ("user", self.settings(user=None), "x/"), ("password", self.settings(user="wrong"), "x/"),
                                       ("certificate", self.settings(cert=None), "x/"), ("authority", self.settings(ca="other"), "x/")):
            with self.subTest(what), self.assertRaises(EtcdFault):
                await self.kept(settings, prefix)


class AmongOthersTest(unittest.IsolatedAsyncioTestCase):
    """`smplan-control run --etcd`, over an etcd in memory."""

    def controller(self, etcd, name, folder):
        at = pathlib.Path(folder) / name
        at.mkdir()
        (at / "fleet.json").write_text(json.dumps({"servers": {"a": {"number": 1, "url": "http://127.0.0.1:1"}}, "map": {"file": f"{at}/map.json"}}))
        document = {"limit": 1, "servers": [{"name": "a", "region": "r", "room": 9}],
                    "shards": [{"name": "s", "load": 1, "want": 1, "cap": 0, "spread": 1, "listed": "a", "cells": [{"server": "a", "state": "primary"}]}]}
        settings = RunSettings(f"{at}/fleet.json", (sys.executable, f"{ROOT}/tools/smpland_model.py", "-"), "127.0.0.1", 0, document)
        found = AmongOthers(settings, EtcdSettings(("http://localhost:1",), name, "x/", 2))
        found.journal.etcd = found.lease.etcd = found.map.etcd = found.mirrored = etcd
        found.listen_to_signals = lambda: None
        return found

    async def until(self, condition, seconds=120):
        async with asyncio.timeout(seconds):
            while not condition():
                await asyncio.sleep(0.05)

    async def test_a_session_that_has_ended_passes_its_status_on(self):
        logging.getLogger("smplan.run").setLevel(logging.CRITICAL)
        with tempfile.TemporaryDirectory() as folder:
            found = self.controller(LeasingEtcd(), "k0", folder)
            found.settings = replace(found.settings, program=(sys.executable, "-c", "import sys; sys.stdin.readline(); sys.exit(4)"))
            self.assertEqual(await asyncio.wait_for(found.run(), 20), 4)

    async def test_the_next_one_leads_at_once_and_shows_the_map(self):
        logging.getLogger("smplan.run").setLevel(logging.CRITICAL)
        etcd = LeasingEtcd()
        with tempfile.TemporaryDirectory() as folder:
            both = [self.controller(etcd, it, folder) for it in ("k0", "k1")]
            tasks = [asyncio.create_task(it.run()) for it in both]
            for it in both:
                self.addCleanup(it.stopping.set)
            await self.until(lambda: any(it.controller and it.controller.leads and it.owner.entries for it in both))
            first = next(it for it in both if it.controller.leads)
            second = next(it for it in both if it is not first)
            for it in both:
                await self.until(lambda it=it: (it.owner.read() or {}).get("entries") == {"s": {"to": "a", "version": 0}})
            await self.until(lambda: "smplan_journal_lines 1" in second.journal_figures())
            self.assertIn(f"smplan_journal_bytes {len(etcd.keys['x/journal/000000000001'].value)}", second.journal_figures())
            self.assertIn("smplan_journal_age_seconds 0", first.journal_figures())
            self.assertEqual(etcd.keys["x/leader"].value, f"{first.etcd.name} {first.lease.lease}")
            first.stopping.set()
            self.assertEqual(await tasks[both.index(first)], 0)
            await self.until(lambda: second.controller.leads)
            self.assertEqual(json.loads((await second.health(b"")).body)["leads"], True)
            del etcd.keys["x/journal/000000000001"]
            async with asyncio.timeout(120):
                while True:
                    try:
                        await second.controller.do({"do": "new_epoch"})
                    except Exception as why:
                        self.assertIsInstance(why, JournalLost)
                        break
            self.assertEqual(await asyncio.wait_for(tasks[both.index(second)], 120), 6)
