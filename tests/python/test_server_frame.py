"""The frame for servers (python/smplan/server*.py, ports/go/server): three servers in Python and one in Go move a shard between them under load, and
are killed; and schedules in one process, that do no harm at the frame, and do harm at frames with a planted bug."""
import json
import shutil
import subprocess
import sys
import tempfile
import time
import unittest
from concurrent.futures import Future
from contextlib import nullcontext
from dataclasses import replace
from unittest import mock
from urllib.error import HTTPError
from urllib.parse import urlsplit
from urllib.request import urlopen

import kv_http
import kv_rules
from smplan import agent
from smplan.agent import Answer, Call, Cell, Request, Role, Slot
from smplan.control_agent import told_of
from smplan.failure import Failure
from smplan.server import Limits, Server, Sqlite, main
from smplan.server_http import refuse
from smplan.server_offers import Told
from smplan.server_orders import NotYet
from smplan.server_records import Mark, Records

from server_fleet import HAS_GO, ROOT, Client, Fleet, go, handover, swap


@unittest.skipUnless(HAS_GO, "there is no go")
class GoTest(unittest.TestCase):
    """The module in Go."""

    def test_its_tests_pass(self):
        go("vet", "./...")
        go("test", "./...")

    def test_a_write_is_at_one_server_at_least(self):
        with tempfile.TemporaryDirectory(prefix="server-frame-") as folder:
            go("build", "-o", f"{folder}/kv", "./examples/kv")
            for words in ("0", "-1"):
                told = subprocess.run([f"{folder}/kv", f"-copies={words}", "a", "http://127.0.0.1:1", f"{folder}/store"], capture_output=True, text=True, check=False, timeout=60)
                self.assertEqual((told.returncode, "-copies: a write is at one server at least" in told.stderr), (2, True), told.stderr)


class FleetTest(unittest.TestCase):
    """Processes over HTTP."""

    def begin(self, has_secret=False):
        folder = tempfile.TemporaryDirectory(prefix="server-frame-")
        self.addCleanup(folder.cleanup)
        fleet = Fleet(folder.name, {**dict.fromkeys("abc", "python"), "g": "go" if HAS_GO else "python"}, 2, has_secret)
        self.addCleanup(fleet.end)
        if not HAS_GO:
            subprocess.run([ROOT / "scripts/lib/leave-out", "the frame for servers in Go", "there is no go"], check=True)
        fleet.start_controller()
        fleet.start_servers()
        return fleet

    def end_clients(self, fleet, clients):
        """All that was acknowledged is there once, in its order."""
        for it in clients:
            it.is_over = True
            it.join(20)
        for it in clients:
            value = fleet.value(it.key)
            self.assertIsNone(it.fault)
            self.assertGreater(len(it.words), 5)
            self.assertIn(value.removeprefix("".join(it.words)), ("", f"<{len(it.words) + 1}>"))

    @unittest.skipUnless(shutil.which("openssl"), "there is no openssl")
    def test_servers_by_tls_ask_for_the_token_but_not_of_clients(self):
        fleet = self.begin(has_secret=True)
        fleet.move("there", "a", "g")
        line = {"shard": "s", "request": "r1", "command": ["append", "k", "x"]}
        self.assertEqual(fleet.ask(f"{fleet.urls['g']}/request", line, token="none"), {"reply": "x"})
        fleet.move("back", "g", "a")
        self.assertEqual(fleet.ask(f"{fleet.urls['a']}/request", line, token="none"), {"reply": "x"})
        for name in "ag":
            for path in ("/base", "/slots", "/order", "/peer/life"):
                with self.assertRaises(HTTPError) as why:
                    fleet.ask(fleet.urls[name] + path, token="another one")
                self.assertEqual(why.exception.code, 401)
                why.exception.close()
            with self.assertRaises(HTTPError) as why:
                fleet.ask(f"{fleet.urls[name]}/notice", {"server": "b", "journal": "1", "fence": 0})
            self.assertEqual((why.exception.code, f"it is {name}, and not b" in why.exception.read().decode()), (400, True))
            why.exception.close()
            with self.assertRaises(OSError):
                urlopen(fleet.urls[name].replace("https", "http") + "/request", b"{}", timeout=5).close()

    def test_addresses_of_others_need_a_token_and_https_a_certificate(self):
        for url, token, tls, fault in (("http://10.0.0.1:9300", None, None, "can change everything"), ("http://host:9300", None, None, "can change everything"),
                                       ("https://127.0.0.1:9300", None, None, "needs a certificate"), ("http://127.0.0.1:9300", None, 1, "needs a certificate")):
            with self.assertRaisesRegex(Failure, fault):
                refuse(urlsplit(url), token, tls)
        for url, token, tls in (("http://10.0.0.1:9300", "0123456789abcdef", None), ("http://[::1]:9300", None, None), ("https://localhost", None, 1)):
            refuse(urlsplit(url), token, tls)

    def test_a_primary_is_lost_whose_writes_two_servers_have_and_nothing_is_named(self):
        fleet = self.begin()
        clients = [Client(fleet, it) for it in range(3)]
        for it in clients:
            it.start()
        time.sleep(1.0)
        fleet.kill("a")
        fleet.replace_disk("a")
        told = fleet.reopen("--lost", "a", "--yes")
        self.assertEqual(told.returncode, 0, told.stdout + told.stderr)
        fleet.until(lambda: fleet.listed() != "a" and fleet.noted() == 2, "two copies again")
        self.end_clients(fleet, clients)

    def test_a_shard_moves_between_python_and_go_under_harm(self):
        fleet = self.begin()
        clients = [Client(fleet, it) for it in range(3)]
        for it in clients:
            it.start()
        time.sleep(0.5)
        fleet.move("there", "a", "g")
        fleet.begin("back", handover("s", 4, "g", "a"))
        for name in "gagb":
            time.sleep(0.3)
            fleet.kill(name)
            fleet.start_server(name)
        fleet.until(lambda: fleet.is_at_rest() and fleet.listed() == "a", "back")
        fleet.kill("c")
        fleet.replace_disk("c")
        fleet.start_server("c")
        for name in "bg":
            fleet.kill(name)
            fleet.start_server(name, "forget")
        for name in "cbg":
            fleet.until(lambda name=name: fleet.is_up(name), f"{name} is restored")
        fleet.move("again", "a", "g")
        self.end_clients(fleet, clients)
        position = fleet.marks()["g"]["s"][1]
        wanted = {"a": {}, "b": {"s": ("secondary", position)}, "c": {"s": ("secondary", position)}, "g": {"s": ("primary", position)}}
        fleet.until(lambda: fleet.marks() == wanted, f"{wanted}, and not {fleet.marks()}", 10)
        seen = fleet.views()
        self.assertEqual(seen, {0})
        for old, new in ("gb", "bg"):
            fleet.move(f"{old}{new}", old, new, swap("s", old, new))
            fleet.until(lambda: len(fleet.views()) == 1 and fleet.views() != seen, f"{fleet.views()}, and not one view")
            self.assertGreater(min(fleet.views()), max(seen))
            seen = fleet.views()
            fleet.until(lambda key=f"{old}{new}": fleet.request(key, ["append", key, "x"]) == "x", "a write in the view")
        wanted = {**wanted, **{it: {"s": ("primary" if it == "g" else "secondary", position + 2)} for it in "bcg"}}
        fleet.until(lambda: fleet.marks() == wanted, f"{wanted}, and not {fleet.marks()}", 10)


# -- schedules in one process

FAST = Limits(answering=0.0, working=1.0, waiting=0.2, peer=0.05, fencing=0.1, resting=0.0)
NAMES = {it: f"v{it}" for it in (1, 2, 3, 4)}


class Inline:
    """Runs at once what a server would do beside."""

    def submit(self, work, *words):
        done = Future()
        done.set_result(work(*words))
        return done


class Frame(Server):
    """A server of the frame with the functions of examples/kv_server.py, by which the schedules of tests/agent/kv_rules.py play."""

    times, wanted = FAST, 1

    def __init__(self, number, peers):
        self.peers, self.db = peers, nullcontext()
        peers[number] = self
        super().__init__(NAMES[number], kv_http.Texts(), Sqlite(":memory:"), [], is_new=True, limits=self.times, copies=self.wanted)
        self.pool, self.beside, self.call = Inline(), Inline(), self.call_peer
        self.learn({name: {"number": at, "url": f"http://{name}"} for at, name in NAMES.items()})

    def call_peer(self, url, line, seconds):
        parts = urlsplit(url)
        peer = self.peers.get(int(parts.hostname[1:]))
        if peer is None:
            raise OSError("nobody answers")
        answer = peer.follow(line) if parts.path == "/peer/follow" else peer.answer(parts.path, json.loads(json.dumps(line)))
        return json.loads(json.dumps(answer))

    def kept(self, work):
        with self.storage.transaction() as tx:
            return work(Records(tx))

    def start(self):
        self.shards.clear()
        self.whole.start()

    def base(self):
        return self.kept(lambda it: it.base())

    def slot(self, shard):
        return self.kept(lambda it: it.slot(shard))

    def applied(self, shard):
        return self.kept(lambda it: it.mark(shard).position)

    def value(self, shard, key):
        return self.kept(lambda it: self.service.read(it.tx, shard, ["get", key]))

    def copy_of(self, shard):
        return list(self.kept(lambda it: self.service.copy(it.tx, shard)).items()), []

    def forget(self):
        self.kept(self.whole.forget)

    def line_of(self, shard, it):
        named = {Call.PREPARE_ADD: "from", Call.PREPARE_DROP: "to"}.get(it.call)
        replicas = [NAMES[at] for at, peer in self.peers.items() if peer.slot(shard).cell not in (Cell.UNKNOWN, Cell.ABSENT)] if it.call != Call.ADD else []
        line = {"journal": f"{it.journal:x}", "fence": it.fence, "number": it.number, "load": it.load, "room": it.room, "call": it.call.name.lower(),
                "shard": shard, "handover": it.handover, "role": it.role.name.lower() if it.role else None, "replicas": replicas,
                "primary": next((NAMES[at] for at, peer in self.peers.items() if peer.slot(shard).cell == Cell.PRIMARY), None)}
        return {**line, **({named: NAMES[it.party]} if named else {})}

    def order(self, shard, it):
        self.heed(it.journal, it.fence)
        return self.orders.begin(shard, it)

    def work(self, shard, it):
        line = self.line_of(shard, it)
        try:
            self.orders.commit(shard, it, self.orders.prepare(shard, it, line))
        except (NotYet, OSError):
            return False
        return self.orders.done(shard, it, line) == {"done": True}

    def request(self, shard, request, command, how=Request()):
        told = self.requests.request(shard, request, list(command), how)
        return told["reply"] if "reply" in told else Answer[told["said"].upper()]

    def follow(self, line):
        return self.offers.taken(json.loads(json.dumps(line)))

    def fence(self, journal, number):
        return self.whole.fence({"journal": f"{journal:x}", "base": number})

    def settle(self, journal, number, nonce, slots):
        return self.whole.settle(self.line(journal, number, nonce, slots)) == {"done": True}

    def restore(self, journal, fence, number, nonce, slots):
        return self.whole.restore({**self.line(journal, number, nonce, slots), "fence": fence})

    def line(self, journal, number, nonce, slots):
        told = [told_of(shard, slot, NAMES, 0, False) for shard, slot in slots.items()]
        return {"journal": f"{journal:x}", "base": number, "nonce": None if nonce is None else f"{nonce:x}", "slots": told}


class Twice(Frame):
    """Acknowledges only what two servers have, and keeps what it tells the controllers, of which one does not lead. That one has another state."""

    wanted = 2

    def __init__(self, number, peers):
        super().__init__(number, peers)
        self.controllers, self.lines, self.asked, self.said, self.state, self.known = ["http://controller", "http://leader"], [], 0, {"copied": {}}, {}, {"s": 1}

    def call_peer(self, url, line, seconds):
        if not url.startswith(("http://controller", "http://leader")):
            return super().call_peer(url, line, seconds)
        if url.endswith("/ask"):
            self.asked += 1
            state = {"is": "open", "journal": "7", "fence": self.kept(lambda it: it.counting()[0]), **self.state}
            return {"state": {**state, "shards": [{"shard": it, "copies": copies} for it, copies in self.known.items()]}}
        if url != "http://leader/do":
            raise OSError("it does not lead")
        self.lines.append(line)
        if "copied" in self.said:
            self.known[line["shard"]] = line["copies"]
        if not self.said:
            raise OSError("the reply is lost")
        return self.said

    def tell(self):
        """Has followers have all, and tells of the copies, without a rest."""
        for _ in range(2):
            self.streams.keep_up()
        self.copied.recorded.until = 0.0
        self.copied.tell()


class CommitsFirst(Frame):
    """Stores the slot of a new owner first, and copies the data afterwards."""
    def order(self, shard, it):
        verdict = super().order(shard, it)
        if verdict == Answer.BEGIN and it.call == Call.PREPARE_ADD:
            self.kept(lambda kept: kept.put_slot(shard, agent.commit(kept.base(), kept.slot(shard), it, 0)))
        return verdict


class KeepsTheRest(Frame):
    """Keeps the slots of shards that a settle does not name."""
    def settle(self, journal, number, nonce, slots):
        kept = self.kept(lambda it: {shard: slot for shard, slot in it.slots().items() if shard not in slots})
        with mock.patch.object(self.service, "drop"):
            done = super().settle(journal, number, nonce, slots)
        for shard, slot in kept.items():
            self.kept(lambda it, shard=shard, slot=slot: it.put_slot(shard, slot))
        return done


class ForgetsRequests(Frame):
    """Gives writes without the identities of their requests."""
    def answer(self, path, line):
        told = super().answer(path, line)
        for it in [*told.get("writes", ()), *told.get("copy", {}).get("writes", ())]:
            it["request"] = None
        return told


class AnswersAtOnce(Frame):
    """Answers an order before its commit."""
    def order(self, shard, it):
        verdict = super().order(shard, it)
        return Answer.DONE if verdict == Answer.BEGIN and it.call == Call.PREPARE_ADD else verdict


class KeepsWork(Frame):
    """Does not abandon what was at work when it starts."""
    def start(self):
        with mock.patch.object(self.whole, "abandon_all"):
            super().start()


class DeletesAtDrop(Frame):
    """Deletes the slot of a shard that it drops."""
    def work(self, shard, it):
        done = super().work(shard, it)
        if it.call == Call.DROP:
            self.kept(lambda kept: kept.delete_slot(shard))
        return done


class ComesBackEmpty(Frame):
    """Takes an empty disk for that of a server that has nothing."""
    def forget(self):
        super().forget()
        self.kept(lambda it: it.put_base(agent.Base(journal=kv_rules.JOURNAL, known=1), 0))


class KeepsItsNonce(Frame):
    """Starts under the nonce that it has stored."""
    def start(self):
        stored = self.base()
        super().start()
        self.kept(lambda it: it.put_base(stored, 0))


class AcknowledgesAlone(Frame):
    """Acknowledges a write as soon as it is executed."""
    def __init__(self, number, peers):
        super().__init__(number, peers)
        self.streams.replicate = lambda *words: True


class ExecutesWhileForwarding(Frame):
    """Executes a request after its cut."""
    def __init__(self, number, peers):
        super().__init__(number, peers)
        where = self.requests.where
        self.requests.where = lambda it, shard, how: (
            (Answer.EXECUTE, Request()) if it.slot(shard).cell == Cell.FORWARDING else where(it, shard, how))


class ExecutesBeforeTheCut(Frame):
    """Executes a request that is passed on before it has the old owner's last writes."""
    def __init__(self, number, peers):
        super().__init__(number, peers)
        where = self.requests.where
        self.requests.where = lambda it, shard, how: where(it, shard, replace(how, cut=0))


class LosesWithoutAsking(Frame):
    """Takes a restore as primary of a shard whose data it has lost."""
    def __init__(self, number, peers):
        super().__init__(number, peers)
        self.whole.lost = lambda line: ""


class DropsWithoutLeave(Frame):
    """Drops a shard without asking anybody."""
    def __init__(self, number, peers):
        super().__init__(number, peers)
        self.leaves.asked = lambda *words: ""


class CountsNoMore(Frame):
    """Does not look whether who got leave still asks for it."""
    def __init__(self, number, peers):
        super().__init__(number, peers)
        self.streams.look_at = lambda number: None


class GivesWhileItLeaves(Frame):
    """Gives leave while it leaves itself."""
    def __init__(self, number, peers):
        super().__init__(number, peers)
        self.leaves.may_answer = lambda shard, number: True


class TellsWhileItLeaves(Frame):
    """Tells what it has while it asks for leave."""
    def __init__(self, number, peers):
        super().__init__(number, peers)
        given, taken = self.offers.given, self.offers.taken
        self.routes.update({"/peer/copy": lambda line: self.stays(given, line), "/peer/follow": lambda line: self.stays(taken, line)})

    def stays(self, answer, line):
        with mock.patch.object(self.live(line["shard"]), "leaving", ""):
            return answer(line)


class TakesNoneForLess(Frame):
    """Says that it has less than another one, though it has lost its copy."""
    def answer(self, path, line):
        told = super().answer(path, line)
        return {"less": [0, ""]} if "lost its copy" in told.get("said", "") else told


class TakesNoneForEmpty(Frame):
    """Takes a copy that is lost, its own one too, for an empty one."""
    def work(self, shard, it):
        with mock.patch.object(Records, "has_copy", lambda kept, shard: True):
            return super().work(shard, it)


class ComparesPositions(Frame):
    """Takes the longer copy for the greater one, whatever its view."""
    def answer(self, path, line):
        with mock.patch.object(Mark, "has_more_than", lambda it, other: it.position > other.position):
            return super().answer(path, line)


class TakesTheLesser(Frame):
    """Takes the copy of whom it follows, though its own one is greater."""
    def follow(self, line):
        with mock.patch.object(Mark, "has_more_than", lambda it, other: False):
            return super().follow(line)


class TellsNoView(Frame):
    """Answers a fence with the positions of its copies, and not with their views."""
    def fence(self, *words):
        return {"slots": [{**it, "view": 0} for it in super().fence(*words)["slots"]]}


class BeginsNoView(Frame):
    """Goes on in the view of before once it is chosen anew."""
    def settle(self, *words):
        with mock.patch.object(Records, "begin_view"):
            return super().settle(*words)


class TakesTheViewFirst(Frame):
    """Takes over the view of the source's list before it has all up to where that began."""
    def follow(self, line):
        told = super().follow(line)
        if "lacks" in told:
            self.kept(lambda it: it.put_views(line["shard"], [*it.views(line["shard"]), agent.ViewStart(line["mark"][2], told["lacks"][0])]))
        return told


class HearsOfTheCutFirst(Frame):
    """Takes over at its cut though it has not taken the list's views."""
    def follow(self, line):
        told = super().follow(line)
        if line["cut"]:
            self.kept(lambda it: it.put_slot(line["shard"], agent.seal(it.slot(line["shard"]), *line["cut"])))
        return told


class DeletesWhatItReplaces(Frame):
    """Deletes a copy that another one replaces, or that is taken away."""
    def __init__(self, number, peers):
        super().__init__(number, peers)
        self.aside.keep = lambda *words: None


class SetsAllAside(Frame):
    """Sets each copy aside that another one replaces."""
    def __init__(self, number, peers):
        super().__init__(number, peers)
        self.aside.keep_before = lambda it, shard, offer: self.aside.keep(it, shard)


class TakesTheLonger(Frame):
    """Gives its list to one that has a shorter one, whatever that has."""
    def answer(self, path, line):
        told = super().answer(path, line)
        if "less" not in told or told["less"][0] <= line["after"][0]:
            return told
        return self.kept(lambda it: self.offers.offer(it, line["shard"], Mark(*line["after"])))


class TakesTheShorterForLess(Frame):
    """Becomes primary with its list, if that is longer, whatever others have."""
    def answer(self, path, line):
        told = super().answer(path, line)
        return {"less": [0, ""]} if "less" in told and told["less"][0] < line["after"][0] else told


def passed_before_the_cut(kind):
    """The old owner's last write is late, and comes behind a request that it passes on."""
    a, b = kv_rules.pair(kind)
    kv_rules.push(a, "r1", "x")
    kv_rules.want(kv_rules.answered(b, kv_rules.HANDOVER[0]), True)
    b.follow = lambda line: {"later": "lost"}
    kv_rules.push(a, "r2", "y")
    kv_rules.want(kv_rules.answered(a, kv_rules.HANDOVER[1]), True)
    kv_rules.push(a, "r3", "z")
    del b.follow
    a.streams.keep_up()
    kv_rules.push(a, "r3", "z")
    kv_rules.want((kv_rules.answered(b, kv_rules.HANDOVER[2]), kv_rules.read(b)), (True, "xyz"))


def lost_disk(kind):
    """A primary with a new disk is restored, though a secondary has all."""
    a, b = kv_rules.pair(kind, Cell.SECONDARY)
    kv_rules.push(a, "r1", "x")
    a = kind(1, a.peers)
    a.kept(lambda it: it.tx.delete("frame/new"))
    a.restore(kv_rules.JOURNAL, 0, 0, a.base().nonce, {kv_rules.SHARD: Slot(cell=Cell.PRIMARY, load=1)})
    kv_rules.want((kv_rules.read(a), b.value(kv_rules.SHARD, "k")), (Answer.NOT_HERE, "x"))


def change(number, fence=0):
    """An order to become primary."""
    return kv_rules.order(number, Call.CHANGE, role=Role.SECONDARY, new_role=Role.PRIMARY, fence=fence)


def new_disk_of_the_last(kind, first):
    """The primary is dropped by leave of a secondary that has all, whose disk is replaced then. The other one, which lags, has the first writes."""
    a, b = kv_rules.pair(kind, Cell.SECONDARY)
    c = kind(3, a.peers)
    kv_rules.restore(c, Cell.SECONDARY)
    a.streams.keep_up()
    for text in first:
        kv_rules.push(a, text, text)
    c.follow = lambda line: {"later": "lost"}
    kv_rules.want((kv_rules.push(a, "r2", "y"), kv_rules.answered(a, kv_rules.order(1, Call.DROP))), (f"{first}y", True))
    del c.follow
    b = kind(2, a.peers)
    b.kept(lambda it: it.tx.delete("frame/new"))
    kv_rules.restore(b, Cell.SECONDARY)
    return b, c


def change_beside_a_new_disk(kind):
    """The one that lags is to be primary."""
    for first in ("", "x"):
        b, c = new_disk_of_the_last(kind, first)
        kv_rules.want((kv_rules.answered(c, change(2)), c.slot(kv_rules.SHARD).cell), (False, Cell.SECONDARY))


def change_of_a_new_disk(kind):
    """The one that has lost its copy is to be primary: it takes none that lags."""
    for first in ("", "x"):
        b, c = new_disk_of_the_last(kind, first)
        kv_rules.want((kv_rules.answered(b, change(2)), b.kept(lambda it: it.has_copy(kv_rules.SHARD))), (False, False))


def drop_of_a_new_disk(kind):
    """The one that has lost its copy is to be dropped: no other one has all that it had."""
    for first in ("", "x"):
        b, c = new_disk_of_the_last(kind, first)
        kv_rules.want(kv_rules.answered(b, kv_rules.order(2, Call.DROP)), False)


def drop_beside_a_new_disk(kind):
    """The one that lags, and has nothing yet, is to be dropped beside the one that has lost its copy."""
    b, c = new_disk_of_the_last(kind, "")
    kv_rules.want(kv_rules.answered(c, kv_rules.order(2, Call.DROP)), False)


def returned(kind):
    """A server that was down when the primary was lost for good is back, with an older, longer list, beside one with the list of the next view."""
    a, b = kv_rules.pair(kind, Cell.SECONDARY)
    c, d = kind(3, a.peers), kind(4, a.peers)
    kv_rules.restore(c, Cell.SECONDARY)
    d.restore(kv_rules.JOURNAL, 0, 0, d.base().nonce, {})
    kv_rules.push(a, "r1", "x")
    del a.peers[2]
    kv_rules.want([kv_rules.push(a, text, text) for text in "op"], ["xo", "xop"])
    del a.peers[1], a.peers[3]
    a.peers[2] = b
    for server, slots in ((b, {kv_rules.SHARD: Slot(cell=Cell.PRIMARY, load=1)}), (d, {})):
        server.fence(kv_rules.JOURNAL, 100)
        server.settle(kv_rules.JOURNAL, 100, None, slots)
    kv_rules.want(kv_rules.answered(d, kv_rules.order(101, Call.ADD, role=Role.SECONDARY, fence=100)), True)
    kv_rules.want((kv_rules.push(b, "r4", "y"), kv_rules.answered(b, kv_rules.order(102, Call.DROP, fence=100))), ("xy", True))
    c.peers[3] = c
    c.heed(kv_rules.JOURNAL, 100)
    kv_rules.restore(c, Cell.SECONDARY, 100)
    return d, c


def older_view(kind):
    """It is to be primary: first it takes the copy of the later view."""
    d, c = returned(kind)
    kv_rules.want((kv_rules.answered(c, change(103, 100)), c.value(kv_rules.SHARD, "k")), (True, "xy"))
    kv_rules.want((kv_rules.push(c, "r5", "z"), d.value(kv_rules.SHARD, "k")), ("xyz", "xyz"))
    kv_rules.want([it.kept(lambda kept: kept.views("s")) for it in (c, d)], 2 * [[(0, 0), (100, 1), (103, 2)]])


def later_view(kind):
    """The other one is to be primary: it takes no copy of an older view."""
    d, c = returned(kind)
    kv_rules.want((kv_rules.answered(d, change(103, 100)), d.value(kv_rules.SHARD, "k")), (True, "xy"))
    d.streams.keep_up()
    kv_rules.want((d.value(kv_rules.SHARD, "k"), c.value(kv_rules.SHARD, "k")), ("xy", "xy"))


def other_list(kind):
    """Both lists are of one view, which is a bug: without a primary, neither gives way."""
    d, c = returned(kind)
    for it in (d, c):
        it.kept(lambda kept: kept.put_views("s", [agent.ViewStart(0, 0)]))
    kv_rules.want([kv_rules.answered(it, change(103, 100)) for it in (d, c)], [False, False])
    kv_rules.want((d.value(kv_rules.SHARD, "k"), c.value(kv_rules.SHARD, "k")), ("xy", "xop"))


def leave_of_the_greater(kind):
    """The one of the later view is to be dropped beside the older one, which has no all; the other way round there is leave."""
    d, c = returned(kind)
    kv_rules.want(kv_rules.answered(d, kv_rules.order(103, Call.DROP, fence=100)), False)
    kv_rules.want(kv_rules.answered(c, kv_rules.order(103, Call.DROP, fence=100)), True)


def reopened(*servers):
    """A reopening makes that one the primary, the others being secondaries, whose copy is the greatest, as they tell. Returns it."""
    told = {it: it.fence(kv_rules.JOURNAL, 200)["slots"][0] for it in servers}
    chosen = max(told, key=lambda it: (told[it]["view"], told[it]["position"]))
    for server in told:
        cell = Cell.PRIMARY if server is chosen else Cell.SECONDARY
        kv_rules.want(server.settle(kv_rules.JOURNAL, 200, None, {kv_rules.SHARD: Slot(cell=cell, load=1)}), True)
    return chosen


def reopened_beside_an_older_view(kind):
    """The greatest copy is chosen, as it was told."""
    d, c = returned(kind)
    kv_rules.want((reopened(c, d).value(kv_rules.SHARD, "k"), d.kept(lambda it: it.views("s"))), ("xy", [(0, 0), (100, 1), (200, 2)]))


def aside(server):
    """What is set aside, without when it was."""
    return [it.rsplit("/", 1)[0] for it in server.answer("/aside", None)["aside"]]


def replaced_copy(kind):
    """The older list has writes that the later one has not: an operator finds them, and deletes them."""
    d, c = returned(kind)
    kv_rules.want((kv_rules.answered(c, change(103, 100)), aside(c), aside(d)), (True, ["s/0/3"], []))
    name = c.answer("/aside", {})["aside"][0]
    copy = c.answer("/aside", {"name": name})
    kv_rules.want((copy["data"], copy["mark"][0], copy["views"]), ({"k": "xop"}, 3, [[0, 0]]))
    kv_rules.want([it["command"][2] for it in copy["writes"]], ["x", "o", "p"])
    kv_rules.want((c.answer("/aside", {"name": name, "delete": True}), aside(c)), ({"done": True}, []))


def copy_is_taken_away(kind):
    """A restore and a settle bring nothing: what is there has writes."""
    d, c = returned(kind)
    c.heed(kv_rules.JOURNAL, 200)
    c.restore(kv_rules.JOURNAL, 200, 200, c.base().nonce, {})
    d.fence(kv_rules.JOURNAL, 300)
    kv_rules.want(d.settle(kv_rules.JOURNAL, 300, None, {}), True)
    kv_rules.want([(aside(it), it.kept(lambda kept: kept.has_copy("s"))) for it in (c, d)], [(["s/0/3"], False), (["s/100/2"], False)])
    kv_rules.want((c.value(kv_rules.SHARD, "k"), d.value(kv_rules.SHARD, "k")), ("", ""))


def beginning_is_replaced(kind):
    """A follower that lags far takes a whole copy: it has all that was there."""
    a, b = kv_rules.pair(kind, Cell.SECONDARY)
    kv_rules.push(a, "r1", "x")
    with kv_rules.lost(b, "follow"):
        kv_rules.push(a, "r2", "y")
    with mock.patch("smplan.server_offers.MOST_WRITES", 0):
        kv_rules.push(a, "r3", "z")
        a.streams.keep_up()
    kv_rules.want((b.value(kv_rules.SHARD, "k"), aside(b)), ("xyz", []))


def empty_handover(kind):
    """The new owner of an empty shard gets a new disk before it hears of the cut: it takes over in the view of the list."""
    peers = {}
    a, b, c = servers = [kind(it, peers) for it in (1, 2, 3)]
    for it in servers:
        it.restore(kv_rules.JOURNAL, 0, 0, it.base().nonce, {})
    for server, it in ((a, kv_rules.order(1, Call.ADD, role=Role.PRIMARY)), (c, kv_rules.order(2, Call.ADD, role=Role.SECONDARY)),
                       (b, kv_rules.order(3, Call.PREPARE_ADD, 1))):
        kv_rules.want(kv_rules.answered(server, it), True)
    with kv_rules.lost(b, "follow"):
        kv_rules.want(kv_rules.answered(a, kv_rules.order(4, Call.PREPARE_DROP, 2)), True)
    b = kind(2, peers)
    b.kept(lambda it: it.tx.delete("frame/new"))
    b.restore(kv_rules.JOURNAL, 0, 0, b.base().nonce, {kv_rules.SHARD: Slot(cell=Cell.PREPARED, party=1, handover=1, load=1)})
    kv_rules.want(kv_rules.push(b, "r1", "x", Request(handover=1, cut=0, party=1, is_passed=1)), Answer.NOT_YET)
    a.shards.clear()
    add = kv_rules.order(5, Call.ADD, role=Role.PRIMARY)
    with kv_rules.lost(a, "answer"):  # (it asks for a copy)
        a.streams.keep_up()
    kv_rules.want(kv_rules.answered(b, add), False)
    a.streams.keep_up()
    kv_rules.want((b.work(kv_rules.SHARD, add), kv_rules.push(b, "r1", "x")), (True, "x"))
    kv_rules.want([(it.value(kv_rules.SHARD, "k"), it.kept(lambda kept: kept.views("s"))) for it in (b, c)], 2 * [("x", [(1, 0)])])


def follower_has_more(kind):
    """The disk of a primary has gone back to the view of before: who follows has more, and waits."""
    a, b = kv_rules.pair(kind, Cell.SECONDARY)
    kv_rules.push(a, "r1", "x")
    b.kept(lambda it: it.put_views("s", [agent.ViewStart(0, 0), agent.ViewStart(100, 1)]))
    kv_rules.push(a, "r2", "y")
    a.streams.keep_up()
    kv_rules.want(b.follow(a.kept(lambda it: a.offers.offer(it, "s", b.kept(lambda kept: kept.mark("s"))))), {"later": "it has more"})
    kv_rules.want((b.value(kv_rules.SHARD, "k"), aside(b)), ("x", []))


def view_before_its_beginning(kind):
    """A follower that lags hears of a new view, whose primary is lost before the follower has all up to its beginning: another one has more."""
    a, b = kv_rules.pair(kind, Cell.SECONDARY)
    c = kind(3, a.peers)
    kv_rules.restore(c, Cell.SECONDARY)
    kv_rules.push(a, "r1", "x")
    with kv_rules.lost(c, "follow"):
        kv_rules.want(kv_rules.push(a, "r2", "y"), "xy")
    for server, cell in ((b, Cell.PRIMARY), (a, Cell.SECONDARY), (c, Cell.SECONDARY)):
        server.fence(kv_rules.JOURNAL, 100)
        server.settle(kv_rules.JOURNAL, 100, None, {kv_rules.SHARD: Slot(cell=cell, load=1)})
    kv_rules.want(list(c.follow(b.kept(lambda it: b.offers.offer(it, kv_rules.SHARD, it.mark(kv_rules.SHARD))))), ["lacks"])
    kv_rules.want(reopened(c, a).value(kv_rules.SHARD, "k"), "xy")


def overtaken(kind):
    """A primary that was given up, and heard nothing of it, acknowledges nothing, and takes nothing from those that are left."""
    a, b = kv_rules.pair(kind, Cell.SECONDARY)
    c = kind(3, a.peers)
    c.restore(kv_rules.JOURNAL, 0, 0, c.base().nonce, {kv_rules.SHARD: Slot(cell=Cell.SECONDARY, load=1)})
    kv_rules.push(a, "r1", "x")
    for server, cell in ((b, Cell.PRIMARY), (c, Cell.SECONDARY)):
        server.fence(kv_rules.JOURNAL, 100)
        server.settle(kv_rules.JOURNAL, 100, None, {kv_rules.SHARD: Slot(cell=cell, load=1)})
    kv_rules.want((kv_rules.push(b, "r2", "y"), kv_rules.push(a, "r3", "z")), ("xy", Answer.NOT_YET))
    a.streams.keep_up()
    kv_rules.want((b.value(kv_rules.SHARD, "k"), c.value(kv_rules.SHARD, "k")), ("xy", "xy"))


def roles_change(kind):
    """Two replicas change roles: the new primary has all, and the former one follows it."""
    a, b = kv_rules.pair(kind, Cell.SECONDARY)
    kv_rules.push(a, "r1", "x")
    orders = (kv_rules.order(1, Call.CHANGE, role=Role.PRIMARY, new_role=Role.SECONDARY),
              kv_rules.order(2, Call.CHANGE, role=Role.SECONDARY, new_role=Role.PRIMARY))
    for server, it in zip((a, b), orders):
        kv_rules.want(kv_rules.answered(server, it), True)
    kv_rules.want((kv_rules.push(b, "r2", "y"), a.value(kv_rules.SHARD, "k"), kv_rules.push(a, "r3", "z")), ("xy", "xy", Answer.NOT_HERE))


def dropped_by_leave(kind):
    """A primary is dropped while its secondary lags: what it alone had acknowledged is not lost."""
    a, b = kv_rules.pair(kind, Cell.SECONDARY)
    b.follow = lambda line: {"later": "lost"}
    drop = kv_rules.order(1, Call.DROP)
    kv_rules.want((kv_rules.push(a, "r1", "x"), kv_rules.answered(a, drop)), ("x", False))
    del b.follow
    a.streams.keep_up()
    kv_rules.want((a.work(kv_rules.SHARD, drop), b.value(kv_rules.SHARD, "k"), a.slot(kv_rules.SHARD).cell), (True, "x", Cell.ABSENT))


def primary_is_not_known(kind):
    """A secondary is to be dropped whose primary it does not know yet: others do not give leave in its place."""
    a, b = kv_rules.pair(kind, Cell.SECONDARY)
    c = kind(3, a.peers)
    kv_rules.restore(c, Cell.SECONDARY)
    kv_rules.push(a, "r1", "x")
    drop = kv_rules.order(1, Call.DROP)
    kv_rules.want(b.order(kv_rules.SHARD, drop), Answer.BEGIN)
    try:
        b.orders.prepare(kv_rules.SHARD, drop, {**b.line_of(kv_rules.SHARD, drop), "primary": "new"})
    except OSError:
        return
    raise AssertionError("it has leave")


def leave_is_given_up(kind):
    """A secondary gets leave, tells nobody what it has, gives its drop up, and counts again."""
    a, b = kv_rules.pair(kind, Cell.SECONDARY)
    drop = kv_rules.order(1, Call.DROP)
    kv_rules.want(b.order(kv_rules.SHARD, drop), Answer.BEGIN)
    b.orders.prepare(kv_rules.SHARD, drop, b.line_of(kv_rules.SHARD, drop))
    ask = {"shard": kv_rules.SHARD, "from": 1, "journal": f"{kv_rules.JOURNAL:x}", "heard": 0, "after": [0, ""], "beside": True}
    kv_rules.want((kv_rules.push(a, "r1", "x"), b.answer("/peer/copy", ask)), ("x", {"said": "it leaves s"}))
    b.orders.end(kv_rules.SHARD, drop)
    for _ in range(2):
        a.streams.keep_up()
    kv_rules.want((b.value(kv_rules.SHARD, "k"), a.streams.push(kv_rules.SHARD, 2, 1)), ("x", Told.HAS))


def both_leave(kind):
    """Two secondaries without a primary are dropped: who has leave gives none, and of two that ask each other one stays."""
    a, b = kv_rules.pair(kind, Cell.SECONDARY)
    kv_rules.push(a, "r1", "x")
    kv_rules.want(kv_rules.answered(a, kv_rules.order(1, Call.CHANGE, role=Role.PRIMARY, new_role=Role.SECONDARY)), True)
    drop = kv_rules.order(2, Call.DROP)
    for it in (a, b):
        kv_rules.want(it.order(kv_rules.SHARD, drop), Answer.BEGIN)
    b.orders.prepare(kv_rules.SHARD, drop, b.line_of(kv_rules.SHARD, drop))
    kv_rules.want((a.work(kv_rules.SHARD, drop), a.slot(kv_rules.SHARD).cell), (False, Cell.SECONDARY))
    b.orders.end(kv_rules.SHARD, drop)
    for it in (a, b):
        it.live(kv_rules.SHARD).leaving = "ask"
    kv_rules.want([it.leaves.may_answer(kv_rules.SHARD, other.number) for it, other in ((a, b), (b, a))], [False, True])


def leave_ends_at_a_fence(kind):
    """A leave of before a fence drops nothing behind it."""
    a, b = kv_rules.pair(kind, Cell.SECONDARY)
    drop = kv_rules.order(1, Call.DROP)
    b.order(kv_rules.SHARD, drop)
    b.orders.prepare(kv_rules.SHARD, drop, b.line_of(kv_rules.SHARD, drop))
    b.fence(kv_rules.JOURNAL, 100)
    kv_rules.want((b.live(kv_rules.SHARD).leave, b.whole.tell_life({})["leaving"]), ("", {}))


def three(kind):
    """A primary and two secondaries that have each write twice."""
    kind = type(kind.__name__, (kind,), {"wanted": 2})
    a, b = kv_rules.pair(kind, Cell.SECONDARY)
    c = kind(3, a.peers)
    kv_rules.restore(c, Cell.SECONDARY)
    kv_rules.push(a, "r1", "x")
    for _ in range(2):
        a.streams.keep_up()
    a.copied.tell()
    return a, b, c


class CountsTheGivenUp(Frame):
    """Says that it was settled with its source, whether it was or not."""
    def follow(self, line):
        return {**super().follow(line), "settled": 100}


def given_up_and_counted(kind):
    """Server b is given up, and lives on: what it has does not count."""
    a, b, c = three(kind)
    for server, cell in ((a, Cell.PRIMARY), (c, Cell.SECONDARY)):
        server.fence(kv_rules.JOURNAL, 100)
        kv_rules.want(server.settle(kv_rules.JOURNAL, 100, None, {kv_rules.SHARD: Slot(cell=cell, load=1)}), True)
    with kv_rules.lost(c, "follow"):
        kv_rules.want(kv_rules.push(a, "r2", "y"), Answer.NOT_YET)
    kv_rules.want((kv_rules.push(a, "r2", "y"), c.value(kv_rules.SHARD, "k")), ("xy", "xy"))


class CountsWhoLeaves(Frame):
    """Counts by what it was told in a round, though somebody has got leave meanwhile."""
    def __init__(self, number, peers):
        super().__init__(number, peers)
        self.streams.are_enough = lambda live, place, counting: counting[1] <= 1 + sum(it.has >= place for it in live.links.values())


def leave_amid_a_round(kind):
    """Server c has a write, and gets leave before b has answered, which does not."""
    a, b, c = three(kind)

    def hangs(_):
        kv_rules.want(kv_rules.answered(c, kv_rules.order(1, Call.DROP)), True)
        raise OSError("it does not answer")

    b.follow = hangs
    told = kv_rules.push(a, "r2", "y")
    kv_rules.want((told, c.slot(kv_rules.SHARD).cell), (Answer.NOT_YET, Cell.ABSENT))


def leave_behind_a_start(kind):
    """Behind a start who leaves has all that was acknowledged before, and the other one has not."""
    a, b, c = three(kind)
    with kv_rules.lost(b, "follow"):
        kv_rules.want(kv_rules.push(a, "r2", "y"), "xy")
        a.start()
        for _ in range(2):
            a.streams.keep_up()
        a.copied.tell()
        link = a.streams.link(a.live(kv_rules.SHARD), 2)
        link.has, link.settled = 1, 0
        kv_rules.want(kv_rules.answered(c, kv_rules.order(1, Call.DROP)), False)


SCHEDULES = (
    (CommitsFirst, kv_rules.crash_amid_copy), (KeepsTheRest, kv_rules.late_after_settle), (ForgetsRequests, kv_rules.repeat_after_handover),
    (AnswersAtOnce, kv_rules.crash_at_work), (KeepsWork, kv_rules.crash_and_repeat), (DeletesAtDrop, kv_rules.late_order),
    (ComesBackEmpty, kv_rules.lost_state),
    (KeepsItsNonce, kv_rules.given_up), (AcknowledgesAlone, kv_rules.lost_for_good), (ExecutesWhileForwarding, kv_rules.whole_handover),
    (ExecutesBeforeTheCut, passed_before_the_cut), (LosesWithoutAsking, lost_disk), (TakesNoneForLess, change_beside_a_new_disk),
    (TakesNoneForEmpty, change_beside_a_new_disk), (TakesNoneForEmpty, change_of_a_new_disk), (TakesNoneForEmpty, drop_of_a_new_disk),
    (TakesNoneForEmpty, drop_beside_a_new_disk), (TakesTheLonger, other_list), (TakesTheShorterForLess, other_list),
    (BeginsNoView, older_view), (ComparesPositions, later_view), (BeginsNoView, later_view), (ComparesPositions, leave_of_the_greater),
    (HearsOfTheCutFirst, empty_handover), (TakesTheLesser, follower_has_more), (DeletesWhatItReplaces, replaced_copy),
    (DeletesWhatItReplaces, copy_is_taken_away), (SetsAllAside, beginning_is_replaced),
    (TellsNoView, reopened_beside_an_older_view), (TakesTheViewFirst, view_before_its_beginning), (None, overtaken),
    (None, roles_change),
    (DropsWithoutLeave, dropped_by_leave), (CountsNoMore, leave_is_given_up), (TellsWhileItLeaves, leave_is_given_up), (None, leave_ends_at_a_fence),
    (None, primary_is_not_known), (GivesWhileItLeaves, both_leave), (CountsTheGivenUp, given_up_and_counted), (CountsWhoLeaves, leave_amid_a_round),
    (None, leave_behind_a_start))


class RulesTest(unittest.TestCase):
    """The eight rules of docs/YOUR-SERVERS.md at the frame."""

    def setUp(self):
        silence = mock.patch("sys.stderr")
        silence.start()
        self.addCleanup(silence.stop)

    def test_no_schedule_does_harm_at_the_frame(self):
        for _, schedule in SCHEDULES:
            with self.subTest(schedule.__name__):
                schedule(Frame)

    def test_a_write_waits_for_a_second_copy(self):
        a, b = kv_rules.pair(Twice, Cell.SECONDARY)
        with kv_rules.lost(b, "follow"):
            self.assertEqual(kv_rules.push(a, "r1", "x"), Answer.NOT_YET)
        self.assertEqual((kv_rules.push(a, "r1", "x"), b.value("s", "k")), ("x", "x"))

    def test_copies_are_told_once_they_are_there_and_again_behind_a_reopening(self):
        a, b = kv_rules.pair(Twice, Cell.SECONDARY)
        with kv_rules.lost(b, "follow"):
            kv_rules.push(a, "r1", "x")
            a.tell()
        self.assertEqual((a.lines, a.asked, b.value("s", "k")), ([], 0, ""))
        for _ in range(2):
            a.tell()
            b.tell()
        line = {"do": "copied", "journal": f"{kv_rules.JOURNAL:x}", "fence": 0, "shard": "s", "copies": 2}
        self.assertEqual((a.lines, b.lines, b.value("s", "k")), ([line], [], "x"))
        for server, cell in ((a, Cell.SECONDARY), (b, Cell.PRIMARY)):
            server.fence(kv_rules.JOURNAL, 100)
            server.tell()
            server.settle(kv_rules.JOURNAL, 100, None, {"s": Slot(cell=cell, load=1)})
        for _ in range(2):
            b.tell()
        self.assertEqual((a.lines, b.lines, a.asked, b.asked), ([line], [{**line, "fence": 100}], 1, 1))

    def test_copies_are_told_until_a_controller_knows_them(self):
        a, _ = kv_rules.pair(Twice, Cell.SECONDARY)
        found = []
        for a.state, a.said in (({"is": "reopening"}, {}), ({"fence": 9}, {}), ({"journal": "8"}, {}), ({}, {}), ({}, {"ignored": "old"}), ({}, {"copied": {}})):
            a.tell()
            found.append(len(a.lines))
        a.tell()
        self.assertEqual((found, len(a.lines), a.asked), ([0, 0, 0, 1, 2, 3], 3, 9))  # (both controllers are asked while none has the reopening in force)

    def test_copies_are_told_though_writes_go_on(self):
        a, b = kv_rules.pair(Twice, Cell.SECONDARY)
        a.state = {"is": "reopening"}
        a.tell()
        with kv_rules.lost(b, "follow"):
            kv_rules.push(a, "r1", "x")
            a.state, a.copied.recorded.until = {}, 0.0
            a.copied.tell()
        self.assertEqual((len(a.lines), b.value("s", "k")), (1, ""))

    def test_copies_that_are_known_are_not_told(self):
        """As behind a start, or once a reply was lost."""
        a, _ = kv_rules.pair(Twice, Cell.SECONDARY)
        a.known = {"s": 2}
        for _ in range(2):
            a.tell()
        a.start()
        a.tell()
        self.assertEqual((a.lines, a.asked), ([], 2))

    def test_one_question_is_for_all_shards_and_rests_ever_longer(self):
        server = Twice(1, {})
        recorded, times, now = server.copied.recorded, [], 0.0
        server.known, server.state = {f"s{it}": 1 + it % 2 for it in range(100)}, {"is": "reopening"}
        with mock.patch("smplan.server_copied.time.monotonic", lambda: now):
            for now in range(200):
                before = server.asked
                self.assertEqual(recorded.take(7, 0, {it: 2 for it in server.known}), [])
                times += [now] if server.asked > before else []
            self.assertEqual((times, server.asked), ([0, 1, 2, 4, 8, 16, 32, 62, 92, 122, 152, 182], 24))
            server.state, now = {}, 300
            self.assertEqual((len(recorded.take(7, 0, {it: 2 for it in server.known})), server.asked, len(server.lines)), (100, 25, 50))
            server.known["s0"], server.state = 1, {"is": "reopening"}
            self.assertEqual(recorded.take(7, 0, {"s0": 2}), [])
            server.state = {"fence": 5}
            self.assertEqual(recorded.take(7, 5, {"s0": 2}), ["s0"])  # (at once under another reopening)

    def test_a_controller_that_needs_long_is_asked_seldom(self):
        server, clock, asked = Twice(1, {}), [0.0], []
        call = server.call

        def slow(url, *words):
            if url.endswith("/ask"):
                clock[0] += 0.2
                asked.append(int(clock[0]))
            return call(url, *words)

        server.call = slow
        with mock.patch("smplan.server_copied.time.monotonic", lambda: clock[0]):
            for clock[0] in range(70):
                server.copied.recorded.take(7, 0, {"s": 2})
        self.assertEqual(asked, [0, 21, 42, 63])

    def test_a_silent_controller_holds_up_the_next_one_once(self):
        server, clock, silent = Twice(1, {}), [0.0], []
        call, server.state = server.call, {"is": "reopening"}

        def answer(url, line, seconds):
            if url.startswith("http://controller"):
                clock[0] += seconds
                silent.append(clock[0])
                raise OSError("timed out")
            return call(url, line, seconds)

        server.call = answer
        with mock.patch("smplan.server_copied.time.monotonic", lambda: clock[0]):
            self.assertEqual(server.copied.recorded.take(7, 0, {"s": 2}), [])
            clock[0], server.state = clock[0] + 1.0, {}
            self.assertEqual(server.copied.recorded.take(7, 0, {"s": 2}), ["s"])
        self.assertEqual((silent, clock, len(server.lines)), ([30.0], [31.0], 1))

    def test_copies_that_are_refused_are_told_once(self):
        a, _ = kv_rules.pair(Twice, Cell.SECONDARY)
        a.said = {"refused": {"kind": "AboveWant", "shard": "s", "want": 1}}
        with mock.patch("builtins.print") as told:
            for _ in range(2):
                a.tell()
        self.assertEqual((len(a.lines), "AboveWant" in told.call_args.args[0]), (1, True))

    def test_nobody_counts_by_fewer_copies_until_it_is_settled(self):
        class Once(Twice):
            wanted = 1

        a, b = kv_rules.pair(Twice, Cell.SECONDARY)
        a.tell()
        again = Once.__new__(Once)
        Server.__init__(again, a.name, a.service, a.storage, a.controllers, limits=FAST)
        again.pool, again.beside, again.call = Inline(), Inline(), a.call_peer
        self.assertEqual(again.kept(lambda it: it.counting()), (0, 2))
        with kv_rules.lost(b, "follow"):
            self.assertEqual(kv_rules.push(again, "r1", "x"), Answer.NOT_YET)
        self.assertEqual(kv_rules.push(again, "r1", "x"), "x")
        for server, cell in ((again, Cell.PRIMARY), (b, Cell.SECONDARY)):
            server.fence(kv_rules.JOURNAL, 100)
            self.assertEqual(server.kept(lambda it: it.counting()), (0, 2))
            server.settle(kv_rules.JOURNAL, 100, None, {"s": Slot(cell=cell, load=1)})
        self.assertEqual((again.kept(lambda it: it.counting()), b.kept(lambda it: it.counting())), ((100, 1), (100, 2)))
        b.kept(lambda it: it.put_settled(200, 1, False))  # (as by a restore)
        self.assertEqual(b.kept(lambda it: it.counting()), (200, 2))
        with kv_rules.lost(b, "follow"):
            self.assertEqual(kv_rules.push(again, "r2", "y"), "xy")

    def test_who_counts_by_fewer_copies_is_not_to_lead_next(self):
        def at(server, copies):
            server.kept(lambda it: it.tx.put("frame/settled", json.dumps([0, copies])))

        a, b = kv_rules.pair(Twice)
        at(b, 1)
        prepare_add, prepare_drop = kv_rules.HANDOVER[:2]
        self.assertFalse(kv_rules.answered(b, prepare_add))
        with self.assertRaisesRegex(NotYet, "v2 acknowledges what 1 servers have, and v1 only what 2 have: start v2 with --copies 2"):
            b.orders.prepare("s", prepare_add, b.line_of("s", prepare_add))
        at(b, 2)
        self.assertTrue(b.work("s", prepare_add))
        demotion, drop = kv_rules.order(8, Call.CHANGE, role=Role.PRIMARY, new_role=Role.SECONDARY), kv_rules.order(9, Call.DROP)
        for order in (prepare_drop, demotion, drop):
            at(b, 1)
            with self.assertRaisesRegex(NotYet, "start v2 with --copies 2"):
                a.orders.prepare("s", order, {**a.line_of("s", order), "replicas": ["v1", "v2"]})
        at(b, 2)
        self.assertTrue(kv_rules.answered(a, prepare_drop))

    def test_who_has_lost_its_copy_takes_none_from_one_that_counts_by_more(self):
        a, b = kv_rules.pair(Twice, Cell.SECONDARY)
        b.kept(lambda it: it.tx.put("frame/settled", "[0, 1]"))
        a.tell()
        self.assertEqual((a.lines, b.kept(lambda it: it.has_copy("s"))), ([], False))

    def test_a_write_is_at_one_server_at_least(self):
        with self.assertRaisesRegex(Failure, "--copies: a write is at one server at least"):
            Server("a", kv_http.Texts(), Sqlite(":memory:"), [], copies=0)
        for words in ("0", "-1", "x"):
            told = subprocess.run([sys.executable, ROOT / "examples/kv_http.py", f"--copies={words}", "a", "http://127.0.0.1:1", "/nowhere/store"], capture_output=True,
                                  text=True, check=False, timeout=60)
            self.assertEqual((told.returncode, f"argument --copies: {words}: a write is at one server at least" in told.stderr), (2, True), told.stderr)

    def test_leave_is_given_once_two_others_have_all(self):
        a, b = kv_rules.pair(Twice, Cell.SECONDARY)
        c = Twice(3, a.peers)
        kv_rules.restore(c, Cell.SECONDARY)
        drop = kv_rules.order(1, Call.DROP)
        with kv_rules.lost(c, "follow"):
            self.assertEqual((kv_rules.push(a, "r1", "x"), kv_rules.answered(b, drop)), ("x", False))
        for _ in range(2):
            a.streams.keep_up()
        self.assertFalse(b.work("s", drop))
        a.tell()
        self.assertEqual((b.work("s", drop), b.slot("s").cell, c.value("s", "k")), (True, Cell.ABSENT, "x"))

    def test_without_a_primary_two_others_give_leave(self):
        a, b = kv_rules.pair(Twice, Cell.SECONDARY)
        c = Twice(3, a.peers)
        kv_rules.restore(c, Cell.SECONDARY)
        a.streams.keep_up()
        self.assertEqual(kv_rules.push(a, "r1", "x"), "x")
        self.assertTrue(kv_rules.answered(a, kv_rules.order(1, Call.CHANGE, role=Role.PRIMARY, new_role=Role.SECONDARY)))
        drop = kv_rules.order(2, Call.DROP)
        with kv_rules.lost(c, "answer"):
            self.assertFalse(kv_rules.answered(b, drop))
        self.assertTrue(b.work("s", drop))
        self.assertFalse(kv_rules.answered(c, kv_rules.order(3, Call.DROP)))

    def test_identities_go_when_they_are_old(self):
        class Soon(Frame):
            times = replace(FAST, keeping=0.5)

        a, b = kv_rules.pair(Soon, Cell.SECONDARY)
        kv_rules.push(a, "r1", "x")
        self.assertEqual(kv_rules.push(a, "r1", "x"), "x")
        time.sleep(0.6)
        for request in ("r2", "r3"):
            kv_rules.push(a, request, "y")
        for it in (a, b):
            self.assertEqual(it.kept(lambda kept: [write.request for write in kept.kept("s")]), ["r2", "r3"])
        self.assertEqual(kv_rules.push(a, "r1", "x"), "xyyx")

    def test_a_server_that_was_given_up_forgets_and_keeps_its_data(self):
        a, _ = kv_rules.pair(Frame, Cell.SECONDARY)
        kv_rules.push(a, "r1", "x")
        a.kept(lambda it: it.tx.put("frame/new", "1"))
        again = Server(a.name, a.service, a.storage, [], is_new=True, forgets=True)
        with a.storage.transaction() as tx:
            it = Records(tx)
            self.assertEqual((it.base().known, it.slots(), it.is_new(), it.copies(), it.mark("s").position), (0, {}, False, ["s"], 1))
            nonce = it.base().nonce
        self.assertNotEqual(nonce, 0)
        line = {"journal": "7", "fence": 0, "base": 50, "nonce": f"{nonce:x}", "slots": [{"shard": "s", "cell": "secondary", "load": 1}]}
        self.assertEqual(again.answer("/fence", {"journal": "7", "base": 0}), {"said": "ignored"})
        self.assertEqual((again.answer("/restore", line), again.answer("/slots", {})["slots"][0]["position"]), ({"done": True}, 1))

    def test_a_slot_is_told_with_its_view_where_views_are_kept(self):
        a, b = kv_rules.pair(Frame, Cell.SECONDARY)
        told = {"shard": "s", "cell": "primary", "last": 0, "load": 1, "position": 0}
        self.assertEqual(told_of("s", a.slot("s"), NAMES, 0, False), told)
        self.assertEqual(told_of("s", a.slot("s"), NAMES, 4, False, 100), {**told, "position": 4, "view": 100})
        self.assertEqual(b.answer("/fence", {"journal": "7", "base": 100}), {"slots": [{**told, "cell": "secondary", "view": 0}]})
        b.settle(7, 100, None, {"s": Slot(cell=Cell.PRIMARY, load=1)})
        kv_rules.push(b, "r1", "x")
        self.assertEqual(b.answer("/fence", {"journal": "7", "base": 200}), {"slots": [{**told, "position": 1, "view": 100}]})
        for _ in range(2):
            b.settle(7, 200, None, {"s": Slot(cell=Cell.PRIMARY, load=1)})
        self.assertEqual(b.kept(lambda it: it.views("s")), [(100, 0)])

    def test_views_begin_with_changes_and_adds_and_not_with_handovers(self):
        a, b = kv_rules.pair(Frame, Cell.SECONDARY)
        c = Frame(3, a.peers)
        c.restore(7, 0, 0, c.base().nonce, {})
        kv_rules.push(a, "r1", "x")
        views = [(0, 0)]
        for server, roles, at in ((a, (Role.PRIMARY, Role.SECONDARY), 1), (b, (Role.SECONDARY, Role.PRIMARY), 2)):
            self.assertTrue(kv_rules.answered(server, kv_rules.order(at, Call.CHANGE, role=roles[0], new_role=roles[1])))
        kv_rules.push(b, "r2", "y")
        views.append((2, 1))
        for server, call in ((c, kv_rules.order(3, Call.PREPARE_ADD, 2)), (b, kv_rules.order(4, Call.PREPARE_DROP, 3)),
                             (c, kv_rules.order(5, Call.ADD, role=Role.PRIMARY)), (b, kv_rules.order(6, Call.DROP))):
            self.assertTrue(kv_rules.answered(server, call))
        self.assertEqual(kv_rules.push(c, "r3", "z"), "xyz")
        self.assertEqual([it.kept(lambda kept: kept.views("s")) for it in (a, c)], 2 * [views])
        for server in (a, c):
            self.assertTrue(kv_rules.answered(server, kv_rules.order(7, Call.DROP)))
        self.assertTrue(kv_rules.answered(b, kv_rules.order(8, Call.ADD, role=Role.PRIMARY)))
        self.assertEqual(b.kept(lambda it: (it.views("s"), it.mark("s").position)), ([(8, 0)], 0))

    def test_a_store_of_before_there_were_views_is_of_view_0(self):
        a, b = kv_rules.pair(Frame, Cell.SECONDARY)
        kv_rules.push(a, "r1", "x")
        for it in (a, b):
            it.kept(lambda kept: [kept.tx.delete(key) for key, _ in kept.tx.list("frame/views/")])
        self.assertEqual([it.kept(lambda kept: kept.mark("s").copy) for it in (a, b)], 2 * [(0, 1)])
        self.assertEqual((kv_rules.push(a, "r2", "y"), b.value("s", "k")), ("xy", "xy"))

    def test_the_command_line_has_new_or_forget(self):
        for words, wanted in (((), (False, False)), (("--new",), (True, False)), (("--forget",), (False, True))):
            with mock.patch("smplan.server.run") as run, mock.patch.object(sys, "argv", ["kv", "a", "http://x", ":memory:", *words]):
                main(kv_http.Texts(), "")
            self.assertEqual((run.call_args.kwargs["is_new"], run.call_args.kwargs["forgets"]), wanted)
        with mock.patch.object(sys, "argv", ["kv", "a", "http://x", ":memory:", "--new", "--forget"]), self.assertRaises(SystemExit):
            main(kv_http.Texts(), "")

    def test_messages_to_another_server_are_refused(self):
        a, _ = kv_rules.pair(Frame, Cell.SECONDARY)
        line = {"server": "v2", "shard": "s", "journal": "7", "fence": 9, "base": 9, "nonce": "1", "slots": [], "number": 1, "call": "drop", "load": 1, "room": 9}
        for path in ("/order", "/fence", "/settle", "/restore", "/notice"):
            with self.assertRaisesRegex(ValueError, "it is v1, and not v2"):
                a.answer(path, line)
        self.assertEqual((a.base().known, a.base().fenced, a.slot("s").at_work), (1, 0, 0))
        self.assertIn("slots", a.answer("/fence", {**line, "server": "v1"}))

    def test_each_planted_bug_does_harm(self):
        for kind, schedule in SCHEDULES:
            if kind is not None:
                with self.subTest(kind.__name__), self.assertRaises(AssertionError):
                    schedule(kind)
