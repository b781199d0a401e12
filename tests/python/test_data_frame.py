"""What becomes of acknowledged writes: servers of the frame (python/smplan/server.py) in one process, whose orders, fences and settles smpland gives (or
its reference, if that is not built). A schedule that a rule keeps from harm does harm at servers that break it."""
import json
import subprocess
import sys
import unittest
from contextlib import nullcontext
from dataclasses import astuple
from unittest import mock

import kv_http
from smplan.control_agent import order_of
from smplan.server import Server, Sqlite
from smplan.server_offers import Told
from smplan.server_orders import NotYet
from smplan.server_records import Mark

from server_fleet import ROOT, SMPLAND
from test_server_frame import FAST, NAMES, Frame, Inline

JOURNAL = "9f2c"
BY_NAME = {name: number for number, name in NAMES.items()}


class Member(Frame):
    """A server of the frame, over a store that outlasts it."""

    def __init__(self, number, peers, copies, storage=None, is_new=True):  # pylint: disable=super-init-not-called
        self.peers, self.db, self.why = peers, nullcontext(), ""
        peers[number] = self
        store = storage or Sqlite(":memory:")
        Server.__init__(self, NAMES[number], kv_http.Texts(), store, ["http://leader"], is_new=is_new, limits=FAST, copies=copies)
        self.pool, self.beside, self.call = Inline(), Inline(), self.call_peer
        self.learn({name: {"number": at, "url": f"http://{name}"} for at, name in NAMES.items()})

    def tell(self, say):
        """Has followers have all, and tells the controller of the copies. What that has replied."""
        self.streams.keep_up()
        self.streams.keep_up()
        said = []

        def call(url, line, seconds):
            if not url.startswith("http://leader"):
                return self.call_peer(url, line, seconds)
            said.append(say(line))
            return said[-1]

        self.copied.recorded.until = 0.0
        with mock.patch.object(self, "call", call):
            self.copied.tell()
        return said[-1] if said else None

    def do(self, line):
        """Begins an order, and does its work. Whether it is done; if not, `why` says why."""
        self.know(line)
        shard, order = line["shard"], order_of(line, self.numbers)
        self.heed(order.journal, order.fence)
        self.orders.begin(shard, order)
        try:
            self.orders.commit(shard, order, self.orders.prepare(shard, order, line))
        except (NotYet, OSError) as why:
            self.orders.end(shard, order)
            self.why = str(why)
            return False
        return self.orders.done(shard, order, line) == {"done": True}


class Service:
    """A controller, and servers that count by 2: v1 is primary of the shard, v2 and v3 are secondaries, v4 has nothing. `peers` are those that hear
    anything."""

    def __init__(self, test, kind=Member, cap=2):
        words = [SMPLAND, "-"] if SMPLAND.exists() else [sys.executable, ROOT / "tools/smpland_model.py", "-"]
        self.process = subprocess.Popen(words, stdin=subprocess.PIPE, stdout=subprocess.PIPE, text=True)
        test.addCleanup(self.end)
        silence = mock.patch("sys.stderr")
        silence.start()
        test.addCleanup(silence.stop)
        self.kind, self.cap, self.peers, self.servers, self.permits = kind, cap, {}, {}, {}
        cells = [{"server": it, "state": "primary" if it == "v1" else "secondary"} for it in ("v1", "v2", "v3")]
        self.say({"do": "open", "document": self.document(BY_NAME, cells), "journal": JOURNAL, "epoch": 0})
        for name, number in BY_NAME.items():
            self.servers[name] = kind(number, self.peers, 2)
            self.restore(name)

    def end(self):
        self.process.stdin.close()
        self.process.wait(20)
        self.process.stdout.close()

    def say(self, line):
        """The reply to a line."""
        self.process.stdin.write(json.dumps(line) + "\n")
        self.process.stdin.flush()
        return json.loads(self.process.stdout.readline())

    def document(self, names, cells=()):
        shard = {"name": "s", "load": 1, "want": 3, "cap": self.cap, "spread": 1, "cells": cells, **({"listed": "v1"} if cells else {})}
        return {"limit": 2, "servers": [{"name": it, "region": "r", "room": 9} for it in names], "shards": [shard]}

    # -- servers

    def restore(self, name):
        """What a server answers to the slots for which it asks."""
        server = self.servers[name]
        told = self.say({"do": "restore", "server": name, "nonce": f"{server.base().nonce:x}"})
        return server.answer("/restore", told["restore"]) if "restore" in told else told

    def go_down(self, name):
        """A server goes down by leave."""
        self.permits[name] = self.say({"do": "approve", "server": name, "by": f"by-{name}"})["approved"]["permit"]
        self.silence(name)

    def silence(self, *names):
        """Nobody hears servers, and they hear nobody."""
        for name in names:
            del self.peers[BY_NAME[name]]

    def hear(self, *names):
        """Servers are heard again."""
        self.peers.update({BY_NAME[name]: self.servers[name] for name in names})

    def start(self, name, copies, storage=None):
        """A server starts, with its store, or with another one."""
        self.servers[name] = self.kind(BY_NAME[name], self.peers, copies, storage or self.servers[name].storage, is_new=False)

    def notice(self, name):
        """A server hears of the last reopening, asks for its slots, and is up again."""
        self.servers[name].answer("/notice", next(it for it in self.say({"do": "orders"})["notice"] if it["server"] == name))
        assert self.restore(name) == {"done": True}
        if name in self.permits:
            base = self.servers[name].answer("/base", {})["base"]
            assert self.say({"do": "restarted", "permit": self.permits[name], "base": base}) == {"up": name}

    def push(self, name, text):
        told = self.servers[name].answer("/request", {"shard": "s", "request": f"r-{text}", "command": ["append", "k", text]})
        return told.get("reply", told.get("said"))

    def tell_copies(self):
        """What the controller says to the primary's line."""
        return self.servers["v1"].tell(self.say)

    def counting(self, name):
        """The last reopening of which a server has taken slots, and how many servers have what it acknowledges."""
        return self.servers[name].kept(lambda it: it.counting())

    # -- orders and reopenings

    def begin(self, plan, name):
        """The first orders of a plan."""
        return self.say({"do": "begin", "plan": plan, "name": name})["orders"]

    def go(self, orders):
        """Does orders, and those that follow, until one is not done. Which are left."""
        left = list(orders)
        while left:
            line = left.pop(0)
            if line["server"] is not None and not self.servers[line["server"]].do(line):
                return [line, *left]
            left += self.say({"do": "answered", "plan": line["plan"], "stream": line["stream"], "number": line["number"]})["orders"]
        return []

    def fence(self, names, *lost):
        """What is said to a reopening that gives servers up, and asks each other one that is heard."""
        for name in lost:
            self.peers.pop(BY_NAME[name], None)
        base = self.say({"do": "reopen", "document": self.document(names), "lost": list(lost)})["fence"][0]["base"]
        said = self.say({"do": "fenced", "server": None, "base": base})
        for name in names:
            if BY_NAME[name] in self.peers:
                told = self.servers[name].answer("/fence", {"server": name, "journal": JOURNAL, "base": base})
                said = self.say({"do": "fenced", "server": name, "base": base, **told})
        return said

    def reopen(self, names, *lost):
        """What a reopening proposes."""
        return self.fence(names, *lost)["proposal"]

    def confirm(self, proposal):
        """What each server is to take, by its name; the map's owner has done so."""
        base = proposal["base"]
        lines = {it["server"]: it for it in self.say({"do": "confirm", "base": base, "lost": proposal["lost"]})["settle"]}
        if lines.pop(None, None):
            self.say({"do": "settled", "server": None, "base": base})
        return lines

    def settle(self, proposal):
        """The proposal is confirmed, and each server takes its part."""
        for name, line in self.confirm(proposal).items():
            assert self.servers[name].answer("/settle", line) == {"done": True}
            self.say({"do": "settled", "server": name, "base": proposal["base"]})

    def want_kept(self, test, text, *lost):
        """Servers are lost for good: a text that was acknowledged is at another one, or a reopening names the shard."""
        proposal = self.reopen([it for it in BY_NAME if it not in lost], *lost)
        kept = {name: it.value("s", "k") for name, it in self.servers.items() if name not in lost}
        if not proposal["lost"]:
            test.assertIn(text, kept.values(), f"{text!r} was acknowledged, {lost} are lost, and {proposal} names nothing")


def plan(step, cells=(), crowns=()):
    """A plan of a step with the map's, which it needs these rights for."""
    publication = {"do": "publish" if step.get("to") == "primary" else "unlist", "shard": "s"}
    code = [step, publication] if step.get("to") == "primary" else [publication, step]
    holds = {"cells": list(cells), "crowns": list(crowns), "room": [], "spare": []}
    return {"budget": 1, "format": 1, "signals": [], "streams": [{"budget": 1, "code": code, "holds": holds}]}


DEMOTE = plan({"do": "change", "shard": "s", "server": "v1", "to": "secondary"}, crowns=[{"lead": "at", "listed": "v1", "server": "v1", "shard": "s"}])
PROMOTE = plan({"do": "change", "shard": "s", "server": "v2", "to": "primary"}, [{"server": "v2", "shard": "s", "state": "secondary"}],
               [{"lead": "gone", "listed": None, "shard": "s"}])


class FallsAtARestore(Member):
    """Counts by fewer copies once it has taken slots of a later reopening, by a restore, too."""

    def answer(self, path, line):
        told = super().answer(path, line)
        if path == "/restore":
            self.kept(lambda it: it.tx.put("frame/settled", json.dumps([it.counting()[0], self.copies])))
        return told


class TakesAnyOffer(Member):
    """Takes an offer that it has not asked for, too, if it has no copy."""

    def follow(self, line):
        self.kept(lambda it: self.offers.take(it, line["shard"], {**line, "asked": self.whole.life}))
        return super().follow(line)


class FewerCopiesTest(unittest.TestCase):
    """N falls by a settle alone: each is taken before its reopening is in force, and so before anybody looks who may lead next."""

    def lead_next(self, kind):
        """v2 is down at a reopening, which carries it over, and starts to count by 1. v1 tells of two copies, and is a secondary. Then v2 takes its
        slots, and leads. If it acknowledges a write alone, it is lost. What it has answered."""
        it = Service(self, kind, cap=1)
        self.assertEqual(it.push("v1", "x"), "x")
        it.go_down("v2")
        it.settle(it.reopen(BY_NAME))
        it.start("v2", 1)
        self.assertEqual(it.tell_copies(), {"copied": {"shard": "s", "copies": 2}})
        self.assertEqual(it.go(it.begin(DEMOTE, "demote")), [])
        it.notice("v2")
        self.assertEqual(it.go(it.begin(PROMOTE, "promote")), [])
        it.silence("v1", "v3")
        said = it.push("v2", "y")
        it.hear("v1", "v3")
        if said == "xy":
            it.want_kept(self, "xy", "v2")
        return it, said

    def test_nobody_counts_by_fewer_copies_once_it_is_restored(self):
        it, said = self.lead_next(Member)
        self.assertEqual((said, it.counting("v2")[1]), ("not_yet", 2))
        it.settle(it.reopen(BY_NAME))
        self.assertEqual([it.counting(name)[1] for name in ("v1", "v2")], [2, 1])
        with self.assertRaisesRegex(AssertionError, "'xy' was acknowledged"):
            self.lead_next(FallsAtARestore)

    def test_no_settle_is_taken_behind_its_reopening(self):
        it = Service(self)
        it.go_down("v2")
        it.start("v2", 1)
        late = it.confirm(it.reopen(BY_NAME))["v2"]
        it.silence("v2")
        self.assertEqual(it.fence(BY_NAME), {"waiting": ["v2"]})
        it.hear("v2")
        it.settle(it.reopen(BY_NAME))
        settled = it.counting("v2")
        self.assertEqual((it.servers["v2"].answer("/settle", late), it.counting("v2")), ({"said": "ignored"}, settled))


class LateOfferTest(unittest.TestCase):
    """A server with a new disk takes nothing that was sent before: that may lack what the lost copy was counted for."""

    def new_disk(self, kind):
        """An offer to v2 is on its way. v2 has the next write, and gets a new disk; v3 lags."""
        it = Service(self, kind)
        self.assertEqual(it.push("v1", "x"), "x")
        v1 = it.servers["v1"]
        late = json.loads(json.dumps(v1.kept(lambda kept: v1.offers.offer(kept, "s", Mark()))))
        with mock.patch.object(it.servers["v3"], "follow", lambda line: {"later": "it lags"}):
            self.assertEqual(it.push("v1", "y"), "xy")
            self.assertEqual(it.tell_copies(), {"copied": {"shard": "s", "copies": 2}})
        it.start("v2", 2, Sqlite(":memory:"))
        self.assertEqual((it.restore("v2"), it.servers["v2"].kept(lambda kept: kept.has_copy("s"))), ({"done": True}, False))
        return it, late

    def test_a_late_offer_is_not_taken_for_a_whole_copy(self):
        def lose(it, late):
            it.silence("v1")
            self.assertIn("later" if it.kind == Member else "has", it.servers["v2"].follow(late))
            it.want_kept(self, "xy", "v1")

        lose(*self.new_disk(Member))
        with self.assertRaisesRegex(AssertionError, "'xy' was acknowledged"):
            lose(*self.new_disk(TakesAnyOffer))

    def test_who_hears_a_source_copies_anew_what_that_has_now(self):
        it, late = self.new_disk(Member)
        v1, v2 = it.servers["v1"], it.servers["v2"]
        self.assertEqual(v2.follow(late), {"lacks": astuple(v1.kept(lambda kept: kept.mark("s")))})
        self.assertEqual((v2.value("s", "k"), v1.streams.push("s", 2, 2)), ("xy", Told.HAS))

    def test_an_answer_of_before_new_slots_is_not_taken(self):
        it, late = self.new_disk(Member)
        v1, v2 = it.servers["v1"], it.servers["v2"]
        given = v1.offers.given

        def begins_anew(line):
            v2.whole.life += 1
            return given(line)

        with mock.patch.dict(v1.routes, {"/peer/copy": begins_anew}):
            self.assertEqual(list(v2.follow(late)), ["later"])
        self.assertFalse(v2.kept(lambda kept: kept.has_copy("s")))

    def test_one_copy_is_asked_for_at_once(self):
        it, late = self.new_disk(Member)
        with it.servers["v2"].live("s").copying:
            self.assertEqual(it.servers["v2"].follow(late), {"later": "it copies"})
        self.assertIn("lacks", it.servers["v2"].follow(late))

    def test_who_counts_by_fewer_copies_asks_for_none(self):
        it, late = self.new_disk(Member)
        v2 = it.servers["v2"]
        v2.kept(lambda kept: kept.tx.put("frame/settled", json.dumps([0, 1])))
        with self.assertRaisesRegex(OSError, "start v2 with --copies 2"):
            v2.offers.catch_up("s", 1)
        self.assertEqual((list(v2.follow(late)), v2.kept(lambda kept: kept.has_copy("s"))), (["later"], False))


if __name__ == "__main__":
    unittest.main()
