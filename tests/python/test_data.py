"""What becomes of acknowledged writes: servers of examples/kv_server.py, whose orders, fences and settles smpland gives (or its reference, if that is not
built)."""
import json
import subprocess
import sys
import unittest

from kv_server import Server
from smplan.agent import Answer, Cell, Request
from smplan.control_agent import assignment_of, order_of, slots_of, told_of

from server_fleet import ROOT, SMPLAND, handover, primary_of

NUMBERS = {"a": 1, "b": 2, "c": 3, "d": 4}
NAMES = {number: name for name, number in NUMBERS.items()}
JOURNAL = 0x9f2c


class Service:
    """A controller, and servers: a is primary of the shard, b and c are secondaries, d has nothing. `peers` are those that hear anything."""

    def __init__(self, test, copies=1):
        words = [SMPLAND, "-"] if SMPLAND.exists() else [sys.executable, ROOT / "tools/smpland_model.py", "-"]
        self.process = subprocess.Popen(words, stdin=subprocess.PIPE, stdout=subprocess.PIPE, text=True)
        test.addCleanup(self.end)
        self.peers, self.servers, self.permits = {}, {}, {}
        cells = [{"server": it, "state": "primary" if it == "a" else "secondary"} for it in "abc"]
        self.say({"do": "open", "document": self.document("abcd", cells), "journal": f"{JOURNAL:x}", "epoch": 0})
        for name in NUMBERS:
            self.servers[name] = Server(NUMBERS[name], self.peers, copies=copies)
            self.restore(name)

    def end(self):
        self.process.stdin.close()
        self.process.wait(20)
        self.process.stdout.close()

    def say(self, line):
        """The reply to a line."""
        self.process.stdin.write(json.dumps(line) + "\n")
        self.process.stdin.flush()
        return json.loads(self.process.stdout.readline())

    def document(self, names, cells=()):
        shard = {"name": "s", "load": 1, "want": 3, "cap": 2, "spread": 1, "cells": cells, **({"listed": "a"} if cells else {})}
        return {"limit": 2, "servers": [{"name": it, "region": "r", "room": 9} for it in names], "shards": [shard]}

    # -- servers

    def restore(self, name):
        """Whether a server takes the slots for which it asks."""
        it = self.servers[name]
        told = self.say({"do": "restore", "server": name, "nonce": f"{it.base().nonce:x}"})["restore"]
        return it.restore(JOURNAL, told["fence"], told["base"], it.base().nonce, slots_of(told, NUMBERS))

    def replace_disk(self, name):
        """A server begins anew with an empty disk."""
        self.servers[name] = Server(NUMBERS[name], self.peers, is_new=False)

    def go_down(self, name):
        """A server goes down by leave."""
        self.permits[name] = self.say({"do": "approve", "server": name, "by": f"by-{name}"})["approved"]["permit"]
        del self.peers[NUMBERS[name]]

    def come_up(self, name):
        """A server is up again, as smpland says at once, and has followed nobody yet."""
        self.peers[NUMBERS[name]] = self.servers[name]
        return self.say({"do": "restarted", "permit": self.permits[name], "base": self.servers[name].base().number})

    def push(self, name, text, how=Request()):
        return self.servers[name].request("s", f"r-{text}", ("append", "k", text), how)

    def read(self, name):
        return self.servers[name].request("s", None, ("get", "k"))

    def tell_copies(self):
        """What the controller says to the primary's line."""
        return self.say(self.servers["a"].tell_copies("s"))

    # -- orders and reopenings

    def move(self, orders, steps):
        """As many orders are done, one behind the other."""
        for _ in range(steps):
            line, = orders
            order, it = order_of(line, NUMBERS), self.servers[line["server"]]
            it.order("s", order, NUMBERS.get(line["primary"], 0), {NUMBERS[at] for at in line["replicas"]})
            assert it.work("s", order)
            orders = self.say({"do": "answered", "plan": line["plan"], "stream": line["stream"], "number": line["number"]})["orders"]

    def told(self, name, base):
        """What a server answers to a fence."""
        found = self.servers[name].fence(JOURNAL, base)
        if isinstance(found, int):
            return {"unknown": f"{found:x}"}
        slots = [told_of(shard, slot, NAMES, mark.position, reached, mark.view) for shard, (slot, reached, mark) in found.items()]
        return {"slots": [it for it in slots if it["cell"] != "absent"]}

    def reopen(self, names, *lost):
        """What a reopening proposes that gives servers up, and asks each other one that is there."""
        for name in lost:
            self.peers.pop(NUMBERS[name], None)
        base = self.say({"do": "reopen", "document": self.document(names), "lost": lost})["fence"][0]["base"]
        said = self.say({"do": "fenced", "server": None, "base": base})
        for name in names:
            if NUMBERS[name] in self.peers:
                said = self.say({"do": "fenced", "server": name, "base": base, **self.told(name, base)})
        return said["proposal"]

    def settle(self, proposal):
        """The proposal is confirmed, and each server takes its part."""
        base = proposal["base"]
        for line in self.say({"do": "confirm", "base": base, "lost": proposal["lost"]})["settle"]:
            if line["server"] is not None:
                part = assignment_of(line)
                assert self.servers[line["server"]].settle(part.journal, part.number, part.nonce, slots_of(line, NUMBERS))
            self.say({"do": "settled", "server": line["server"], "base": base})


def plan(code, **rights):
    """A plan of one stream."""
    holds = {"cells": [], "crowns": [], "room": [], "spare": [], **rights}
    return {"budget": 1, "format": 1, "signals": [], "streams": [{"budget": 1, "code": code, "holds": holds}]}


class LossesTest(unittest.TestCase):
    """What was acknowledged is there, or a name says that it may not be."""

    def test_a_primary_with_a_new_disk_is_not_restored(self):
        for copies, lost in ((1, ["s"]), (2, [])):
            it = Service(self, copies)
            self.assertEqual(it.push("a", "x"), "x")
            if copies > 1:
                self.assertEqual(it.tell_copies(), {"copied": {"shard": "s", "copies": 2}})
            it.replace_disk("a")
            self.assertEqual((it.restore("a"), it.read("a")), (False, Answer.NOT_HERE))
            proposal = it.reopen("bcd", "a")
            self.assertEqual((proposal["lost"], primary_of(proposal)), (lost, "b"))
            it.settle(proposal)
            self.assertEqual(it.read("b"), "x")

    def test_a_stale_secondary_is_chosen_with_a_name_alone(self):
        for copies in (1, 2):
            for is_back in (False, True):
                it = Service(self, copies)
                it.push("a", "x")
                it.go_down("b")
                self.assertEqual(it.push("a", "y"), "xy")
                if copies > 1:
                    it.tell_copies()
                self.assertEqual(it.come_up("b"), {"up": "b"})
                it.go_down("c")
                if is_back:
                    it.peers[NUMBERS["c"]] = it.servers["c"]
                proposal = it.reopen("bcd", "a")
                self.assertEqual((proposal["lost"], primary_of(proposal)), ([] if copies > 1 and is_back else ["s"], "c" if is_back else "b"))
                it.settle(proposal)
                self.assertEqual(it.servers["c" if is_back else "b"].value("s", "k"), "xy" if is_back else "x")

    def test_who_was_carried_over_counts_by_as_many_once_it_is_restored(self):
        """It tells the primary that is dropped the number of before the reopening, takes its slots, and leads."""
        it = Service(self, 2)
        a, b, c = (it.servers[name] for name in "abc")
        self.assertEqual(it.push("a", "x"), "x")
        it.go_down("b")
        it.settle(it.reopen("abcd"))
        self.assertEqual(it.tell_copies(), {"copied": {"shard": "s", "copies": 2}})
        b.given, it.peers[2] = 1, b
        b.start()
        lead, spare = {"lead": "at", "listed": "a", "server": "a", "shard": "s"}, {"shard": "s", "amount": 1}
        steps = [{"do": "unlist", "shard": "s"}, {"do": "drop", "shard": "s", "server": "a"}]
        line, = it.say({"do": "begin", "plan": plan(steps, crowns=[lead], spare=[spare]), "name": "drop"})["orders"]  # (the map's owner unlists it)
        it.move(it.say({"do": "answered", "plan": line["plan"], "stream": line["stream"], "number": line["number"]})["orders"], 1)
        with b.db:
            b.heed(JOURNAL, it.say({"do": "orders"})["notice"][0]["fence"])
        self.assertEqual((it.restore("b"), it.come_up("b")), (True, {"up": "b"}))
        lead, cell = {"lead": "gone", "listed": None, "shard": "s"}, {"server": "b", "shard": "s", "state": "secondary"}
        steps = [{"do": "change", "shard": "s", "server": "b", "to": "primary"}]
        it.move(it.say({"do": "begin", "plan": plan(steps, cells=[cell], crowns=[lead]), "name": "promote"})["orders"], 1)
        del it.peers[3]
        said = it.push("b", "y")
        it.peers[3] = c
        self.assertEqual((said, it.push("b", "y"), c.value("s", "k")), (Answer.NOT_YET, "xy", "xy"))

    def test_what_a_settle_does_not_bring_serves_nobody(self):
        it = Service(self)
        self.assertEqual(it.push("a", "x"), "x")
        orders = it.say({"do": "begin", "plan": handover("s", 1, "a", "d"), "name": "move"})["orders"]
        it.servers["d"].seal = lambda *words: None  # (the message is lost)
        it.move(orders, 2)
        late = Request(handover=it.servers["a"].slot("s").handover, cut=it.servers["a"].slot("s").cut, party=1, is_passed=1)
        it.settle(it.reopen("abcd"))
        self.assertEqual((it.push("a", "y"), it.push("d", "z", late)), ("xy", Answer.NOT_HERE))
        self.assertEqual((it.read("a"), it.servers["c"].value("s", "k"), it.servers["d"].slot("s").cell), ("xy", "xy", Cell.ABSENT))
        place = it.say({"do": "hello"})["hello"]["place"]
        for name, server in it.servers.items():
            slots = [told_of("s", server.slot("s"), NAMES, 0, False)] if server.slot("s").cell != Cell.ABSENT else []
            self.assertEqual(it.say({"do": "audit", "server": name, "place": place, "slots": slots}), {"audit": {"server": name, "is": "agrees"}})


if __name__ == "__main__":
    unittest.main()
