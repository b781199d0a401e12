"""Campaigns over the model of smpland, whose orders are answered at once whenever a campaign rests."""
import asyncio
import json
import subprocess
import sys
import tempfile
import unittest

from fixtures import ROOT, example, load
from smplan import control_commands
from smplan.control_campaign import Campaign, document_of_state, fleet_of_state, save
from smplan.control_drain import is_for_several
from smplan.control_http import Page, serve
from smplan.control_leader import Refused
from smplan.control_restart import Restarts, led_as_before, placement_before, unserved
from smplan.control_rolling import in_turn, roll
from smplan.failure import Failure
from smplan.fleet import Fleet
from smplan.model import document_of
from smplan.planning import servers_in, wanted_as_in
from smplan.reach import Limits
from smplan.targets import Wanted, demote, drain, scale

MODEL = [sys.executable, str(ROOT / "tools" / "smpland_model.py"), "-"]


class Service:
    """A session, and servers that do at once what they are told whenever somebody waits."""

    def __init__(self, document):
        self.process = subprocess.Popen(MODEL, stdin=subprocess.PIPE, stdout=subprocess.PIPE)
        self.is_slow, self.rests, self.begun, self.led = False, [], [], []
        for server in self.do({"do": "open", "document": document, "journal": "9f2c", "epoch": 0})["opened"]["restore"]:
            self.do({"do": "restore", "server": server, "nonce": "1"})

    def ask(self, line):
        self.process.stdin.write(json.dumps(line).encode() + b"\n")
        self.process.stdin.flush()
        return json.loads(self.process.stdout.readline())

    def do(self, line):
        reply = self.ask(line)
        if "refused" in reply or "bad" in reply:
            raise Refused(reply)
        self.begun += [line["name"]] if line["do"] == "begin" else []
        self.led += [unserved(self.state(), line["server"])] if "approved" in reply else []
        return reply

    def state(self):
        return self.ask({"do": "state"})["state"]

    def sleep(self, seconds):
        self.rests.append(seconds)
        for order in [] if self.is_slow else self.ask({"do": "orders"})["orders"]:
            self.ask({"do": "answered", **{it: order[it] for it in ("plan", "stream", "number")}})

    def post(self, path, line=None):
        """Ends a restart, whose server is up at once. (The model takes the base of the last order.)"""
        assert path == "/restarted", path
        return self.ask({"do": "restarted", "base": 0, **line})

    def close(self):
        self.process.stdin.close()
        self.process.stdout.close()
        self.process.wait()


def cells_of(state):
    return {it["shard"]: sorted((cell["server"], cell["state"]) for cell in it["cells"]) for it in state["shards"]}


def fleet_document(count=6):
    """Six servers in three regions, and shards of three replicas."""
    servers = [{"name": f"v{it}", "region": f"r{it % 3}", "room": 100} for it in range(6)]
    shards = []
    for number in range(count):
        holders = [f"v{(number + it) % 6}" for it in range(3)]
        cells = [{"server": it, "state": "secondary" if at else "primary"} for at, it in enumerate(holders)]
        shards.append({"name": f"s{number}", "load": 10, "want": 3, "cap": 1, "spread": 3, "listed": holders[0], "cells": cells})
    return {"limit": 1, "servers": servers, "shards": shards}


class Campaigns(unittest.TestCase):
    def service(self, document):
        service = Service(document)
        self.addCleanup(service.close)
        return service

    def campaign(self, service, choice, **more):
        self.told = []
        limits = Limits(streams=32, at_server=2, blocks=more.pop("blocks", 64))
        return Campaign(service, "test", choice, limits, tell=self.told.append, **more)

    def test_servers_are_drained_and_all_is_taken_back(self):
        document = fleet_document()
        service = self.service(document)
        before = cells_of(service.state())
        self.assertEqual(0, self.campaign(service, lambda fleet: drain(fleet, servers_in(fleet, ["v0", "v1"])), known=document).run(), self.told)
        after = cells_of(service.state())
        self.assertFalse([it for cells in after.values() for it in cells if it[0] in ("v0", "v1")])
        self.assertEqual(2, len(service.begun))  # (a plan copies 1 % of the load, or four shards)
        self.assertIn("6 replicas to copy, load 60, 33.33 % of all", self.told[0])
        self.assertEqual(0, self.campaign(service, lambda fleet: wanted_as_in(fleet, Fleet(document_of(document)))).run(), self.told)
        self.assertEqual(before, cells_of(service.state()))

    def test_half_a_campaign_is_taken_back(self):
        document = fleet_document()
        service = self.service(document)
        before = cells_of(service.state())
        campaign = self.campaign(service, lambda fleet: drain(fleet, {0, 1}), pause=7.0)
        sleep = service.sleep

        def stopping(seconds):
            campaign.is_stopped = campaign.is_stopped or seconds == 7.0
            sleep(seconds)
        service.sleep = stopping
        self.assertEqual(1, campaign.run())
        self.assertEqual((1, "stopped after 1 plan"), (len(service.begun), self.told[-1]))
        service.sleep = sleep
        self.assertNotEqual(before, cells_of(service.state()))
        self.assertEqual(0, self.campaign(service, lambda fleet: wanted_as_in(fleet, Fleet(document_of(document)))).run(), self.told)
        self.assertEqual(before, cells_of(service.state()))

    def test_leaders_leave_without_a_copy(self):
        service = self.service(fleet_document())
        self.assertEqual(0, self.campaign(service, lambda fleet: demote(fleet, {0, 3})).run())
        self.assertFalse([it for cells in cells_of(service.state()).values() for it in cells if it in (("v0", "primary"), ("v3", "primary"))])
        self.assertEqual(1, len(service.begun))
        self.assertIn("0 replicas to copy", self.told[0])
        self.assertEqual("for one call each nobody is the primary of s0, s3", self.told[1])
        self.assertIn("the primary of s0, s3 changes by two roles", self.told[2])

    def test_shards_of_running_plans_wait(self):
        service = self.service(fleet_document(3))
        fleet = fleet_of_state(service.state(), None)
        wanted = demote(fleet, {0})
        other = self.campaign(service, lambda _: wanted)
        other.choose(True)
        leg = next(other.reach(fleet, set()).legs())
        service.do({"do": "begin", "plan": leg.streams.plan(), "name": "other"})
        service.is_slow = True
        waits = []

        def waiting(seconds):
            waits.append(seconds)
            service.is_slow = len(waits) < 3
            Service.sleep(service, seconds)
        service.sleep = waiting
        self.assertEqual(0, self.campaign(service, lambda it: drain(it, {0, 1})).run(), self.told)
        self.assertFalse([it for cells in cells_of(service.state()).values() for it in cells if it[0] in ("v0", "v1")])

    def test_what_others_move_meanwhile_is_not_moved_back(self):
        service = self.service(fleet_document())
        campaign = self.campaign(service, lambda fleet: demote(fleet, {0}))
        other = self.campaign(service, lambda fleet: drain(fleet, {1}))
        whole, chosen = campaign.choose, []

        def choose(is_first):
            whole(is_first)
            if not chosen:
                chosen.append(dict(campaign.wishes))
                self.assertEqual(0, other.run())
        campaign.choose = choose
        self.assertEqual(0, campaign.run(), self.told)
        cells = cells_of(service.state())
        self.assertFalse([it for row in cells.values() for it in row if it == ("v0", "primary") or it[0] == "v1"], cells)
        self.assertEqual(["s0"], list(chosen[0]))

    def test_what_is_left_is_told(self):
        service = self.service(load(example("placement")))
        self.assertEqual(1, self.campaign(service, lambda fleet: demote(fleet, {2})).run())
        self.assertIn("left: sessions keeps its primary at oslo-1: it has no other replica", self.told)
        self.assertEqual(1, self.campaign(service, lambda fleet: scale(fleet, {fleet.shard_of["orders"]: 3})).run())
        self.assertEqual([], service.begun)

    def test_what_cannot_be_reached_is_told_with_its_reason(self):
        document, service = fleet_document(), self.service(fleet_document())
        service.do({"do": "approve", "server": "v3", "by": "r7"})
        document["shards"][1]["listed"] = "v2"
        for cell, role in zip(document["shards"][1]["cells"], ("secondary", "primary", "secondary")):
            cell["state"] = role
        self.assertEqual(1, self.campaign(service, lambda fleet: wanted_as_in(fleet, Fleet(document_of(document)))).run())
        self.assertEqual(["left: s1 stays as it is: its replica at v3 is down, and the primary changes only while all replicas are up"],
                         [it for it in self.told if it.startswith("left")])

    def test_a_reopening_ends_it(self):
        document = fleet_document()
        service = self.service(document)

        def reopening(_):
            if not service.rests:
                service.rests.append(0)
                service.do({"do": "reopen", "document": document, "lost": [], "why": "test"})
        service.sleep = reopening
        self.assertEqual(1, self.campaign(service, lambda fleet: drain(fleet, {0}), patience=1.0).run())
        self.assertIn("a reopening has broken the plan off", self.told)
        with self.assertRaisesRegex(Failure, "a reopening is under way"):
            self.campaign(service, lambda fleet: drain(fleet, {0}), patience=1.0).run()

    def test_the_next_epoch_does_not_end_it(self):
        service = self.service(fleet_document())
        answer, epochs = service.sleep, []

        def open_next(seconds):
            answer(seconds)
            if "opened" in service.ask({"do": "new_epoch"}):
                epochs.append(service.state()["epoch"])
        service.sleep = open_next
        self.assertEqual(0, self.campaign(service, lambda fleet: drain(fleet, {0, 1})).run(), self.told)
        self.assertIn(1, epochs)

    def test_a_reopening_that_has_ended_ends_it(self):
        document = fleet_document()
        service = self.service(document)

        def reopen(_):
            if service.rests:
                return
            service.rests.append(0)
            base = service.do({"do": "reopen", "document": {**document, "shards": [{**it, "cells": []} for it in document["shards"]]}, "lost": []})["fence"][0]["base"]
            for server in (None, *(it["name"] for it in document["servers"])):
                cells = [(it["name"], cell["state"]) for it in document["shards"] for cell in it["cells"] if cell["server"] == server]
                slots = [{"shard": shard, "cell": cell, "last": 0, "load": 10, "view": 0, "position": 1} for shard, cell in cells]
                service.do({"do": "fenced", "server": server, "base": base, **({} if server is None else {"slots": slots})})
            service.do({"do": "confirm", "base": base})
            for server in (None, *(it["name"] for it in document["servers"])):
                service.do({"do": "settled", "server": server, "base": base})
        service.sleep = reopen
        self.assertEqual(1, self.campaign(service, lambda fleet: drain(fleet, {0}), patience=1.0).run())
        self.assertIn("a reopening has broken the plan off", self.told)
        self.assertEqual("open", service.state()["is"])

    def test_patience_ends_it(self):
        service = self.service(fleet_document())
        service.is_slow = True
        self.assertEqual(1, self.campaign(service, lambda fleet: drain(fleet, {0}), patience=0.0).run())
        self.assertTrue(any("the plan takes longer than 0 s" in it for it in self.told), self.told)


def with_lone_shard(document):
    """The document with a shard that v0 alone has, and may lose."""
    lone = {"name": "lone", "load": 1, "want": 1, "cap": 1, "spread": 1, "listed": "v0", "cells": [{"server": "v0", "state": "primary"}]}
    return {**document, "shards": [*document["shards"], lone]}


class Restarting(unittest.TestCase):
    """Servers are restarted by commands. A service notes what each led when it was approved (`led`)."""

    def service(self, document):
        service = Service(document)
        self.addCleanup(service.close)
        self.before, self.fleet, self.told = cells_of(service.state()), fleet_of_state(service.state(), None), []
        return service

    def restarts(self, service, **more):
        return Restarts(service, tell=self.told.append, **more)

    def roll(self, service, servers, *command, **more):
        return roll(self.restarts(service, **more), "r7", command or ["true"], servers, self.fleet)

    def meanwhile(self, service, *happenings):
        """Has something happen whenever somebody waits a second, one after the other."""
        rest, left = service.sleep, list(happenings)

        def sleep(seconds):
            if seconds == 1.0 and left:
                left.pop(0)()
            rest(seconds)
        service.sleep = sleep

    def up(self, service, server):
        permit = next(it["permit"] for it in service.state()["servers"] if it["server"] == server)
        return service.post("/restarted", {"permit": permit})

    def test_each_server_goes_down_once_it_leads_nothing(self):
        service = self.service(fleet_document())
        servers = in_turn(self.fleet, set(range(6)))
        self.assertEqual(["v0", "v3", "v1", "v4", "v2", "v5"], servers)
        self.assertEqual(0, self.roll(service, servers, "sh", "-c", "case {} in v[0-5]) ;; *) false ;; esac"), self.told)
        self.assertEqual([[]] * 6, service.led)
        self.assertEqual(self.before, cells_of(service.state()))
        self.assertIn("v5 is up: 6 of 6 servers", self.told)

    def test_it_goes_on_where_it_stopped(self):
        service = self.service(fleet_document())
        with self.assertRaisesRegex(Failure, "the command ended with 1; v0 keeps permit"):
            self.roll(service, ["v0", "v1"], "false")
        self.assertEqual(0, self.roll(service, ["v0", "v1"]))
        self.assertEqual(self.before, cells_of(service.state()))
        self.assertEqual(0, self.roll(service, ["v0", "v1"], "false"))  # (both have been restarted)

    def test_a_server_whose_shards_others_cannot_lead_is_let_alone(self):
        service = self.service(with_lone_shard(fleet_document()))
        reason = "lone keeps its primary at v0: it has no other replica"
        with self.assertRaisesRegex(Failure, f"v0 is not restarted, since nobody would serve what it leads:\n  {reason}"):
            self.restarts(service).restart("v0", "r7", ["true"])
        with self.assertRaisesRegex(Failure, rf"nothing is restarted, since nobody would serve some shards meanwhile \(--go-on allows that\):\n  {reason}$"):
            self.roll(service, ["v1", "v0"])
        self.assertEqual(([], []), (service.begun, service.led))
        self.assertEqual(0, self.roll(service, ["v0"], goes_on=True), self.told)
        self.assertEqual((self.before, [["lone"]]), (cells_of(service.state()), service.led))

    def test_leaders_that_come_while_it_waits_leave_again(self):
        service = self.service(fleet_document())
        service.do({"do": "approve", "server": "v3", "by": "other"})

        def lead_again():
            self.assertEqual(0, Campaign(service, "other", lambda fleet: led_as_before(fleet, self.fleet, ["v0"]), Limits(), tell=self.told.append).run())
        self.meanwhile(service, lead_again, lambda: self.up(service, "v3"))
        self.restarts(service).restart("v0", "r7", ["true"])
        self.assertIn("waits: denied 3 GlobalCap", self.told)
        self.assertEqual((3, [["s3"], []]), (len(service.begun), service.led), self.told)

    def test_it_waits_for_a_replica_that_is_down(self):
        service = self.service(fleet_document())
        service.do({"do": "approve", "server": "v1", "by": "other"})
        self.meanwhile(service, lambda: None, lambda: self.up(service, "v1"))
        self.assertEqual(0, self.roll(service, ["v0"]), self.told)
        self.assertEqual(self.before, cells_of(service.state()))
        self.assertEqual("waits: s0 keeps its primary at v0: its replica at v1 is down, and the primary changes only while all replicas are up", self.told[0])
        service.do({"do": "approve", "server": "v1", "by": "again"})
        with self.assertRaisesRegex(Failure, "s0 keeps its primary at v0: its replica at v1 is down"):
            self.restarts(service, wait=2.0).restart("v0", "r8", ["true"])

    def test_it_waits_for_the_end_of_a_reopening(self):
        service = self.service(fleet_document())
        service.do({"do": "reopen", "document": fleet_document(), "lost": [], "why": "test"})
        with self.assertRaisesRegex(Failure, "a reopening is under way"):
            self.restarts(service, wait=2.0).restart("v0", "r7", ["true"])
        self.assertEqual((["waits: a reopening is under way"], [1.0, 1.0]), (self.told, service.rests))

    def test_leaders_that_others_moved_stay_where_they_are(self):
        service = self.service(fleet_document())
        target = demote(self.fleet, {3}).target
        self.assertEqual(0, Campaign(service, "other", lambda _: Wanted(target), Limits(), tell=self.told.append).run())
        self.assertEqual(0, self.roll(service, ["v0"]), self.told)
        self.assertEqual({"s3"}, {it for it, cells in cells_of(service.state()).items() if cells != self.before[it]})

    def test_the_placement_of_before_is_kept(self):
        service = self.service(fleet_document())
        with tempfile.TemporaryDirectory() as folder:
            first = placement_before(f"{folder}/was.json", service.state(), None)
            self.assertEqual(0, Campaign(service, "demote", lambda fleet: demote(fleet, {0}), Limits(), tell=lambda _: None).run())
            self.assertEqual(first.cells, placement_before(f"{folder}/was.json", service.state(), None).cells)


class Failovers(unittest.TestCase):
    """Commands that begin while nobody leads. The second controller comes to lead when they have been asked four times."""

    def routes(self, service, leading, asked, name):
        """What a controller answers, which leads or follows."""
        async def metrics(_):
            asked.append(name)
            leading.update(["k1"] if len(asked) > 4 else [])
            return Page(f"x\nsmplan_leads {int(name in leading)}\n".encode(), "text/plain")

        async def document(_):
            return Page.of(fleet_document()) if name in leading else Page.of({"fault": "this controller does not lead"}, 409)

        async def line(body):
            if name not in leading:
                return Page.of({"fault": "this controller does not lead"}, 409)
            service.sleep(0)
            return Page.of(service.ask(json.loads(body)))

        async def restarted(body):
            return Page.of(service.post("/restarted", json.loads(body))) if name in leading else await line(body)
        return {"GET /metrics": metrics, "GET /document": document, "POST /ask": line, "POST /do": line, "POST /restarted": restarted}

    def done(self, words, *names):
        """The status of a command, what it printed, and the leaders of all shards."""
        service, leading, asked = Service(fleet_document()), set(), []
        self.addCleanup(service.close)

        async def play():
            servers = [await serve("127.0.0.1", 0, self.routes(service, leading, asked, it)) for it in names]
            urls = [word for it in servers for word in ("--controller", f"http://127.0.0.1:{it.port}")]
            command = await asyncio.create_subprocess_exec(
                sys.executable, "-m", "smplan.control", words[0], *urls, *words[1:], stdout=subprocess.PIPE, stderr=subprocess.STDOUT, cwd=ROOT / "python")
            text, _ = await command.communicate()
            for it in servers:
                await asyncio.to_thread(it.close)
            return command.returncode, text.decode()

        status, text = asyncio.run(play())
        return status, text, {server for cells in cells_of(service.state()).values() for server, role in cells if role == "primary"}

    def test_a_campaign_waits_for_the_next_leader(self):
        status, text, leaders = self.done(("demote", "v0"), "k0", "k1")
        self.assertEqual((0, {"v1", "v2", "v3", "v4", "v5"}), (status, leaders), text)
        self.assertIn("this controller does not lead; waits for one that leads", text)

    def test_a_restart_waits_for_the_next_leader(self):
        status, text, leaders = self.done(("restart", "v0", "--by", "r7", "--no-primaries", "--yes", "--", "echo", "it is done"), "k0", "k1")
        self.assertEqual((0, 6), (status, len(leaders)), text)
        told = ["waits for one that leads", "nobody is the primary of s0", "v0 may go down", "it is done", "v0 is up", "nobody is the primary of s0", "give-back has ended after 1 plan"]
        self.assertRegex(text.replace("\n", " "), ".*".join(told))

    def test_one_that_follows_is_told_at_once(self):
        status, text, leaders = self.done(("demote", "v0"), "k0")
        self.assertEqual((3, 6), (status, len(leaders)), text)


class CommandLines(unittest.TestCase):
    def test_one_server_is_drained_by_the_proved_planner_unless_more_is_asked_for(self):
        parse = control_commands.parser().parse_args
        for words, is_so in (("a", False), ("a --batch 2 --pause 0", False), ("a --streams 32", False), ("a b", True), ("region:r", True), ("a --at-server 1", True),
                             ("a --streams 4", True), ("a --hops 3", True), ("a --drop-first", True), ("a --prefer-secondary", True), ("a --before f", True),
                             ("a --avoid b", True), ("a --document f", True)):
            self.assertEqual(is_so, is_for_several(parse(["drain", *words.split()])), words)

    def test_a_placement_that_is_kept_is_not_written_over(self):
        with tempfile.TemporaryDirectory() as folder:
            save(f"{folder}/was.json", {})
            with self.assertRaisesRegex(Failure, "was.json is there, and may be of what you want to undo: name another file, or go on without --before"):
                save(f"{folder}/was.json", {})


class Recorded(unittest.TestCase):
    def test_without_a_document_shards_keep_as_many_regions_as_now(self):
        service = Service(load(example("placement")))
        self.addCleanup(service.close)
        value = document_of_state(service.state(), None)
        self.assertEqual([(2, 1, 2), (2, 1, 1), (1, 0, 1)], [(it["want"], it["cap"], it["spread"]) for it in value["shards"]])
        known = load(example("placement"))
        self.assertEqual([it["cells"] for it in known["shards"]], [it["cells"] for it in document_of_state(service.state(), known)["shards"]])

    def test_room_that_plans_hold_is_not_there(self):
        state = {
            "limit": 1, "log": {"places": 100, "free": 60}, "plans": [],
            "servers": [{"server": "a", "region": "r", "room": 10, "load": 4, "held": 3, "permit": None}, {"server": "b", "region": "r", "room": 10, "load": 4, "held": 0, "permit": 7}],
            "shards": [{"shard": "s", "load": 4, "live": 1, "floor": 1, "listed": "a",
                        "cells": [{"server": "a", "state": "forwarding", "other": "b", "number": 1}, {"server": "b", "state": "prepared", "other": "a", "number": 1}]}],
        }
        fleet = fleet_of_state(state, None)
        self.assertEqual(([3, 6], [False, True], 60), ([fleet.free(it) for it in range(2)], fleet.is_down, fleet.document.log))
