"""smplan-control resize: what it reads, what it refuses, and that it goes on after an interruption; and a service that is adopted."""
import json
import pathlib
import tempfile
import unittest
from decimal import Decimal
from types import SimpleNamespace
from urllib.request import urlopen

from control_story import DOCUMENT, STATE, ScriptedStory, shard
from smplan.control_document import with_numbers
from smplan.control_numbers import numbers_of, told_by_file, told_by_words
from smplan.control_resize import brought, changes_of, left_to_do, lines_of, refuse, too_few, too_full
from smplan.control_reopen import moved_by, proposal_lines, refuse_silent
from smplan.failure import Failure


class NumbersTest(unittest.TestCase):
    """How numbers are read."""

    def read(self, text, unit=1):
        with tempfile.TemporaryDirectory() as folder:
            path = pathlib.Path(folder) / "loads"
            path.write_text(text)
            try:
                found = numbers_of(told_by_file(str(path), DOCUMENT), DOCUMENT, Decimal(unit))
            except Failure as why:
                return str(why).replace(str(path), "FILE")
        return {(member, name): number for (_, name, member), number in found.items()}

    def test_files(self):
        two = {("load", "t"): 5, ("room", "a"): 20}
        for text in ("t,5\na,20\n", '"t","5"\r\n# twenty\r\n\r\na, 20', "\ufefft,5\na,20", '{"loads":{"t":5},"rooms":{"a":20}}', ' {"loads":{"t":"4.2"},"rooms":{"a":20.9}}'):
            self.assertEqual(self.read(text), two, text)
        self.assertEqual(self.read("Time,Shard,Value\n17,t,5\n17,s,4"), {("load", "t"): 5, ("load", "s"): 4})
        self.assertEqual(self.read("server,room,region\ns,7,r\n"), {("room", "s"): 7})
        self.assertEqual(self.read("shard,load,want,cap,spread\nt,5,3,,2\n"), {("load", "t"): 5, ("want", "t"): 3, ("spread", "t"): 2})
        self.assertEqual(self.read('{"wants":{"t":3},"caps":{"t":1},"limit":2,"log":4096}'), {("want", "t"): 3, ("cap", "t"): 1, ("limit", ""): 2, ("log", ""): 4096})
        self.assertEqual(self.read("t,5242881\na,20971519\n", "1048576"), {("load", "t"): 6, ("room", "a"): 19})

    def test_faults_of_files(self):
        for text, fault in (
                ("t,5\nx,1", "FILE, line 2: no shard is named 'x'"), ("s,1", "FILE, line 1: 's' is a shard and a server: put a line above"), ("t,5\nt,6", "the load of t is 5 already, at FILE, line 1"),
                ("t", "FILE, line 1: a name and its number belong here"), ("shard,size\nt,5", "beside 'shard' a column belongs that is named load, want, cap, spread or value"),
                ("shard,load\nt", "FILE, line 2: 2 fields belong here"), ("t,NaN", "'NaN' is no number of at least 0"), ("t,-1", "'-1' is no number"), ("t,1e999999999", "is no number of at least 0"), ("t,1e12", "is above 4294967295"),
                ("t,5368709120", "a --unit, as 1048576 for MB, makes it smaller"), ("shard,want\nt,2.5", "'2.5' is no whole number"),
                ('{"load":{"t":5}}', "FILE: $.load: there are loads, rooms, wants, caps, spreads, limit, log; did you mean 'loads'?"),
                ('{"loads":[5]}', "FILE: $.loads: names with their numbers belong here"), ('{"loads":{"tt":5}}', "FILE: $.loads.tt: no shard is named 'tt'"), ('{"loads":{"t":true}}', "'True' is no number"),
                ('{"loads":', "FILE: "), ("", "FILE has no numbers"), ("shard,load\n", "FILE has no numbers")):
            found = self.read(text)
            self.assertIsInstance(found, str, text)
            self.assertIn(fault, found, text)

    def test_words(self):
        told = [*told_by_words("load", ["t=5"]), *told_by_words("room", ["a=20"])]
        self.assertEqual(numbers_of(told, DOCUMENT, Decimal(1)), {("shards", "t", "load"): 5, ("servers", "a", "room"): 20})
        for word, fault in (("5", "--load 5: of which shard?"), ("=5", "of which shard?"), ("T=5", "--load T=5: no shard is named 'T'; did you mean 't'?"), ("t=x", "'x' is no number")):
            with self.assertRaisesRegex(Failure, fault.replace("?", r"\?")):
                numbers_of(told_by_words("load", [word]), DOCUMENT, Decimal(1))


class ResizeTest(unittest.TestCase):
    """What is refused before anything is begun, and what is told."""

    def changed(self, **numbers):
        """Numbers such as load_t=5, as a document and as changes."""
        tables = {"room": "servers", "limit": None}
        told = {(tables.get(it.split("_")[0], "shards"), it.partition("_")[2], it.split("_")[0]): number for it, number in numbers.items()}
        changes = changes_of(DOCUMENT, told)
        return with_numbers(DOCUMENT, changes), changes

    def test_changes(self):
        document, changes = self.changed(load_t=9, room_a=11, limit=2, want_s=2)
        self.assertEqual(lines_of(DOCUMENT, changes), ["load of t: 5 -> 9", "room of a: 10 -> 11", "limit: 1 -> 2"])
        self.assertEqual((document["shards"][1]["load"], document["servers"][0]["room"], document["limit"], DOCUMENT["limit"]), (9, 11, 2, 1))
        many = {("shards", it, "load"): 1 for it in map(str, range(30))}
        self.assertEqual(lines_of({"shards": [{"name": str(it), "load": 0} for it in range(30)], "servers": []}, many)[-1], "and 10 smaller changes more")

    def test_servers_over_their_rooms(self):
        document, changes = self.changed(load_t=8, room_a=3)
        with self.assertRaises(Failure) as raised:
            refuse(document, STATE, changes)
        self.assertEqual((str(raised.exception).split("\n  "), raised.exception.status), ([
            "nothing is changed:", "b would have load 12 (t 8, s 4) and room 10: 2 too much", "a would have load 4 (s 4) and room 3: 1 too much",
            "move something away first: `smplan-control drain b`, or `balance` (they know the loads that are recorded); or say which room it has: --room b=12"], 1))
        self.assertEqual(too_full(self.changed(load_t=6)[0], STATE), [])
        handover = {**STATE, "shards": [{"shard": "t", "live": 1, "cells": [{"server": "b", "state": "forwarding"}, {"server": "a", "state": "prepared"}]}]}
        self.assertEqual([it.split(" would")[0] for it in too_full(self.changed(room_a=4)[0], handover)[:-1]], ["a"])

    def test_what_running_plans_bring(self):
        self.assertEqual((brought(self.changed(load_t=7)[0], STATE), brought(self.changed(load_t=8)[0], STATE)), ([], ["c"]))
        with self.assertRaisesRegex(Failure, "running plans bring c more than it would have room for"):
            refuse(*(lambda document, changes: (document, STATE, changes))(*self.changed(load_s=2, load_t=8)))

    def test_floors(self):
        for numbers, told in (({"cap_s": 0}, []), ({"want_s": 4}, ["s has 2 live replicas, and 3 would have to be live (want 4, cap 1): `smplan-control scale s=3` first, or --cap s=2"]),
                              ({"want_s": 0}, ["s would want 0 replicas, of which 1 may be away: give it a --cap s=N of 0 at most, too"]), ({"cap_u": 1, "load_u": 2}, ["u has 1 live replica"])):
            found = too_few(*(lambda document, changes: (document, STATE, changes))(*self.changed(**numbers)))
            self.assertEqual(len(found), len(told))
            self.assertTrue(not told or found[0].startswith(told[0]), found)
        fewer = {**DOCUMENT, "shards": [shard("s", 4, "a*b", want=1, cap=0), shard("t", 5, "b*c", want=3)]}
        self.assertEqual(left_to_do(fewer), ["t wants more replicas: `smplan-control repair`", "some have more replicas than they want: `smplan-control scale s=1`"])

    def test_a_server_that_just_starts_is_waited_for_and_one_that_is_down_is_not(self):
        answers = {"a": [True], "b": [False, False, True], "c": [False], "s": [True]}
        slept = []
        controllers = SimpleNamespace(sleep=slept.append, post=lambda path, line: {"answers": answers[line["server"]].pop(0) if len(answers[line["server"]]) > 1 else answers[line["server"]][0]})
        state = {"servers": [{"server": it, "permit": 7 if it == "c" else None} for it in "abcs"]}
        self.assertEqual(refuse_silent(controllers, SimpleNamespace(wait=60.0), DOCUMENT, state), "Down, silent, and left as recorded: c. ")
        self.assertEqual(slept, [0.5, 0.5])

    def test_a_proposal_of_many_shards_tells_of_those_that_change(self):
        before = {str(it): [{"server": "a", "state": "primary"}] for it in range(30)}
        cells = [{"shard": it, "cells": row} for it, row in {**before, "7": [{"server": "b", "state": "primary"}]}.items()]
        lines = proposal_lines({"cells": cells, "lost": [], "floors": [], "carried": []}, before)
        self.assertEqual(lines[1:3], ["  7                b primary  (primary before: a)", "  29 shards as recorded"])
        self.assertEqual(moved_by({"cells": cells}, {"shards": [{"shard": it, "cells": row} for it, row in before.items()]}), ["7"])


class ResizeStory(ScriptedStory):
    """resize over servers."""

    def test_numbers_change_and_nothing_moves(self):
        resize = ("resize", "--load", "s=5", "--room", "a=20")
        self.check(resize, 1, "It takes a reopening: every server is asked what it has, and serves meanwhile; nothing is moved. No server is given up. Asked what they have: a, b, c. No plan runs.")
        self.check((*resize, "--dry-run", "--json"), 0, '"room": 20')
        self.check(("resize", "--load", "s=11", "--yes"), 1, "a would have load 11 (s 11) and room 10: 1 too much")
        self.check(("resize",), 2, "which numbers are to change?")
        self.assertEqual(self.epoch(), 0)
        (self.path / "loads.csv").write_text("s,4.5\nc,8\n")
        self.check(("resize", "loads.csv", "--room", "a=20", "--yes"), 0, "3 numbers changed; nothing was moved")
        told = self.ask("/document")
        self.assertEqual(({it["name"]: it["room"] for it in told["servers"]}, self.recorded("s")), ({"a": 20, "b": 10, "c": 8}, ({"a": "primary", "b": "secondary"}, 2, 1, 5)))
        self.assertEqual([it.slots["s"]["load"] for it in (self.servers["a"], self.servers["b"])], [5, 5])
        self.check(("resize", "loads.csv", "--json"), 0, '{"changed": 0}')
        self.check(("resize", "--want", "s=3", "--limit", "2", "--yes"), 0, "s wants more replicas: `smplan-control repair`")
        self.assertEqual((self.recorded("s")[1:3], self.ask("/document")["limit"]), ((3, 1), 2))
        self.assertEqual(self.epoch(), 2)

    def test_a_service_is_adopted_under_a_new_journal(self):
        (self.path / "now.json").write_text(json.dumps(self.ask("/document")))
        self.check(("reopen", "--document", "now.json", "--epoch", "9", "--yes"), 1, "a journal is open already: --epoch is of a controller that has opened nothing")
        journal = json.loads(self.control("state", "--json")[1])["journal"]
        self.running["run"].terminate()
        self.running["run"].wait()
        self.run_controller()
        self.check(("resize", "--load", "s=5", "--yes"), 1, "nothing is opened yet")
        self.check(("reopen", "--lost", "c", "--yes"), 1, "nothing is opened yet: `smplan-control run --open DOCUMENT`, or adopt a service by --document and --epoch")
        self.check(("reopen", "--document", "now.json", "--epoch", "9", "--yes"), 0, "s                a primary, b secondary")
        state = json.loads(self.control("state", "--json")[1])
        self.assertEqual((state["epoch"], state["journal"] == journal, self.recorded("s"), self.listed()), (9, False, ({"a": "primary", "b": "secondary"}, 2, 1, 4), "a"))
        self.check(("resize", "--load", "s=5", "--yes"), 0, "1 number changed")

    def test_servers_that_do_not_answer(self):
        self.servers["b"].is_silent = True
        self.check(("resize", "--load", "s=5", "--yes", "--wait", "1"), 1, "b does not answer, and nothing could move until then: start what is off, or, if it is off for good, `smplan-control reopen --lost b`")
        self.assertEqual(self.epoch(), 0)

    def test_an_interrupted_one_goes_on(self):
        resize = ("resize", "--load", "s=5", "--yes", "--wait", "1")
        for kind, load in (("fence", 5), ("settle", 6)):
            words = ("resize", "--load", f"s={load}", "--yes", "--wait", "1")
            self.servers["b"].withholds = lambda it, message, kind=kind: it == kind
            self.check(words, 1, "b did not")
            self.check(words, 1, "a reopening is under way")
            self.servers["b"].withholds = lambda kind, message: False
            self.check(words, 0, "nothing is left to change: all these numbers are recorded")
            self.assertEqual(self.recorded("s")[3], load)
        self.assertEqual(self.epoch(), 2)
        document = self.ask("/document")
        document["servers"] = document["servers"][1:]
        reopening = {"do": "reopen", "document": {**document, "shards": [{**it, "cells": [], "listed": None} for it in document["shards"]]}, "lost": ["a"], "why": "it"}
        urlopen(f"{self.controller}/do", json.dumps(reopening).encode(), timeout=10).close()
        self.check(resize, 1, "the reopening that is under way gives s another primary, or none, and may be somebody else's")
