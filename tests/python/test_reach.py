"""Plans between placements: worked examples, random ones with all that has to hold of them, and wrong makers of plans, which are caught."""
import os
import unittest
from collections import Counter
from unittest import mock

from fixtures import program
from reach_cases import Case, Wrong, rows_of
from smplan import streams
from smplan.blocks import Block, Kind, Way
from smplan.fleet import Fleet
from smplan.model import document_of
from smplan.reach import Limits, Reach
from smplan.steps import Steps, write_block
from smplan.streams import Streams

# How many random documents are tried, and how many at most until a wrong maker of plans is caught.
REACHES, UNTIL_CAUGHT = int(os.environ.get("REACHES", "150")), 400


def fleet_of(servers, shards):
    """A fleet by short texts: `a:r1:10` is a server with its region and room; `s:4` a shard with its load, then its servers, of which the first is the primary."""
    rows = [dict(zip(("name", "region", "room"), it.split(":"))) for it in servers.split()]
    found = []
    for text, more in shards.items():
        name, load = text.split(":")
        holders = more["at"].split()
        cells = [{"server": it, "state": "secondary" if at else "primary"} for at, it in enumerate(holders)]
        row = {"name": name, "load": int(load), "want": len(holders), "cap": 1, "spread": 1, "listed": holders[0], "cells": cells}
        found.append({**row, **{key: it for key, it in more.items() if key != "at"}})
    return Fleet(document_of({"limit": 1, "servers": [{**it, "room": int(it["room"])} for it in rows], "shards": found}))


def wanted(fleet, **shards):
    """The fleet's placement with other holders for some shards, the primary first."""
    target = fleet.target()
    for name, holders in shards.items():
        numbers = [fleet.server_of[it] for it in holders.split()]
        target.cells[fleet.shard_of[name]] = {it: "secondary" if at else "primary" for at, it in enumerate(numbers)}
    return target


def legs_of(fleet, target, **limits):
    """The plans to a placement, each accepted by the program, and what is left."""
    reach = Reach(fleet, target, Limits(**limits))
    legs = list(reach.legs())
    for leg in legs:
        answer = program("check", leg.document())
        if not answer.startswith("accepted: "):
            raise Wrong(answer)
    return legs, reach.left


def kinds(leg):
    return [it.kind for it in leg.blocks]


class Ways(unittest.TestCase):
    def test_roles_are_exchanged_by_two_calls(self):
        fleet = fleet_of("a:r:10 b:r:10", {"s:4": {"at": "a b"}})
        (leg,), left = legs_of(fleet, wanted(fleet, s="b a"))
        self.assertEqual(["unlist", "change", "change", "publish"], [it["do"] for it in leg.document()["plan"]["streams"][0]["code"]])
        self.assertEqual([], left)

    def test_without_a_gap_the_primary_is_handed_over_to_where_a_secondary_was(self):
        fleet = fleet_of("a:r:4 b:r:4", {"s:4": {"at": "a b"}})
        (leg,), left = legs_of(fleet, wanted(fleet, s="b a"), has_gap=False)
        self.assertEqual(["drop", "prepare_add", "prepare_drop", "add", "publish", "drop", "add"], [it["do"] for it in leg.document()["plan"]["streams"][0]["code"]])
        self.assertEqual((8, []), (leg.streams.copied, left))

    def test_two_full_servers_exchange_by_a_third(self):
        fleet = fleet_of("a:r:10 b:r:10 c:r:6", {"s:6": {"at": "a", "cap": 0}, "t:6": {"at": "b", "cap": 0}})
        target = wanted(fleet, s="b", t="a")
        legs, left = legs_of(fleet, target)
        self.assertEqual([], legs)
        self.assertEqual(["s is not there yet: its load is 6, and b has 4 left", "t is not there yet: its load is 6, and a has 4 left"], left)
        (leg,), left = legs_of(fleet, target, hops=1)
        self.assertEqual([("s", "c"), ("t", "a"), ("s", "b")], [(fleet.shards[it.shard], fleet.servers[it.target]) for it in leg.blocks])
        self.assertEqual([], left)

    def test_a_replica_is_dropped_first_where_one_may_be_spared(self):
        fleet = fleet_of("a:r:6 b:r:6 c:r:6 d:r:6", {"s:6": {"at": "c a"}, "t:6": {"at": "d b"}})
        target = wanted(fleet, s="c b", t="d a")
        self.assertEqual([], legs_of(fleet, target)[0])
        (leg,), left = legs_of(fleet, target, drops_first=True)
        self.assertEqual(([Kind.DROP, Kind.MOVE, Kind.ADD], []), (kinds(leg), left))

    def test_a_shard_lies_in_its_spread_throughout(self):
        fleet = fleet_of("a:r1:9 b:r2:9 c:r2:9 d:r1:9", {"s:4": {"at": "c a b", "spread": 2}})
        (leg,), _ = legs_of(fleet, wanted(fleet, s="c d"))
        self.assertEqual([Kind.MOVE, Kind.DROP], kinds(leg))
        self.assertEqual(["a", "b"], [fleet.servers[it.source] for it in leg.blocks])
        fleet = fleet_of("a:r1:9 b:r2:9 c:r2:9 d:r1:9", {"s:4": {"at": "a b", "spread": 2}})
        (leg,), _ = legs_of(fleet, wanted(fleet, s="c d"))
        self.assertEqual([Kind.ADD, Kind.HAND, Kind.DROP], kinds(leg))

    def test_what_a_way_does_not_do(self):
        fleet = fleet_of("a:r:9 b:r:9 c:r:9", {"s:4": {"at": "a b"}})
        target = wanted(fleet, s="b")
        target.cells[0][1] = "secondary"
        self.assertEqual(["s stays as it is: it would be left without a primary"], legs_of(fleet, target)[1])
        target.cells[0] = {}
        self.assertEqual(["s stays as it is: its last replica would go"], legs_of(fleet, target)[1])

    def test_servers_that_are_down_are_let_alone(self):
        fleet = fleet_of("a:r:9 b:r:9 c:r:9", {"s:4": {"at": "a b c", "cap": 2}})
        fleet.is_down[2] = True
        self.assertEqual(["s stays as it is: its replica at c is down, and the primary changes only while all replicas are up"], Reach(fleet, wanted(fleet, s="b a c"), Limits()).left)
        self.assertEqual(["s stays as it is: c is down"], Reach(fleet, wanted(fleet, s="a b"), Limits()).left)


class Batches(unittest.TestCase):
    def fleet(self):
        return fleet_of("a:r:60 b:r:60 c:r:60", {f"s{it}:5": {"at": "a b"} for it in range(6)})

    def test_each_plan_is_of_what_the_one_before_leaves(self):
        fleet = self.fleet()
        target = wanted(fleet, **{f"s{it}": "a c" for it in range(6)})
        legs, left = legs_of(fleet, target, blocks=4)
        self.assertEqual(([4, 2], []), ([len(it.blocks) for it in legs], left))
        self.assertEqual(rows_of(legs[0].before.value(legs[0].after)), rows_of(legs[1].before.value(legs[1].before.target())))
        self.assertEqual(target.cells, legs[1].after.cells)
        self.assertEqual([2, 2, 2], [len(it.blocks) for it in legs_of(fleet, target, load=10)[0]])

    def test_streams_and_servers_bound_the_copies(self):
        fleet = self.fleet()
        target = wanted(fleet, **{f"s{it}": "a c" for it in range(6)})
        (leg,), _ = legs_of(fleet, target, streams=3)
        self.assertEqual(3, len(leg.document()["plan"]["streams"]))
        (leg,), _ = legs_of(fleet, target, at_server=1)
        self.assertEqual(30, leg.streams.duration)


    def test_streams_end_at_about_the_same_time(self):
        fleet = fleet_of("a:r:60 b:r:60 c:r:60", {f"s{at}:{load}": {"at": "a b"} for at, load in enumerate((1, 1, 2))})
        (leg,), _ = legs_of(fleet, wanted(fleet, **{f"s{it}": "a c" for it in range(3)}), streams=2)
        self.assertEqual(2, leg.streams.duration)

    def test_the_busiest_server_is_never_idle(self):
        shards = {f"big{it}:4": {"at": f"a{it} b{it}"} for it in range(2)} | {f"p{it}:2": {"at": f"h c{it}"} for it in range(4)}
        fleet = fleet_of(" ".join(f"{it}:r:20" for it in "a0 a1 b0 b1 c0 c1 c2 c3 h d0 d1 d2 d3 d4 d5".split()), shards)
        target = wanted(fleet, big0="a0 d0", big1="a1 d1", p0="h d2", p1="h d3", p2="h d4", p3="h d5")
        (leg,), _ = legs_of(fleet, target, streams=2, at_server=1)
        self.assertEqual((8, ["p0", "p1", "p2", "p3"]), (leg.streams.duration, [fleet.shards[it.shard] for it in leg.blocks[:4]]))


class Random(unittest.TestCase):
    def test_each_plan_is_accepted_and_leads_there_and_back(self):
        counts = Counter()
        for seed in range(REACHES):
            with self.subTest(seed):
                Case(seed).check(counts)
        self.assertFalse([it for it in counts if it.startswith("not ")], counts)
        if REACHES >= 150:
            self.assertGreater(min(counts["plans"], counts["undone"], counts["reached"], counts["left"]), 40, counts)
            self.assertGreater(min(counts["signals"], counts["runs"], counts["undone half-way"]), 3, counts)


def with_none_of(do):
    """Steps that leave out an instruction."""
    whole = Steps.list
    return mock.patch.object(Steps, "list", lambda self, it: None if it == do else whole(self, it))


def dropping_first(*words):
    """The steps of a block, a move's in the wrong order."""
    code = write_block(*words)
    return code[::-1] if words[1].kind is Kind.MOVE else code


def handing_on_nothing(streams_, block, stream, choice):
    """Room is taken where it is paid from, and not handed on."""
    PAY(streams_, block, stream, choice)
    return {it.number: {} for it in choice.waits}


def declaring_twice(steps, server, state):
    """A right to a cell is declared although the stream may hold it."""
    steps.course.held.add(server)
    steps.holding.cells.append({"shard": steps.name, "server": steps.fleet.servers[server], "state": state})


PAY = Streams.pay
WRONG = {
    "lanes are left out": mock.patch.object(Streams, "burdened", lambda *_: []),
    "a signal hands on no room": mock.patch.object(Streams, "pay", handing_on_nothing),
    "publish is left out": with_none_of("publish"),
    "unlist is left out": with_none_of("unlist"),
    "a spare replica is not declared": mock.patch.object(Steps, "need_spare", lambda _: None),
    "a move drops first": mock.patch.object(streams, "write_block", dropping_first),
    "a right is declared twice": mock.patch.object(Steps, "need_cell", declaring_twice),
    "regions are not looked at": mock.patch.object(Way, "keeps_spread", lambda *_: True),
    "roles change by two calls where none may": mock.patch.object(Way, "exchange", lambda way, old, new: Block(Kind.SWAP, way.shard, old, new)),
}


class WrongMakers(unittest.TestCase):
    def test_each_is_caught(self):
        for name, wrong in WRONG.items():
            with self.subTest(name), wrong, self.assertRaises(Wrong):
                for seed in range(UNTIL_CAUGHT):
                    Case(seed).check(Counter())
