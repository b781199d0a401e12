"""Random documents, placements that are wanted of them, and what has to hold of each plan that leads there. scripts/check/fuzz-plans tries many."""
import random
from collections import Counter

from fixtures import program
from smplan.control_begins import emptied_by
from smplan.fleet import PRIMARY, SECONDARY, Fleet, primary_of
from smplan.model import document_of, plan_of
from smplan.placement import Placement, opening_findings
from smplan.reach import Limits, Reach
from smplan.reports import read_report
from smplan.targets import as_in
from smplan.width import most_at_once


class Wrong(Exception):
    """A plan is not as it has to be."""


def random_document(dice):
    """A small placement: shards with and without a primary, listed or not, some of load 0, with more or fewer replicas than they want."""
    count, regions = dice.randint(2, 7), dice.randint(1, 3)
    servers = [{"name": f"v{it}", "region": f"r{it % regions}", "room": dice.choice([10, 15, 20, 30])} for it in range(count)]
    if dice.random() < 0.15:
        dice.choice(servers)["down"] = True
    free, shards = [it["room"] for it in servers], []
    for number in range(dice.randint(1, 8)):
        load = dice.choice([0, 1, 3, 5, 7])
        holders = [it for it in dice.sample(range(count), dice.randint(0, min(count, 4))) if free[it] >= load]
        for it in holders:
            free[it] -= load
        has_primary = bool(holders) and dice.random() < 0.9
        want = max(0, len(holders) + dice.choice([-1, 0, 0, 0, 1]))
        cells = [{"server": f"v{it}", "state": PRIMARY if has_primary and not at else SECONDARY} for at, it in enumerate(holders)]
        live = sum(not servers[it].get("down", False) for it in holders)
        cap = min(want, max(want - live, 0) + dice.choice([0, 0, 1, 1, 2]))
        listed = f"v{holders[0]}" if has_primary and dice.random() < 0.85 else None
        spread = dice.choice([0, 1, 1, 2, 2, 3])
        shards.append({"name": f"s{number}", "load": load, "want": want, "cap": cap, "spread": spread, "listed": listed, "cells": cells})
    return {"limit": 1, "servers": servers, "shards": shards}


def random_cells(dice, fleet, shard, free):
    """Other cells for a shard: about half of the servers stay, and the primary may be any."""
    now = fleet.cells[shard]
    count = max(0, len(now) + dice.choice([-1, 0, 0, 0, 0, 1]))
    order = [it for it in now if dice.random() < 0.5] + dice.sample(range(len(fleet.servers)), len(fleet.servers))
    holders = [it for it in dict.fromkeys(order) if free[it] >= fleet.load[shard]][:count]
    if len(holders) < fleet.floor[shard] or (now and not holders):
        holders = list(now)
    primary = dice.choice(holders) if holders and (primary_of(now) is not None or dice.random() < 0.3) else None
    return {it: PRIMARY if it == primary else SECONDARY for it in holders}


def random_target(dice, fleet):
    """A placement of which only the end has to fit, or none."""
    target, free = fleet.target(), list(fleet.room)
    for shard in range(len(fleet.shards)):
        target.cells[shard] = random_cells(dice, fleet, shard, free)
        for it in target.cells[shard]:
            free[it] -= fleet.load[shard]
        target.is_listed[shard] = primary_of(target.cells[shard]) is not None and (fleet.is_listed[shard] or dice.random() < 0.3)
    return target if min(free) >= 0 else None


def random_limits(dice):
    return Limits(
        streams=dice.choice([1, 2, 3, 64]), at_server=dice.choice([0, 0, 1, 2]), blocks=dice.choice([2, 5, 4096]), load=dice.choice([None, None, 8]),
        hops=dice.choice([0, 50]), drops_first=dice.random() < 0.5, has_gap=dice.random() < 0.7)


# ---- what has to hold of a plan

def rows_of(value):
    """Servers and shards with what they have, as a report tells them."""
    placement = Placement(document_of(value))
    servers = {name: placement.loads[name] for name in placement.document.servers}
    shards = {name: (placement.listed[name], sorted(cells.items())) for name, cells in placement.cells.items()}
    return servers, shards


def reported(report):
    """The same of a report."""
    shards = {it["name"]: (it["listed"], sorted((cell["server"], cell["state"]) for cell in it["cells"])) for it in report.lists.get("shards", [])}
    return {it["name"]: it["load"] for it in report.lists.get("servers", [])}, shards


def need(holds, *why):
    if not holds:
        raise Wrong(*why)


def least_regions(fleet, target):
    """In how many regions each shard has to lie on its way from one placement to another."""
    return [min(fleet.spread[it], fleet.regions(cells), fleet.regions(target.cells[it])) for it, cells in enumerate(fleet.cells)]


def check_ways(leg, plan, limits, least):
    """Each shard's calls stand in one stream. After each, it lies in enough regions, has its floor of live replicas, and has a primary if it had one, but for
    a change of roles' one call."""
    fleet, homes, cells, gaps = leg.before, {}, [dict(it) for it in leg.before.cells], Counter()
    for number, stream in enumerate(plan["streams"]):
        for it in stream["code"]:
            if "server" not in it:
                continue
            shard, server = fleet.shard_of[it["shard"]], fleet.server_of[it["server"]]
            need(homes.setdefault(shard, number) == number, "a shard in two streams", it)
            step(cells[shard], server, it)
            need(fleet.regions(cells[shard]) >= least[shard], "too few regions", it, cells[shard])
            live = sum(role != HANDED_OVER and not fleet.is_down[other] for other, role in cells[shard].items())
            need(live >= fleet.floor[shard], "below its floor", it, cells[shard])
            has_gap = primary_of(fleet.cells[shard]) is not None and primary_of(cells[shard]) is None
            need(not has_gap or limits.has_gap, "a gap", it)
            gaps[shard] = gaps[shard] + 1 if has_gap else 0
            need(gaps[shard] <= 1, "a gap of two calls", it)


# The old owner behind a handover, until it is dropped.
HANDED_OVER = "handed over"


def step(cells, server, it):
    """What a call makes of a shard's cells. A new owner counts when it has taken over."""
    if it["do"] == "drop":
        del cells[server]
    elif it["do"] == "change":
        cells[server] = it["to"]
    elif it["do"] == "add":
        for other in [other for other, role in cells.items() if role == it["role"] == PRIMARY]:
            cells[other] = HANDED_OVER
        cells[server] = it["role"]


def is_refused(document):
    """Whether `smplan-control run` does not begin a document's plan, since a shard's last replica may be dropped before another is added."""
    shards = [{"shard": it["name"], "cells": it["cells"]} for it in document["shards"]]
    return emptied_by({"do": "begin", "plan": document["plan"]}, shards) is not None


def check_leg(leg, limits, least, runs):
    """A plan is accepted, ends as is told, and keeps to its limits."""
    document = leg.document()
    answer = program("run" if runs else "check", document)
    need(answer.startswith("accepted: "), answer)
    need(not is_refused(document), "a controller refuses it")
    check_ways(leg, document["plan"], limits, least)
    at_once = most_at_once(plan_of(document["plan"]), document_of(document))
    need(at_once is None or at_once.in_all <= limits.streams, "too many copies at once", at_once)
    need(at_once is None or not limits.at_server or at_once.at_server <= limits.at_server, "too many copies at once at a server", at_once)
    need(len(leg.blocks) <= limits.blocks, "too many blocks")
    if runs:
        end = reported(read_report(answer, "the report"))
        need(end == rows_of(leg.before.value(leg.after)), "another end", end)


def kept(fleet):
    """What an undo brings back of a shard: its cells and its entry."""
    return list(zip(fleet.cells, fleet.is_listed))


class Case:
    """One random document, a placement that is wanted, and limits; one in seven, or each, is run to its end by the program."""

    def __init__(self, seed, runs=False):
        self.dice = random.Random(seed)
        value = random_document(self.dice)
        document = document_of(value)
        self.fleet = None if opening_findings(document) else Fleet(document)
        self.target = random_target(self.dice, self.fleet) if self.fleet else None
        self.limits = random_limits(self.dice)
        self.runs = runs or seed % 7 == 0

    def legs(self, counts):
        """Each plan, once it has been checked."""
        reach = Reach(self.fleet, self.target, self.limits)
        for leg in reach.legs():
            check_leg(leg, self.limits, least_regions(self.fleet, self.target), self.runs)
            counts["plans"] += 1
            counts["signals"] += len(leg.streams.parcels)
            counts["runs"] += self.runs
            yield leg
        counts["left" if reach.left else "reached"] += 1
        if not reach.left:
            need(reach.fleet.cells == self.target.cells or leg.after.cells == self.target.cells, "not where it was wanted")

    def check(self, counts):
        """Tries it."""
        if self.target is None:
            counts["no document"] += 1
            return
        legs = list(self.legs(counts))
        if legs:
            self.check_undo(legs[-1], counts, "undone")
            if len(legs) > 1:
                self.check_undo(legs[self.dice.randrange(len(legs) - 1)], counts, "undone half-way")

    def check_undo(self, leg, counts, what):
        """From a plan's end there are plans back to the first placement. A shard that had no primary keeps one, and stays as it is if it has none yet."""
        now = leg.before.after(leg.after)
        back = as_in(now, self.fleet).target
        limits = Limits(streams=self.limits.streams, at_server=self.limits.at_server, hops=50, drops_first=True)
        reach, end = Reach(now, back, limits), now
        for other in reach.legs():
            check_leg(other, limits, least_regions(now, back), self.runs)
            end = other.before.after(other.after)
        without = {name for name, cells in zip(now.shards, back.cells) if PRIMARY not in cells.values()}
        told = {line.split(" ")[0]: line for line in reach.left}
        waits = {name for name, line in told.items() if " down" in line}
        excused = waits | {name for name, line in told.items() if name in without and "has no primary" in line}
        wrong = [name for name, is_now, was in zip(now.shards, kept(end), zip(back.cells, back.is_listed)) if is_now != was and name not in excused]
        counts[what if not wrong else f"not {what}"] += 1
        counts["an undo waits for a server that is down"] += bool(waits)
        counts["an undo leaves a shard that never had a primary"] += bool(excused - waits)
        if wrong:
            counts[str(reach.left)] += 1
