"""`repair`: a plan after a server was lost, by a planner of its own.

The planner is greedy, and nothing is proved of it. That cannot hurt: `smplan check` admits its plan, or says why not. It promotes a secondary of each shard
that has no primary and publishes it, and adds replicas until each shard has what it wants, within rooms and, as far as it can, regions.
"""
import argparse
import copy
import json
import sys
from dataclasses import dataclass, field
from typing import Any, Dict, List, Optional, Set, Tuple

from .documents import with_plan
from .failure import Failure
from .files import document_from, name_of, read_value
from .limits import MOST_STREAMS
from .model import Document, Json, document_of, plan_of
from .placement import Placement, opening_findings
from .reading import did_you_mean
from .verdict import begin_findings, log_findings
from .words import counted


@dataclass(frozen=True)
class Promotion:
    """A secondary that becomes the primary."""

    shard: str
    server: str


@dataclass(frozen=True)
class Addition:
    """A replica that is added: a secondary, or an empty primary of a shard of which nothing is left."""

    shard: str
    server: str
    role: str


@dataclass
class Repair:
    """What is done, and what is left over, each thing in a line."""

    promotions: List[Promotion] = field(default_factory=list)
    additions: List[Addition] = field(default_factory=list)
    left: List[str] = field(default_factory=list)

    def shards(self) -> List[str]:
        return list(dict.fromkeys(it.shard for it in [*self.promotions, *self.additions]))


# ---- the placement after the loss

def without_servers(value: Json, lost: List[str]) -> Json:
    """Returns the document after servers were lost with their data: they are down and have nothing, and the map lists none of them."""
    now = copy.deepcopy(value)
    for server in now["servers"]:
        if server["name"] in lost:
            server["down"] = True
    for shard in now["shards"]:
        shard["cells"] = [it for it in shard["cells"] if it["server"] not in lost]
        if shard.get("listed") in lost:
            shard["listed"] = None
    return now


def relaxed(value: Json) -> Tuple[Json, List[str]]:
    """Returns the document with its `limit` and each `cap` raised until they allow what is so, and what was raised."""
    document, now, notes = document_of(value), copy.deepcopy(value), []
    placement = Placement(document)
    if len(placement.down) > document.limit:
        now["limit"] = len(placement.down)
        notes.append(f"'limit' is {document.limit}, and is {now['limit']} in this document")
    for shard in now["shards"]:
        live = len(placement.live(shard["name"]))
        if live < shard["want"] - shard["cap"]:
            notes.append(f"'cap' of {shard['name']} is {shard['cap']}, and is {shard['want'] - live} in this document")
            shard["cap"] = shard["want"] - live
    return now, notes


# ---- the planner

class Planner:
    """Chooses servers, the best first, and keeps what it has chosen."""

    def __init__(self, placement: Placement, fills_empty: bool) -> None:
        self.placement = placement
        self.document: Document = placement.document
        self.fills_empty = fills_empty
        self.room: Dict[str, int] = {name: placement.free(name) for name in self.document.servers if name not in placement.down}
        self.primaries: Dict[str, int] = {name: list(cells.values()).count("primary") for name, cells in placement.replicas.items()}
        self.repair = Repair()

    def plan(self) -> Repair:
        """Returns the repair: shards with the fewest live replicas come first, of those the largest."""
        shards = self.document.shards
        for name in sorted(shards, key=lambda it: (len(self.placement.live(it)), -shards[it].load)):
            if self.settle_primary(name):
                self.add_replicas(name)
        return self.repair

    def settle_primary(self, shard: str) -> bool:
        """Finds a primary for a shard, and returns whether replicas may be added."""
        cells = self.placement.cells[shard]
        owner = self.placement.lead(shard).owner
        if owner in self.placement.down:
            self.repair.left.append(f"{shard} has its primary at {owner}, which is down; if its data is lost, say --lost {owner}")
            return False
        if owner is not None or self.document.shards[shard].want == 0:
            return True
        live = [it for it in cells if it not in self.placement.down]
        if live:
            server = min(live, key=lambda it: (self.primaries[it], -self.room[it]))
            self.primaries[server] += 1
            self.repair.promotions.append(Promotion(shard, server))
            return True
        if cells:
            self.repair.left.append(f"{shard} has no replica that is up; its secondaries are at {', '.join(cells)}")
            return False
        return self.add_empty_primary(shard)

    def add_empty_primary(self, shard: str) -> bool:
        if not self.fills_empty:
            self.repair.left.append(f"{shard} has no replica left, so its data is lost; --empty adds an empty primary, to be filled from a backup")
            return False
        return self.add(shard, set(), "primary") is not None

    def add_replicas(self, shard: str) -> None:
        servers = set(self.placement.cells[shard]) | {it.server for it in self.repair.additions if it.shard == shard}
        while len(servers) < self.document.shards[shard].want:
            added = self.add(shard, servers, "secondary")
            if added is None:
                return
            servers.add(added)
        regions = {self.document.servers[it].region for it in servers}
        if len(regions) < self.document.shards[shard].spread and shard in self.repair.shards():
            self.repair.left.append(f"{shard} lies in {len(regions)} of {self.document.shards[shard].spread} regions")

    def add(self, shard: str, servers: Set[str], role: str) -> Optional[str]:
        """Adds a replica at the best server, and returns that; a region that the shard is not in comes first, then the most room."""
        row = self.document.shards[shard]
        regions = {self.document.servers[it].region for it in servers}
        may = [it for it, room in self.room.items() if it not in servers and room >= row.load]
        if not may:
            most = max((room for it, room in self.room.items() if it not in servers), default=None)
            why = "no other server is up" if most is None else f"its load is {row.load}, and no other server has more than {most} left"
            self.repair.left.append(f"{shard} has {len(servers)} of {counted(row.want, 'replica')}: {why}")
            return None
        is_spread = len(regions) >= row.spread
        server = max(may, key=lambda it: (not is_spread and self.document.servers[it].region not in regions, self.room[it]))
        self.take(Addition(shard, server, role))
        return server

    def take(self, addition: Addition) -> None:
        """Adds a replica at a server that has been chosen."""
        self.room[addition.server] -= self.document.shards[addition.shard].load
        self.primaries[addition.server] += addition.role == "primary"
        self.repair.additions.append(addition)


# ---- the plan

def plan_value(repair: Repair, placement: Placement) -> Json:
    """Returns the plan of a repair: its shards are dealt out to the streams, and no stream waits for another."""
    shards = repair.shards()
    hands = [shards[at::MOST_STREAMS] for at in range(min(len(shards), MOST_STREAMS))]
    streams = [stream_value(repair, placement, set(hand)) for hand in hands]
    return {"budget": sum(it["budget"] for it in streams), "streams": streams}


def stream_value(repair: Repair, placement: Placement, shards: Set[str]) -> Json:
    """Returns the stream that repairs these shards: first all promotions, then the new replicas."""
    promotions = [it for it in repair.promotions if it.shard in shards]
    additions = [it for it in repair.additions if it.shard in shards]
    code: List[Json] = []
    room: Dict[str, int] = {}
    for promotion in promotions:
        code.append({"do": "change", "shard": promotion.shard, "server": promotion.server, "to": "primary"})
        code.append({"do": "publish", "shard": promotion.shard})
    for addition in additions:
        code.append({"do": "add", "shard": addition.shard, "server": addition.server, "role": addition.role})
        code += [{"do": "publish", "shard": addition.shard}] if addition.role == "primary" else []
        room[addition.server] = room.get(addition.server, 0) + placement.document.shards[addition.shard].load
    crowned = [it.shard for it in promotions] + [it.shard for it in additions if it.role == "primary"]
    cells = [{"shard": it.shard, "server": it.server, "state": "secondary"} for it in promotions]
    cells += [{"shard": it.shard, "server": it.server, "state": "absent"} for it in additions]
    holds = {
        "cells": cells,
        "crowns": [{"shard": it, "lead": "gone", "listed": None} for it in crowned],
        "room": [{"server": server, "amount": amount} for server, amount in room.items() if amount],
    }
    return {"budget": len(promotions) + len(additions), "holds": holds, "code": code}


def tell(text: str) -> None:
    print(f"smplan-tools: {text}", file=sys.stderr)


def placement_to_repair(arguments: argparse.Namespace) -> Json:
    """Returns the document after the loss, or fails with the reason why it has no placement."""
    value = read_value(arguments.document)
    document = document_from(value, arguments.document)
    for server in arguments.lost:
        if server not in document.servers:
            raise Failure(f"no server is named '{server}'{did_you_mean(server, document.servers)}")
    now = without_servers(value, arguments.lost)
    if arguments.relax:
        now, notes = relaxed(now)
        for note in notes:
            tell(f"{note}; set it back once the plan has ended")
    findings = opening_findings(document_of(now))
    if findings:
        lines = [f"{it.line}: {it.text}" for it in findings]
        raise Failure("\n  ".join([f"there is no plan for {name_of(arguments.document)} as it is now", *lines, "--relax raises 'limit' and 'cap' as far as is needed"]), 1)
    return now


def make_repair(arguments: argparse.Namespace) -> int:
    now = placement_to_repair(arguments)
    document = document_of(now)
    placement = Placement(document)
    repair = Planner(placement, arguments.empty).plan()
    plan = plan_value(repair, placement)
    for finding in log_findings(document, placement) or begin_findings(plan_of(plan), document, placement):
        tell(f"{finding.line}: {finding.text}")
    print(json.dumps(plan if arguments.plan else with_plan(now, plan), indent=2 if arguments.pretty else None))
    tell(f"{counted(len(repair.promotions), 'secondary', 'secondaries')} to promote, {counted(len(repair.additions), 'replica')} to add")
    for line in repair.left:
        tell(f"left: {line}")
    return 1 if repair.left else 0


def add_parser(subparsers: Any) -> None:
    """Adds the command `repair`."""
    parser = subparsers.add_parser(
        "repair",
        epilog="example: smplan-tools repair --lost berlin-2 placement.json | smplan check",
        help="make a plan after a server was lost",
        description="Prints the document after a loss, with a plan that promotes secondaries, publishes them, and adds replicas until each shard has what it "
        "wants. The planner is greedy and not proved: 'smplan check' has the last word. Exit status 0: all is repaired. 1: something is left, with the reason "
        "on standard error, or there is no plan.",
    )
    parser.add_argument("document", nargs="?", default="-", metavar="DOCUMENT", help="the document before the loss, or as it is now (standard input)")
    parser.add_argument("--lost", action="append", default=[], metavar="SERVER", help="a server that was lost with its data; may be given again")
    parser.add_argument("--relax", action="store_true", help="raise 'limit' and 'cap' until they allow what is so")
    parser.add_argument("--empty", action="store_true", help="add an empty primary of a shard of which no replica is left")
    parser.add_argument("--plan", action="store_true", help="print the plan alone")
    parser.add_argument("--pretty", action="store_true", help="print a line for each member")
    parser.set_defaults(run=make_repair)
