"""`demote`, `balance`, `scale`, `undo`, and `drain` of several servers together: campaigns of small plans over a running controller.

A campaign chooses once where shards are to go. Each plan is made of what is recorded then, beside the plans that run: their shards are left for later. It is
cut small, since an unfinished plan holds up restarts of all servers that it names.
"""
from __future__ import annotations

import argparse
import json
import secrets
import signal
import time
from dataclasses import dataclass, field, replace
from fractions import Fraction
from typing import Any, Callable, Dict, List, Optional, Set, Tuple

from .balance import Budget, after_moves, balance, level_primaries
from .blocks import CHANGE_ROLES, copies_in
from .control_document import ROLES
from .control_drain import PASSING, at_least
from .control_leader import Controllers, Line, Refused, add_options, controllers_of
from .control_plans import Begun, begun_as
from .failure import Failure
from .files import document_from, read_value
from .fleet import Cells, Fleet
from .limits import MOST_MOVES, MOST_STREAMS
from .model import Json, document_of
from .planning import Progress, named, percent, servers_in, tell_beforehand, wanted_as_in, wants_of, whole
from .reach import Leg, Limits, Reach
from .targets import Wanted, demote, drain, scale
from .words import counted

# Where shards are to go, of a fleet and servers to avoid.
Choice = Callable[[Fleet], Wanted]

# How often a campaign looks whether there is more to do once all is where it was to go: others' plans may have brought more.
ROUNDS = 8

# How many of the largest replicas a plan may copy, even if that is more than 1 % of all load.
LARGE = 4


# ---- what is recorded, as a fleet

def shard_value(recorded: Line, known: Dict[str, Line], region: Dict[str, str]) -> Json:
    """A shard as a document has it. If no document is at hand, it wants what it has, in as many regions as it lies in."""
    cells = [{"server": it["server"], "state": ROLES[it["state"]]} for it in recorded["cells"] if it["state"] in ROLES]
    want = max(recorded["floor"], len(cells))
    told = known.get(recorded["shard"]) or {"want": want, "spread": len({region[it["server"]] for it in cells})}
    return {"name": recorded["shard"], "load": recorded["load"], "want": want, "cap": want - recorded["floor"], "spread": told["spread"],
            "listed": recorded["listed"] if any(it == {"server": recorded["listed"], "state": "primary"} for it in cells) else None, "cells": cells}


def document_of_state(state: Line, known: Optional[Line]) -> Json:
    """What is recorded, as a document."""
    shards = {it["name"]: it for it in (known or {}).get("shards", [])}
    region = {it["server"]: it["region"] for it in state["servers"]}
    servers = [{"name": it["server"], "region": it["region"], "room": it["room"], **({"down": True} if it["permit"] is not None else {})} for it in state["servers"]]
    return {"limit": state["limit"], "log": state["log"]["places"], "servers": servers, "shards": [shard_value(it, shards, region) for it in state["shards"]]}


def fleet_of_state(state: Line, known: Optional[Line]) -> Fleet:
    """The fleet of what is recorded. Room that running plans hold, and that handovers use, is not there; no more of the log than is free."""
    value = document_of_state(state, known)
    used: Dict[str, int] = {}
    for shard in value["shards"]:
        for cell in shard["cells"]:
            used[cell["server"]] = used.get(cell["server"], 0) + shard["load"]
    for server, recorded in zip(value["servers"], state["servers"]):
        free = recorded["room"] - recorded["load"] - recorded["held"]
        server["room"] = max(0, free) + used.get(server["name"], 0)
    value["log"] = state["log"]["free"]
    return Fleet(document_of(value))


def shards_under_way(state: Line) -> Set[str]:
    """The shards that are in a handover."""
    return {it["shard"] for it in state["shards"] if any(cell["state"] not in ("primary", "secondary") for cell in it["cells"])}


# ---- a campaign

# A shard's servers with their roles, and whether the map lists it.
Standing = Tuple[Tuple[Tuple[str, str], ...], bool]


def standing(fleet: Fleet, cells: Cells, is_listed: bool) -> Standing:
    """How a shard stands, by names."""
    return tuple((fleet.servers[it], role) for it, role in sorted(cells.items())), is_listed


@dataclass
class Wish:
    """How a shard stands as far as the campaign knows, and how it is to stand. If it stands otherwise, others have moved it, and the wish is void."""

    now: Standing
    then: Standing


@dataclass
class Campaign:
    """Plans of a few steps, one after the other, until all shards are where they were to go. No further plan begins once one, or waiting for others' plans,
    takes longer than `patience`."""

    controllers: Controllers
    name: str
    choice: Choice
    limits: Limits
    known: Optional[Line] = None
    pause: float = 1.0
    patience: Optional[float] = None
    tell: Callable[[str], None] = print
    is_stopped: bool = False
    wishes: Dict[str, Wish] = field(default_factory=dict)
    left: List[str] = field(default_factory=list)
    plans: int = 0
    waited: float = 0.0

    def run(self) -> int:
        """Runs to the end: 0 if nothing is left, otherwise 1."""
        for number in range(ROUNDS + 1):
            self.choose(number == 0)
            before = self.plans
            if not self.wishes:
                break
            if number == ROUNDS:
                self.left.append(f"{named(sorted(self.wishes))}: others move them again and again")
                break
            if not self.fulfil():
                self.tell(f"stopped after {counted(self.plans, 'plan')}")
                return 1
            if self.wishes and self.plans == before:
                break  # (nothing more can be done for what is left)
        for line in self.left:
            self.tell(f"left: {line}")
        self.tell(f"{self.name} has ended after {counted(self.plans, 'plan')}")
        return 1 if self.left else 0

    def state(self) -> Line:
        """What is recorded, once no reopening is under way."""
        while True:
            state = self.controllers.state()
            if state.get("is") == "open":
                return state
            if state.get("is") != "reopening":
                raise Failure("nothing is opened yet", 1)
            self.let_pass("a reopening is under way")

    def choose(self, is_first: bool) -> None:
        """Chooses where shards are to go, from what is recorded now."""
        fleet = fleet_of_state(self.state(), self.known)
        found = self.choice(fleet)
        self.wishes, self.left = {}, found.left
        for shard, name in enumerate(fleet.shards):
            now = standing(fleet, fleet.cells[shard], fleet.is_listed[shard])
            then = standing(fleet, found.target.cells[shard], found.target.is_listed[shard])
            if now != then:
                self.wishes[name] = Wish(now, then)
        if is_first:
            tell_beforehand(self.tell, fleet, found, Reach(fleet, found.target, self.limits))

    def fulfil(self) -> bool:
        """Makes plans until each wish is fulfilled, void, or cannot be fulfilled. Tells whether the campaign goes on."""
        taken: Set[str] = set()
        while not self.is_stopped:
            state = self.state()
            fleet = fleet_of_state(state, self.known)
            busy = taken | shards_under_way(state)
            self.strike(fleet, busy)
            reach = self.reach(fleet, busy)
            leg = next(reach.legs(), None)
            if leg is None:
                if not self.waits(state, reach, busy):
                    self.left += reach.left
                    return True
                self.let_pass(f"others' plans have {named(sorted(self.wishes))}")
                taken = set()
                continue
            more = self.make(leg, reach.size)
            if more is None:
                return False
            taken = taken | {more} if more else set()
        return False

    def strike(self, fleet: Fleet, busy: Set[str]) -> None:
        """Strikes off the wishes that are fulfilled or void."""
        for name in self.wishes.keys() - busy:
            wish, shard = self.wishes[name], fleet.shard_of.get(name)
            now = None if shard is None else standing(fleet, fleet.cells[shard], fleet.is_listed[shard])
            if now == wish.then or now != wish.now:
                del self.wishes[name]

    def waits(self, state: Line, reach: Reach, busy: Set[str]) -> bool:
        """Whether others' plans have shards that are to move, or may have room that is missing."""
        is_short = bool(reach.rest) and any(it["is"] == "running" for it in state["plans"])
        return is_short or not busy.isdisjoint(self.wishes)

    def reach(self, fleet: Fleet, busy: Set[str]) -> Reach:
        """The plans to what is wished of the shards that are not busy."""
        target = fleet.target()
        for name in self.wishes.keys() - busy:
            roles, is_listed = self.wishes[name].then
            shard = fleet.shard_of[name]
            target.cells[shard], target.is_listed[shard] = {fleet.server_of[it]: role for it, role in roles}, is_listed
        load = max(sum(fleet.used) // 100, LARGE * max(fleet.load, default=0), 1)
        return Reach(fleet, target, replace(self.limits, load=load))

    def make(self, leg: Leg, rest: int) -> Optional[str]:
        """Begins a plan, and waits until it has ended. Tells which shard a running plan has, if that is in its way: '' if none; none at all if the campaign
        ends here."""
        name = f"{self.name}-{secrets.token_hex(4)}"
        try:
            begun = self.controllers.do({"do": "begin", "plan": leg.streams.plan(), "name": name})["begun"]
        except Refused as why:
            if why.kind == "Taken" and "shard" in why.reply["refused"]:
                return str(why.reply["refused"]["shard"])
            if why.kind not in PASSING and why.kind != "Unknown":
                raise
            self.let_pass(str(why))
            return ""
        self.waited = 0.0
        self.plans += 1
        self.tell(f"plan {name}: {in_words(leg)}; then {counted(rest, 'step')} more")
        if not self.has_ended(begun_as(self.controllers.ask, begun)):
            return None
        for shard in {it.shard for it in leg.blocks}:
            self.wishes[leg.before.shards[shard]].now = standing(leg.before, leg.after.cells[shard], leg.after.is_listed[shard])
        if rest:
            self.controllers.sleep(self.pause)
        return ""

    def has_ended(self, plan: Begun) -> bool:
        """Waits until a plan has ended. Tells whether it has."""
        begun = time.monotonic()
        while True:
            has_ended = plan.has_ended(self.controllers.ask)
            if has_ended is False:
                self.tell("a reopening has broken the plan off")
            if has_ended is not None:
                return has_ended
            if self.patience is not None and time.monotonic() - begun > self.patience:
                self.tell(f"the plan takes longer than {self.patience:g} s; it goes on, and no other one begins: see `watch`")
                return False
            self.controllers.sleep(0.2)

    def let_pass(self, why: str, step: float = 0.5) -> None:
        """Waits a moment for what is in the way; fails once this takes longer than the patience."""
        if self.patience is not None and self.waited > self.patience:
            raise Failure(why, 1)
        if not self.waited:
            self.tell(f"waits: {why}")
        self.controllers.sleep(step)
        self.waited += step


# ---- what is told

def in_words(leg: Leg) -> str:
    """What a plan does, in words."""
    copies = copies_in(leg.blocks)
    parts = [f"{counted(copies, 'copy', 'copies')} of load {leg.streams.copied}"]
    changed = [leg.before.shards[it.shard] for it in leg.blocks if it.kind in CHANGE_ROLES]
    return ", ".join(parts + ([f"the primary of {named(changed)} changes by two roles"] if changed else []))


# ---- the commands

def known_document(controllers: Controllers, path: Optional[str]) -> Optional[Line]:
    """The document that says in how many regions shards are to lie: the one that is named, or what the controller knows, if it knows any."""
    if path is not None:
        return document_from(read_value(path), path).value
    try:
        found = controllers.post("/document")
    except Failure:  # (it has no such page)
        return None
    return found if isinstance(found, dict) and "shards" in found else None


def save(path: str, value: Json) -> None:
    """Writes what was recorded before, for `undo`."""
    try:
        with open(path, "x", encoding="utf-8") as file:
            json.dump(value, file)
    except FileExistsError:
        raise Failure(f"{path} is there, and may be of what you want to undo: name another file, or go on without --before") from None
    except OSError as why:
        raise Failure(f"{path}: {why.strerror}") from None


def run_campaign(told: argparse.Namespace, name: str, choice: Callable[[Fleet], Wanted]) -> int:
    """Runs a campaign. The first interrupt ends it behind the present plan."""
    controllers = controllers_of(told)
    known = known_document(controllers, told.document)
    limits = Limits(streams=told.streams, at_server=told.at_server, blocks=told.batch, hops=told.hops, drops_first=told.drop_first,
                    has_gap=not getattr(told, "no_gap", False))
    campaign = Campaign(controllers, name, choice, limits, known, told.pause, told.stop, tell=lambda text: print(text, flush=True))
    state = campaign.state()
    campaign.limits = replace(limits, avoid=frozenset(servers_in(fleet_of_state(state, known), told.avoid)))
    if told.before:
        save(told.before, document_of_state(state, known))

    def stop(*_: object) -> None:
        campaign.is_stopped = True
        signal.signal(signal.SIGINT, signal.default_int_handler)
        print("stops behind the present plan; once more to leave at once", flush=True)

    signal.signal(signal.SIGINT, stop)
    return campaign.run()


def run_demotion(told: argparse.Namespace) -> int:
    return run_campaign(told, "demote", lambda fleet: demote(fleet, servers_in(fleet, told.servers), servers_in(fleet, told.avoid), not told.no_gap))


def run_drain(told: argparse.Namespace) -> int:
    """Empties servers together (`control_drain` empties one by the proved planner)."""
    def choice(fleet: Fleet) -> Wanted:
        return drain(fleet, servers_in(fleet, told.servers), servers_in(fleet, told.avoid), told.prefer_secondary, Progress(print))
    return run_campaign(told, "drain", choice)


def run_balance(told: argparse.Namespace) -> int:
    def choice(fleet: Fleet) -> Wanted:
        avoid = servers_in(fleet, told.avoid)
        if told.primaries:
            return level_primaries(fleet, avoid)
        found = balance(fleet, avoid, Fraction(told.over, 100), Budget(told.moves, told.load), Progress(print))
        wanted = after_moves(fleet, found.moves)
        wanted.left = [f"{fleet.servers[it]} stays above {percent(found.top)}" for it in found.stuck]
        return wanted
    return run_campaign(told, "balance", choice)


def run_scale(told: argparse.Namespace) -> int:
    return run_campaign(told, "scale", lambda fleet: scale(fleet, wants_of(fleet, told.wants), servers_in(fleet, told.avoid)))


def run_undo(told: argparse.Namespace) -> int:
    before = Fleet(document_from(read_value(told.placement), told.placement))
    return run_campaign(told, "undo", lambda fleet: wanted_as_in(fleet, before))


# The options that `add_choices` adds.
CHOICES = ("avoid", "streams", "at_server", "hops", "drop_first", "document", "before")


def add_choices(parser: argparse.ArgumentParser) -> None:
    """Adds the options that say how a campaign is made."""
    parser.add_argument("--avoid", action="append", default=[], metavar="SERVER", help="a server, or region:R, that gets nothing; may be given again")
    parser.add_argument("--streams", type=whole(1, MOST_STREAMS), default=32, metavar="N", help="copies at once at most (32)")
    parser.add_argument("--at-server", type=whole(0, MOST_STREAMS), default=2, metavar="N", help="copies at once that burden a server; 0: any number (2)")
    parser.add_argument("--hops", type=whole(0, MOST_MOVES), default=0, metavar="N", help="if nothing fits, replicas that may go by a third server, in each plan (0)")
    parser.add_argument("--drop-first", action="store_true", help="if nothing fits, drop a replica before its successor is added, where one may be spared")
    parser.add_argument("--document", metavar="FILE", help="says in how many regions shards are to lie (what the controller knows; otherwise as many as now)")
    parser.add_argument("--before", metavar="FILE", help="write the placement as it is before, for 'undo'")


def add_command(subparsers: Any, name: str, run: Callable[[argparse.Namespace], int], what: str, example: str) -> argparse.ArgumentParser:
    """Adds a campaign."""
    parser = subparsers.add_parser(
        name, help=what, epilog=f"example: smplan-control {example}",
        description=f"{what[0].upper()}{what[1:]}, by plans that are cut small, and that leave shards of running plans for later. It first tells what it comes to. The "
        "first interrupt ends it behind the present plan. Exit status 0: nothing is left. 1: something is, or it stopped before its end.")
    add_options(parser)
    add_choices(parser)
    parser.add_argument("--batch", type=whole(1, MOST_MOVES), default=64, metavar="N", help="steps in a plan: moves, changes of roles (64); and 1 %% of all load, or four of the largest replicas")
    parser.add_argument("--pause", type=at_least(0), default=1.0, metavar="SECONDS", help="rest between two plans (1)")
    parser.add_argument("--stop", type=at_least(0), metavar="SECONDS", help="begin no further plan once one, or waiting for others' plans, takes longer than this")
    parser.set_defaults(run=run)
    return parser


def add_parser(subparsers: Any) -> None:
    """Adds the commands."""
    gap = ("--no-gap", "hand primaries over instead of changing roles: nobody waits, the data is copied twice, and a live replica has to be spared")
    parser = add_command(subparsers, "demote", run_demotion, "takes all primaries off servers, without a copy", "demote berlin-1 --before was.json")
    parser.add_argument("servers", nargs="+", metavar="SERVER", help="a server, or region:R for those of a region")
    parser.add_argument(gap[0], action="store_true", help=gap[1])
    parser = add_command(subparsers, "balance", run_balance, "levels load, or primaries", "balance --over 5")
    parser.add_argument("--over", type=whole(0, 1000), default=10, metavar="PERCENT", help="how far above the mean a server may be, in percent of the mean (10)")
    parser.add_argument("--moves", type=whole(0, MOST_MOVES), default=MOST_MOVES, metavar="N", help="moves at most")
    parser.add_argument("--load", type=whole(0, 2 ** 63), metavar="LOAD", help="load to copy at most")
    parser.add_argument("--primaries", action="store_true", help="level how many primaries each server has instead, by changes of roles")
    parser.add_argument(gap[0], action="store_true", help=gap[1])
    parser = add_command(subparsers, "scale", run_scale, "gives shards other numbers of replicas", "scale orders=3")
    parser.add_argument("wants", nargs="+", metavar="SHARD=WANT", help="a shard, and how many replicas it is to have")
    parser = add_command(subparsers, "undo", run_undo, "brings back a placement that was saved", "undo was.json")
    parser.add_argument("placement", metavar="FILE", help="the placement, as --before has written it, or another document")
    parser.add_argument(gap[0], action="store_true", help=gap[1])
