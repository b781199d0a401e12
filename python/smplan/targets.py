"""Placements that operators want: no leaders at some servers, nothing at them, other numbers of replicas. Nothing is proved of the choices."""
from __future__ import annotations

from dataclasses import dataclass, field
from itertools import combinations
from typing import AbstractSet, Callable, Dict, List, Optional, Sequence, Tuple

from .blocks import Unreachable, regions_without, role_change_fault
from .draft import Draft
from .fleet import PRIMARY, Fleet, Target, primary_of
from .words import counted


@dataclass
class Wanted:
    """A placement that is wanted, and in lines what could not be had."""

    target: Target
    left: List[str] = field(default_factory=list)


# How far a long choice is, in words, for whoever wants to hear it.
Hear = Callable[[str], None]


def ignore(_: str) -> None:
    """Hears nothing."""


# ---- no leaders at some servers

class Demotion:
    """Makes a secondary the primary where the primary is at one of these servers. Without a gap the secondary is given up for a while, and then handed over
    to."""

    def __init__(self, fleet: Fleet, servers: AbstractSet[int], avoid: AbstractSet[int], has_gap: bool) -> None:
        self.fleet, self.servers, self.closed, self.has_gap = fleet, servers, servers | avoid, has_gap
        self.counts = [0] * len(fleet.servers)
        for cells in fleet.cells:
            primary = primary_of(cells)
            if primary is not None:
                self.counts[primary] += 1

    def wanted(self) -> Wanted:
        """The placement after all changes of roles, shard by shard."""
        found = Wanted(self.fleet.target())
        for shard, cells in enumerate(self.fleet.cells):
            primary = primary_of(cells)
            if primary is None or primary not in self.servers:
                continue
            try:
                server = self.successor(shard, primary)
            except Unreachable as why:
                found.left.append(f"{self.fleet.shards[shard]} keeps its primary at {self.fleet.servers[primary]}: {why}")
                continue
            found.target.promote(shard, server)
            self.counts[primary] -= 1
            self.counts[server] += 1
        return found

    def successor(self, shard: int, primary: int) -> int:
        """The server with the fewest primaries, of equals the lowest, among those that may take over."""
        fleet, cells = self.fleet, self.fleet.cells[shard]
        may = [it for it in cells if it != primary and it not in self.closed and not fleet.is_down[it]]
        if not may:
            others = ", ".join(fleet.servers[it] for it in sorted(cells) if it != primary)
            raise Unreachable(f"its other replicas are at {others}" if others else "it has no other replica")
        if self.has_gap:
            fault = role_change_fault(fleet, shard)
            if fault:
                raise Unreachable(fault)
        else:
            may = self.spared(shard, primary, may)
        return min(may, key=lambda it: (self.counts[it], it))

    def spared(self, shard: int, primary: int, may: List[int]) -> List[int]:
        """Those of the servers that the shard can do without for a while."""
        fleet, cells = self.fleet, self.fleet.cells[shard]
        if fleet.live(shard) <= fleet.floor[shard]:
            raise Unreachable(f"without a gap a live replica has to be spared: live {fleet.live(shard)}, floor {fleet.floor[shard]}")
        least = min(fleet.spread[shard], fleet.regions(cells))
        found = [it for it in may if regions_without(fleet, shard, (primary, it)) >= least]
        if not found:
            raise Unreachable(f"without a gap it would lie in fewer than {counted(least, 'region')} for a while")
        return found


def demote(fleet: Fleet, servers: AbstractSet[int], avoid: AbstractSet[int] = frozenset(), has_gap: bool = True) -> Wanted:
    """No primary at these servers."""
    return Demotion(fleet, servers, avoid, has_gap).wanted()


# ---- nothing at some servers

@dataclass(frozen=True)
class Room:
    """Another replica that gives way: it goes from one server to another, so that there is room at the first."""

    shard: int
    source: int
    target: int


class Drain:
    """Empties servers, the replicas with the greatest loads first. Each goes where most room is left; if none fits, another one gives way, or two."""

    def __init__(self, fleet: Fleet, servers: AbstractSet[int], avoid: AbstractSet[int], start: Target, hear: Hear) -> None:
        self.fleet, self.servers, self.hear = fleet, servers, hear
        self.draft = Draft(fleet, servers | avoid)
        self.draft.target = start
        self.left: List[str] = []

    def wanted(self) -> Wanted:
        """The placement without a replica at the servers."""
        load = self.fleet.load
        jobs = sorted(((shard, it) for it in self.servers for shard in self.fleet.at[it]), key=lambda it: (-load[it[0]], it))
        for number, (shard, server) in enumerate(jobs):
            self.hear(f"{number} of {counted(len(jobs), 'replica')} have another place")
            target = next((it for it in self.draft.receivers(load[shard]) if self.may(shard, server, it)), None)
            if target is None:
                rooms = self.room_for(shard, server)
                if not rooms:
                    self.left.append(self.why_stuck(shard, server))
                    continue
                for it in rooms:
                    self.draft.move(it.shard, it.source, it.target)
                target = rooms[0].source
            self.draft.move(shard, server, target)
        return Wanted(self.draft.target, self.left)

    def may(self, shard: int, source: int, target: int) -> bool:
        """Whether a replica may go to a server that has room. Each other one that has still to leave may yet come to a region of its own."""
        if not self.draft.is_new(shard, target):
            return False
        fleet = self.fleet
        stay = [it for it in self.draft.target.cells[shard] if it != source]
        regions = fleet.regions([*(it for it in stay if it not in self.servers), target]) + sum(it in self.servers for it in stay)
        return regions >= min(fleet.spread[shard], fleet.regions(fleet.cells[shard]))

    def room_for(self, shard: int, source: int) -> List[Room]:
        """The replica whose leaving makes room for one, or the two of a server if one is not enough, those of the least load; none if there are none."""
        draft, load = self.draft, self.fleet.load
        most = max((draft.free(it) for _, it in draft.ranked[:1]), default=0)
        for count in (1, 2):
            found: List[Tuple[int, Tuple[int, ...], int]] = []
            for _, server in draft.ranked:
                if self.may(shard, source, server):
                    small = [it for it in draft.movable(server) if load[it] <= most]
                    sums = ((sum(load[it] for it in others), others, server) for others in combinations(small, count))
                    found += [it for it in sums if it[0] + draft.free(server) >= load[shard]]
            rooms = next(filter(None, (self.rooms_of(others, server) for _, others, server in sorted(found))), None)
            if rooms:
                return rooms
        return []

    def rooms_of(self, others: Sequence[int], server: int) -> List[Room]:
        """Where replicas of a server go, each to another server where most room is left; none if one finds no room."""
        found: List[Room] = []
        for other in others:
            taken = {server, *(it.target for it in found)}
            target = next((it for it in self.draft.receivers(self.fleet.load[other]) if it not in taken and self.may(other, server, it)), None)
            if target is None:
                return []
            found.append(Room(other, server, target))
        return found

    def why_stuck(self, shard: int, server: int) -> str:
        """Why a replica stays, in a line."""
        fleet, draft = self.fleet, self.draft
        line = f"{fleet.shards[shard]} stays at {fleet.servers[server]}: "
        new = [it for _, it in draft.ranked if draft.is_new(shard, it)]
        if not new:
            return line + "no other server that is up may have it"
        fit = [it for it in new if draft.free(it) >= fleet.load[shard]]
        if not fit:
            return line + f"its load is {fleet.load[shard]}, and {fleet.servers[new[0]]} has the most room left, {draft.free(new[0])}"
        return line + f"at {fleet.servers[fit[0]]} it would lie in fewer than {counted(fleet.spread[shard], 'region')}"


def drain(fleet: Fleet, servers: AbstractSet[int], avoid: AbstractSet[int] = frozenset(), prefers_secondary: bool = False, hear: Hear = ignore) -> Wanted:
    """Nothing at these servers. If it prefers secondaries, primaries change their roles first, where they can."""
    start = demote(fleet, servers, avoid).target if prefers_secondary else fleet.target()
    return Drain(fleet, servers, avoid, start, hear).wanted()


# ---- other numbers of replicas

def grow(draft: Draft, shard: int, want: int) -> Optional[str]:
    """Adds secondaries: in new regions as long as there are too few, and then where most room is left. Returns why it cannot."""
    fleet, cells = draft.fleet, draft.target.cells[shard]
    while len(cells) < want:
        server = roomiest(draft, shard)
        if server is None:
            return f"its load is {fleet.load[shard]}, and no other server that is up has as much room left"
        draft.add(shard, server)
    return None


def roomiest(draft: Draft, shard: int) -> Optional[int]:
    """The server where most room is left for one more replica: in a new region, if the shard lies in too few and there is one; none if there is no room."""
    fleet, cells = draft.fleet, draft.target.cells[shard]
    here = {fleet.region[it] for it in cells}
    first = None
    for server in draft.receivers(fleet.load[shard]):
        if server not in cells:
            if len(here) >= fleet.spread[shard] or fleet.region[server] not in here:
                return server
            first = server if first is None else first
    return first


def shrink(draft: Draft, shard: int, want: int) -> Optional[str]:
    """Drops secondaries at the fullest servers, as long as regions are enough. Returns why it cannot."""
    fleet, cells = draft.fleet, draft.target.cells[shard]
    while len(cells) > want:
        least = min(fleet.spread[shard], want, fleet.regions(cells))
        may = [
            it for it, role in cells.items()
            if role != PRIMARY and not fleet.is_down[it] and fleet.regions(other for other in cells if other != it) >= least
        ]
        if not may:
            return f"none of its other replicas may go: it is to lie in {counted(least, 'region')}"
        fullest = max(may, key=lambda it: (draft.share(it), it))
        draft.drop(shard, fullest)
    return None


def scale(fleet: Fleet, wants: Dict[int, int], avoid: AbstractSet[int] = frozenset()) -> Wanted:
    """As many replicas as are wanted. The primary stays."""
    draft, left = Draft(fleet, avoid), []
    for shard, want in wants.items():
        why = grow(draft, shard, want) or shrink(draft, shard, want)
        if why:
            left.append(f"{fleet.shards[shard]} has {len(draft.target.cells[shard])} of {counted(want, 'replica')}: {why}")
    return Wanted(draft.target, left)


# ---- the placement of another document

def as_in(fleet: Fleet, other: Fleet) -> Wanted:
    """Each shard as in another document of the same service. One that is without a primary there keeps a primary if it has one."""
    found = Wanted(fleet.target())
    for shard, name in enumerate(fleet.shards):
        theirs = other.shard_of.get(name)
        if theirs is None:
            continue
        cells = {fleet.server_of[other.servers[it]]: role for it, role in other.cells[theirs].items()}
        now, is_listed = primary_of(fleet.cells[shard]), other.is_listed[theirs]
        if cells and now is not None and primary_of(cells) is None:
            server = now if now in cells else min(cells)
            cells[server], is_listed = PRIMARY, fleet.is_listed[shard]
            found.left.append(f"{name} keeps a primary, at {fleet.servers[server]}")
        found.target.cells[shard], found.target.is_listed[shard] = cells, is_listed
    return found
