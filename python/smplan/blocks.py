"""What one shard needs on its way from one placement to another, cut into blocks: pieces that leave it at rest."""
from __future__ import annotations

from dataclasses import dataclass
from enum import Enum
from typing import Iterable, List, Optional

from .fleet import Fleet, Target, primary_of


class Kind(Enum):
    """What a block does with the replicas at its source and its target."""

    MOVE = "a secondary is added at the target, and the source's is dropped"
    HAND = "the primary is handed over to the target, which had nothing"
    SWAP = "the source's primary and the target's secondary change roles; for one call nobody is the primary"
    WARM = "the target drops its secondary and is handed the primary, and the source gets a secondary again"
    ADD = "a secondary is added at the target"
    DROP = "the source's secondary is dropped"
    PROMOTE = "the target's secondary becomes the primary of a shard without one"
    PUBLISH = "the map lists the primary"
    UNLIST = "the map lists the primary no longer"


# The kinds that need room at their target, that free room at their source, that copy to their target, that need a live replica to spare, that change roles by
# calls of their own, and that make the target the primary.
NEED_ROOM = frozenset([Kind.MOVE, Kind.HAND, Kind.ADD])
FREE_ROOM = frozenset([Kind.MOVE, Kind.HAND, Kind.DROP])
COPY = frozenset([Kind.MOVE, Kind.HAND, Kind.ADD, Kind.WARM])
NEED_SPARE = frozenset([Kind.DROP, Kind.WARM])
CHANGE_ROLES = frozenset([Kind.SWAP, Kind.PROMOTE])
NEW_PRIMARY = CHANGE_ROLES | {Kind.HAND, Kind.WARM}


@dataclass(frozen=True)
class Block:
    """A piece of a shard's way. The source is the server that gives up a replica or a role, the target the one that gets it."""

    kind: Kind
    shard: int
    source: Optional[int] = None
    target: Optional[int] = None

    @property
    def copies(self) -> int:
        """How often it copies the shard."""
        return 2 if self.kind is Kind.WARM else int(self.kind in COPY)

    @property
    def servers(self) -> List[int]:
        """The servers that it names."""
        return [it for it in (self.source, self.target) if it is not None]

    def holders_after(self, holders: Iterable[int]) -> List[int]:
        """The servers with a replica after it, if these have one before it."""
        gone = self.source if self.kind in FREE_ROOM else None
        come = [self.target] if self.kind in NEED_ROOM and self.target is not None else []
        return [it for it in holders if it != gone] + come


def copies_in(blocks: Iterable[Block]) -> int:
    """How many copies blocks make."""
    return sum(it.copies for it in blocks)


class Unreachable(Exception):
    """Why a shard does not get where it is wanted."""


def role_change_fault(fleet: Fleet, shard: int) -> Optional[str]:
    """Why no secondary of a shard may become its primary now, if that is so: each replica has to have all writes."""
    down = next((it for it in fleet.cells[shard] if fleet.is_down[it]), None)
    return None if down is None else f"its replica at {fleet.servers[down]} is down, and the primary changes only while all replicas are up"


def regions_without(fleet: Fleet, shard: int, servers: Iterable[int]) -> int:
    """In how many regions a shard lies at least while one of these servers has nothing of it."""
    return min(fleet.regions(other for other in fleet.cells[shard] if other != it) for it in servers)


def keeps_regions(fleet: Fleet, holders: Iterable[int], blocks: Iterable[Block], least: int) -> bool:
    """Whether a shard lies in enough regions after each block, if these servers have it before."""
    now = list(holders)
    for block in blocks:
        now = block.holders_after(now)
        if fleet.regions(now) < least:
            return False
    return True


class Way:
    """The blocks that lead one shard from its cells to those that are wanted. Meanwhile it lies in as many regions as before or as wanted, whichever is
    less, or in its spread if that is less still."""

    def __init__(self, fleet: Fleet, shard: int, target: Target, has_gap: bool) -> None:
        self.fleet, self.shard, self.has_gap = fleet, shard, has_gap
        self.now, self.then = fleet.cells[shard], target.cells[shard]
        self.is_listed, self.will_be_listed = fleet.is_listed[shard], target.is_listed[shard]
        self.coming = [it for it in sorted(self.then) if it not in self.now]
        self.leaving = [it for it in sorted(self.now) if it not in self.then]
        self.tail: List[Block] = []
        self.least = min(fleet.spread[shard], fleet.regions(self.now), fleet.regions(self.then))

    def blocks(self) -> List[Block]:
        """The blocks in their order. Raises `Unreachable` if there are none that are safe for the shard's data and service."""
        self.need_data()
        head = self.primary_blocks()
        found = [*head, *self.paired(head), *self.tail]
        if not self.keeps_spread(found):
            added = [Block(Kind.ADD, self.shard, None, it) for it in self.coming if it in self.then and it not in self.now]
            again = [Block(Kind.ADD, self.shard, None, it) for it in self.coming if it in self.now]
            found = [*added, *head, *again, *self.tail, *(Block(Kind.DROP, self.shard, it) for it in self.leaving)]
        if not self.keeps_spread(found):
            raise Unreachable("it would lie in too few regions for a while")
        if self.will_be_listed != self.is_listed:
            found.append(Block(Kind.PUBLISH if self.will_be_listed else Kind.UNLIST, self.shard))
        self.need_servers(found)
        return found

    # What a way must not do.

    def need_data(self) -> None:
        """Tests that replicas are copied from a primary, and that neither data nor service ends."""
        has_primary, will_have = primary_of(self.now) is not None, primary_of(self.then) is not None
        if self.then and not self.now:
            raise Unreachable("no replica is left to copy from; 'repair --empty' adds an empty primary")
        if self.now and not self.then:
            raise Unreachable("its last replica would go")
        if has_primary and not will_have:
            raise Unreachable("it would be left without a primary")
        if self.now != self.then and not will_have:
            raise Unreachable("it has no primary; 'repair' makes a secondary the primary")

    def need_servers(self, blocks: List[Block]) -> None:
        """Tests that the servers are up: those that are called, the one that is copied from, and, if roles change, all that have a replica."""
        old = primary_of(self.now)
        copied_from = [old] if old is not None and any(it.kind in COPY for it in blocks) else []
        down = next((it for it in [*copied_from, *(it for block in blocks for it in block.servers)] if self.fleet.is_down[it]), None)
        if down is not None:
            raise Unreachable(f"{self.fleet.servers[down]} is down")
        fault = role_change_fault(self.fleet, self.shard) if any(it.kind in CHANGE_ROLES for it in blocks) else None
        if fault:
            raise Unreachable(fault)

    def keeps_spread(self, blocks: List[Block]) -> bool:
        """Whether the shard lies in enough regions after each block."""
        return keeps_regions(self.fleet, self.now, blocks, self.least)

    # The primary first, then the rest.

    def primary_blocks(self) -> List[Block]:
        """The first blocks, for the primary. If it comes to a server that has nothing yet while the old one stays, it comes as a secondary like others, and
        changes roles at the end (`tail`); or without a gap it is handed over, and the old server gets a secondary again like others."""
        old, new = primary_of(self.now), primary_of(self.then)
        if new is None or old == new:
            return []
        found = []
        if old is None:
            old = new if new in self.now else min(self.now, key=lambda it: (self.fleet.is_down[it], it not in self.leaving, it))
            found.append(Block(Kind.PROMOTE, self.shard, None, old))
        if old == new:
            return found
        if new in self.now:
            return [*found, self.exchange(old, new)]
        if old in self.then and self.has_gap:
            self.tail = [Block(Kind.SWAP, self.shard, old, new)]
            return found
        self.coming.remove(new)
        if old in self.then:
            self.coming.append(old)
        else:
            self.leaving.remove(old)
        return [*found, Block(Kind.HAND, self.shard, old, new)]

    def exchange(self, old: int, new: int) -> Block:
        """The block by which two replicas exchange their roles."""
        if self.has_gap:
            return Block(Kind.SWAP, self.shard, old, new)
        if regions_without(self.fleet, self.shard, (old, new)) < self.least:
            raise Unreachable("without a gap it would lie in too few regions for a while")
        return Block(Kind.WARM, self.shard, old, new)

    def paired(self, head: List[Block]) -> List[Block]:
        """Moves as far as servers come and leave; then what is left of both. Those within a region come first, then those into a new region."""
        region, coming, leaving = self.fleet.region, list(self.coming), list(self.leaving)
        found: List[Block] = []
        holders = list(self.now)
        for block in head:
            holders = block.holders_after(holders)
        while coming and leaving:
            here = {region[it] for it in holders}
            counts = [region[it] for it in holders]
            source, target = min(
                ((u, v) for u in leaving for v in coming),
                key=lambda it: (region[it[0]] != region[it[1]], region[it[1]] in here, counts.count(region[it[0]]) == 1, it))
            found.append(Block(Kind.MOVE, self.shard, source, target))
            coming.remove(target)
            leaving.remove(source)
            holders = found[-1].holders_after(holders)
        found += [Block(Kind.ADD, self.shard, None, it) for it in coming]
        return found + [Block(Kind.DROP, self.shard, it) for it in leaving]
