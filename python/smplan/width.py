"""How many copies may run at once while a plan runs, whatever its schedule: the widest set of copies of which none waits for another."""
from __future__ import annotations

from dataclasses import dataclass
from typing import Dict, List, Optional, Sequence, Tuple

from .model import Document, Instruction, Plan, Spot
from .placement import Placement
from .story import rounds_of
from .words import counted

# Of more copies than this no widest set is looked for, since that takes long.
MOST_COPIES = 1024


@dataclass(frozen=True)
class Copy:
    """An instruction that copies a shard from its primary to a server. Before it, `clock` instructions of each stream are made."""

    shard: str
    source: Optional[str]
    target: str
    spot: Spot
    clock: Tuple[int, ...]

    def waits_for(self, other: "Copy") -> bool:
        """Whether the other one has ended before this one begins."""
        return self.clock[other.spot.stream] > other.spot.position

    def burdens(self, server: str) -> bool:
        return server in (self.source, self.target)


def is_copy(it: Instruction) -> bool:
    return it.do == "prepare_add" or (it.do == "add" and it.role == "secondary")


def copies_of(plan: Plan, document: Document) -> List[Copy]:
    """The copies of a plan that runs to its end."""
    placement = Placement(document)
    owners = {it: placement.lead(it).owner for it in document.shards}
    clocks = [[0] * len(plan.streams) for _ in plan.streams]
    posted: Dict[int, List[int]] = {}
    found = []
    for spot in (it for spots in rounds_of(plan) for it in spots):
        it, clock = plan.at(spot), clocks[spot.stream]
        if it.do == "wait":
            clocks[spot.stream] = clock = [max(pair) for pair in zip(clock, posted[it.signal])]
        if is_copy(it):
            found.append(Copy(it.shard, owners[it.shard], it.server, spot, tuple(clock)))
        if it.do in ("add", "change") and it.role == "primary":
            owners[it.shard] = it.server
        clock[spot.stream] = spot.position + 1
        if it.do == "signal":
            posted[it.signal] = list(clock)
    return found


def copied_load(plan: Plan, document: Document) -> int:
    """The load that a plan copies, if it runs to its end."""
    return sum(document.shards[it.shard].load for it in copies_of(plan, document))


def widest(copies: Sequence[Copy]) -> int:
    """The size of the widest set of copies of which none waits for another: as many as the chains that are needed to cover all."""
    later = [sum(1 << at for at, it in enumerate(copies) if it.waits_for(copy)) for copy in copies]
    before: List[Optional[int]] = [None] * len(copies)
    return len(copies) - sum(is_joined(first, later, before) for first in range(len(copies)))


def is_joined(first: int, later: Sequence[int], before: List[Optional[int]]) -> bool:
    """Finds a later copy for one more copy to stand before, by a way on which others change theirs. Tells whether there is one."""
    came: Dict[int, int] = {}
    queue, seen = [first], 0
    for copy in queue:
        rest = later[copy] & ~seen
        seen |= rest
        while rest:
            at = (rest & -rest).bit_length() - 1
            rest &= rest - 1
            came[at] = copy
            owner = before[at]
            if owner is None:
                rejoin(first, at, came, before)
                return True
            queue.append(owner)
    return False


def rejoin(first: int, last: int, came: Dict[int, int], before: List[Optional[int]]) -> None:
    """Gives each copy on a way the next one that it is to stand before."""
    while True:
        copy = came[last]
        old = next((at for at, it in enumerate(before) if it == copy), None)
        before[last] = copy
        if copy == first or old is None:
            return
        last = old


def longest(copies: Sequence[Copy], loads: Dict[str, int]) -> int:
    """The greatest load of copies of which each waits for the one before. (In the order of `copies` none stands before one that it waits for.)"""
    ends: List[int] = []
    for at, copy in enumerate(copies):
        before = max((ends[it] for it in range(at) if copy.waits_for(copies[it])), default=0)
        ends.append(before + loads[copy.shard])
    return max(ends, default=0)


@dataclass(frozen=True)
class AtOnce:
    """The most copies at once, over all schedules of a plan: in all, and those that burden one server, as source or target. `chain` is the greatest load of
    copies that come one after the other: nothing is faster than that."""

    in_all: int
    by_server: Dict[str, int]
    chain: int

    @property
    def at_server(self) -> int:
        return max(self.by_server.values(), default=0)

    def __str__(self) -> str:
        return f"at most {counted(self.in_all, 'copy', 'copies')} at once, {self.at_server} at a server; load {self.chain} is copied one after the other"


def most_at_once(plan: Plan, document: Document) -> Optional[AtOnce]:
    """The most copies at once of a plan that the program accepts; none if it has none, or too many to look."""
    copies = copies_of(plan, document)
    if not 0 < len(copies) <= MOST_COPIES:
        return None
    servers = [name for name in document.servers if any(it.burdens(name) for it in copies)]
    chain = longest(copies, {name: it.load for name, it in document.shards.items()})
    return AtOnce(widest(copies), {name: widest([it for it in copies if it.burdens(name)]) for name in servers}, chain)


def most_in_turn(plans: Sequence[Tuple[Plan, Document]]) -> Optional[AtOnce]:
    """The most copies at once of plans that run one after the other; none if they have none, or one has too many to look."""
    found = []
    for plan, document in plans:
        at_once = most_at_once(plan, document)
        if at_once is None and copies_of(plan, document):
            return None
        found += [at_once] if at_once else []
    if not found:
        return None
    servers = {name for it in found for name in it.by_server}
    by_server = {name: max(it.by_server.get(name, 0) for it in found) for name in servers}
    return AtOnce(max(it.in_all for it in found), by_server, sum(it.chain for it in found))
