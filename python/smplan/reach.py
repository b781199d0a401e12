"""Plans that lead from one placement to another. Nothing is proved of them: `smplan check` admits each, or says why not."""
from __future__ import annotations

from collections import defaultdict
from dataclasses import dataclass
from typing import Dict, FrozenSet, Iterator, List, Optional

from .blocks import COPY, NEW_PRIMARY, Block, Kind, Unreachable, Way, copies_in, keeps_regions
from .fleet import Fleet, Target, primary_of
from .limits import MOST_MOVES, MOST_STREAMS
from .model import Json
from .streams import Streams


@dataclass(frozen=True)
class Limits:
    """How plans are made: at most so many streams, and so many copies at once at a server (0: any number); so many blocks and so much load in one plan
    (at least one block); how many replicas may go by a third server, and whether one may be dropped before the next is added, if nothing else fits; the
    servers that get nothing; whether roles may change by a call in which nobody is the primary."""

    streams: int = MOST_STREAMS
    at_server: int = 0
    blocks: int = MOST_MOVES
    load: Optional[int] = None
    hops: int = 0
    drops_first: bool = False
    avoid: FrozenSet[int] = frozenset()
    has_gap: bool = True


@dataclass
class Leg:
    """One plan: the placement that it is of, and the one that it leads to."""

    before: Fleet
    after: Target
    streams: Streams

    @property
    def blocks(self) -> List[Block]:
        return [it.block for it in self.streams.placed]

    def document(self) -> Json:
        """The document with the plan."""
        return {**self.before.value(self.before.target()), "plan": self.streams.plan()}


class Reach:
    """Makes plans until a placement is reached, as far as it can be. What is left is told in lines."""

    def __init__(self, fleet: Fleet, target: Target, limits: Limits) -> None:
        self.fleet, self.limits = fleet, limits
        self.hops = limits.hops
        self.left: List[str] = []
        self.least: Dict[int, int] = {}
        ways: Dict[int, List[Block]] = {}
        for shard, cells in enumerate(target.cells):
            if cells != fleet.cells[shard] or target.is_listed[shard] != fleet.is_listed[shard]:
                way = Way(fleet, shard, target, limits.has_gap)
                self.least[shard] = way.least
                try:
                    ways[shard] = way.blocks()
                except Unreachable as why:
                    self.left.append(f"{fleet.shards[shard]} stays as it is: {why}")
        self.rest = {shard: ways[shard] for part in self.parts(ways) for shard in part}

    # The order in which shards are placed.

    def parts(self, ways: Dict[int, List[Block]]) -> Iterator[List[int]]:
        """The shards in parts that fill a plan each. Of a part those come first that burden the busiest servers, if these have lanes, and then those of
        which most is copied, so that all streams end at about the same time."""
        part: List[int] = []
        blocks = load = 0
        for shard, way in ways.items():
            copied = self.fleet.load[shard] * copies_in(way)
            if part and (blocks + len(way) > self.limits.blocks or (self.limits.load is not None and load + copied > self.limits.load)):
                yield self.busiest_first(part, ways)
                part, blocks, load = [], 0, 0
            part.append(shard)
            blocks += len(way)
            load += copied
        yield self.busiest_first(part, ways)

    def busiest_first(self, part: List[int], ways: Dict[int, List[Block]]) -> List[int]:
        """The shards of a part in the order in which they are placed."""
        load, burden = self.fleet.load, [0] * len(self.fleet.servers)
        burdened = {shard: self.burdened(shard, ways[shard]) if self.limits.at_server else [] for shard in part}
        for shard, servers in burdened.items():
            for it in servers:
                burden[it] += load[shard]
        return sorted(part, key=lambda it: (-sum(burden[server] for server in set(burdened[it])), -load[it] * copies_in(ways[it]), it))

    def burdened(self, shard: int, way: List[Block]) -> List[int]:
        """The servers that copies of a shard burden, once for each copy: its target, and that of the primary."""
        primary, found = primary_of(self.fleet.cells[shard]), []
        for block in way:
            if block.kind in COPY:
                found += [it for it in {block.target, primary} if it is not None] * block.copies
            primary = block.target if block.kind in NEW_PRIMARY else primary
        return found

    @property
    def size(self) -> int:
        """How many blocks are not yet in a plan."""
        return sum(map(len, self.rest.values()))

    @property
    def copies(self) -> int:
        """How many copies these make."""
        return sum(map(copies_in, self.rest.values()))

    @property
    def load(self) -> int:
        """How much load they copy."""
        return sum(self.fleet.load[shard] * copies_in(way) for shard, way in self.rest.items())

    def without_primary(self) -> List[str]:
        """The shards of which nobody is the primary for one call."""
        return [self.fleet.shards[shard] for shard, blocks in self.rest.items() if any(it.kind is Kind.SWAP for it in blocks)]

    def legs(self) -> Iterator[Leg]:
        """Each plan, of the placement that the one before leaves."""
        while self.rest:
            leg = self.leg()
            if leg is None:
                self.left += [self.stuck(shard, blocks[0]) for shard, blocks in self.rest.items()]
                return
            yield leg
            self.fleet = self.fleet.after(leg.after) if self.rest else self.fleet

    def leg(self) -> Optional[Leg]:
        """The next plan, or none if no block fits."""
        streams = Streams(self.fleet, self.limits.streams, self.limits.at_server)
        while self.rest:
            before = len(streams.placed)
            if not self.place_all(streams):
                break
            if len(streams.placed) == before and not self.make_way(streams):
                break
        return Leg(self.fleet, streams.end(), streams) if streams.placed else None

    def place_all(self, streams: Streams) -> bool:
        """Places what fits, shard by shard. Returns whether the plan may have more."""
        for shard in list(self.rest):
            blocks = self.rest[shard]
            while blocks and streams.fits(blocks[0]):
                if self.is_enough(streams, blocks[0]) or not streams.place(blocks[0]):
                    return False
                blocks.pop(0)
            if not blocks:
                del self.rest[shard]
        return True

    def is_enough(self, streams: Streams, block: Block) -> bool:
        """Whether a plan has as much as one is to have."""
        if len(streams.placed) >= self.limits.blocks:
            return True
        load = self.fleet.load[block.shard] if block.kind in COPY else 0
        return self.limits.load is not None and bool(streams.placed) and streams.copied + load > self.limits.load

    # If nothing fits.

    def make_way(self, streams: Streams) -> bool:
        """Finds a way out if the first block of no shard fits: takes a later one first, or puts two blocks in the place of one. Tells whether it found any."""
        for shard in self.rest:
            later = self.later_first(streams, shard)
            if later:
                self.rest[shard] = later
                return True
        load, wanted = self.fleet.load, defaultdict(list)  # type: List[int], Dict[Optional[int], List[int]]
        for blocks in self.rest.values():
            wanted[blocks[0].target].append(load[blocks[0].shard])
        heads = [it[0] for it in self.rest.values() if it[0].kind in (Kind.MOVE, Kind.HAND) and wanted[it[0].source]]
        lets_in = {it.shard: min(wanted[it.source]) <= streams.free(it.source or 0) + load[it.shard] for it in heads}
        for block in sorted(heads, key=lambda it: (not lets_in[it.shard], it.kind is Kind.HAND, load[it.shard], it.shard)):
            found = self.hop(streams, block) or self.drop_first(streams, block)
            if found:
                self.rest[block.shard][:1] = found
                return True
        return False

    def later_first(self, streams: Streams, shard: int) -> List[Block]:
        """A shard's blocks with one that fits first; none if there is no such block, or if regions would be too few meanwhile."""
        blocks = self.rest[shard]
        for at, block in enumerate(blocks[1:], 1):
            earlier = {server for it in blocks[:at] for server in it.servers}
            if block.kind in (Kind.MOVE, Kind.ADD, Kind.DROP) and earlier.isdisjoint(block.servers) and streams.fits(block):
                found = [block, *blocks[:at], *blocks[at + 1:]]
                if keeps_regions(self.fleet, streams.course(shard).cells, found, self.least[shard]):
                    return found
        return []

    def hop(self, streams: Streams, block: Block) -> List[Block]:
        """The block in two, by a third server that has room; none if there is no such server."""
        if not self.hops:
            return []
        fleet, holders = self.fleet, streams.course(block.shard).cells
        stay, least = [it for it in holders if it != block.source], self.least[block.shard]
        may = [
            it for it in range(len(fleet.servers))
            if it not in holders and it != block.target and not fleet.is_down[it] and it not in self.limits.avoid
            and streams.free(it) >= fleet.load[block.shard] and fleet.regions([*stay, it]) >= least
        ]
        if not may:
            return []
        self.hops -= 1
        third = max(may, key=lambda it: (streams.free(it), -it))
        return [Block(block.kind, block.shard, block.source, third), Block(block.kind, block.shard, third, block.target)]

    def drop_first(self, streams: Streams, block: Block) -> List[Block]:
        """The block in two, the replica dropped first; none if no live replica or no region may be spared."""
        if not self.limits.drops_first or block.kind is not Kind.MOVE or streams.course(block.shard).spare < 1:
            return []
        fleet, holders = self.fleet, streams.course(block.shard).cells
        if fleet.regions(it for it in holders if it != block.source) < self.least[block.shard]:
            return []
        return [Block(Kind.DROP, block.shard, block.source), Block(Kind.ADD, block.shard, None, block.target)]

    def stuck(self, shard: int, block: Block) -> str:
        """Why a shard's next block does not fit, in a line."""
        fleet = self.fleet
        name = fleet.shards[shard]
        if fleet.live(shard) <= fleet.floor[shard] and block.kind in (Kind.DROP, Kind.WARM):
            return f"{name} is not there yet: it has {fleet.live(shard)} live replicas, and its floor is {fleet.floor[shard]}"
        target = block.target if block.target is not None else 0
        return f"{name} is not there yet: its load is {fleet.load[shard]}, and {fleet.servers[target]} has {fleet.free(target)} left"
