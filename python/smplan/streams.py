"""Blocks of shards put into the streams of one plan: who holds which rights, who waits for whom, and how many copies run at once."""
from __future__ import annotations

from collections import defaultdict
from dataclasses import dataclass, field
from heapq import heappop, heappush
from typing import Dict, List, Optional, Tuple

from .blocks import COPY, FREE_ROOM, NEED_ROOM, NEED_SPARE, Block
from .fleet import Fleet, Target, primary_of
from .limits import MOST_INSTRUCTIONS, MOST_SIGNALS, MOST_STREAMS
from .model import CALLS, Json
from .steps import Course, Holding, write_block

# No block makes more instructions than this, beside those that wait and signal.
LONGEST_BLOCK = 8

# How much of a stream's code is kept for the signals that it will post.
KEPT_FOR_POSTS = 64


@dataclass
class Placed:
    """A block in its stream: its place there, and how many blocks of each stream come before its end. `ends` is when, if copying a load of one takes a
    unit of time."""

    block: Block
    number: int
    stream: int
    place: int
    clock: List[int]
    ends: int
    waits: List[int]
    code: List[Json]
    posts: List[int] = field(default_factory=list)


@dataclass
class Payment:
    """Room that a block takes at its target: from the pool, or from what a placed block has freed there."""

    amount: int
    by: Optional[Placed] = None


@dataclass
class Choice:
    """A stream for a block: when it would start there, how its room is paid, which placed blocks it waits for, and the lanes that it takes."""

    stream: int
    starts: int
    payments: List[Payment]
    waits: List[Placed]
    lanes: List[Tuple[int, int]]

    @property
    def rank(self) -> Tuple[int, int, int]:
        return self.starts, len(self.waits), self.stream


@dataclass
class Stream:
    """A stream as far as it goes."""

    clock: List[int]
    holding: Holding = field(default_factory=Holding)
    placed: List[Placed] = field(default_factory=list)
    ends: int = 0
    length: int = 0


class Streams:
    """A plan in the making. A stream has one call outstanding, so at most as many copies run at once as there are streams; with `at_server` each server has
    so many lanes, and a copy takes one at its target and one at the server of the primary, behind the copy that had it before."""

    def __init__(self, fleet: Fleet, count: int = MOST_STREAMS, at_server: int = 0) -> None:
        self.fleet, self.count, self.at_server = fleet, count, at_server
        self.streams = [Stream([0] * count) for _ in range(count)]
        self.courses: Dict[int, Course] = {}
        self.pool: Dict[int, int] = {}
        self.freed: Dict[int, List[Payment]] = defaultdict(list)
        self.lanes: Dict[int, List[Optional[Placed]]] = defaultdict(lambda: [None] * at_server)
        self.placed: List[Placed] = []
        self.parcels: List[Dict[int, int]] = []
        self.by_end = [(0, it) for it in range(count)]  # (a heap; an entry is old if its stream has grown since)
        self.places = count + sum(fleet.is_down)
        self.copied = 0

    # What there is.

    def course(self, shard: int) -> Course:
        """How far the plan has brought a shard."""
        found = self.courses.get(shard)
        if found is None:
            fleet = self.fleet
            found = Course(dict(fleet.cells[shard]), fleet.is_listed[shard], fleet.live(shard) - fleet.floor[shard])
            self.courses[shard] = found
        return found

    def pooled(self, server: int) -> int:
        """The room at a server that no stream has declared."""
        return self.pool.get(server, self.fleet.free(server))

    def free(self, server: int) -> int:
        """The room at a server that the next block may take."""
        return self.pooled(server) + sum(it.amount for it in self.freed[server])

    def fits(self, block: Block) -> bool:
        """Whether there is room for a block, and a live replica to spare."""
        if block.kind in NEED_SPARE and self.course(block.shard).spare < 1:
            return False
        return block.kind not in NEED_ROOM or block.target is None or self.free(block.target) >= self.fleet.load[block.shard]

    def burdened(self, block: Block) -> List[int]:
        """The servers that a block's copy burdens: its target, and that of the primary."""
        if block.kind not in COPY or not self.at_server:
            return []
        servers = [block.target, primary_of(self.course(block.shard).cells)]
        return [it for it in dict.fromkeys(servers) if it is not None]

    # The choice of a stream.

    def payments(self, block: Block, stream: int) -> List[Payment]:
        """How a block's room is paid in a stream: from what the stream itself has freed, then from the pool, then from what others have freed."""
        if block.kind not in NEED_ROOM or block.target is None:
            return []
        freed = [it for it in self.freed[block.target] if it.by is not None and it.amount]
        own = [it for it in freed if it.by is not None and it.by.stream == stream]
        others = [it for it in freed if it.by is not None and it.by.stream != stream]
        need, found = self.fleet.load[block.shard], []
        for source in [*own, Payment(self.pooled(block.target)), *others]:
            amount = min(need, source.amount)
            if amount:
                found.append(Payment(amount, source.by))
                need -= amount
        return found

    def is_before(self, placed: Placed, stream: int) -> bool:
        """Whether a placed block ends before whatever the stream does next."""
        return self.streams[stream].clock[placed.stream] > placed.place

    def choice(self, block: Block, burdened: List[int], number: int) -> Choice:
        """How a block would be placed in a stream."""
        stream = self.streams[number]
        payments = self.payments(block, number)
        waits = {it.by.number: it.by for it in payments if it.by is not None and it.by.stream != number}
        starts, lanes = stream.ends, []
        for server in burdened:
            row = self.lanes[server]
            ends = [0 if it is None else it.ends for it in row]
            costs = [it is not None and not self.is_before(it, number) and it.number not in waits for it in row]
            lane = min(range(len(row)), key=lambda at: (max(starts, ends[at]), costs[at], -ends[at], at))
            lanes.append((server, lane))
            before = row[lane]
            if before is not None:
                starts = max(starts, before.ends)
                if costs[lane]:
                    waits[before.number] = before
        starts = max([starts, *(it.ends for it in waits.values())])
        return Choice(number, starts, payments, [waits[it] for it in sorted(waits)], lanes)

    def first_free(self) -> int:
        """The stream that is free first, of equals the lowest."""
        while self.by_end[0][0] != self.streams[self.by_end[0][1]].ends:
            heappop(self.by_end)
        return self.by_end[0][1]

    def candidates(self, block: Block, burdened: List[int]) -> List[int]:
        """The streams that are worth a look: the shard's own; otherwise the one that is free first, and those that a block would have to wait for."""
        own = self.course(block.shard).stream
        if own is not None:
            return [own]
        found = {self.first_free()}
        if block.kind in NEED_ROOM and block.target is not None:
            found |= {it.by.stream for it in self.freed[block.target] if it.by is not None and it.amount}
        found |= {it.stream for server in burdened for it in self.lanes[server] if it is not None}
        return sorted(found)

    def has_no_space(self, choice: Choice) -> bool:
        """Whether the plan's signals, a stream's code or the log have no space left for a block."""
        waits, length = len(choice.waits), self.streams[choice.stream].length
        return (
            len(self.parcels) + waits > MOST_SIGNALS
            or length + waits + LONGEST_BLOCK > MOST_INSTRUCTIONS - KEPT_FOR_POSTS
            or self.places + 2 * waits + LONGEST_BLOCK > self.fleet.document.log
        )

    # Placing.

    def place(self, block: Block) -> bool:
        """Places a block that fits. Returns whether there was space for it."""
        burdened = self.burdened(block)
        choice = min((self.choice(block, burdened, it) for it in self.candidates(block, burdened)), key=lambda it: it.rank)
        if self.has_no_space(choice):
            return False
        stream, course = self.streams[choice.stream], self.course(block.shard)
        course.stream = choice.stream
        parcels = self.pay(block, stream, choice)
        waits = []
        for it in choice.waits:
            waits.append(len(self.parcels))
            it.posts.append(len(self.parcels))
            self.streams[it.stream].length += 1
            self.parcels.append(parcels[it.number])
            stream.clock = [max(pair) for pair in zip(stream.clock, it.clock)]
        self.append(block, choice, waits, write_block(self.fleet, block, course, stream.holding))
        return True

    def pay(self, block: Block, stream: Stream, choice: Choice) -> Dict[int, Dict[int, int]]:
        """Takes a block's room where it is paid from. Returns what each block that is waited for hands on."""
        parcels: Dict[int, Dict[int, int]] = defaultdict(dict)
        for payment in choice.payments:
            assert block.target is not None
            if payment.by is None:
                self.pool[block.target] = self.pooled(block.target) - payment.amount
                stream.holding.room[block.target] += payment.amount
                continue
            source = next(it for it in self.freed[block.target] if it.by is payment.by)
            source.amount -= payment.amount
            if payment.by.stream != choice.stream:
                parcels[payment.by.number][block.target] = payment.amount
        return parcels

    def append(self, block: Block, choice: Choice, waits: List[int], code: List[Json]) -> None:
        """Puts a block's code at a stream's end, and keeps what it has changed."""
        stream, load = self.streams[choice.stream], self.fleet.load[block.shard]
        copied = load * block.copies
        placed = Placed(block, len(self.placed), choice.stream, len(stream.placed), [], choice.starts + max(1, copied), waits, code)
        stream.placed.append(placed)
        stream.clock[choice.stream] = len(stream.placed)
        placed.clock = list(stream.clock)
        stream.ends = placed.ends
        heappush(self.by_end, (stream.ends, choice.stream))
        stream.length += len(waits) + len(code)
        self.placed.append(placed)
        self.places += 2 * len(waits) + len(code)
        self.copied += copied
        if block.kind in FREE_ROOM and block.source is not None:
            self.freed[block.source].append(Payment(load, placed))
        for server, lane in choice.lanes:
            self.lanes[server][lane] = placed

    # What has come of it.

    def plan(self) -> Json:
        """The plan."""
        servers = self.fleet.servers
        signals = [{"room": [{"server": servers[it], "amount": parcel[it]} for it in sorted(parcel)]} for parcel in self.parcels]
        streams = [self.stream_value(it) for it in self.streams if it.placed]
        return {"budget": sum(it["budget"] for it in streams), "signals": signals, "streams": streams}

    def stream_value(self, stream: Stream) -> Json:
        """A stream of the plan."""
        code: List[Json] = []
        for it in stream.placed:
            code += [{"do": "wait", "signal": signal} for signal in it.waits]
            code += it.code
            code += [{"do": "signal", "signal": signal} for signal in it.posts]
        return {"budget": sum(it["do"] in CALLS for it in code), "holds": stream.holding.value(self.fleet), "code": code}

    def end(self) -> Target:
        """The placement to which the plan leads."""
        target = self.fleet.target()
        for shard, course in self.courses.items():
            target.cells[shard], target.is_listed[shard] = dict(course.cells), course.is_listed
        return target

    @property
    def duration(self) -> int:
        """When the last stream ends, if copying a load of one takes a unit of time."""
        return max(it.ends for it in self.streams)
