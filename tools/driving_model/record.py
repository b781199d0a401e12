"""What the controller has recorded: the placement, who is down under which permit, and how far each stream has come."""
from __future__ import annotations

from collections.abc import Iterator
from copy import copy
from dataclasses import dataclass, field, replace

from .cells import CALLS, Cell, Kind, Lead, PUBLICATIONS, Verb, is_live, lead_of, led
from .commands import Cells, Document
from .plans import (
    CellRight, Crown, CrownRight, Hold, Instruction, Key, Plan, RoomRight, SpareRight, Stream, after, is_amount,
    listed_by,
)


def primary_of(row: tuple[Cell, ...] | list[Cell]) -> int | None:
    """The server that is primary in a row of cells."""
    return next((it for it, cell in enumerate(row) if cell.kind is Kind.PRIMARY), None)


@dataclass(slots=True)
class StreamState:
    """How far a stream has come. `since` is the log's length when it came to its position."""

    stream: Stream
    since: int
    hold: Hold
    at: int = 0
    tries: int = 0
    is_done: bool = False

    @property
    def instruction(self) -> Instruction | None:
        """The instruction that it stands before, or None at the end of its code."""
        return self.stream.code[self.at] if self.at < len(self.stream.code) else None

    @property
    def places_left(self) -> int:
        """How many places of the log it may take yet."""
        if self.is_done:
            return 0
        others = sum(it.verb not in CALLS for it in self.stream.code[self.at:])
        return self.stream.tries - self.tries + others + 1


@dataclass(slots=True)
class PlanState:
    """A plan that was begun, its streams, and which signals were posted and taken."""

    plan: Plan
    streams: list[StreamState]
    posted: set[int] = field(default_factory=set)
    taken: set[int] = field(default_factory=set)
    is_broken_off: bool = False

    @property
    def is_done(self) -> bool:
        """It has ended, or a reopening has broken it off."""
        return self.is_broken_off or all(it.is_done for it in self.streams)


class Record:
    """The placement and the plans of one epoch."""

    def __init__(self, document: Document, cells: Cells, permits: dict[int, int]) -> None:
        self.document = document
        self.cells = [list(row) for row in cells]
        self.listed = [primary_of(row) for row in cells]
        self.versions = [0] * len(cells)
        self.handovers = [0] * len(cells)
        self.permits = permits
        self.plans: list[PlanState] = []
        self.log = 0
        self.limit = max(document.limit, len(permits))
        self.floors = [min(document.floor(it), self.live(it)) for it in self.shards]

    def copy(self) -> Record:
        """A record that can be changed beside this one."""
        other = copy(self)
        other.cells = [list(row) for row in self.cells]
        other.listed, other.versions, other.handovers = list(self.listed), list(self.versions), list(self.handovers)
        other.permits = dict(self.permits)
        other.plans = [
            replace(it, streams=[replace(stream) for stream in it.streams], posted=set(it.posted), taken=set(it.taken))
            for it in self.plans
        ]
        return other

    @property
    def shards(self) -> range:
        """The shards, by their numbers."""
        return range(len(self.cells))

    def lead(self, shard: int) -> Lead:
        """Where the shard's primary is."""
        return lead_of(self.cells[shard])

    def crown(self, shard: int) -> Crown:
        """What the shard's crown says."""
        return Crown(self.lead(shard), self.listed[shard])

    def live(self, shard: int) -> int:
        """How many live replicas the shard has at servers that are not recorded down."""
        row = self.cells[shard]
        return sum(is_live(row, it) for it in range(len(row)) if it not in self.permits)

    def load(self, server: int) -> int:
        """The load of the replicas that the server has."""
        return sum(self.document.loads[it] for it in self.shards if self.cells[it][server].kind is not Kind.ABSENT)

    def running(self) -> Iterator[tuple[int, int, StreamState]]:
        """The unfinished streams, by plan and stream."""
        for number, plan in enumerate(self.plans):
            if not plan.is_broken_off:
                yield from ((number, it, stream) for it, stream in enumerate(plan.streams) if not stream.is_done)

    def engaging(self, server: int) -> tuple[int, int] | None:
        """The lowest unfinished stream that names the server."""
        return next(((plan, it) for plan, it, state in self.running() if server in state.stream.servers), None)

    def held(self) -> Hold:
        """What unfinished streams hold, and what parcels carry that are posted and not taken."""
        total: Hold = {}
        for plan in self.plans:
            if plan.is_done:
                continue
            holds = [it.hold for it in plan.streams if not it.is_done]
            holds += [plan.plan.signals[it] for it in plan.posted - plan.taken]
            for hold in holds:
                for key, value in hold.items():
                    total[key] = total.get(key, 0) + value if is_amount(key) else value
        return total

    def free_room(self, server: int, held: Hold) -> int:
        """The room at the server that nobody uses or holds."""
        return self.document.rooms[server] - self.load(server) - held.get(RoomRight(server), 0)

    def free_spare(self, shard: int, held: Hold) -> int:
        """How many live replicas of the shard may go beside those that are promised."""
        return self.live(shard) - self.floors[shard] - held.get(SpareRight(shard), 0)

    def is_true(self, key: Key, value: Cell | Crown) -> bool:
        """The right to a cell or a crown is as the placement stands."""
        if isinstance(key, CellRight):
            return self.cells[key.shard][key.server] == value
        return isinstance(key, CrownRight) and self.crown(key.shard) == value

    def free_places(self) -> int:
        """The places of the log that are neither used nor set aside."""
        set_aside = sum(state.places_left for _, _, state in self.running()) + len(self.permits)
        return self.document.log - self.log - set_aside

    def begin(self, plan: Plan) -> PlanState:
        """Adds a plan whose streams stand at their beginnings."""
        streams = [StreamState(it, self.log, dict(it.declares)) for it in plan.streams]
        self.plans.append(PlanState(plan, streams))
        return self.plans[-1]

    def step(self, plan: PlanState, stream: StreamState) -> None:
        """Records that the stream has made its next instruction, or its end."""
        instruction = stream.instruction
        self.log += 1
        if instruction is None:
            stream.is_done = True
            return
        stream.hold = after(instruction, stream.hold, self.document.loads, plan.plan.signals)
        if instruction.verb is Verb.SIGNAL:
            plan.posted.add(instruction.signal)
        elif instruction.verb is Verb.WAIT:
            plan.taken.add(instruction.signal)
        elif instruction.verb in PUBLICATIONS:
            self.listed[instruction.shard] = listed_by(instruction.verb, self.lead(instruction.shard))
            self.versions[instruction.shard] += 1
        else:
            self.make_call(instruction)
            stream.tries += 1
        stream.at += 1
        stream.since = self.log

    def make_call(self, instruction: Instruction) -> None:
        """Records the effect of a call."""
        row = self.cells[instruction.shard]
        if instruction.verb is Verb.PREPARE_ADD:
            self.handovers[instruction.shard] += 1
        cell = led(row[instruction.server], instruction.call(self.handovers[instruction.shard]))
        assert cell is not None, "a checked plan makes no call that the record refuses"
        row[instruction.server] = cell
