"""A server with its service: of each shard its copy, what it has heard from others, and what it has asked them."""
from __future__ import annotations

from dataclasses import dataclass, field

from driving_model import commands as driving
from driving_model.cells import ABSENT, Cell, SECONDARY, Verb
from driving_model.clients import Write

from .commands import RestoreServer
from .copies import Copy, Told
from .messages import Answer, Asks, Life, Order, Terms
from .server import Copies, Server


@dataclass(slots=True)
class Heard:
    """The last word of a follower: the connection, where it was settled when that began, the copy."""

    connection: int
    settled: tuple[int, int] | None
    told: Told


@dataclass(slots=True)
class Open:
    """A question that is open: its number, what it asks, and who has answered."""

    number: int
    asks: Asks
    answers: dict[int, Answer] = field(default_factory=dict)


@dataclass(slots=True)
class Replica:
    """What a server has of a shard beside its slot. `connection` and `asking` are a follower's; `heard`, `left` and
    `newest` are what an acknowledger knows of its followers: the last words, the connections of those that got leave,
    and the newest ones."""

    copy: Copy = field(default_factory=Copy)
    terms: Terms = Terms()
    # How many copies are asked for, and what it has last lowered and raised that for.
    needed: int = 1
    lowered: int = 0
    raised: int = 0
    # Which replicas stay, as it was told last, with what had lowered the number then.
    up: tuple[int, frozenset[int]] | None = None
    # The same as it was taken with the slot (for a fault).
    taken: tuple[int, int, int] = (1, 0, 0)
    # The number of the order that ended its being primary, as long as it has kept its copy since.
    former: int = 0
    connection: int = 0
    settled: tuple[int, int] | None = None
    asking: Open | None = None
    has_leave: bool = False
    heard: dict[int, Heard] = field(default_factory=dict)
    left: dict[int, int] = field(default_factory=dict)
    newest: dict[int, int] = field(default_factory=dict)
    # How often an order's work has ended its followers' connections.
    endings: int = 0
    # The position up to which its writes may be acknowledged, once it was asked since it started.
    owed: int | None = None
    # What it had then (for the small form's `copied`).
    began: int = 0
    # What replies saw that wait; whether its stream is lost, so that it has to copy anew.
    replies: list[tuple[int, ...]] = field(default_factory=list)
    has_lost_stream: bool = False
    # The writes of copies that were set aside.
    aside: set[int] = field(default_factory=set)
    # Whether it was restored without a copy (for a law).
    came_bare: bool = False

    def forget_words(self) -> None:
        """Nothing is known of what followers have."""
        self.heard, self.left, self.newest = {}, {}, {}

    def agree(self, terms: Terms) -> None:
        """It knows what its shard asks for."""
        self.terms, self.needed = terms, terms.copies
        self.lowered = max(self.lowered, terms.lowered)
        self.taken = (self.needed, self.lowered, self.raised)


@dataclass(slots=True)
class Host:
    """A server with its service. A lost one is lost for good. `life` counts its starts."""

    server: Server
    at: list[Replica]
    is_alive: bool = True
    is_lost: bool = False
    running: list[Write] = field(default_factory=list)
    workers: list[Order] = field(default_factory=list)
    life: int = 0
    # The base of the last reopening at which it was settled; whether the controller does not reach it.
    reopened: int = 0
    is_cut_off: bool = False

    @property
    def number(self) -> int:
        """The server's number."""
        return self.server.number

    @property
    def is_up(self) -> bool:
        """It has its slots."""
        return self.server.is_known and not self.is_lost

    @property
    def answers(self) -> bool:
        """Messages come to it."""
        return self.is_alive and not self.is_lost

    @property
    def hears_controller(self) -> bool:
        """Messages of the controller come to it."""
        return self.answers and not self.is_cut_off

    @property
    def follows_alone(self) -> bool:
        """It is primary of nothing and in no handover, and no order is at work."""
        return not self.workers and all(it.cell in (ABSENT, SECONDARY) for it in self.server.slots)

    def cell(self, shard: int) -> Cell:
        """What it has of a shard; nothing if it is lost or Unknown."""
        return ABSENT if self.is_lost else self.server.cell(shard)

    def copy(self, shard: int) -> Copy:
        """Its copy of a shard."""
        return self.at[shard].copy

    def order(self, shard: int) -> Order | None:
        """The order at work at a shard."""
        return next((it for it in self.workers if it.shard == shard), None)

    def runs(self, shard: int) -> bool:
        """A request of the shard runs."""
        return any(it.shard == shard for it in self.running)

    def stop(self) -> None:
        """Its work and its requests end; its slots stay."""
        self.running = []
        self.end_work()

    def end_work(self) -> None:
        """No order is at work, and another connection begins; what was copied for one is thrown away."""
        for order in self.workers:
            if self.server.is_known and self.server.slots[order.shard].cell == ABSENT:
                self.copy(order.shard).clear()
            if self.server.rules.grant_ends:
                self.hang_up(order.shard)
            self.at[order.shard].asking, self.at[order.shard].has_leave = None, False
        self.workers = []

    def reset(self) -> None:
        """A start, or slots that it takes: it connects anew, and replies that wait are not given."""
        for shard, replica in enumerate(self.at):
            replica.replies, replica.owed = [], None
            self.hang_up(shard)

    def forget_words(self) -> None:
        """A start: what it has heard, and what was on its way to it, is gone."""
        self.life += 1
        for replica in self.at:
            replica.forget_words()
        self.reset()

    def life_of(self, shard: int) -> Life:
        """What names a connection to it, beside the connection's number."""
        return Life(self.life, self.at[shard].endings)

    def hang_up(self, shard: int) -> None:
        """A connection ends, and the question with it; leave that was given ends. Another one begins."""
        replica, server = self.at[shard], self.server
        replica.connection += 1
        replica.settled = (server.journal, server.base) if server.is_known and not server.is_fenced else None
        replica.asking, replica.has_leave = None, False

    def start(self) -> None:
        """Messages come to it again."""
        self.is_alive = True
        self.server.start()

    def ask(self) -> RestoreServer:
        """What it asks, being Unknown."""
        data = frozenset(it for it, replica in enumerate(self.at) if replica.copy.is_whole)
        return RestoreServer(self.number, self.server.nonce, data)

    def restarted(self, permit: int) -> driving.Restarted:
        """The end of its restart, with the base that it tells once its copies are whole, where there is a primary."""
        has_all = all(map(self.is_ready, range(len(self.at)))) or not self.server.rules.empty_is_down
        return driving.Restarted(permit, self.server.settled_base() if not self.is_lost and has_all else None)

    def is_ready(self, shard: int) -> bool:
        """It has what its slot says, or nobody leads the shard."""
        replica = self.at[shard]
        return self.cell(shard) == ABSENT or replica.copy.is_whole or replica.terms.primary is None

    def told(self) -> Copies:
        """What it tells of its copies at a fence."""
        rules, copies = self.server.rules, [it.copy for it in self.at]
        whole = (it.told(rules.told_flushed, not rules.part_untold) for it in copies)
        return Copies(tuple(whole), tuple(it.doubted() for it in copies))

    def has_copy(self, shard: int) -> bool:
        """It is there, and has a whole copy."""
        return not self.is_lost and self.copy(shard).is_whole

    def has_all(self, shard: int, writes: set[int]) -> bool:
        """It is there, and its whole copy has these writes."""
        return self.has_copy(shard) and writes <= set(self.copy(shard).writes)

    def drops(self, shard: int) -> bool:
        """An order to drop its replica is at work."""
        call = self.server.slots[shard].call
        return call is not None and call.verb is Verb.DROP
