"""What leaves the controller beside the messages of `driving_model`, and what servers say to each other."""
from __future__ import annotations

from dataclasses import dataclass
from enum import Enum
from typing import NamedTuple

from driving_model import messages as driving

from .copies import Told


@dataclass(frozen=True, slots=True)
class Terms:
    """What an order or a slot says of its shard. `copies` have a write before it is acknowledged; `wanted` are asked
    for when they are there again; `lowered` is what lowered the number last: a permit, or the base of a reopening. Then
    who is primary, who has a replica or an order under way that brings one, and without a primary who was it last, with
    the number of the order that ended it."""

    copies: int = 1
    wanted: int = 1
    lowered: int = 0
    primary: int | None = None
    replicas: frozenset[int] = frozenset()
    former: tuple[int, int] | None = None


@dataclass(frozen=True, slots=True)
class Order(driving.Order):
    """An order, with what its shard asks for."""

    terms: Terms = Terms()


@dataclass(frozen=True, slots=True)
class SlotTold(driving.SlotTold):
    """What a restore or a settle brings of one shard. A primary that is chosen anew begins a view of this number."""

    terms: Terms = Terms()
    view: int | None = None


@dataclass(frozen=True, slots=True)
class Lower:
    """Tells a primary that fewer copies are asked for, by this permit; and which other replicas are recorded up, and
    named by no unfinished stream."""

    server: int
    journal: int
    fence: int
    shard: int
    copies: int
    permit: int
    up: frozenset[int]


@dataclass(frozen=True, slots=True)
class SlotFound:
    """What an inventory tells of a shard: the cell, its whole copy, one in doubt, and whether its cut is reached."""

    cell: driving.Cell
    copy: Told | None
    doubted: Told | None
    has_reached_cut: bool


@dataclass(frozen=True, slots=True)
class Unknown(driving.Unknown):
    """A server's answer to a fence if it has no slots: by shard, the whole copies that it has, and those in doubt."""

    copies: tuple[Told | None, ...] = ()
    doubted: tuple[Told | None, ...] = ()


class Asks(Enum):
    """What a replica asks others: leave to drop, or what they have: to become primary, or to copy from the greatest."""

    LEAVE = "leave"
    GREATEST = "greatest"


class Life(NamedTuple):
    """How often a server has started, and an order's work at the shard has ended there: both end the connections that go
    to it."""

    starts: int
    endings: int


@dataclass(frozen=True, slots=True)
class Word:
    """What a follower tells on a connection: its copy, and where it was settled when it began the connection, as
    journal and base, or None if it was not. `life` is that of the server it goes to."""

    shard: int
    by: int
    to: int
    connection: int
    life: Life
    settled: tuple[int, int] | None
    told: Told


@dataclass(frozen=True, slots=True)
class Question:
    """A numbered question to a replica. `life` is that of the server it goes to; `others` are named beside who asks."""

    number: int
    asks: Asks
    shard: int
    by: int
    to: int
    connection: int
    life: Life
    others: int


@dataclass(frozen=True, slots=True)
class Answer:
    """What is answered to a question: leave, or what a replica has, and the number of the order that ended its being
    primary, if it was the last one."""

    question: Question
    told: Told | None
    gives_leave: bool = False
    former: int = 0
