"""What leaves the controller, and what a server tells of its slots. Any message may come at any time, and often."""
from __future__ import annotations

from dataclasses import dataclass

from .cells import Call, Cell

# The map's owner, where a message names who it is for. Servers are numbered from 0.
MAP = -1
# How far the bases of two epochs are apart (twice the longest log), and the last epoch.
LONGEST_LOG = 1 << 20
BASE_STEP = 2 * LONGEST_LOG
LAST_EPOCH = (1 << 32) - 1


@dataclass(frozen=True, slots=True)
class Order:
    """The call of a stream's next instruction. `fence` is the base of the last reopening."""

    journal: int
    epoch: int
    fence: int
    plan: int
    stream: int
    number: int
    server: int
    shard: int
    call: Call
    load: int
    room: int


@dataclass(frozen=True, slots=True)
class Publication:
    """An order to the map's owner: the server that the map names from now on, or None."""

    journal: int
    epoch: int
    fence: int
    plan: int
    stream: int
    number: int
    shard: int
    to: int | None
    version: int


@dataclass(frozen=True, slots=True)
class SlotTold:
    """What a restore or a settle brings of one shard."""

    cell: Cell
    load: int


@dataclass(frozen=True, slots=True)
class Restore:
    """The slots of a server that lost them, for the nonce with which it asked."""

    server: int
    nonce: int
    journal: int
    fence: int
    base: int
    slots: tuple[SlotTold, ...]


@dataclass(frozen=True, slots=True)
class Fence:
    """A reopening begins: the server, or the map's owner, takes no order until it is settled."""

    server: int
    base: int
    journal: int


@dataclass(frozen=True, slots=True)
class Settle:
    """All slots of a server as confirmed; it names the nonce of an answer without slots, or none. `given_up` are the
    shards of which the server told that it has something, and has nothing from now on."""

    server: int
    base: int
    journal: int
    slots: tuple[SlotTold, ...]
    nonce: int | None
    given_up: frozenset[int] = frozenset()


@dataclass(frozen=True, slots=True)
class SettleMap:
    """All entries of the map as confirmed."""

    base: int
    journal: int
    entries: tuple[int | None, ...]
    server: int = MAP


@dataclass(frozen=True, slots=True)
class Notice:
    """Tells a server that was carried over of the last reopening."""

    server: int
    journal: int
    fence: int


Message = Order | Publication | Restore | Fence | Settle | SettleMap | Notice


@dataclass(frozen=True, slots=True)
class SlotFound:
    """What an inventory tells of a shard: the cell, the position of its writes, and whether its cut is reached."""

    cell: Cell
    position: int
    has_reached_cut: bool


@dataclass(frozen=True, slots=True)
class Inventory:
    """A server's answer to a fence: its slots. The map's owner has none to tell."""

    slots: tuple[SlotFound, ...] = ()


@dataclass(frozen=True, slots=True)
class Unknown:
    """A server's answer to a fence if it has no slots: a new nonce."""

    nonce: int


Found = Inventory | Unknown
