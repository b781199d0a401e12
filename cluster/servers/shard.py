"""What a server holds of a shard in memory: the slot and the mark as they are stored, and who runs, follows and
works."""
from __future__ import annotations

import asyncio
import hashlib
import json
import secrets
import time
from dataclasses import dataclass, field
from typing import TYPE_CHECKING, Any

from smplan.agent import Cell, Slot, ToldCopy, ViewStart

from ..wire import text_of
from . import agent, limits

if TYPE_CHECKING:
    from .following import Following
    from .sources import Stream
    from .work import Work


# History has texts of at most so many characters as they are.
LONG_TEXT = 200


@dataclass(frozen=True)
class Entry:
    """A write as it is stored and sent on: its place, who asked for it, the command, the reply, and a sum over all
    writes up to it."""

    position: int
    identity: str | None
    command: tuple[str, ...]
    reply: str
    chain: str

    def text(self) -> str:
        """As it is stored."""
        return text_of([self.position, self.identity, self.command, self.reply, self.chain])

    @staticmethod
    def of(text: str) -> "Entry":
        """Reads one."""
        position, identity, command, reply, chain = json.loads(text)
        return Entry(position, identity, tuple(command), reply, chain)


def chained(chain: str, identity: str | None, command: tuple[str, ...]) -> str:
    """The sum over all writes once one more was executed."""
    return hashlib.blake2b(json.dumps([chain, identity, command]).encode(), digest_size=8).hexdigest()


def shortened(text: str) -> str:
    """A text as history has it: of a long one its length and sum alone."""
    return text if len(text) <= LONG_TEXT else f"{len(text)}:{hashlib.blake2b(text.encode(), digest_size=8).hexdigest()}"


@dataclass
class Lead:
    """What a source knows since it began to lead: its position then, up to where enough servers had all at one moment, up to where writes are acknowledged, and the
    last reopening under which a controller knows that enough servers have all that was here then."""

    noted: int = 0
    acknowledged: int = 0
    enough: int = -1
    told: int = -1


@dataclass
class Shard:
    """One shard at one server. Who changes anything of it holds its lock."""

    name: str
    slot: Slot
    position: int = 0
    chain: str = ""
    # Whether its position is stored, be it 0: then there is a copy of the shard here.
    is_marked: bool = False
    # (what made its list's primaries, each with the position from which on that one executed; without any the list is of view 0)
    views: tuple[ViewStart, ...] = ()
    # (who has to have a write before it is acknowledged, as the last source of writes has told it or as this source has
    # it)
    members: set[str] = field(default_factory=set)
    # (at a new owner: the old one, until it drops the shard; no write is acknowledged without it, alive or not)
    old_owner: str | None = None
    lock: asyncio.Lock = field(default_factory=asyncio.Lock)
    waiting: list[asyncio.Future[None]] = field(default_factory=list)
    running: int = 0
    is_held: bool = False
    streams: dict[str, "Stream"] = field(default_factory=dict)
    seen: dict[str, float] = field(default_factory=dict)
    # (for how many seconds each member that was not connected had been away when the last primary ceased to be it; the
    # next one does not wait for it anew. Empty once another source was followed, or the slots were set)
    away: dict[str, float] = field(default_factory=dict)
    following: "Following | None" = None
    work: "Work | None" = None
    source: str | None = None
    term: int = 0
    # (how many copies of it came to nothing one after the other, why the last one was refused, and when the next one may be asked for)
    copies_failed: int = 0
    refusal: str = ""
    next_copy: float = 0.0
    # (at the source: how many writes more a follower had, whose these are, and when it came)
    lacking: tuple[int, str, float] = (0, "", 0.0)
    # (at the source: the bytes of a value that was too large, and until when no copy is made)
    too_large: tuple[int, float] = (0, 0.0)
    # (the number under which it asks for leave to drop the shard, or has it, 0 if it does neither; and whether it has it)
    question: int = 0
    has_leave: bool = False
    # (at who gives leave: the question of each server that has got it)
    left: dict[str, int] = field(default_factory=dict)
    lead: Lead = field(default_factory=Lead)

    def begin_to_lead(self, position: int | None = None) -> None:
        """Notes its position, or up to where it is to have all, before anything is acknowledged here."""
        noted = self.position if position is None else position
        self.lead = Lead(noted, noted)

    def expect(self, members: set[str]) -> None:
        """Begins as a source: who was connected to the one before has yet to come; who was away is away."""
        now = time.monotonic()
        self.seen = {it: now - self.away.get(it, 0.0) for it in members}
        self.away = {}

    def copy_failed(self, refusal: str = "") -> None:
        """A copy has come to nothing: the next one is asked for later, and later each time."""
        rest = min(limits.RESTING * 2 ** self.copies_failed, limits.RESTING_AT_MOST)
        self.copies_failed, self.refusal, self.next_copy = self.copies_failed + 1, refusal, time.monotonic() + rest

    def copy_came(self) -> None:
        """A copy has come."""
        self.copies_failed, self.refusal, self.next_copy = 0, "", 0.0

    @property
    def copy(self) -> ToldCopy:
        """How far its copy goes."""
        return ToldCopy(self.views[-1].view if self.views else 0, self.position)

    def resumes(self, copy: ToldCopy) -> bool:
        """Whether another copy is a beginning of its list, by its view and position. (An empty one is.)"""
        return copy.position == 0 or agent.resumes(copy, self.views or (ViewStart(0, 0),), self.position)

    def views_from(self, number: int) -> tuple[ViewStart, ...]:
        """Its views once a primary goes on from its copy, or from nothing, by what has this number."""
        return (*(self.views if self.has_copy else ()), ViewStart(number, self.position))

    @property
    def rest_before_copy(self) -> float:
        """In how many seconds the next copy may be asked for."""
        return max(0.0, self.next_copy - time.monotonic())

    @property
    def has_copy(self) -> bool:
        """Whether there is a copy of the shard here, be it an empty one."""
        return self.is_marked or self.position > 0

    def wake(self) -> None:
        """Lets all who wait look again."""
        waiting, self.waiting = self.waiting, []
        for it in waiting:
            look(it)

    async def look_again(self, deadline: float) -> bool:
        """Waits until something changes, at most a moment. False once the deadline is over."""
        left = deadline - time.monotonic()
        if left <= 0:
            return False
        loop = asyncio.get_running_loop()
        change = loop.create_future()
        self.waiting.append(change)
        timer = loop.call_later(min(left, 0.2), look, change)
        try:
            await change
        finally:
            timer.cancel()
        return True

    @property
    def is_source(self) -> bool:
        """Others may follow its writes: it executes, or has executed up to its cut, or takes over."""
        cell = self.slot.cell
        return cell in (Cell.PRIMARY, Cell.FORWARDING) or (cell == Cell.PREPARED and self.has_reached_cut)

    @property
    def has_reached_cut(self) -> bool:
        """A new owner has all writes up to the old one's cut."""
        return bool(self.slot.has_cut) and self.slot.cut <= self.position

    @property
    def is_in_handover(self) -> bool:
        """It is the old or the new owner of a handover."""
        return self.slot.cell in (Cell.PREPARED, Cell.FORWARDING)


def look(change: "asyncio.Future[None]") -> None:
    """Lets one who waits for a change look again."""
    if not change.done():
        change.set_result(None)


# The documents' words for cells.
STATES = {
    Cell.UNKNOWN: "unknown", Cell.ABSENT: "absent", Cell.PREPARED: "prepared", Cell.SECONDARY: "secondary",
    Cell.PRIMARY: "primary", Cell.FORWARDING: "forwarding",
}
CELLS = {word: cell for cell, word in STATES.items()}

Event = dict[str, Any]


def nonce() -> int:
    """A fresh random number, never 0."""
    return secrets.randbits(63) | 1


def hexadecimal(number: int) -> str:
    """A journal or a nonce as text."""
    return f"{number:016x}"


class AllLocks:
    """The locks of several shards, taken in the order of their names."""

    def __init__(self, shards) -> None:
        self.locks = [it.lock for it in sorted(shards, key=lambda it: it.name)]
        self.held: list[asyncio.Lock] = []

    async def __aenter__(self) -> None:
        try:
            for lock in self.locks:
                await lock.acquire()
                self.held.append(lock)
        except BaseException:
            await self.__aexit__()
            raise

    async def __aexit__(self, *_: object) -> None:
        while self.held:
            self.held.pop().release()
