"""What a server has of a shard's writes: its copy, how it comes, and how copies compare.

A shard has one list of writes, to which its primary appends. A whole copy is a beginning of this list, and is told by
its view and its position alone. A view is the number of the reopening, the `add` or the `change` that made the list's
primary: the list of a view begins with what its primary had.
"""
from __future__ import annotations

import random
from dataclasses import dataclass, field
from typing import NamedTuple


class Told(NamedTuple):
    """What is told of a copy: of two the one of the later view is greater, and then the longer one."""

    view: int
    position: int


class Began(NamedTuple):
    """A view of a list, and the position at which it began."""

    view: int
    at: int


# What stands for no copy, below every copy.
NONE = Told(-1, -1)


@dataclass(slots=True)
class Copy:
    """A server's copy of a shard: whole, in doubt, or none. `part` is another one that is being made. `durable` writes
    and views stay after a crash."""

    writes: list[int] = field(default_factory=list)
    views: list[Began] = field(default_factory=list)
    is_whole: bool = False
    is_doubted: bool = False
    durable: int = 0
    durable_views: int = 0
    part: Copy | None = None

    @property
    def position(self) -> int:
        """How many writes it has."""
        return len(self.writes)

    @property
    def view(self) -> int:
        """Its view."""
        return self.views[-1].view if self.views else 0

    @property
    def all(self) -> Told | None:
        """What it is, durable or not, if it is whole."""
        return Told(self.view, self.position) if self.is_whole else None

    def told(self, is_flushed: bool = True, tells_part: bool = False) -> Told | None:
        """What its server tells of it: what is durable of a whole copy."""
        if tells_part and not self.is_whole and self.part:
            return Told(self.part.view, self.part.position)
        if not self.is_whole or not is_flushed:
            return self.all
        return Told(self.views[self.durable_views - 1].view, self.durable)

    def doubted(self) -> Told | None:
        """What it tells of a copy in doubt."""
        return Told(self.view, self.position) if self.is_doubted else None

    def kept(self) -> frozenset[int]:
        """The writes of a copy that was whole, or is in doubt."""
        return frozenset(self.writes) if self.is_whole or self.is_doubted else frozenset()

    # How copies compare.

    def begins_with(self, told: Told) -> bool:
        """By views and positions a whole copy of which this is told is a beginning of this one."""
        for place, (view, _) in enumerate(self.views):
            if view == told.view:
                ends = self.views[place + 1].at if place + 1 < len(self.views) else self.position
                return told.position <= ends
        return False

    def sent(self, durable_first: bool) -> Copy:
        """What leaves its server."""
        if not durable_first or not self.is_whole:
            return self
        return Copy(self.writes[:self.durable], self.views[:self.durable_views], is_whole=True)

    # How it comes and goes.

    def flush(self) -> None:
        """All is durable."""
        self.durable, self.durable_views = len(self.writes), len(self.views)

    def clear(self) -> None:
        """The data are deleted, or lost."""
        self.put([], [], False)
        self.part = None

    def put(self, writes: list[int], views: list[Began], is_whole: bool) -> None:
        """It has these durably."""
        self.writes, self.views, self.is_whole, self.is_doubted = writes, views, is_whole, False
        self.flush()

    def begin_empty(self, number: int) -> None:
        """The shard begins without writes."""
        self.clear()
        self.put([], [Began(number, 0)], True)

    def begin_view(self, number: int) -> None:
        """The server has become primary by a reopening or a `change`: its list goes on as that of another view."""
        self.put(self.writes, [*self.views, Began(number, self.position)], True)

    def crash(self, dice: random.Random) -> list[int]:
        """A crash: some of what is not durable is lost. Returns it."""
        if self.part and dice.random() < 0.5:
            self.part = None
        if not self.is_whole or (self.durable == len(self.writes) and self.durable_views == len(self.views)):
            return []
        keep = dice.choice([self.durable, dice.randint(self.durable, len(self.writes))])
        lost = self.writes[keep:]
        later = [it for it in self.views[self.durable_views:] if it.at < keep]
        self.put(self.writes[:keep], self.views[:self.durable_views] + later, True)
        return lost

    def go_back(self, keep: int) -> list[int]:
        """The disk has gone back to this many writes, and its server knows it. Returns what is lost."""
        lost = self.writes[keep:]
        views = [it for place, it in enumerate(self.views) if not place or it.at < keep]
        was_there = self.is_whole or self.is_doubted
        self.put(self.writes[:keep], views, False)
        self.is_doubted, self.part = was_there and bool(views), None
        return lost

    def take(self, source: Copy, most: int, resumes: bool, waits: bool, beside: bool, in_turn: bool = True) -> bool:
        """Gets the source's writes up to a position. A copy that is no beginning of the source is made anew: beside the
        old one, or after it was deleted. Returns whether the copy itself has changed."""
        mine = Told(self.view, self.position)
        is_there = self.is_whole or self.is_doubted
        if is_there and waits and mine > Told(source.view, source.position):
            return False
        if is_there and (source.begins_with(mine) or not resumes) and not self.part:
            return self.position <= source.position and self.go_on(source, most, in_turn)
        if is_there and not beside:
            self.clear()
        return self.make_anew(source, most)

    def go_on(self, source: Copy, most: int, in_turn: bool = True) -> bool:
        """The copy goes on from where it is: writes come in turn, and views at their beginnings, or all at once."""
        to = max(self.position, most)
        self.writes = self.writes + source.writes[self.position:to]
        self.views = [it for it in source.views if it.at <= to or not in_turn]
        if to == source.position and not self.is_whole:
            self.is_whole, self.is_doubted = True, False
            self.flush()
        return True

    def make_anew(self, source: Copy, most: int) -> bool:
        """A part grows, and takes the place of the copy when it has all that the source has."""
        part = self.part
        if part is None or not source.begins_with(Told(part.view, part.position)) or part.position > source.position:
            self.part = part = Copy(views=source.views[:1])
        part.go_on(source, most)
        if not part.is_whole:
            return False
        self.put(part.writes, part.views, True)
        self.part = None
        return True
