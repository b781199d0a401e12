"""Every decision on slots: by the proved functions inside the database, if extension smplan_agent is there, otherwise by their port in Python, which
passes the same vectors."""
from __future__ import annotations

from dataclasses import astuple
from typing import Any, Dict, List, Mapping, Optional, Protocol, Tuple, Union

from smplan import agent
from smplan.agent import Answer, Base, Cell, Order, Restoration, Settlement, Slot

from .database import Database, signed, unsigned, value

Told = Union[Settlement, Restoration]
Taken = Tuple[Answer, Base, Dict[Any, Slot]]


class Decisions(Protocol):
    """The functions of include/sm_agent.h that a server calls."""

    def judge(self, base: Base, slot: Slot, used: int, order: Order) -> Answer:
        """What a server makes of an order."""

    def begin(self, slot: Slot, order: Order) -> Slot:
        """The slot once an order's work has begun."""

    def commit(self, base: Base, slot: Slot, order: Order, at: int) -> Optional[Slot]:
        """The slot once the work is committed, if it is."""

    def abandon(self, slot: Slot) -> Slot:
        """The slot once the work is given up."""

    def seal(self, slot: Slot, handover: int, cut: int) -> Slot:
        """The slot once a new owner knows the cut."""

    def has_reached_cut(self, slot: Slot, applied: int) -> bool:
        """Whether a new owner has all up to the cut."""

    def fence(self, base: Base, journal: int, number: int, nonce: int) -> Tuple[Answer, Base]:
        """What becomes of a fence."""

    def heed(self, base: Base, journal: int, number: int, nonce: int) -> Base:
        """The base once a message has named the last reopening."""

    def take(self, base: Base, told: Told, slots: Mapping[Any, Slot], brought: Mapping[Any, Slot]) -> Taken:
        """What becomes of a settle or a restore."""


class Proved:
    """The proved functions, called by sm.agent."""

    def __init__(self, database: Database) -> None:
        self.database = database

    def call(self, name: str, *parts: Any) -> List[int]:
        """The numbers of an answer. Parts are numbers, or values whose members are."""
        numbers: List[int] = []
        for it in parts:
            numbers += [int(it)] if isinstance(it, int) else [int(one) for one in astuple(it)]
        answer = value(self.database.row("SELECT sm.agent(%s, %s::bigint[])", name, [signed(it) for it in numbers]))
        return [unsigned(it) for it in answer]

    def judge(self, base: Base, slot: Slot, used: int, order: Order) -> Answer:
        """What a server makes of an order."""
        return Answer(self.call("judge", base, slot, used, order)[0])

    def begin(self, slot: Slot, order: Order) -> Slot:
        """The slot once an order's work has begun."""
        return Slot(*self.call("begin", slot, order))

    def commit(self, base: Base, slot: Slot, order: Order, at: int) -> Optional[Slot]:
        """The slot once the work is committed, if it is."""
        answer, *numbers = self.call("commit", base, slot, order, at)
        return Slot(*numbers) if answer == Answer.DONE else None

    def abandon(self, slot: Slot) -> Slot:
        """The slot once the work is given up."""
        return Slot(*self.call("abandon", slot))

    def seal(self, slot: Slot, handover: int, cut: int) -> Slot:
        """The slot once a new owner knows the cut."""
        return Slot(*self.call("seal", slot, handover, cut))

    def has_reached_cut(self, slot: Slot, applied: int) -> bool:
        """Whether a new owner has all up to the cut."""
        return self.call("has_reached_cut", slot, applied)[0] == Answer.DONE

    def fence(self, base: Base, journal: int, number: int, nonce: int) -> Tuple[Answer, Base]:
        """What becomes of a fence."""
        answer, *numbers = self.call("fence", base, journal, number, nonce)
        return Answer(answer), Base(*numbers)

    def heed(self, base: Base, journal: int, number: int, nonce: int) -> Base:
        """The base once a message has named the last reopening."""
        return Base(*self.call("heed", base, journal, number, nonce))

    def take(self, base: Base, told: Told, slots: Mapping[Any, Slot], brought: Mapping[Any, Slot]) -> Taken:
        """What becomes of a settle or a restore."""
        names = sorted({**slots, **brought})
        if isinstance(told, Restoration):
            assignment = [2, told.journal, told.fence, told.number, 0, told.nonce]
        else:
            assignment = [1, told.journal, 0, told.number, int(told.nonce is not None), told.nonce or 0]
        parts: List[Any] = []
        for it in names:
            one = brought.get(it, Slot())
            parts += [slots.get(it, Slot()), int(one.cell), one.party, one.handover, 0 if one.cell == Cell.ABSENT else one.load]
        answer, *numbers = self.call("take", base, *assignment, len(names), *parts)
        after = {it: Slot(*numbers[5 + 8 * n:13 + 8 * n]) for n, it in enumerate(names)}
        return Answer(answer), Base(*numbers[:5]), after if answer == Answer.TAKEN else dict(slots)


def decisions_of(database: Database) -> Decisions:
    """Who decides."""
    has = value(database.row("SELECT to_regprocedure('sm.agent(text, bigint[])') IS NOT NULL"))
    return Proved(database) if has else agent  # type: ignore[return-value]
