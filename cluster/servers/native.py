"""The proved library of include/sm_agent.h, called from Python: the same functions, with the same values, as the
port smplan.agent."""
from __future__ import annotations

import ctypes
from ctypes import Structure, byref, c_uint32, c_uint64
from dataclasses import astuple
from pathlib import Path
from typing import Mapping, Sequence

from smplan.agent import Answer, Base, Order, Request, Restoration, Settlement, Slot, ToldCopy, ViewStart


class Record(Structure):
    """A struct of the header whose first members are those of a dataclass, in their order."""

    @classmethod
    def of(cls, value):
        """The struct of a value."""
        return cls(*map(int, astuple(value)))

    def members(self) -> list[int]:
        """All members but `reserved`."""
        return [getattr(self, name) for name, _ in self._fields_ if name != "reserved"]


def fields(wide: str, narrow: str, *more: tuple[str, type]) -> list[tuple[str, type]]:
    """Members of 64 bits, and then of 32 bits."""
    return [(it, c_uint64) for it in wide.split()] + [(it, c_uint32) for it in narrow.split()] + list(more)


class BaseRecord(Record):
    """sm_base"""
    _fields_ = fields("journal number nonce", "known fenced")


class SlotRecord(Record):
    """sm_slot"""
    _fields_ = [("cell", c_uint32), ("party", c_uint32), *fields("handover last at_work load cut", "has_cut reserved")]


class OrderRecord(Record):
    """sm_order"""
    _fields_ = fields("journal fence number load room handover", "call role new_role party")


class RequestRecord(Record):
    """sm_request"""
    _fields_ = fields("handover cut", "party is_passed")


class ReopeningRecord(Record):
    """sm_reopening"""
    _fields_ = fields("journal number", "")


class AssignmentRecord(Record):
    """sm_assignment"""
    _fields_ = fields("journal fence number nonce slots", "has_nonce kind")


class ShardRecord(Structure):
    """sm_shard"""
    _fields_ = [("slot", SlotRecord), ("brought", SlotRecord)]


class CopyRecord(Structure):
    """sm_copy, or sm_view"""
    _fields_ = fields("view position", "")


def copies_of(values: Sequence[ToldCopy | ViewStart]) -> ctypes.Array[CopyRecord]:
    """The structs of copies or views."""
    return (CopyRecord * len(values))(*(CopyRecord(*it) for it in values))


SETTLE, RESTORE = 1, 2


def assignment_of(told: Settlement | Restoration, count: int) -> AssignmentRecord:
    """The struct of a settle or a restore that brings this number of slots."""
    if isinstance(told, Settlement):
        return AssignmentRecord(told.journal, 0, told.number, told.nonce or 0, count, told.nonce is not None, SETTLE)
    return AssignmentRecord(told.journal, told.fence, told.number, told.nonce, count, 1, RESTORE)


class Agent:
    """The functions of the library."""

    def __init__(self, path: Path) -> None:
        self.library = ctypes.CDLL(str(path))

    def call(self, name: str, *arguments, kind=c_uint32) -> int:
        """Calls a function; integers are of 64 bits."""
        function = getattr(self.library, name)
        function.restype = kind
        return function(*(c_uint64(it) if isinstance(it, int) else byref(it) for it in arguments))

    # -- orders

    def judge(self, base: Base, slot: Slot, used: int, order: Order) -> Answer:
        """What a server makes of an order."""
        return Answer(self.call("sm_judge", BaseRecord.of(base), SlotRecord.of(slot), used, OrderRecord.of(order)))

    def changed(self, name: str, slot: Slot, *arguments) -> Slot:
        """The slot as a function leaves it."""
        record = SlotRecord.of(slot)
        self.call(name, record, *arguments)
        return Slot(*record.members())

    def begin(self, slot: Slot, order: Order) -> Slot:
        """The slot once an order's work has begun."""
        return self.changed("sm_begin", slot, OrderRecord.of(order))

    def abandon(self, slot: Slot) -> Slot:
        """The slot once the work is given up."""
        return self.changed("sm_abandon", slot)

    def seal(self, slot: Slot, handover: int, cut: int) -> Slot:
        """The slot once a new owner knows the old one's cut."""
        return self.changed("sm_seal", slot, handover, cut)

    def commit(self, base: Base, slot: Slot, order: Order, at: int) -> Slot | None:
        """The slot once the work is committed, None if it is thrown away or its cut is not reached."""
        record = SlotRecord.of(slot)
        answer = self.call("sm_commit", BaseRecord.of(base), record, OrderRecord.of(order), at)
        return Slot(*record.members()) if answer == Answer.DONE else None

    def has_reached_cut(self, slot: Slot, applied: int) -> bool:
        """Whether a new owner has applied all writes up to the old one's cut."""
        return self.call("sm_has_reached_cut", SlotRecord.of(slot), applied) == Answer.DONE

    def may_delete(self, base: Base, slot: Slot) -> bool:
        """Whether a slot may be deleted."""
        return self.call("sm_may_delete", BaseRecord.of(base), SlotRecord.of(slot)) == Answer.DONE

    # -- requests

    def route(self, base: Base, slot: Slot, applied: int, request: Request) -> tuple[Answer, Request]:
        """Where a request is executed, and how it is passed on."""
        onward = RequestRecord()
        answer = Answer(self.call("sm_route", BaseRecord.of(base), SlotRecord.of(slot), applied, RequestRecord.of(request), onward))
        return answer, Request(*onward.members())

    # -- the server as a whole

    def forget(self, nonce: int) -> Base:
        """The base of a server that has lost its slots."""
        record = BaseRecord()
        self.call("sm_forget", record, nonce, kind=None)
        return Base(*record.members())

    def based(self, name: str, base: Base, *arguments) -> tuple[Answer, Base]:
        """The answer, and the base afterwards."""
        record = BaseRecord.of(base)
        answer = self.call(name, record, *arguments)
        return Answer(answer), Base(*record.members())

    def fence(self, base: Base, journal: int, number: int, nonce: int) -> tuple[Answer, Base]:
        """What becomes of a fence."""
        return self.based("sm_fence", base, ReopeningRecord(journal, number), nonce)

    def take(
        self, base: Base, told: Settlement | Restoration, slots: Mapping[str, Slot], brought: Mapping[str, Slot],
    ) -> tuple[Answer, Base, dict[str, Slot]]:
        """What becomes of a settle or a restore, and the base and all slots afterwards."""
        names = [*{**slots, **brought}]
        shards = (ShardRecord * len(names))()
        for shard, name in zip(shards, names):
            shard.slot, shard.brought = SlotRecord.of(slots.get(name, Slot())), SlotRecord.of(brought.get(name, Slot()))
        record = BaseRecord.of(base)
        answer = Answer(self.call("sm_take", record, assignment_of(told, len(brought)), shards, len(names)))
        if answer != Answer.TAKEN:
            return answer, base, dict(slots)
        return answer, Base(*record.members()), {name: Slot(*shard.slot.members()) for name, shard in zip(names, shards)}

    def heed(self, base: Base, journal: int, number: int, nonce: int) -> Base:
        """The base once a message has named the last reopening of its journal."""
        return self.based("sm_heed", base, ReopeningRecord(journal, number), nonce)[1]

    # -- copies

    def compare(self, one: ToldCopy, other: ToldCopy) -> Answer:
        """How a copy compares with another one."""
        return Answer(self.call("sm_compare", CopyRecord(*one), CopyRecord(*other)))

    def resumes(self, copy: ToldCopy, views: Sequence[ViewStart], end: int) -> bool:
        """Whether a copy is a beginning of a list that ends at a position and has these views."""
        return self.call("sm_resumes", CopyRecord(*copy), copies_of(views), len(views), end) == Answer.DONE

    def copied(self, copies: int, own: ToldCopy, told: Sequence[ToldCopy], position: int) -> bool:
        """Whether so many copies have the writes up to a position."""
        return self.call("sm_copied", copies, CopyRecord(*own), copies_of(told), len(told), position) == Answer.DONE

    def acknowledged(self, copies: int, own: ToldCopy, told: Sequence[ToldCopy]) -> int:
        """The position up to which a primary acknowledges."""
        return self.call("sm_acknowledged", copies, CopyRecord(*own), copies_of(told), len(told), kind=c_uint64)
