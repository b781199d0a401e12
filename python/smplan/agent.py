"""A server's side of moving shards, in plain Python: a port of the library of include/sm_agent.h, which says what each function answers.

The proved functions write vectors (`make vectors`, tests/agent/README.md), which this port passes. Values are never changed: a function gives
the new base or slot beside its answer. A slot of zeros, `Slot()`, is that of an Unknown server.
"""
from dataclasses import dataclass, replace
from enum import IntEnum
from typing import Any, Dict, Mapping, NamedTuple, Optional, Sequence, Tuple, Union


class Answer(IntEnum):
    """What a function answers: SM_BEGIN and so on."""
    BEGIN, WORKING, AGAIN, OLD, FOREIGN, NOT_READY, DOWN, ALREADY_HELD, NOT_HELD, WRONG_ROLE, NO_ROOM = range(1, 12)
    EXECUTE, PASS_ON, NOT_HERE, NOT_YET, TAKEN, IGNORED, DONE, NOT_DONE, INCOMPLETE = range(12, 21)
    LESS, EQUAL, GREATER = range(21, 24)


class Cell(IntEnum):
    """What a server has of a shard."""
    UNKNOWN, ABSENT, PREPARED, SECONDARY, PRIMARY, FORWARDING = range(6)


class Call(IntEnum):
    """What an order asks for."""
    ADD, DROP, CHANGE, PREPARE_ADD, PREPARE_DROP = range(1, 6)


class Role(IntEnum):
    """What a replica is; NONE if a call has no role."""
    NONE, PRIMARY, SECONDARY = range(3)


@dataclass(frozen=True)
class Base:
    """What a server keeps beside its slots."""
    journal: int = 0
    number: int = 0
    nonce: int = 0
    known: int = 0
    fenced: int = 0


@dataclass(frozen=True)
class Slot:
    """What a server keeps of a shard."""
    cell: int = Cell.UNKNOWN
    party: int = 0
    handover: int = 0
    last: int = 0
    at_work: int = 0
    load: int = 0
    cut: int = 0
    has_cut: int = 0


@dataclass(frozen=True)
class Order:
    """An order to a server, for one shard."""
    journal: int
    fence: int
    number: int
    load: int
    room: int
    handover: int
    call: int
    role: int
    new_role: int
    party: int


@dataclass(frozen=True)
class Request:
    """How a client's request comes, or is to be passed on."""
    handover: int = 0
    cut: int = 0
    party: int = 0
    is_passed: int = 0


@dataclass(frozen=True)
class Settlement:
    """A settle: the slots of a server at the end of a reopening."""
    journal: int
    number: int
    nonce: Optional[int] = None
    """The nonce that the server's answer to the fence had, None if that had slots."""


@dataclass(frozen=True)
class Restoration:
    """A restore: the slots of a server that has lost them."""
    journal: int
    fence: int
    number: int
    nonce: int


class ToldCopy(NamedTuple):
    """What is told of a whole copy: the view of its list, and how many writes it has."""
    view: int
    position: int


class ViewStart(NamedTuple):
    """A view of a list, and the position at which it began."""
    view: int
    position: int


# The cell that a call leads to: call, role, new role and cell before. What is not here is refused.
TABLE = {
    (Call.ADD, Role.PRIMARY, Role.NONE, Cell.ABSENT): Cell.PRIMARY,
    (Call.ADD, Role.SECONDARY, Role.NONE, Cell.ABSENT): Cell.SECONDARY,
    (Call.ADD, Role.PRIMARY, Role.NONE, Cell.PREPARED): Cell.PRIMARY,
    (Call.DROP, Role.NONE, Role.NONE, Cell.PREPARED): Cell.ABSENT,
    (Call.DROP, Role.NONE, Role.NONE, Cell.SECONDARY): Cell.ABSENT,
    (Call.DROP, Role.NONE, Role.NONE, Cell.PRIMARY): Cell.ABSENT,
    (Call.DROP, Role.NONE, Role.NONE, Cell.FORWARDING): Cell.ABSENT,
    (Call.CHANGE, Role.PRIMARY, Role.SECONDARY, Cell.PRIMARY): Cell.SECONDARY,
    (Call.CHANGE, Role.SECONDARY, Role.PRIMARY, Cell.SECONDARY): Cell.PRIMARY,
    (Call.PREPARE_ADD, Role.NONE, Role.NONE, Cell.ABSENT): Cell.PREPARED,
    (Call.PREPARE_DROP, Role.NONE, Role.NONE, Cell.PRIMARY): Cell.FORWARDING,
}

VACANT = Slot(cell=Cell.ABSENT)


def next_cell(slot, order):
    """The cell that the order's call leads to, None if it is refused."""
    role = order.role if order.call in (Call.ADD, Call.CHANGE) else Role.NONE
    new_role = order.new_role if order.call == Call.CHANGE else Role.NONE
    return TABLE.get((order.call, role, new_role, slot.cell))


def turned_away(base, journal, fence, number):
    """Why an order is turned away, whatever the server has of its shard; None if it is not."""
    if not base.known:
        return Answer.NOT_READY
    if journal != base.journal:
        return Answer.FOREIGN
    if base.fenced or base.number < fence:
        return Answer.NOT_READY
    return Answer.OLD if number <= base.number else None


def judge(base, slot, used, order):
    """What a server makes of an order; `used` is the load of all that it has."""
    if slot.cell == Cell.UNKNOWN:
        return Answer.NOT_READY
    away = turned_away(base, order.journal, order.fence, order.number)
    if away is not None:
        return away
    if order.number <= slot.last:
        return Answer.AGAIN if order.number == slot.last else Answer.OLD
    if next_cell(slot, order) is None:
        if order.call in (Call.ADD, Call.PREPARE_ADD):
            return Answer.ALREADY_HELD
        return Answer.NOT_HELD if slot.cell == Cell.ABSENT else Answer.WRONG_ROLE
    if slot.cell == Cell.ABSENT and order.load > max(0, order.room - used):
        return Answer.NO_ROOM
    return Answer.WORKING if slot.at_work == order.number else Answer.BEGIN


def begin(slot, order):
    """The slot once an order's work has begun."""
    return slot if slot.cell == Cell.UNKNOWN else replace(slot, at_work=order.number)


def abandon(slot):
    """The slot once the work is given up."""
    return replace(slot, at_work=0)


def has_reached_cut(slot, applied):
    """Whether a new owner has applied all writes up to the old one's cut, which it knows."""
    return bool(slot.has_cut) and slot.cut <= applied


def commit(base, slot, order, at):
    """The slot once the work is committed, None if it is thrown away or its cut is not reached."""
    cell = next_cell(slot, order)
    takes_over = slot.cell == Cell.PREPARED and cell == Cell.PRIMARY
    if slot.cell == Cell.UNKNOWN or turned_away(base, order.journal, order.fence, order.number) is not None:
        return None
    if not slot.last < order.number == slot.at_work or cell is None or (takes_over and not has_reached_cut(slot, at)):
        return None
    in_handover = cell in (Cell.PREPARED, Cell.FORWARDING)
    return Slot(cell=cell, party=order.party if in_handover else 0, handover=order.handover if in_handover else 0,
                last=order.number, load=0 if cell == Cell.ABSENT else order.load,
                cut=at if cell == Cell.FORWARDING else 0, has_cut=int(cell == Cell.FORWARDING))


def seal(slot, handover, cut):
    """The slot once a new owner knows the old one's cut."""
    return replace(slot, cut=cut, has_cut=1) if slot.cell == Cell.PREPARED and slot.handover == handover else slot


def may_delete(base, slot):
    """Whether a slot may be deleted: afterwards the shard's slot is VACANT."""
    return slot.cell == Cell.ABSENT and not slot.at_work and slot.last <= base.number


def route(base, slot, applied, request):
    """Where a request is executed, and how it is passed on."""
    stay = Request()
    if not base.known or slot.cell in (Cell.UNKNOWN, Cell.ABSENT, Cell.SECONDARY):
        return Answer.NOT_HERE, stay
    if slot.cell == Cell.PRIMARY:
        return Answer.NOT_YET if slot.at_work else Answer.EXECUTE, stay
    if slot.cell == Cell.FORWARDING:
        if base.fenced or not slot.has_cut:
            return Answer.NOT_YET, stay
        return Answer.PASS_ON, Request(slot.handover, slot.cut, slot.party, 1)
    if not request.is_passed or (request.party, request.handover) != (slot.party, slot.handover):
        return Answer.NOT_HERE, stay
    return Answer.NOT_YET if base.fenced or applied < request.cut else Answer.EXECUTE, stay


def forget(nonce):
    """The base of a server that has lost its slots, and asks for them under a nonce."""
    return Base(nonce=nonce)


def fence(base, journal, number, nonce):
    """What becomes of a fence, and the base afterwards."""
    if base.number < number:
        return Answer.TAKEN, Base(journal, number, 0 if base.known else nonce, base.known, 1)
    same = (base.journal, base.number) == (journal, number)
    return Answer.AGAIN if base.fenced and same else Answer.IGNORED, base


def settled(base, told):
    """What becomes of a settle, and the base afterwards."""
    if (base.journal, base.number) != (told.journal, told.number):
        return Answer.IGNORED, base
    meant = told.nonce is None if base.known else told.nonce == base.nonce != 0
    if base.fenced and meant:
        return Answer.TAKEN, replace(base, fenced=0, nonce=0, known=1)
    return Answer.IGNORED if base.fenced or not base.known else Answer.AGAIN, base


def restored(base, told):
    """What becomes of a restore, and the base afterwards."""
    if base.known or told.nonce != base.nonce or told.nonce == 0 or (base.fenced and told.fence < base.number):
        return Answer.IGNORED, base
    return Answer.TAKEN, Base(told.journal, told.number, known=1)


def replaced(slot, brought):
    """The slot as an assignment leaves it, which brings this one for it."""
    load = 0 if brought.cell == Cell.ABSENT else brought.load
    return Slot(cell=brought.cell, party=brought.party, handover=brought.handover, last=slot.last, load=load)


def take(
    base: Base, told: Union[Settlement, Restoration], slots: Mapping[Any, Slot], brought: Mapping[Any, Slot],
) -> Tuple[Answer, Base, Dict[Any, Slot]]:
    """What becomes of a settle or a restore, and the base and the slots afterwards: each shard of which the server has a slot, or is brought
    one, has what is brought, and is absent if nothing is. `slots` are all of the server's and `brought` all that it is brought, by shard."""
    answer, after = settled(base, told) if isinstance(told, Settlement) else restored(base, told)
    if answer != Answer.TAKEN:
        return answer, after, dict(slots)
    kept = slots if base.known else {}
    return answer, after, {it: replaced(kept.get(it, VACANT), brought.get(it, VACANT)) for it in {**slots, **brought}}


def heed(base, journal, number, nonce):
    """The base once a message has named the last reopening of its journal."""
    overtaken = base.number < number or (base.fenced and base.number == number)
    return forget(nonce) if base.known and base.journal == journal and overtaken else base


def publish(base, shown, journal, fence_, version):
    """What the owner of the published map makes of a publication."""
    away = turned_away(base, journal, fence_, version)
    return away if away is not None else Answer.BEGIN if shown < version else Answer.AGAIN


def compare(one: ToldCopy, other: ToldCopy) -> Answer:
    """How a copy compares with another one: the one of the later view is greater, then the longer one."""
    return Answer.LESS if one < other else Answer.GREATER if other < one else Answer.EQUAL


def resumes(copy: ToldCopy, views: Sequence[ViewStart], end: int) -> bool:
    """Whether a copy is a beginning of a list that ends at a position and has these views, in rising order."""
    ends = [*(it.position for it in views[1:]), end]
    return any(it.view == copy.view and copy.position <= until for it, until in zip(views, ends))


def copied(copies: int, own: ToldCopy, told: Sequence[ToldCopy], position: int) -> bool:
    """Whether so many copies have the writes up to a position: the primary's own, and those that others have told, of whom none leaves."""
    others = sum(it.view == own.view and position <= it.position for it in told)
    return position <= own.position and copies <= others + 1


def acknowledged(copies: int, own: ToldCopy, told: Sequence[ToldCopy]) -> int:
    """The position up to which a primary acknowledges: the greatest that so many copies have, 0 if there is none."""
    return max((it.position for it in (own, *told) if copied(copies, own, told, it.position)), default=0)
