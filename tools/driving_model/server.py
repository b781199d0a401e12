"""A server's side: its base and slots, and what it does with an order, a request, a fence, a restore and a settle.

What a server does depends on its own slots and base and on the message alone. The service beside it (`clients`) knows
what stands in the data: it hands in positions, and which requests run.
"""
from __future__ import annotations

from dataclasses import dataclass, field
from enum import Enum

from .cells import ABSENT, Call, Cell, Kind, Verb, led
from .messages import Fence, Found, Inventory, Notice, Order, Restore, Settle, SlotFound, SlotTold, Unknown
from .rules import Rules


class Judgement(Enum):
    """What a server answers to an order before any work."""

    BEGIN = "begin"
    WORKING = "working"
    AGAIN = "again"
    OLD = "old"
    FOREIGN = "foreign"
    NOT_READY = "not ready"
    REFUSED = "refused"


class Commit(Enum):
    """What becomes of work that is done: it has its effect, it has to wait, or it is thrown away."""

    DONE = "done"
    NOT_YET = "not yet"
    THROWN_AWAY = "thrown away"


class Route(Enum):
    """What a server does with a request that it does not pass on."""

    EXECUTE = "execute"
    NOT_HERE = "not here"
    NOT_YET = "not yet"


@dataclass(frozen=True, slots=True)
class Pass:
    """A request is passed on to this server, in this handover, behind this cut. `sender` has passed it on."""

    to: int
    sender: int
    handover: int
    cut: int | None


@dataclass(slots=True)
class Slot:
    """What a server keeps of one shard."""

    cell: Cell = ABSENT
    last: int = 0
    work: int | None = None
    call: Call | None = None
    load: int = 0
    cut: int | None = None


@dataclass(frozen=True, slots=True)
class Shown:
    """What the service shows of a shard at a commit: the position of its writes, whether requests run, and whether
    every secondary has all its writes."""

    position: int
    is_running: bool
    is_copied: bool


@dataclass(slots=True)
class Server:
    """A server's base and slots. Without slots it is Unknown, and asks with a nonce."""

    number: int
    shard_count: int
    rules: Rules
    nonce: int
    journal: int | None = None
    base: int = 0
    is_fenced: bool = False
    is_known: bool = False
    slots: list[Slot] = field(default_factory=list)

    def __post_init__(self) -> None:
        self.slots = [Slot() for _ in range(self.shard_count)]

    def start(self) -> None:
        """It begins without work, and under a new nonce if it is Unknown."""
        if self.rules.work_abandoned:
            self.abandon()
        if not self.is_known and self.rules.start_nonce:
            self.forget()

    def forget(self) -> None:
        """It loses its slots and its base, and makes a new nonce."""
        self.journal, self.base, self.is_fenced, self.is_known = None, 0, False, False
        self.slots = [Slot() for _ in range(self.shard_count)]
        self.nonce += 1

    @property
    def load(self) -> int:
        """The load of its replicas."""
        return sum(it.load for it in self.slots if it.cell.kind is not Kind.ABSENT)

    def counted(self, _order: Order) -> int:
        """The load that counts against an order."""
        return self.load

    def cell(self, shard: int) -> Cell:
        """What it has of a shard, as far as it knows."""
        return self.slots[shard].cell if self.is_known else ABSENT

    def settled_base(self) -> int | None:
        """The base that it tells at the end of its restart, if it has one."""
        is_fenced = self.is_fenced and self.rules.restart_unfenced
        return self.base if self.is_known and not is_fenced else None

    # Orders.

    def turns_unknown(self, fence: int) -> bool:
        """Looks at the last reopening that a message names: a server that was not settled at it turns Unknown."""
        is_stale = fence > self.base or (self.rules.fenced_is_stale and self.is_fenced and fence == self.base)
        if not (is_stale and self.is_known and self.rules.stale_unknown and self.rules.journal_named):
            return False
        self.forget()
        return True

    def judge(self, order: Order) -> Judgement:
        """Judges an order that has come."""
        if not self.is_known:
            return Judgement.NOT_READY
        if order.journal != self.journal and self.rules.journal_named:
            return Judgement.FOREIGN
        if self.turns_unknown(order.fence) or (self.is_fenced and self.rules.fence_first):
            return Judgement.NOT_READY
        slot = self.slots[order.shard]
        if self.rules.number_order and (order.number <= self.base or order.number < slot.last):
            return Judgement.OLD
        if order.number == slot.last:
            return Judgement.AGAIN
        if slot.work is not None:
            return Judgement.WORKING if slot.work == order.number else Judgement.OLD
        brings = slot.cell == ABSENT
        if led(slot.cell, order.call) is None or (brings and self.counted(order) + order.load > order.room):
            return Judgement.REFUSED
        return Judgement.BEGIN

    def begin(self, order: Order) -> None:
        """Notes the order that is at work."""
        slot = self.slots[order.shard]
        slot.work, slot.call = order.number, order.call

    def abandon(self) -> None:
        """Gives up what is at work; the orders come again."""
        for slot in self.slots:
            slot.work = slot.call = None

    def commit(self, order: Order, shown: Shown) -> Commit:
        """Ends the work of an order, with its effect if it may have it now."""
        slot = self.slots[order.shard]
        is_over = order.number <= self.base and self.rules.fence_ends_work and self.rules.number_order
        cell = led(slot.cell, order.call)
        if not self.is_known or slot.work != order.number or is_over or cell is None:
            return Commit.THROWN_AWAY
        if self.has_to_wait(slot, order.call, shown):
            return Commit.NOT_YET
        if order.call.verb is Verb.PREPARE_DROP:
            slot.cut = shown.position
        elif order.call.verb is Verb.PREPARE_ADD or cell == ABSENT:
            slot.cut = None
        slot.cell, slot.last, slot.load = cell, order.number, order.load
        slot.work = slot.call = None
        if cell == ABSENT and not self.rules.kept_slots:
            slot.last = 0
        return Commit.DONE

    def has_to_wait(self, slot: Slot, call: Call, shown: Shown) -> bool:
        """The work may not have its effect yet."""
        rules, is_early = self.rules, not self.rules.work_before_commit
        if call.verb is Verb.PREPARE_DROP:
            return shown.is_running and rules.requests_ended and not is_early
        if call.verb is Verb.CHANGE and call.role is Kind.SECONDARY and rules.change_waits:
            return shown.is_running or not shown.is_copied
        if call.verb is Verb.DROP and slot.cell.kind is Kind.PRIMARY and rules.drop_waits:
            return shown.is_running
        if call.verb is Verb.ADD and slot.cell.kind is Kind.PREPARED and rules.cut_awaited and not is_early:
            return slot.cut is None or shown.position < slot.cut
        return False

    def seal(self, shard: int, sender: int, handover: int, cut: int) -> None:
        """The old owner has ended its writes at this cut."""
        if self.is_known and self.slots[shard].cell == Cell(Kind.PREPARED, sender, handover):
            self.slots[shard].cut = cut

    # Requests.

    def holds_back(self, slot: Slot) -> bool:
        """An order at work at a primary holds requests of the shard back."""
        call, rules = slot.call, self.rules
        if call is None or not rules.work_before_commit:
            return False
        if call.verb is Verb.PREPARE_DROP:
            return rules.requests_ended
        if call.verb is Verb.DROP:
            return rules.drop_waits
        return call.verb is Verb.CHANGE and call.role is Kind.SECONDARY and rules.change_waits

    def route(self, shard: int, position: int, passed: Pass | None = None) -> Route | Pass:
        """Says what is done with a request: it is executed in the same act, or passed on."""
        slot = self.slots[shard]
        cell = slot.cell
        if not self.is_known:
            return Route.NOT_HERE
        is_frozen = self.is_fenced and self.rules.frozen_handovers
        if cell.kind is Kind.PRIMARY:
            return Route.NOT_YET if self.holds_back(slot) else Route.EXECUTE
        if cell.kind is Kind.FORWARDING:
            return Route.NOT_YET if is_frozen else Pass(cell.party, self.number, cell.handover, slot.cut)
        if cell.kind is Kind.PREPARED and passed and (cell.party, cell.handover) == (passed.sender, passed.handover):
            return Route.NOT_YET if is_frozen else self.route_passed(slot, position, passed)
        return Route.NOT_HERE

    def route_passed(self, slot: Slot, position: int, passed: Pass) -> Route:
        """A request that the party has passed on waits for the writes before its cut."""
        if slot.cut is None:
            slot.cut = passed.cut
        if passed.cut is None:
            return Route.NOT_YET
        is_reached = position >= passed.cut or not self.rules.cut_awaited
        return Route.EXECUTE if is_reached else Route.NOT_YET

    # Reopening and restoring.

    def fence(self, fence: Fence, running: frozenset[int], positions: list[int]) -> Found | None:
        """Takes a fence above its base. Returns what it has, or None if it does not answer (now)."""
        if not self.rules.fence_first:
            return self.inventory(positions) if fence.base > self.base else None
        if fence.base > self.base:
            in_handover = any(self.slots[it].cell.is_in_handover for it in running)
            if in_handover and self.rules.fence_waits and self.rules.frozen_handovers:
                return None
            self.base, self.journal, self.is_fenced = fence.base, fence.journal, True
            if self.rules.fence_ends_work:
                self.abandon()
            if not self.is_known and self.rules.settle_nonce:
                self.nonce += 1
        is_for_it = fence.base == self.base and fence.journal == self.journal
        answers = self.is_fenced or not self.rules.fenced_names_base
        return self.inventory(positions) if is_for_it and answers else None

    def inventory(self, positions: list[int]) -> Found:
        """What it tells of its slots, or its nonce if it has none."""
        if not self.is_known:
            return Unknown(self.nonce)
        reached = [it.cut is not None and position >= it.cut for it, position in zip(self.slots, positions)]
        return Inventory(tuple(map(SlotFound, (it.cell for it in self.slots), positions, reached)))

    def take(self, told: tuple[SlotTold, ...]) -> None:
        """Takes all slots from the controller; last numbers stay."""
        self.slots = [self.taken(old, new) for new, old in zip(told, self.slots)]
        self.is_known = True

    def taken(self, old: Slot, new: SlotTold) -> Slot:
        """A slot as the controller brings it."""
        is_kept = new.cell == ABSENT and not self.rules.settle_whole
        return old if is_kept else Slot(new.cell, last=old.last, load=new.load)

    def settle(self, settle: Settle) -> bool:
        """Takes a settle once, while fenced at its base. Returns whether it has it, now or before."""
        if not self.rules.fence_first and settle.base > self.base:
            self.base, self.journal = settle.base, settle.journal
            self.take(settle.slots)
            return True
        if settle.base != self.base or settle.journal != self.journal:
            return False
        if not self.is_fenced and self.rules.settle_once:
            return self.is_known
        has_nonce = self.is_known if settle.nonce is None else not self.is_known and settle.nonce == self.nonce
        if self.rules.settle_nonce and self.rules.settle_once and not has_nonce:
            return False
        self.take(settle.slots)
        self.is_fenced = False
        return True

    def restore(self, restore: Restore) -> bool:
        """Takes a restore if it has no slots and asked with this nonce. Returns whether it did."""
        if self.is_known or (restore.nonce != self.nonce and self.rules.restore_nonce):
            return False
        lowest = restore.fence if self.is_fenced else restore.base
        if self.rules.restore_above_fence and lowest < self.base:
            return False
        for slot in self.slots:
            slot.last = 0
        self.take(restore.slots)
        self.journal, self.base, self.is_fenced = restore.journal, restore.base, False
        return True

    def notice(self, notice: Notice) -> None:
        """Takes a word about the last reopening: a server that was left behind it turns Unknown."""
        if self.is_known and self.journal == notice.journal:
            self.turns_unknown(notice.fence)
