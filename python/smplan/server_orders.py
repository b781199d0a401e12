"""Orders: judged, begun, worked on and committed. Each has a thread of its own, which gives up in the end; then the order begins anew."""
from __future__ import annotations

import threading
import time
from typing import TYPE_CHECKING, Any, Dict, List, Optional

from . import agent
from .agent import Answer, Call, Cell, Order, Role, Slot
from .control_agent import order_of
from .server_offers import LOST, fewer
from .server_records import Mark, Records

if TYPE_CHECKING:
    from .server import Server

Line = Dict[str, Any]


class NotYet(Exception):
    """Work can't be committed yet."""


class Orders:
    """The orders' side of a server."""

    def __init__(self, server: "Server") -> None:
        self.server, self.limits = server, server.limits

    def take(self, line: Line) -> Line:
        """Answers an order: that it is done, or what else."""
        self.server.know(line)
        shard, order = line["shard"], order_of(line, self.server.numbers)
        self.server.heed(order.journal, order.fence)
        verdict = self.begin(shard, order)
        if self.is_at_work(shard, order) and verdict == Answer.BEGIN:
            threading.Thread(target=self.work, args=(shard, order, line), daemon=True).start()
        if verdict in (Answer.BEGIN, Answer.WORKING):
            self.server.wait(lambda: self.server.live(shard).worker != order.number, self.limits.answering)
            with self.server.storage.transaction() as tx:
                verdict = self.judge(Records(tx), shard, order)
        if verdict == Answer.AGAIN:
            return self.done(shard, order, line)
        said = self.server.live(shard).said if verdict in (Answer.BEGIN, Answer.WORKING) else ""
        return {"said": f"{'given up' if verdict == Answer.BEGIN else verdict.name.lower()}{': ' if said else ''}{said}"}

    def judge(self, it: Records, shard: str, order: Order) -> Answer:
        """What the server makes of an order."""
        used = sum(slot.load for slot in it.slots().values())
        return agent.judge(it.base(), it.slot(shard), used, order)

    def begin(self, shard: str, order: Order) -> Answer:
        """Judges an order, and stores that it is at work if it is new."""
        live = self.server.live(shard)
        with self.server.storage.transaction() as tx:
            it = Records(tx)
            verdict = self.judge(it, shard, order)
            if verdict == Answer.BEGIN and time.monotonic() >= live.rest_until:
                it.put_slot(shard, agent.begin(it.slot(shard), order))
                live.worker, live.said = order.number, ""
        return verdict

    def source_of(self, order: Order, line: Line) -> int:
        """Whom a server copies from that has nothing of the shard."""
        return order.party if order.call == Call.PREPARE_ADD else self.server.numbers.get(line.get("primary"), 0)

    def done(self, shard: str, order: Order, line: Line) -> Line:
        """Answers an order that has its effect; a copy has it once it has all that was executed since it was made."""
        live, source = self.server.live(shard), self.source_of(order, line)
        if order.call in (Call.ADD, Call.PREPARE_ADD) and live.caught_up != order.number and source not in (0, self.server.number):
            try:
                self.server.offers.catch_up(shard, source)
            except (OSError, ValueError) as why:
                return {"said": f"working: {why}"}
            live.caught_up = order.number
        return {"done": True}

    def work(self, shard: str, order: Order, line: Line) -> None:
        """Works until the order is committed, is no longer at work, or has taken too long."""
        live, pause = self.server.live(shard), self.limits.resting / 8
        until = time.monotonic() + (2 * self.limits.waiting if self.holds(shard, order) else self.limits.working)
        try:
            while time.monotonic() < until and self.is_at_work(shard, order):
                try:
                    self.commit(shard, order, self.prepare(shard, order, line))
                    break
                except (NotYet, OSError, ValueError) as why:
                    live.said = str(why)
                self.server.wait(lambda: False, pause)
                pause = min(2 * pause, 4 * self.limits.resting)
        finally:
            self.end(shard, order)

    def is_at_work(self, shard: str, order: Order) -> bool:
        """Whether nothing has ended the work."""
        with self.server.storage.transaction() as tx:
            return Records(tx).slot(shard).at_work == order.number

    def holds(self, shard: str, order: Order) -> bool:
        """Whether requests wait for the order."""
        with self.server.storage.transaction() as tx:
            return needs_rest(order, Records(tx).slot(shard))

    def end(self, shard: str, order: Order) -> None:
        """Gives up what is still at work."""
        live = self.server.live(shard)
        with self.server.storage.transaction() as tx:
            it = Records(tx)
            slot = it.slot(shard)
            if slot.at_work == order.number:
                it.put_slot(shard, agent.abandon(slot))
                live.rest_until = time.monotonic() + (self.limits.waiting if needs_rest(order, slot) else 0.0)
            if live.worker == order.number:
                live.worker = 0
            with self.server.changed:
                live.stay()
        self.server.wake()

    # -- the work before the commit

    def prepare(self, shard: str, order: Order, line: Line) -> Optional[Line]:
        """Does what has to be done before the commit; returns the copy that belongs to it, if there is one."""
        with self.server.storage.transaction() as tx:
            it = Records(tx)
            slot, mark = it.slot(shard), it.mark(shard)
        others = [self.server.numbers[it] for it in line.get("replicas") or () if it != self.server.name]
        if order.call == Call.PREPARE_ADD or (order.call == Call.ADD and order.role == Role.SECONDARY):
            return self.copy(shard, order, line)
        if order.call == Call.ADD and slot.cell == Cell.ABSENT and others:
            raise NotYet(f"others have {shard}: {line['replicas']}")
        if order.call == Call.ADD and slot.cell == Cell.PREPARED and not agent.has_reached_cut(slot, mark.position):
            raise NotYet("the cut is not reached")
        if order.call == Call.CHANGE and order.new_role == Role.PRIMARY:
            self.compare(shard, others)
        if needs_rest(order, slot):
            self.look_at_next(order, others)
            self.rest(shard)
        if order.call == Call.CHANGE and order.new_role == Role.SECONDARY:
            with self.server.storage.transaction() as tx:
                position = Records(tx).mark(shard).position
            if not self.server.streams.replicate(shard, position, self.server.live(shard).term, others):
                raise NotYet("not each secondary has all writes")
        if order.call == Call.DROP:
            self.server.leaves.take(shard, line, others)
        return None

    def copy(self, shard: str, order: Order, line: Line) -> Line:
        """Asks for a copy of a shard."""
        source = self.source_of(order, line)
        if source in (0, self.server.number):
            raise NotYet("nobody is named who has it")
        with self.server.storage.transaction() as tx:
            after = Records(tx).mark(shard)
        offer = self.server.offers.asked(shard, source, after)
        if "said" in offer:
            raise NotYet(f"{self.server.name_of(source)}: {offer['said']}")
        with self.server.storage.transaction() as tx:
            why = self.server.offers.fewer(Records(tx), offer)
        if why:
            raise NotYet(why)
        return offer

    def look_at_next(self, order: Order, others: List[int]) -> None:
        """Before this server leads a shard no more: those that may lead it next have each acknowledged write at as many servers. Controllers count by
        that."""
        with self.server.storage.transaction() as tx:
            wanted = Records(tx).counting()[1]
        following = [order.party] if order.call == Call.PREPARE_DROP else others
        for number in following if wanted > 1 else ():
            copies = self.server.ask(number, "life", {}, self.limits.peer).get("copies", 1)
            if copies < wanted:
                raise NotYet(fewer(self.server.name_of(number), copies, self.server.name, wanted))

    def compare(self, shard: str, others: List[int]) -> None:
        """A secondary that becomes primary takes what others have whose copies are greater. Each of them has to answer."""
        with self.server.storage.transaction() as tx:
            if not Records(tx).has_copy(shard):
                raise NotYet(LOST.format(shard))
        for number in others:
            with self.server.storage.transaction() as tx:
                after = Records(tx).mark(shard)
            offer, name = self.server.offers.asked(shard, number, after, beside=True), self.server.name_of(number)
            if "said" in offer:
                raise NotYet(f"{name}: {offer['said']}")
            with self.server.storage.transaction() as tx:
                it = Records(tx)
                less = Mark(*offer.get("less", ()))
                if less.has_more_than(it.mark(shard)) or it.differs(shard, less):
                    raise NotYet(f"{name} has another list of {shard} in one view: give one of them up as lost")
                if "less" not in offer and it.slot(shard).cell == Cell.SECONDARY and not self.server.offers.take(it, shard, offer):
                    raise NotYet(f"{name} has more")

    def rest(self, shard: str) -> None:
        """Waits until no request of a shard runs."""
        live = self.server.live(shard)
        if not self.server.wait(lambda: live.running == 0, self.limits.waiting):
            raise NotYet("requests run")

    # -- the commit

    def commit(self, shard: str, order: Order, offer: Optional[Line]) -> None:
        """Commits the work in one transaction with the slot."""
        live = self.server.live(shard)
        with self.server.storage.transaction() as tx:
            it = Records(tx)
            slot = it.slot(shard)
            if needs_rest(order, slot) and live.running:
                raise NotYet("requests run")
            if order.call == Call.DROP and not (live.leave and live.leave == live.leaving):
                raise NotYet("the leave is over")
            if offer is not None and slot.cell == Cell.ABSENT and slot.at_work == order.number:
                if not self.server.offers.take(it, shard, offer):
                    raise NotYet("another copy is here")
            after = agent.commit(it.base(), slot, order, it.mark(shard).position)
            if after is None:
                raise NotYet("it is thrown away")
            self.store(it, shard, slot, after)
            with self.server.changed:
                live.begin_anew()
        if after.cell == Cell.FORWARDING:
            self.server.pool.submit(self.server.streams.push, shard, after.party, after.cut)

    def store(self, it: Records, shard: str, before: Slot, after: Slot) -> None:
        """Stores a slot with the data that it stands for."""
        if after.cell == Cell.ABSENT or (before.cell == Cell.ABSENT and after.cell == Cell.PRIMARY):
            self.server.service.drop(it.tx, shard)
            it.clear(shard)
        if after.cell == Cell.PRIMARY and before.cell != Cell.PREPARED:
            it.begin_view(shard, after.last)
        it.put_old_owner(shard, before.party if (before.cell, after.cell) == (Cell.PREPARED, Cell.PRIMARY) else 0)
        it.put_slot(shard, after)


def needs_rest(order: Order, slot: Slot) -> bool:
    """Whether no request may run when the order is committed."""
    is_demotion = order.call == Call.CHANGE and order.new_role == Role.SECONDARY
    return order.call == Call.PREPARE_DROP or is_demotion or (order.call == Call.DROP and slot.cell == Cell.PRIMARY)
