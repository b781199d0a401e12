"""Orders: judged, worked on and committed. Each has a thread of its own, which ends when the order has its effect, or has none any more."""
from __future__ import annotations

import threading
import time
from contextlib import nullcontext
from typing import TYPE_CHECKING, Any, Dict, List, Optional

import psycopg
from smplan.agent import Answer, Call, Cell, Order, Role, Slot
from smplan.control_agent import order_of

from . import streams
from .copies import REPLACED, GivenUp, check, remove, set_aside
from .database import Connection, value
from .leave import Leave, leaving
from .records import Cut, Mark, Records
from .streams import Stuck

if TYPE_CHECKING:
    from .server import Server

Line = Dict[str, Any]


# For how long an order is tried without a new message, in seconds.
TRYING = 2.0


class Ended(Exception):
    """An order has no work any more."""


class Orders:
    """The orders' side of a server."""

    def __init__(self, server: "Server") -> None:
        self.server, self.limits = server, server.limits

    def take(self, line: Line) -> Line:
        """Answers an order: that it is done, or what else."""
        self.server.know(line)
        shard, order = line["shard"], order_of(line, self.server.numbers)
        self.server.whole.heed(order.journal, order.fence)
        live = self.server.live(shard)
        verdict = self.judge(shard, order)
        if verdict in (Answer.BEGIN, Answer.WORKING):
            with self.server.lock:
                is_free = live.worker == 0 and time.monotonic() >= live.rest_until
                if is_free:
                    live.worker, live.said = order.number, ""
            if is_free:
                threading.Thread(target=self.work, args=(shard, order, line), daemon=True).start()
            until = time.monotonic() + self.limits.answering
            while live.worker == order.number and time.monotonic() < until:
                time.sleep(0.005)
            verdict = self.judge(shard, order)
        if verdict == Answer.AGAIN:
            return {"done": True}
        words = verdict.name.lower() if verdict != Answer.BEGIN else "working"
        return {"said": f"{words}: {live.said}" if verdict in (Answer.BEGIN, Answer.WORKING) and live.said else words}

    def judge(self, shard: str, order: Order) -> Answer:
        """What the server makes of an order."""
        with self.server.database.transaction() as tx:
            it = Records(tx)
            base = it.base()
            return self.server.agent.judge(base, it.slot(shard, base), it.used(), order)

    # -- the thread of an order

    def work(self, shard: str, order: Order, line: Line) -> None:
        """Works until the order is committed, or can't be any more, or for a moment: then it comes again, and tells what is so by then."""
        live, pause, until = self.server.live(shard), 0.01, time.monotonic() + TRYING
        try:
            while True:
                try:
                    with live.hands:
                        self.once(shard, order, line)
                    return
                except (Stuck, OSError, psycopg.Error) as why:
                    live.said = str(why).strip()
                if time.monotonic() > until:
                    return
                pause = min(2 * pause, self.limits.resting)
                time.sleep(pause)
        except (Ended, GivenUp) as why:
            live.said = str(why)
        except Exception as why:  # pylint: disable=broad-exception-caught  (the order comes again)
            live.said = f"{type(why).__name__} {why}"
            self.server.say("order", order.number, shard, live.said)
        finally:
            live.worker = 0
            self.server.following.wake(shard)

    def once(self, shard: str, order: Order, line: Line) -> None:
        """One try."""
        others = [self.server.numbers[it] for it in line.get("replicas") or () if it != self.server.name]
        if order.call == Call.PREPARE_ADD or (order.call == Call.ADD and order.role == Role.SECONDARY):
            self.copy(shard, order, line, others)
        else:
            self.change(shard, order, line, others)
        self.server.say(line["call"], shard, "done")

    def begin(self, tx: Connection, shard: str, order: Order) -> Slot:
        """The slot with the order at work, or an end of the work."""
        it = Records(tx)
        base = it.base("FOR SHARE")
        slot = it.slot(shard, base)
        verdict = self.server.agent.judge(base, slot, it.used(), order)
        if verdict not in (Answer.BEGIN, Answer.WORKING):
            raise Ended(verdict.name.lower())
        return self.server.agent.begin(slot, order)

    # -- copies: they take long, so that their beginning is stored

    def copy(self, shard: str, order: Order, line: Line, others: List[int]) -> None:
        """Copies a shard from its owner, or from its primary."""
        source = order.party if order.call == Call.PREPARE_ADD else self.server.numbers.get(line.get("primary") or "", 0)
        if source in (0, self.server.number):
            raise Stuck("nobody is named who has it")
        if order.call == Call.ADD:
            source = self.server.sources.present(shard, source)
        live = self.server.live(shard)
        with self.server.database.transaction() as tx:
            Records(tx).put_slot(shard, self.begin(tx, shard, order))

        def still() -> bool:
            with self.server.database.transaction() as tx:
                return Records(tx).slot(shard).at_work == order.number

        def tell(words: str) -> None:
            live.said = words

        try:
            self.server.copies.make(shard, source, still, tell)
            if order.call == Call.PREPARE_ADD:
                while not streams.make_streams(self.server.database, shard, others, TRYING):
                    tell("waits for transactions that are open here")
                    check(still)
            self.commit_copy(shard, order, source)
        except (Stuck, OSError, psycopg.Error):
            with self.server.database.transaction() as tx:
                it = Records(tx)
                it.put_slot(shard, self.server.agent.abandon(it.slot(shard)))
            raise

    def commit_copy(self, shard: str, order: Order, source: int) -> None:
        """Commits a copy that is whole. A secondary counts before that."""
        if order.call == Call.ADD and not self.server.sources.join(shard, source):
            raise Stuck(f"{self.server.names[source]} does not serve the shard any more")
        with self.server.database.transaction() as tx:
            it = Records(tx)
            after = self.server.agent.commit(it.base("FOR SHARE"), it.slot(shard), order, it.mark(shard).position)
            if after is None:
                raise Ended("it is thrown away")
            it.put_slot(shard, after)
            it.put_source(shard, source, True)
            self.server.copies.end(tx, shard)

    # -- the other calls begin and commit in one transaction, so that nobody ever sees them at work

    def change(self, shard: str, order: Order, line: Line, others: List[int]) -> None:
        """Does the work of an order that copies nothing, and commits it."""
        with leaving(self.server, shard, line, others) if order.call == Call.DROP else nullcontext() as leave:
            self.prepare(shard, order, line, others, leave)
            self.commit(shard, order, others, leave)
            if leave is not None:
                leave.tell()

    def commit(self, shard: str, order: Order, others: List[int], leave: Optional[Leave]) -> None:
        """Commits an order that copies nothing, with its work."""
        live = self.server.live(shard)
        with self.server.database.transaction() as tx:
            it = Records(tx)
            slot = self.begin(tx, shard, order)
            if needs_rest(order, slot):
                self.hold(tx, shard, order)
            tx.execute("SELECT FROM sm.slots WHERE shard = %s FOR UPDATE", (shard,))
            if self.server.agent.begin(it.slot(shard), order) != slot:
                raise Stuck("the slot has changed")
            if leave is not None:
                self.keep(tx, shard, slot, leave)
            before = it.mark(shard)
            is_cut = order.call == Call.PREPARE_DROP or is_demotion(order)
            if is_cut:
                self.wait_for_members(tx, shard, order, others)
                it.count(shard)
            after = self.server.agent.commit(it.base(), slot, order, it.mark(shard).position)
            if after is None:
                raise Stuck("the cut is not reached")
            self.store(tx, shard, order, others, slot, after, before)
            it.put_slot(shard, after)
            live.first_try.pop(order.number, None)

    def hold(self, tx: Connection, shard: str, order: Order) -> None:
        """Waits until no request runs. Meanwhile none begins: so it waits shortly, and rests long; at a deadline it ends those that run."""
        live = self.server.live(shard)
        first = live.first_try.setdefault(order.number, self.server.silence.now())
        tx.execute(f"SET LOCAL lock_timeout = {int(self.limits.holding * 1000)}")
        try:
            tx.execute("SELECT sm.hold(%s)", (shard,))
        except psycopg.errors.LockNotAvailable:
            live.rest_until = time.monotonic() + self.limits.resting
            if self.server.silence.now() > first + self.limits.ending:
                self.server.whole.end_requests(shard)
            raise Ended("requests run too long; it rests") from None

    def wait_for_members(self, tx: Connection, shard: str, order: Order, others: List[int]) -> None:
        """A primary that becomes a secondary waits until each secondary has all writes. One that was left out counts again first: it could not copy the shard
        from a secondary, so that nobody could become the primary."""
        if is_demotion(order):
            lacking = [self.server.names.get(it, str(it)) for it in others if it not in Records(tx).members(shard)]
            if lacking:
                self.server.live(shard).rest_until = time.monotonic() + self.limits.resting
                raise Ended(f"{', '.join(lacking)} has to follow first")
            until, place = time.monotonic() + self.limits.holding, value(tx.execute("SELECT pg_current_wal_flush_lsn()::text").fetchone())
            while not value(tx.execute("SELECT sm.has_all(%s, %s::pg_lsn)", (shard, place)).fetchone()):
                if time.monotonic() > until:
                    self.server.live(shard).rest_until = time.monotonic() + self.limits.resting
                    raise Ended("not each secondary has all writes")
                time.sleep(0.002)

    def prepare(self, shard: str, order: Order, line: Line, others: List[int], leave: Optional[Leave]) -> None:
        """What goes before the transaction: leave, comparisons, streams, and an end of what is followed."""
        with self.server.database.transaction() as tx:
            slot = self.begin(tx, shard, order)
            mine = streams.name_of(tx, shard, self.server.number)
            words = leave.words(tx, slot) if leave is not None else ()
        if needs_rest(order, slot):
            for it in [order.party] if order.call == Call.PREPARE_DROP else others:
                self.server.sources.check_copies(it, self.server.number)
        if leave is not None:
            if slot.cell == Cell.FORWARDING:
                self.wait_for_followers(shard)
            leave.get(words)
            if slot.cell == Cell.FORWARDING and not leave.is_beside:
                self.catch_up(shard, leave.givers[0])
            else:
                streams.halt(self.server.database, mine)
        elif order.call == Call.ADD and slot.cell == Cell.PREPARED and not slot.has_cut:
            raise Stuck("the cut is not reached")  # (at once: who seals waits for the hands)
        elif order.call == Call.ADD and slot.cell == Cell.ABSENT and others:
            raise Stuck(f"others have {shard}: {line['replicas']}")
        elif is_demotion(order):
            self.marks(shard, others)
        elif is_promotion(order):
            self.compare(shard, others)
            self.server.live(shard).said = "waits for transactions that are open here"
            if not streams.make_streams(self.server.database, shard, others, self.limits.ending):
                self.server.say("transactions here are open for long: who follows copies", shard, "anew")
            streams.halt(self.server.database, mine)

    def store(self, tx: Connection, shard: str, order: Order, others: List[int], slot: Slot, after: Slot, before: Mark) -> None:
        """Stores the effect of a call, in the transaction of its slot."""
        it = Records(tx)
        if order.call == Call.PREPARE_DROP or is_demotion(order):
            is_handover = order.call == Call.PREPARE_DROP
            it.put_cut(shard, Cut(after.handover if is_handover else order.number, it.mark(shard).position, after.party if is_handover else 0, {}))
            streams.publish(tx, shard, "")
            it.put_source(shard, None, True)
        elif order.call == Call.DROP and slot.cell == Cell.FORWARDING:
            # (It counts until it commits, and writes wait for it: so it waits for nobody who reads its copy, and follows
            # for as long as it can.)
            streams.halt(self.server.database, streams.name_of(tx, shard, self.server.number))
            set_aside(tx, shard, self.server.number, REPLACED)
        elif order.call == Call.DROP:
            remove(tx, shard, self.server.number)
        elif slot.cell == Cell.PREPARED:
            it.end_cut(shard)
            it.count(shard)
        elif slot.cell == Cell.ABSENT:
            self.found(tx, shard, order, after)
        else:
            self.server.whole.begin_view(tx, shard, order.number, {number: False for number in others})

    def found(self, tx: Connection, shard: str, order: Order, after: Slot) -> None:
        """A shard that nobody has begins with the schema that was adopted here, otherwise empty."""
        it = Records(tx)
        if not it.is_adopted(shard):
            tx.execute(streams.said("CREATE SCHEMA IF NOT EXISTS {}", shard))
            tx.execute("SELECT sm.adopt(%s)", (shard,))
        it.put_slot(shard, after)
        self.server.whole.begin_view(tx, shard, order.number, {})

    def keep(self, tx: Connection, shard: str, slot: Slot, leave: Leave) -> None:
        """Keeps leave to drop a copy, to which nothing more comes: a primary holds its requests now. It waits shortly, and rests long."""
        try:
            leave.keep(tx, slot)
        except Stuck as why:
            if slot.cell == Cell.PRIMARY:
                self.server.live(shard).rest_until = time.monotonic() + self.limits.resting
                raise Ended(str(why)) from None
            raise

    def wait_for_followers(self, shard: str, seconds: float = 10.0) -> None:
        """Waits until nobody reads streams of a shard that begin here; not for those that are dead."""
        now = self.server.silence.now()
        first = self.server.live(shard).first_try.setdefault(-1, now)
        head = "SELECT count(*) FROM pg_replication_slots WHERE database = current_database() AND active AND starts_with(slot_name, sm.stream(%s) || '_')"
        if value(self.server.database.row(head, shard)) and now < first + seconds:
            raise Stuck("followers have not left yet")
        self.server.live(shard).first_try.pop(-1, None)

    def catch_up(self, shard: str, primary: int, seconds: float = 0.3) -> None:
        """Waits until an old owner has what the primary has now, but not for long: those writes wait for it, and would
        until it has dropped its copy."""
        there, until = self.server.peer(primary), time.monotonic() + seconds
        place = value(there.row("SELECT pg_current_wal_flush_lsn()::text"))
        lacks = ("SELECT FROM pg_replication_slots WHERE slot_name = sm.stream(%s, %s) AND database = current_database() "
                 "AND confirmed_flush_lsn < %s::pg_lsn")
        while there.row(lacks, shard, self.server.number, place) is not None and time.monotonic() < until:
            time.sleep(0.003)

    def compare(self, shard: str, others: List[int]) -> None:
        """A secondary that becomes primary waits until it has what each other replica has, and for one whose copy is not whole, which may have lost it."""
        marks = self.marks(shard, [self.server.number, *others])
        for it, mark in marks.items():
            if mark > marks[self.server.number]:
                raise Stuck(f"{self.server.names[it]} has more")

    def marks(self, shard: str, numbers: List[int]) -> Dict[int, Mark]:
        """What servers have of a shard; each has to have a whole copy. (A primary does not become a secondary before: nobody could become the primary.)"""
        marks = {}
        for it in numbers:
            mark = self.server.sources.mark_at(it, shard)
            if mark is None:
                raise Stuck(f"{self.server.names[it]} has no whole copy: it is waited for until it is given up")
            marks[it] = mark
        return marks


def is_promotion(order: Order) -> bool:
    """Whether an order makes a secondary the primary."""
    return order.call == Call.CHANGE and order.new_role == Role.PRIMARY


def is_demotion(order: Order) -> bool:
    """Whether an order makes the primary a secondary."""
    return order.call == Call.CHANGE and order.new_role == Role.SECONDARY


def needs_rest(order: Order, slot: Slot) -> bool:
    """Whether no request may run when the order is committed."""
    return order.call == Call.PREPARE_DROP or is_demotion(order) or (order.call == Call.DROP and slot.cell == Cell.PRIMARY)


