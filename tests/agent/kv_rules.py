"""The eight rules of docs/YOUR-SERVERS.md, by the server of examples/kv_server.py: each rule's schedules do no harm there, and do harm at a server
that breaks the rule."""
import os
import sys
from contextlib import contextmanager
from dataclasses import replace

sys.path.insert(0, os.path.join(os.path.dirname(os.path.abspath(__file__)), "../../examples"))
from kv_server import Server, agent  # noqa: E402  (the path comes first)
from smplan.agent import Answer, Base, Call, Cell, Order, Request, Role, Slot  # noqa: E402

JOURNAL, SHARD = 7, "s"


def order(number, call, party=0, role=0, new_role=0, fence=0, handover=1):
    return Order(JOURNAL, fence, number, 1, 9, handover, call, role, new_role, party)


def restore(server, cell, base=0):
    server.restore(JOURNAL, base, base, server.base().nonce, {SHARD: Slot(cell=cell, load=1)})


def pair(kind, second=Cell.ABSENT):
    """Two servers of a kind: the first one is the shard's primary."""
    peers = {}
    a, b = kind(1, peers), kind(2, peers)
    for server, cell in ((a, Cell.PRIMARY), (b, second)):
        restore(server, cell)
    return a, b


def three(kind, second=Cell.SECONDARY, copies=1):
    """Three servers: a primary, a second one, and a secondary."""
    peers = {}
    servers = [kind(it, peers, copies=copies) for it in (1, 2, 3)]
    for server, cell in zip(servers, (Cell.PRIMARY, second, Cell.SECONDARY)):
        restore(server, cell)
    return servers


def answered(server, it):
    """Sends an order once, and does its work if it is begun. Whether it is answered."""
    verdict = server.order(SHARD, it)
    return verdict in (Answer.AGAIN, Answer.DONE) or (verdict == Answer.BEGIN and server.work(SHARD, it))


def is_dropped(server, *replicas):
    """Sends an order to drop a replica of these, whose first one is the primary, and does its work. Whether it is done."""
    server.order(SHARD, DROP, replicas[0], replicas)
    return server.work(SHARD, DROP)


def push(server, request, text, how=Request()):
    return server.request(SHARD, request, ("append", "k", text), how)


def read(server):
    return server.request(SHARD, "read", ("get", "k"))


@contextmanager
def lost(server, message):
    """A message to a server is lost, as often as it is sent."""
    def nobody(*words):
        raise OSError("nobody answers")
    setattr(server, message, nobody)
    yield
    delattr(server, message)


def choose(server, number=100):
    """A reopening makes the server the shard's primary; all others are lost."""
    server.peers.clear()
    server.peers[server.number] = server
    server.fence(JOURNAL, number)
    want(server.settle(JOURNAL, number, None, {SHARD: Slot(cell=Cell.PRIMARY, load=1)}), True)


def want_kept(answer, *servers):
    """What a client was answered is at one of these servers, if it was acknowledged."""
    if not isinstance(answer, Answer) and answer not in [it.value(SHARD, "k") for it in servers]:
        raise AssertionError(f"{answer!r} was acknowledged, and is at none of {[it.number for it in servers]}")


HANDOVER = (order(1, Call.PREPARE_ADD, 1), order(2, Call.PREPARE_DROP, 2), order(3, Call.ADD, role=Role.PRIMARY), order(4, Call.DROP))


DROP = order(9, Call.DROP)


def hand_over(a, b, orders=HANDOVER):
    """Hands the primary from a to b. Each order is sent again until it is answered."""
    for server, it in zip((b, a, b, a), orders):
        if not any(answered(server, it) for _ in range(3)):
            raise AssertionError(f"never answered: {it}")


def want(made, wanted):
    if made != wanted:
        raise AssertionError(f"{made!r}, and not {wanted!r}")


# -- 1: slot and data change in one transaction

class CommitsFirst(Server):
    """Stores the slot of a new owner first, and copies the data afterwards."""
    def order(self, shard, it):
        verdict = super().order(shard, it)
        if verdict == Answer.BEGIN and it.call == Call.PREPARE_ADD:
            with self.db:
                self.store_slot(shard, agent.commit(self.base(), self.slot(shard), it, 0))
        return verdict


def crash_amid_copy(kind):
    a, b = pair(kind)
    push(a, "r1", "x")
    b.order(SHARD, HANDOVER[0])
    b.start()
    want(answered(b, HANDOVER[0]), True)
    want((b.value(SHARD, "k"), b.applied(SHARD)), ("x", 1))


# -- 1: a settle is taken as a whole

class KeepsTheRest(Server):
    """Keeps the slots, and the data, of shards that a settle does not name."""
    def take(self, told, brought):
        kept = [(it, self.slot(it), self.copy_of(it)) for it in self.shards() if it not in brought]
        answer = super().take(told, brought)
        if answer == Answer.TAKEN:
            with self.db:
                for shard, slot, copy in kept:
                    self.store_slot(shard, slot)
                    self.store_copy(shard, copy)
        return answer


def late_after_settle(kind):
    a, b = pair(kind)
    c = kind(3, a.peers)
    c.restore(JOURNAL, 0, 0, c.base().nonce, {SHARD: Slot(cell=Cell.SECONDARY, load=1)})
    push(a, "r1", "x")
    want(answered(b, HANDOVER[0]), True)
    b.seal = lambda *cut: None  # (the message is lost)
    want(answered(a, HANDOVER[1]), True)
    late = Request(handover=1, cut=a.slot(SHARD).cut, party=1, is_passed=1)
    for server in (a, b, c):
        server.fence(JOURNAL, 100)
    for server, cells in ((a, [Cell.PRIMARY]), (b, []), (c, [Cell.SECONDARY])):
        want(server.settle(JOURNAL, 100, None, {SHARD: Slot(cell=it, load=1) for it in cells}), True)
    push(a, "r2", "y")
    want(push(b, "r3", "z", late), Answer.NOT_HERE)
    want((read(a), c.value(SHARD, "k"), b.slot(SHARD)), ("xy", "xy", Slot(cell=Cell.ABSENT, last=1)))


# -- 2: routed and executed in one act; identities move with the shard

class ForgetsRequests(Server):
    """Copies the pairs alone, and not which requests have been executed."""
    def copy_of(self, shard, after=0):
        views, writes = super().copy_of(shard, after)
        return views, [(place, None, *rest) for place, _, *rest in writes]


def repeat_after_handover(kind):
    a, b = pair(kind)
    push(a, "r1", "x")
    hand_over(a, b)
    push(b, "r1", "x")
    want(read(b), "x")


# -- 3: answered after the commit

class AnswersAtOnce(Server):
    """Answers an order when its work begins."""
    def order(self, shard, it):
        verdict = super().order(shard, it)
        return Answer.DONE if verdict == Answer.BEGIN and it.call == Call.PREPARE_ADD else verdict


def crash_at_work(kind):
    a, b = pair(kind)
    push(a, "r1", "x")
    if not answered(b, HANDOVER[0]):
        raise AssertionError("never answered")
    b.start()
    hand_over(a, b, HANDOVER)
    want(read(b), "x")


# -- 4: a new owner waits for the cut

class IgnoresTheCut(Server):
    """Takes over whatever writes it has applied."""
    def applied(self, shard):
        at_work = self.slot(shard).at_work == 3
        return 1 << 40 if at_work else super().applied(shard)


def write_under_way(kind):
    a, b = pair(kind)
    push(a, "r1", "x")
    want(answered(b, HANDOVER[0]), True)
    with lost(b, "pull"):
        push(a, "r2", "y")
        want(answered(a, HANDOVER[1]), True)
    if not answered(b, HANDOVER[2]):
        b.pull(SHARD, 1)
        want(b.work(SHARD, HANDOVER[2]), True)
    want(read(b), "xy")


# -- 4: a new owner that has reached its cut takes nothing more from the old one, and below it gives nothing

class TakesBehindTheCut(Server):
    """Copies from the old owner, whatever it has, also when it has reached its cut."""
    def pull(self, shard, source, *words):
        if self.slot(shard).cell == Cell.PREPARED:
            with self.db:
                self.store_copy(shard, self.peers[source].copy_of(shard))
        return super().pull(shard, source, *words)


def crash_behind_the_cut(kind):
    a, b, c = three(kind, Cell.ABSENT)
    push(a, "r1", "x")
    want((answered(b, HANDOVER[0]), answered(a, HANDOVER[1])), (True, True))
    with lost(a, "pull"):
        want(push(a, "r2", "y"), Answer.NOT_YET)
    b.start()
    b.pull(SHARD, 1)
    want_kept(push(a, "r3", "z"), c)


class GivesBelowItsCut(Server):
    """Gives others what it has before it has reached its cut."""
    def serves(self, shard):
        return super().serves(shard) or self.slot(shard).cell == Cell.PREPARED


def new_disk_below_the_cut(kind):
    a, b, c = three(kind, Cell.ABSENT)
    push(a, "r1", "x")
    want(answered(b, HANDOVER[0]), True)
    with lost(b, "pull"):
        want((push(a, "r2", "y"), answered(a, HANDOVER[1])), ("xy", True))
    c = kind(3, a.peers)
    restore(c, Cell.SECONDARY)
    c.pull(SHARD, 2)
    want(c.mark(SHARD), None)


# -- 4: a drop has leave

class DropsAtOnce(Server):
    """Drops its copy without leave."""
    def has_leave(self, shard):
        return True


def drop_without_its_primary(kind):
    a, b = pair(kind, Cell.SECONDARY)
    push(a, "r1", "x")
    del a.peers[1]
    want(is_dropped(b, 1, 2), False)
    choose(b)
    want(read(b), "x")


class GivesLeaveAnyway(Server):
    """Gives leave while it hands the shard over, since it has all itself."""
    def give_leave(self, shard, number, question, mark):
        self.ask(number, "take_leave", shard, question, self.number, True)


def drop_below_the_cut(kind):
    a, b, c = three(kind, Cell.ABSENT, copies=2)
    push(a, "r1", "x")
    want(answered(b, HANDOVER[0]), True)
    with lost(b, "pull"):
        want((push(a, "r2", "y"), answered(a, HANDOVER[1])), ("xy", True))
    want(is_dropped(c, 1, 2, 3), False)


class TakesAnyLeave(Server):
    """Takes the answer to an earlier question."""
    def take_leave(self, shard, question, *words):
        super().take_leave(shard, self.questions.get(shard, (None,))[0], *words)


def asked(kind):
    """Two copies are asked for, and a secondary asks for leave. What it is answered is on its way."""
    a, b, c = three(kind, copies=2)
    push(a, "r1", "x")
    late = []
    b.take_leave = lambda *words: late.append(words)
    want(is_dropped(b, 1, 2, 3), False)
    del b.take_leave
    return a, b, c, late[0]


def leave_comes_late(kind):
    a, b, c, late = asked(kind)
    b.start()
    with lost(c, "pull"):
        answer = push(a, "r2", "y")
        want(is_dropped(b, 1, 2, 3), False)
        b.take_leave(*late)
        is_dropped(b, 1, 2, 3)
    want_kept(answer, b, c)


class TellsWhileItAsks(Server):
    """Goes on to tell what it has while it asks for leave."""
    def pull(self, shard, *words):
        kept, self.questions = self.questions, {}
        told = super().pull(shard, *words)
        self.questions = kept
        return told


def written_while_it_asks(kind):
    a, b, c, late = asked(kind)
    with lost(c, "pull"):
        answer = push(a, "r2", "y")
        b.take_leave(*late)
        is_dropped(b, 1, 2, 3)
    want_kept(answer, b, c)


class WaitsForever(Server):
    """Answers nobody while it asks for leave."""
    def give_leave(self, shard, *words):
        if shard not in self.questions:
            super().give_leave(shard, *words)


def both_are_dropped(kind):
    a, b = pair(kind, Cell.SECONDARY)
    push(a, "r1", "x")
    with lost(b, "take_leave"), lost(a, "take_leave"):
        want((is_dropped(b, 1, 2), is_dropped(a, 1, 2)), (False, False))
    want(any([is_dropped(a, 1, 2), is_dropped(b, 1, 2)]), True)


# -- 4: what is left of a dropped replica is a cache

class GoesOnFromItsCache(Server):
    """Keeps the data of a shard that it drops, and takes them for a copy when it is to have the shard again."""
    def delete_copy(self, shard):
        pass

    def copy_for(self, shard, it):
        return self.copy_of(shard) if self.mark(shard) else super().copy_for(shard, it)


def dropped_and_added(kind):
    a, b = pair(kind, Cell.SECONDARY)
    push(a, "r1", "x")
    want(answered(b, DROP), True)
    answer = push(a, "r2", "y")
    want(answered(b, order(10, Call.ADD, role=Role.SECONDARY)), True)
    choose(b)
    want_kept(answer, b)


# -- 4: who becomes primary has the greatest copy, by view and position

def returned(kind):
    """The first server executes y alone, and is lost. The second one goes on with z in its place; then the first one is back as a secondary."""
    a, b, c = three(kind)
    push(a, "r1", "x")
    with lost(b, "pull"), lost(c, "pull"):
        push(a, "r2", "y")
    for server, cell in ((b, Cell.PRIMARY), (c, Cell.SECONDARY)):
        server.fence(JOURNAL, 100)
        want(server.settle(JOURNAL, 100, None, {SHARD: Slot(cell=cell, load=1)}), True)
    with lost(a, "pull"):
        b.request(SHARD, "r3", ("append", "j", "z"))
    with a.db:
        a.heed(JOURNAL, 100)
    restore(a, Cell.SECONDARY, 100)
    return a, b, c


class ComparesPositions(Server):
    """Compares copies by their positions, and not by their views."""
    def mark(self, shard):
        mark = super().mark(shard)
        return mark and mark._replace(view=0)


def change_of_a_returned_one(kind):
    a, b, c = returned(kind)
    with lost(a, "pull"):
        want(answered(b, order(101, Call.DROP, fence=100)), True)
    answered(a, order(102, Call.CHANGE, role=Role.SECONDARY, new_role=Role.PRIMARY, fence=100))
    want(a.value(SHARD, "j"), "z")


class TellsNoView(Server):
    """Answers a fence with the position of its copy, and not with the view."""
    def fence(self, *words):
        told = super().fence(*words)
        return {it: (slot, has_reached, mark._replace(view=0)) for it, (slot, has_reached, mark) in told.items()}


def reopened_beside_a_returned_one(kind):
    """The primary is lost, too. Of those that are left the first one whose copy is the greatest, as they tell, becomes the primary."""
    a, b, c = returned(kind)
    told = {it: it.fence(JOURNAL, 200)[SHARD] for it in (a, c)}
    chosen = max(told, key=lambda it: told[it][2])
    for server in told:
        cell = Cell.PRIMARY if server is chosen else Cell.SECONDARY
        want(server.settle(JOURNAL, 200, None, {SHARD: Slot(cell=cell, load=1)}), True)
    want(chosen.value(SHARD, "j"), "z")


class TakesNoneForLess(Server):
    """Becomes primary beside a replica that has lost its copy."""
    def has_greatest(self, shard):
        self.named[shard] = 0, {it for it in self.replicas(shard)[1] if self.peers[it].mark(shard)}
        return super().has_greatest(shard)


def change_beside_a_new_disk(kind):
    """The primary is dropped by leave of a secondary that has all, whose disk is replaced then. The other one lags."""
    a, b, c = three(kind)
    push(a, "r1", "x")
    with lost(c, "pull"):
        want(push(a, "r2", "y"), "xy")
    want(is_dropped(a, 1, 2, 3), True)
    b = kind(2, a.peers, is_new=False)
    restore(b, Cell.SECONDARY)
    change = order(20, Call.CHANGE, role=Role.SECONDARY, new_role=Role.PRIMARY)
    c.order(SHARD, change, 0, (2, 3))
    want(c.work(SHARD, change), False)


class LeavesTheSilentBehind(Server):
    """Becomes a secondary though a replica that does not answer lacks a write."""
    def replicate(self, shard, but=0, named=()):
        return super().replicate(shard, but)


def change_beside_a_silent_one(kind):
    """The write is acknowledged without the silent one. Afterwards nobody serves, from whom that could take it."""
    a, b, c = three(kind)
    push(a, "r1", "x")
    change = order(5, Call.CHANGE, role=Role.PRIMARY, new_role=Role.SECONDARY)
    with lost(c, "pull"):
        want((push(a, "r2", "y"), answered(a, change)), ("xy", False))
    want((a.work(SHARD, change), c.value(SHARD, "k")), (True, "xy"))


class GoesOnAnywhere(Server):
    """Goes on from its position, whatever its list."""
    def begins_with(self, shard, mark):
        return mark.position <= self.applied(shard)


def follower_of_another_list(kind):
    a, b, c = returned(kind)
    push(b, "r4", "w")
    choose(a, 200)
    want((a.value(SHARD, "j"), read(a)), ("z", "xw"))


class DeletesWhatItBringsBack(Server):
    """Deletes a copy that another one replaces."""
    def store_copy(self, shard, copy, after=0):
        if self.applied(shard) > after:
            self.db.execute("DELETE FROM writes WHERE shard = ?", (shard,))
        super().store_copy(shard, copy, after)


def only_copy_comes_back(kind):
    a, b, c = returned(kind)
    push(b, "r4", "w")
    with a.db:
        a.heed(JOURNAL, 200)
    want(a.restore(JOURNAL, 200, 200, a.base().nonce, {}), True)
    want(a.mark(SHARD), None)
    want(a.db.execute("SELECT COUNT(*) FROM writes WHERE text = 'y'").fetchone(), (1,))


class BeginsBeside(Server):
    """Begins as the first primary though another server has a copy."""
    def is_ready(self, shard, it):
        return it.call == Call.ADD or super().is_ready(shard, it)


def first_primary_beside_a_secondary(kind):
    a, b = pair(kind)
    push(a, "r1", "x")
    want(answered(a, order(1, Call.CHANGE, role=Role.PRIMARY, new_role=Role.SECONDARY)), True)
    want(answered(b, order(2, Call.ADD, role=Role.PRIMARY)), False)
    b.start()
    want((answered(b, order(3, Call.ADD, role=Role.SECONDARY)), b.value(SHARD, "k")), (True, "x"))


class BeginsLater(Server):
    """Begins empty beside nobody with the view of its own order."""
    def copy_for(self, shard, it):
        copy = super().copy_for(shard, it)
        return ([(it.number, 0)], []) if copy == ([(0, 0)], []) else copy


def first_primary_and_an_empty_secondary(kind):
    """A secondary and the first primary are added, neither of which names the other, and the secondary hears nothing of the first write."""
    peers = {}
    a, b, c = servers = [kind(it, peers) for it in (1, 2, 3)]
    for server in servers:
        server.restore(JOURNAL, 0, 0, server.base().nonce, {})
    adds = order(1, Call.ADD, role=Role.PRIMARY), order(2, Call.ADD, role=Role.SECONDARY)
    for server, it in zip((a, b), adds):
        want(server.order(SHARD, it, 0, ()), Answer.BEGIN)
    want((b.work(SHARD, adds[1]), a.work(SHARD, adds[0])), (True, True))
    with lost(b, "pull"):
        answer = push(a, "r1", "x")
    is_dropped(a, 1, 2)
    want_kept(answer, a, b)
    with lost(b, "pull"):
        want((answered(c, order(10, Call.ADD, role=Role.SECONDARY)), is_dropped(a, 1, 2, 3)), (True, True))
    change = order(11, Call.CHANGE, role=Role.SECONDARY, new_role=Role.PRIMARY)
    c.order(SHARD, change, 0, (2, 3))
    want((c.work(SHARD, change), read(c)), (True, "x"))


# -- 5: work is abandoned at each start

class KeepsWork(Server):
    """Keeps the number at work through a crash, after which nobody works."""
    def start(self):
        self.abandon_all = lambda: None
        super().start()


def crash_and_repeat(kind):
    a, b = pair(kind)
    b.order(SHARD, HANDOVER[0])
    b.start()
    hand_over(a, b)


# -- 6: no slot is deleted above the base

class DeletesAtDrop(Server):
    """Deletes the slot of a shard that it drops."""
    def work(self, shard, it):
        done = super().work(shard, it)
        if it.call == Call.DROP:
            self.db.execute("DELETE FROM slots WHERE shard = ?", (shard,))
        return done


def late_order(kind):
    a, b = pair(kind)
    add = order(1, Call.ADD, role=Role.SECONDARY)
    want((answered(b, add), answered(b, order(2, Call.DROP))), (True, True))
    answered(b, add)
    want(b.slot(SHARD).cell, Cell.ABSENT)


# -- 7: Unknown after losing its state, under a new nonce at each start

class ComesBackEmpty(Server):
    """Takes an empty disk for that of a server that has nothing."""
    def forget(self):
        super().forget()
        self.store_base(Base(journal=JOURNAL, known=1))


def lost_state(kind):
    a, b = pair(kind)
    add = order(1, Call.ADD, role=Role.SECONDARY)
    want((answered(b, add), answered(b, order(2, Call.DROP))), (True, True))
    with b.db:
        b.forget()
    answered(b, add)
    want(b.slot(SHARD).cell, Cell.UNKNOWN)


class KeepsItsNonce(Server):
    """Starts under the nonce that it has stored."""
    def start(self):
        has_base = self.db.execute("SELECT 1 FROM base").fetchone() is not None
        stored = self.base() if has_base else None
        super().start()
        if stored is not None:
            with self.db:
                self.store_base(stored)


def given_up(kind):
    a, b = pair(kind, Cell.SECONDARY)
    with a.db:
        a.forget()
    nonce = a.base().nonce
    b.fence(JOURNAL, 100)
    want(b.settle(JOURNAL, 100, None, {SHARD: Slot(cell=Cell.PRIMARY, load=1)}), True)
    a.start()
    a.restore(JOURNAL, 0, 50, nonce, {SHARD: Slot(cell=Cell.PRIMARY, load=1)})
    want([push(it, "r1", "x") for it in (a, b)], [Answer.NOT_HERE, "x"])


class TakesWhatItLost(Server):
    """Is restored as the primary of a shard whose data it has lost."""
    def restore(self, *words):
        self.is_new = True
        return super().restore(*words)


def lost_disk(kind):
    a, b = pair(kind, Cell.SECONDARY)
    push(a, "r1", "x")
    a = kind(1, a.peers, is_new=False)
    restore(a, Cell.PRIMARY)
    want((read(a), b.value(SHARD, "k")), (Answer.NOT_HERE, "x"))


# -- 8: a write is acknowledged when each live secondary has it

class AcknowledgesAlone(Server):
    """Acknowledges a write as soon as it is executed."""
    def replicate(self, shard, but=0, named=()):
        return True


def lost_for_good(kind):
    a, b = pair(kind, Cell.SECONDARY)
    push(a, "r1", "x")
    del b.peers[1]
    b.fence(JOURNAL, 100)
    want(push(b, "r2", "y"), Answer.NOT_HERE)
    want(b.settle(JOURNAL, 100, None, {SHARD: Slot(cell=Cell.PRIMARY, load=1)}), True)
    want(read(b), "x")


class AsksForOne(Server):
    """Acknowledges a write that nobody else has, though more copies are asked for."""
    def replicate(self, shard, but=0, named=()):
        wanted, self.copies = self.copies, 1
        has_all = super().replicate(shard, but, named)
        self.copies = wanted
        return has_all


def acknowledged_at_one(kind):
    a, b, c = three(kind, copies=2)
    with lost(b, "pull"), lost(c, "pull"):
        answer = push(a, "r1", "x")
    want_kept(answer, b, c)


class TellsAtOnce(Server):
    """Tells how many copies are asked for before they are there."""
    def replicate(self, shard, but=0, named=()):
        return self.copies > 1 or super().replicate(shard, but, named)


def copies_told_at_one(kind):
    """What was there when one copy was asked for is at the primary alone, and two copies are told: a reopening would name nothing."""
    a, b, c = three(kind)
    with lost(b, "pull"), lost(c, "pull"):
        push(a, "r1", "x")
        a.copies = b.copies = c.copies = 2
        want(a.tell_copies(SHARD), None)
    want((a.tell_copies(SHARD)["copies"], b.tell_copies(SHARD), b.value(SHARD, "k")), (2, None, "x"))


class CountsTheGivenUp(Server):
    """Counts a server that was given up, and goes on to follow."""
    def reopened(self):
        return 0


def given_up_and_counted(kind):
    a, b, c = three(kind, copies=2)
    push(a, "r1", "x")
    for server, cell in ((a, Cell.PRIMARY), (c, Cell.SECONDARY)):
        server.fence(JOURNAL, 100)
        want(server.settle(JOURNAL, 100, None, {SHARD: Slot(cell=cell, load=1)}), True)
    with lost(c, "pull"):
        answer = push(a, "r2", "y")
    want_kept(answer, c)


class CountsAnew(Server):
    """Counts by what it is started with."""
    def start(self):
        super().start()
        self.copies = self.given


def started_with_fewer(kind):
    a, b, c = three(kind, copies=2)
    push(a, "r1", "x")
    want(a.tell_copies(SHARD)["copies"], 2)
    a.given = 1
    a.start()
    with lost(b, "pull"), lost(c, "pull"):
        answer = push(a, "r2", "y")
    want_kept(answer, b, c)


class FallsAtARestore(Server):
    """Counts by what it is started with once it is restored."""
    def restore(self, *words):
        is_taken = super().restore(*words)
        self.copies = self.given if is_taken else self.copies
        return is_taken


def restored_with_fewer(kind):
    """Server b was carried over at a reopening, and takes its slots once a, which led, has looked who may lead next."""
    a, b, c = three(kind, copies=2)
    push(a, "r1", "x")
    for server, cell in ((a, Cell.PRIMARY), (c, Cell.SECONDARY)):
        server.fence(JOURNAL, 100)
        want(server.settle(JOURNAL, 100, None, {SHARD: Slot(cell=cell, load=1)}), True)
    want(a.tell_copies(SHARD)["copies"], 2)
    b.given = 1
    b.start()
    drop = order(101, Call.DROP, fence=100)
    a.order(SHARD, drop, 1, (1, 2, 3))
    want(a.work(SHARD, drop), True)
    with b.db:
        b.heed(JOURNAL, 100)
    restore(b, Cell.SECONDARY, 100)
    want(answered(b, order(102, Call.CHANGE, role=Role.SECONDARY, new_role=Role.PRIMARY, fence=100)), True)
    with lost(c, "pull"):
        answer = push(b, "r2", "y")
    want_kept(answer, c)


class HandsToAnybody(Server):
    """Lets one lead next that counts by fewer copies."""
    def count_by_as_many(self, others):
        return True


def handed_to_fewer(kind):
    a, b, c = three(kind, copies=2)
    push(a, "r1", "x")
    want(a.tell_copies(SHARD)["copies"], 2)
    b.copies = 1
    if answered(a, order(1, Call.CHANGE, role=Role.PRIMARY, new_role=Role.SECONDARY)):
        answered(b, order(2, Call.CHANGE, role=Role.SECONDARY, new_role=Role.PRIMARY))
    with lost(a, "pull"), lost(c, "pull"):
        answer = push(b, "r2", "y")
    want_kept(answer, a, c)


class CopiesFromAnybody(Server):
    """Copies from one that counts by more copies."""
    def copy_for(self, shard, order):
        copies, self.copies = self.copies, 9
        copy = super().copy_for(shard, order)
        self.copies = copies
        return copy


def copied_by_fewer(kind):
    a, b, c = three(kind, Cell.ABSENT, copies=2)
    push(a, "r1", "x")
    b.copies = 1
    want(answered(b, HANDOVER[0]), False)
    b.copies = 2
    want(b.work(SHARD, HANDOVER[0]), True)


class PullsFromAnybody(Server):
    """Copies in place of a lost copy from one that counts by more copies."""
    def pull(self, *words):
        copies, self.copies = self.copies, 9
        told = super().pull(*words)
        self.copies = copies
        return told


def new_disk_and_fewer(kind):
    a, _, c = three(kind, copies=2)
    push(a, "r1", "x")
    b = kind(2, a.peers, copies=1, is_new=False)
    restore(b, Cell.SECONDARY)
    want((push(a, "r2", "y"), c.value(SHARD, "k"), b.mark(SHARD)), ("xy", "xy", None))
    b.given = 2
    b.start()
    want((push(a, "r3", "z"), b.value(SHARD, "k")), ("xyz", "xyz"))


class SendsFirst(Server):
    """Sends a write to others before it is durable here."""
    def write(self, shard, request, command):
        super().write(shard, request, command)
        self.replicate(shard)


class Crash(Exception):
    """The server that has sent a message crashes."""


def crash_with_a_write_sent(kind):
    a, b = pair(kind, Cell.SECONDARY)
    push(a, "r1", "x")
    pull = b.pull

    def pull_and_crash(*words):
        pull(*words)
        raise Crash
    b.pull = pull_and_crash
    try:
        push(a, "r2", "y")
    except Crash:
        a.start()
    b.pull = pull
    answer = push(a, "r3", "z")
    choose(b)
    want_kept(answer, b)


class ShowsAtOnce(Server):
    """Answers reads at once, whoever has what they saw."""
    def request(self, shard, request, command, *how):
        told = super().request(shard, request, command, *how)
        return self.value(shard, command[1]) if command[0] == "get" and told == Answer.NOT_YET else told


def read_of_what_is_lost(kind):
    a, b, c = three(kind, copies=2)
    push(a, "r1", "x")
    with lost(b, "pull"), lost(c, "pull"):
        want(push(a, "r2", "y"), Answer.NOT_YET)
        answer = read(a)
    want_kept(answer, b, c)


class ForgetsTheOldOwner(Server):
    """Acknowledges without the old owner once it is the primary."""
    def old_owner(self, shard):
        return 0


def old_owner_is_down(kind):
    a, b = pair(kind)
    push(a, "r1", "x")
    hand_over(a, b, HANDOVER[:3])
    with lost(a, "pull"):
        answer = push(b, "r2", "y")
    choose(a)
    want_kept(answer, a)


class ForgetsAtLeave(Server):
    """Acknowledges without the old owner once it has given it leave."""
    def give_leave(self, shard, number, *words):
        super().give_leave(shard, number, *words)
        with self.db:
            self.put_old_owner(shard, 0)


def killed_behind_leave(kind):
    a, b, c = three(kind, Cell.ABSENT)
    push(a, "r1", "x")
    hand_over(a, b, HANDOVER[:3])
    a.order(SHARD, HANDOVER[3], 2, (1, 2, 3))
    want((read(b), a.has_leave(SHARD)), ("x", True))
    a.start()
    with lost(a, "pull"):
        answer = push(b, "r2", "y")
    choose(a)
    want_kept(answer, a)


RULES = ((CommitsFirst, crash_amid_copy), (KeepsTheRest, late_after_settle), (ForgetsRequests, repeat_after_handover), (AnswersAtOnce, crash_at_work),
         (IgnoresTheCut, write_under_way), (TakesBehindTheCut, crash_behind_the_cut), (GivesBelowItsCut, new_disk_below_the_cut),
         (DropsAtOnce, drop_without_its_primary), (GivesLeaveAnyway, drop_below_the_cut), (TakesAnyLeave, leave_comes_late),
         (TellsWhileItAsks, written_while_it_asks), (WaitsForever, both_are_dropped), (GoesOnFromItsCache, dropped_and_added),
         (ComparesPositions, change_of_a_returned_one), (TellsNoView, reopened_beside_a_returned_one),
         (TakesNoneForLess, change_beside_a_new_disk), (LeavesTheSilentBehind, change_beside_a_silent_one),
         (GoesOnAnywhere, follower_of_another_list), (DeletesWhatItBringsBack, only_copy_comes_back),
         (BeginsBeside, first_primary_beside_a_secondary), (BeginsLater, first_primary_and_an_empty_secondary),
         (KeepsWork, crash_and_repeat), (DeletesAtDrop, late_order), (ComesBackEmpty, lost_state),
         (KeepsItsNonce, given_up), (TakesWhatItLost, lost_disk), (AcknowledgesAlone, lost_for_good), (AsksForOne, acknowledged_at_one),
         (TellsAtOnce, copies_told_at_one), (CountsTheGivenUp, given_up_and_counted), (CountsAnew, started_with_fewer),
         (FallsAtARestore, restored_with_fewer), (HandsToAnybody, handed_to_fewer), (CopiesFromAnybody, copied_by_fewer),
         (PullsFromAnybody, new_disk_and_fewer), (SendsFirst, crash_with_a_write_sent), (ShowsAtOnce, read_of_what_is_lost),
         (ForgetsTheOldOwner, old_owner_is_down), (ForgetsAtLeave, killed_behind_leave))


def whole_handover(kind):
    """Requests beside a handover, at both servers and repeated, and every order again afterwards."""
    a, b = pair(kind)
    texts = iter("abcdefgh")
    for server, it in zip((b, a, b, a), HANDOVER):
        for to in (a, b):
            text = next(texts)
            for _ in range(2):
                push(to, f"r{text}", text)
        want(answered(server, it), True)
    for server, it in zip((b, a, b, a), HANDOVER):
        want(server.order(SHARD, it) in (Answer.OLD, Answer.AGAIN), True)
    want((read(a), read(b)), (Answer.NOT_HERE, "acegh"))


def main():
    whole_handover(Server)
    for kind, schedule in RULES:
        schedule(Server)
        try:
            schedule(kind)
        except AssertionError:
            continue
        sys.exit(f"{kind.__name__} does no harm in {schedule.__name__}")
    print(f"the eight rules: {len(RULES)} schedules do harm at servers that break them, and none at the example")


if __name__ == "__main__":
    main()
