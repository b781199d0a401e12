"""A key-value server that moves its shards by the agent, and keeps the rules of docs/YOUR-SERVERS.md. Its peers are objects: each method that one
calls of another stands for a message, which may be lost (an OSError), but here not late.
"""
import os
import secrets
import sys
from dataclasses import replace

sys.path.insert(0, os.path.join(os.path.dirname(os.path.abspath(__file__)), "../python"))
from kv_store import Store, has_more  # noqa: E402  (the path comes first)
from smplan import agent  # noqa: E402
from smplan.agent import Answer, Call, Cell, Request, Restoration, Role, Settlement, Slot, ToldCopy  # noqa: E402

FOLLOWING = (Cell.SECONDARY, Cell.PREPARED, Cell.FORWARDING)
LOST = "lost"


class Server(Store):
    """One server; `peers` has all of them by number. `copies` replicas have each acknowledged write. If the service is new, no shard has data yet."""

    def __init__(self, number, peers, path=":memory:", copies=1, is_new=True):
        if copies < 1:
            raise ValueError("a write is at one server at least")
        super().__init__(path)
        self.number, self.peers, self.given, self.is_new = number, peers, copies, is_new
        peers[number] = self
        self.start()

    def start(self):
        """Begins without work. If it is Unknown, or there is no base, it asks under a new nonce. It counts by no fewer copies than before."""
        with self.db:
            self.copies = self.store_copies(self.given)
        self.named = {}  # by shard, who is primary, and which others are replicas, as the newest order names them
        with self.db:
            if self.db.execute("SELECT 1 FROM base WHERE known").fetchone() is None:
                self.store_base(agent.forget(secrets.randbits(63) | 1))
            self.abandon_all()

    def abandon_all(self):
        self.questions = {}  # by shard the question for leave that is open: its number, the copy's mark, and who gave leave: a primary, or not
        for shard in self.shards():
            self.store_slot(shard, agent.abandon(self.slot(shard)))

    # -- who follows whom

    def serves(self, shard):
        slot = self.slot(shard)
        return slot.cell == Cell.PRIMARY or (slot.cell == Cell.PREPARED and agent.has_reached_cut(slot, self.applied(shard)))

    def offer(self, shard, mark):
        """What a peer with this mark lacks, and behind which place. Who does not serve offers it only to one that has a copy, and less."""
        mine = self.mark(shard)
        is_ahead = self.slot(shard).cell in (Cell.SECONDARY, Cell.FORWARDING) and None not in (mark, mine) and has_more(mine, mark)
        if not self.serves(shard) and not is_ahead:
            return None
        after = mark.position if mark and self.begins_with(shard, mark) else 0
        return self.copy_of(shard, after), after

    def pull(self, shard, source, reopened=0):
        """Takes what a source has, if it is to be followed: in place of a lost copy nothing of one that counts by more. Returns the copy's mark then,
        durable; None if it is no replica that was settled at the source's last reopening, or asks for leave."""
        slot, mark = self.slot(shard), self.mark(shard)
        if slot.cell not in FOLLOWING or self.reopened() < reopened or shard in self.questions:
            return None
        if slot.cell == Cell.SECONDARY or (slot.party == source and not self.serves(shard)):
            offer = self.peers[source].offer(shard, mark) if mark or self.peers[source].count_by() <= self.copies else None
            with self.db:
                if offer and self.mark(shard) == mark:
                    self.store_copy(shard, *offer)
        return self.mark(shard)

    def has_dropped(self, shard):
        """Whether nothing is here any more by an order or a settle: until then an old owner counts, though it has leave."""
        return self.base().known and self.slot(shard).cell == Cell.ABSENT

    def ask(self, number, message, *words):
        """What a peer answers; LOST if it does not."""
        try:
            return getattr(self.peers[number], message)(*words)
        except (OSError, KeyError):
            return LOST

    def replicate(self, shard, but=0, named=()):
        """Whether all that is here is at each live replica, at `copies` with this one, and, live or not, at the named ones and in a handover at the old
        owner."""
        mine, old = self.mark(shard), self.slot(shard).party or self.old_owner(shard)
        told = {it: self.ask(it, "pull", shard, self.number, self.reopened()) for it in self.peers if it not in (self.number, but)}
        marks = [it for it in told.values() if it not in (None, LOST)]
        is_copied = all(it == mine for it in marks) and agent.copied(self.copies, mine, marks, mine.position)
        if old and told.get(old) is None and self.ask(old, "has_dropped", shard) is True:
            with self.db:
                self.put_old_owner(shard, 0)
            old = 0
        return is_copied and all(told.get(it) == mine for it in {*named, old} - {0, but})

    def tell_copies(self, shard):
        """The line for a controller by which a reopening counts: once `copies` replicas have all that is here. None before, or if it does not serve."""
        base = self.base()
        if self.copies < 2 or base.fenced or self.slot(shard).cell != Cell.PRIMARY or not self.replicate(shard):
            return None
        return {"do": "copied", "journal": f"{base.journal:x}", "fence": self.reopened(), "shard": shard, "copies": self.copies}

    # -- orders

    def order(self, shard, order, primary=0, replicas=None):
        """Judges an order, which names primary and replicas (otherwise all peers are asked), and begins it if it is new. On AGAIN it is answered as
        done; on BEGIN `work` follows, which may take hours."""
        with self.db:
            self.heed(order.journal, order.fence)
            verdict = agent.judge(self.base(), self.slot(shard), self.used(), order)
            if verdict == Answer.BEGIN:
                self.store_slot(shard, agent.begin(self.slot(shard), order))
            if replicas is not None and verdict in (Answer.BEGIN, Answer.WORKING):
                self.named[shard] = primary, set(replicas) - {self.number}
        return verdict

    def replicas(self, shard):
        """Who is primary, 0 if nobody is, and which others are replicas."""
        cells = {it: peer.slot(shard).cell for it, peer in self.peers.items() if it != self.number}
        primary = next((it for it in cells if cells[it] == Cell.PRIMARY), 0)
        return self.named.get(shard) or (primary, {it for it in cells if cells[it] in (*FOLLOWING, Cell.PRIMARY)})

    def work(self, shard, order):
        """Does an order's work, commits it in one transaction with the slot, and returns whether it did. Otherwise the order is not answered."""
        if self.slot(shard).at_work != order.number or not self.is_ready(shard, order):
            return False
        copy = self.copy_for(shard, order)
        with self.db:
            before = self.slot(shard)
            after = agent.commit(self.base(), before, order, self.applied(shard))
            if after is None or (copy is None and before.cell == Cell.ABSENT and after.cell in (Cell.PREPARED, Cell.SECONDARY)):
                return False
            if copy is not None:
                self.store_copy(shard, copy)
            if after.cell == Cell.ABSENT:
                self.delete_copy(shard)
            elif after.cell == Cell.PRIMARY and before.cell == Cell.PREPARED:
                self.put_old_owner(shard, before.party)
            elif after.cell == Cell.PRIMARY:
                self.begin_view(shard, order.number)
            self.store_slot(shard, after)
            self.questions.pop(shard, None)
            self.named.pop(shard, None)
        if order.call == Call.PREPARE_DROP:
            self.ask(order.party, "seal", shard, order.handover, after.cut)
        return True

    def is_ready(self, shard, order):
        """Whether all is done before the commit that asks others: leave to drop, and who becomes primary has the greatest copy, or nobody has one."""
        if self.slot(shard).cell == Cell.PRIMARY and not self.count_by_as_many(self.replicas(shard)[1] if order.party == 0 else {order.party}):
            return False
        if order.call == Call.DROP:
            return self.has_leave(shard)
        if order.call == Call.CHANGE:
            return self.has_greatest(shard) if order.new_role == Role.PRIMARY else self.replicate(shard, named=self.replicas(shard)[1])
        begins = order.call == Call.ADD and order.role == Role.PRIMARY and self.slot(shard).cell == Cell.ABSENT
        return not begins or not self.replicas(shard)[1]

    def count_by(self):
        """How many replicas have what it acknowledges."""
        return self.copies

    def count_by_as_many(self, others):
        """Whether those that may lead next have what they acknowledge at as many replicas: controllers count by that."""
        told = {self.ask(it, "count_by") for it in others if self.copies > 1}
        return LOST not in told and all(it >= self.copies for it in told)

    def has_greatest(self, shard):
        """Whether each other replica has told a copy, and none has more. First it follows those that have."""
        marks = {it: self.ask(it, "mark", shard) for it in self.replicas(shard)[1]}
        for it, mark in marks.items() if self.mark(shard) else ():
            if mark not in (None, LOST) and has_more(mark, self.mark(shard)):
                self.pull(shard, it)
        mine = self.mark(shard)
        return mine is not None and all(it not in (None, LOST) and not has_more(it, mine) for it in marks.values())

    def copy_for(self, shard, order):
        """What a server copies that is to have the shard: all that the owner of the handover has, or the primary; if there is none, a replica. Beside
        nobody it begins empty, with view 0: no first primary has less."""
        if self.slot(shard).cell != Cell.ABSENT or order.call == Call.DROP or order.role == Role.PRIMARY:
            return None
        primary, others = self.replicas(shard)
        marks = {it: self.ask(it, "mark", shard) for it in others}
        best = order.party or primary or max((it for it in marks if marks[it] not in (None, LOST)), key=marks.get, default=0)
        if best and self.peers[best].count_by() > self.copies:
            return None  # (it might lead next)
        if order.party or primary:
            offer = self.peers[best].offer(shard, None)
            return offer and offer[0]
        return self.peers[best].copy_of(shard) if best else None if others else ([(0, 0)], [])

    def seal(self, shard, handover, cut):
        """The old owner has ended its stream of writes at its cut."""
        with self.db:
            if self.base().known:
                self.store_slot(shard, agent.seal(self.slot(shard), handover, cut))

    # -- leave to drop a replica

    def has_leave(self, shard):
        """Whether it may drop its copy: nobody else is named as a replica, or enough have given leave for the question that is open."""
        primary, others = self.replicas(shard)
        if not others:
            return True
        if self.copies > 1 and not primary and (self.mark(shard) or ToldCopy(0, 0)).view > self.reopened():
            return False  # (an old message names no primary: there may be one since, with writes that are here)
        number, mark, given = self.questions.setdefault(shard, (secrets.randbits(63), self.mark(shard), {}))
        for it in [primary] if primary in others else others:
            self.ask(it, "give_leave", shard, self.number, number, mark)
        enough = any(given.values()) if primary in others else len(given) >= self.copies
        return enough and shard in self.questions

    def give_leave(self, shard, number, question, mark):
        """Gives a peer leave: who serves if enough others have all that is here, a secondary if it has all that the peer has."""
        if shard in self.questions and self.number < number:
            return
        self.questions.pop(shard, None)  # (of two that ask each other the one with the higher number answers, and asks anew)
        is_it, mine = self.serves(shard), self.mark(shard)
        has_all = self.slot(shard).cell == Cell.SECONDARY and None not in (mine, mark) and not has_more(mark, mine)
        if self.replicate(shard, but=number) if is_it else has_all:
            self.ask(number, "take_leave", shard, question, self.number, is_it)

    def take_leave(self, shard, question, number, is_primary):
        if question == self.questions.get(shard, (None,))[0]:
            self.questions[shard][2][number] = is_primary

    # -- requests

    def request(self, shard, request, command, how=Request()):
        """Answers a request, or one that is passed on: its reply, or NOT_HERE or NOT_YET. A reply, a read's too, waits for all that it saw."""
        with self.db:
            answer, onward = agent.route(self.base(), self.slot(shard), self.applied(shard), how)
            if answer == Answer.EXECUTE:
                if how.is_passed:  # (a passed request may tell the cut before the old owner does)
                    self.store_slot(shard, agent.seal(self.slot(shard), how.handover, how.cut))
                reply = self.execute(shard, request, command)
        if answer == Answer.PASS_ON:
            return self.peers[onward.party].request(shard, request, command, replace(onward, party=self.number))
        if answer == Answer.EXECUTE:
            return reply if self.replicate(shard) else Answer.NOT_YET
        return answer

    # -- the server as a whole

    def forget(self):
        """Turns Unknown: slots are deleted, data is kept."""
        self.db.execute("DELETE FROM slots")
        self.store_base(agent.forget(secrets.randbits(63) | 1))

    def heed(self, journal, fence):
        if not agent.heed(self.base(), journal, fence, 1).known and self.base().known:
            self.forget()

    def fence(self, journal, number):
        """Takes a fence and answers it: by the nonce of an Unknown server, or by all slots, whether their cuts are
        reached, and views and positions. Here no request runs beside it."""
        with self.db:
            answer, base = agent.fence(self.base(), journal, number, secrets.randbits(63) | 1)
            self.store_base(base)
            if answer == Answer.TAKEN:
                self.abandon_all()
        if answer == Answer.IGNORED:
            return None
        if not base.known:
            return base.nonce
        marks = {it: self.mark(it) or ToldCopy(0, 0) for it in self.shards()}
        return {it: (self.slot(it), agent.has_reached_cut(self.slot(it), mark.position), mark) for it, mark in marks.items()}

    def settle(self, journal, number, nonce, slots):
        """Takes the slots that end a reopening, by shard. Whether it is to be answered."""
        return self.take(Settlement(journal, number, nonce), slots) in (Answer.TAKEN, Answer.AGAIN)

    def restore(self, journal, fence, number, nonce, slots):
        """Takes the slots that it asked for under a nonce; not as the primary of a shard whose data it has lost: an operator reopens."""
        if not self.is_new and any(slot.cell == Cell.PRIMARY and self.mark(it) is None for it, slot in slots.items()):
            return False
        return self.take(Restoration(journal, fence, number, nonce), slots) == Answer.TAKEN

    def take(self, told, brought):
        """Takes a settle or a restore as a whole: each slot that it does not bring is absent afterwards, and what is there of it is set aside."""
        with self.db:
            before = {it: self.slot(it) for it in self.shards()}
            answer, base, slots = agent.take(self.base(), told, before, brought)
            if answer != Answer.TAKEN:
                return answer
            self.store_base(base)
            number = told.number if isinstance(told, Settlement) else told.fence
            self.copies = self.store_copies(self.given, isinstance(told, Settlement))
            self.db.execute("REPLACE INTO reopened VALUES (1, ?)", (number,))
            self.questions, self.named = {}, {}
            for shard, slot in {**{it: agent.VACANT for it in self.copied()}, **slots}.items():
                self.store_slot(shard, slot)
                self.put_old_owner(shard, 0)
                if slot.cell == Cell.ABSENT:
                    self.store_copy(shard, ([], []))
                is_chosen = isinstance(told, Settlement) and before.get(shard, Slot()).cell != Cell.PRIMARY
                if slot.cell == Cell.PRIMARY and (is_chosen or self.mark(shard) is None):
                    self.begin_view(shard, told.number if is_chosen else 0)
        return answer
