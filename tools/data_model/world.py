"""A controller, servers with explicit data, the map's owner, clients, and the network between them."""
from __future__ import annotations

import random

from driving_model import laws as driving
from driving_model import world as base
from driving_model import commands as plain
from driving_model.cells import ABSENT, Cell, Kind, SECONDARY, Verb, serving
from driving_model.clients import Seal
from driving_model.commands import Command
from driving_model.map_owner import Entry
from driving_model.messages import Fence, MAP, Message, Restore, Settle
from driving_model.record import primary_of
from driving_model.replies import Outcome, Restoring
from driving_model.server import Commit, Judgement

from . import laws
from .asking import Asking
from .clients import Writes
from .commands import Confirm, Copied, CopiedAt, Document, RestoreServer
from .controller import Controller, replayed
from .following import Following
from .host import Host, Replica
from .messages import Answer, Lower, Order, Question, SlotTold, Word
from .reopening import Reopening
from .rules import Rules
from .server import Server, Shown
from .serving import Serving


class World(Following, Asking, Serving, base.World):
    """All parts, the journal, and what the laws look at."""

    rules: Rules
    document: Document
    hosts: list[Host]
    writes: Writes
    controller: Controller

    def __init__(self, document: Document, rules: Rules, seed: int = 0, keeps_trace: bool = False) -> None:
        # What is on its way between servers, and dice of its own for it.
        self.dice = random.Random(seed * 31 + 7)
        self.words: list[Word] = []
        self.questions: list[Question] = []
        self.answered: list[Answer] = []
        self.questions_asked, self.is_fair = 0, False
        # By the base of a reopening, the shards whose loss its confirmation named.
        self.perhaps: dict[int, frozenset[int]] = {}
        # The shards that a confirmation named, and whose new primary has not taken its slots yet.
        self.named: set[int] = set()
        super().__init__(document, rules, seed, keeps_trace)

    def new_host(self, number: int) -> Host:
        """A server without slots or data."""
        return Host(Server(number, len(self.loads), self.rules, nonce=1), [Replica() for _ in self.shards])

    def start(self) -> None:
        """Opens the document, and restores every server, whose shards begin empty."""
        self.controller, self.writes = Controller(self.rules), Writes(len(self.loads))
        self.network.copied: list[Copied | CopiedAt] = []
        self.do(plain.Open(self.document, 1, 0))
        self.map_owner.journal = 1
        self.map_owner.entries = [Entry(it) for it in self.controller.record.listed]
        self.shown = list(self.map_owner.entries)
        for host in self.hosts:
            for shard in self.shards:
                if self.document.cells[shard][host.number] != ABSENT:
                    host.copy(shard).begin_empty(0)
            reply = self.do(host.ask()).reply
            assert isinstance(reply, Restoring)
            host.server.restore(reply.restore)
            host.reset()
            for replica, told in zip(host.at, reply.restore.slots):
                replica.agree(told.terms)

    def check(self) -> None:
        """Looks at the standing laws, if anything has changed."""
        if self.has_changed:
            laws.check_standing(driving.Sight(self))
            self.has_changed = False

    # The controller.

    def do(self, command: Command | Copied | CopiedAt) -> Outcome:
        """Applies a command, looks at the laws on what it may break, and sends what goes out."""
        reopening = self.controller.reopening
        down = self.recorded_down()
        outcome = super().do(command)
        if isinstance(command, RestoreServer) and self.recorded_down() - down:
            # (what a server asked may come late: then it is recorded down, and is not)
            self.are_floors_excused = True
        if outcome.has_changed and isinstance(command, Confirm):
            self.confirmed(reopening)
        if reopening is not None and self.controller.reopening is None:
            self.named = set()
            for shard in self.shards:
                self.writes.promise_less(shard, self.controller.record.copies[shard])
            self.away &= set(self.controller.record.permits)
        return outcome

    def recorded_down(self) -> set[int]:
        """The servers that are recorded down."""
        return set(self.controller.record.permits) if self.controller.record else set()

    def take_new_journal(self) -> None:
        """The journal is lost with its controller; a new one has no entry yet."""
        super().take_new_journal()
        self.controller = Controller(self.rules)

    def replay(self, length: int) -> Controller:
        """A controller with a beginning of the journal."""
        return replayed(self.journal[:length], self.rules)

    def confirmed(self, reopening: Reopening) -> None:
        """A settlement was confirmed: what it may lose was named before."""
        self.perhaps[reopening.base] = reopening.perhaps | (self.named if self.rules.is_built else set())
        self.named |= reopening.perhaps
        for shard in self.shards if self.rules.is_small else ():
            self.writes.promise_less(shard, 0 if shard in reopening.perhaps else reopening.copies[shard])
        laws.best_copy_wins(self, reopening)
        for shard, row in enumerate(reopening.cells):
            survey, successor = reopening.survey(shard), primary_of(row)
            self.cover_successor(shard, successor, reopening)
            if shard in reopening.perhaps:
                self.coverage["perhaps lost"] += 1
                if successor is None:
                    told = [self.hosts[it].copy(shard) for it in survey.copies if not self.hosts[it].is_lost]
                    best = max(told, key=lambda it: (it.view, it.position), default=None)
                    self.writes.keep(shard, best.writes if best else [])

    def cover_successor(self, shard: int, successor: int | None, reopening: Reopening) -> None:
        """Notes what a reopening has chosen among."""
        survey = reopening.survey(shard)
        if successor is None or survey.primary() is not None:
            return
        if successor in survey.doubted:
            self.coverage["a copy in doubt chosen"] += 1
        if successor in survey.copies and self.writes.acknowledged[shard]:
            self.coverage["a new primary, " + ("named" if shard in reopening.perhaps else "sure")] += 1
            self.coverage["a new primary, views differ"] += len({it.view for it in survey.copies.values()}) > 1

    # Losses.

    def lose(self, host: Host, is_for_good: bool = False, keeps_data: bool = False) -> None:
        """The server loses its slots and its data, or its slots alone. One that is lost for good may come back with its
        data."""
        what = "is lost for good" if is_for_good else "loses its slots" if keeps_data else "loses slots and data"
        self.say("server", host.number, what)
        for replica in host.at if not keeps_data and not host.is_lost else ():
            self.writes.destroy(replica.copy.writes if replica.copy.is_whole else [])
            if not is_for_good:
                replica.copy.clear()
                replica.aside = set()
            if not self.rules.numbers_rise:
                replica.connection = 0
        if not self.controller.record or host.number not in self.controller.record.permits:
            self.are_floors_excused = True
        was_known, nonce = host.server.is_known, host.server.nonce
        host.running, host.workers = [], []
        self.forget(host)
        if not was_known and not self.rules.loss_renews:
            host.server.nonce = nonce
        host.is_lost = is_for_good

    def forget(self, host: Host) -> None:
        """A server is Unknown from now on."""
        host.server.forget()
        host.reset()
        for replica in host.at:
            replica.former = 0

    def reconnect(self, host: Host) -> None:
        """The controller reaches a server again. One that was given up turns Unknown by what it hears."""
        host.is_cut_off = False
        if host.number in self.given_up:
            self.say("server", host.number, "hears that it was given up")
            host.stop()
            self.forget(host)

    def go_back(self, host: Host) -> None:
        """A server's disk has gone back, and it knows: it is Unknown, and all its copies are in doubt."""
        self.say("server", host.number, "has gone back, and knows it")
        self.coverage["gone back"] += 1
        for replica in host.at:
            copy = replica.copy
            was_whole = copy.is_whole
            lost = copy.go_back(self.dice.randint(0, copy.position))
            self.writes.destroy(lost if was_whole else [])
            if not self.rules.doubt_told and copy.is_doubted:
                copy.is_whole, copy.is_doubted = True, False
            elif was_whole:
                self.writes.destroy(copy.writes)
        host.stop()
        self.lose(host, keeps_data=True)

    def crash(self, host: Host) -> None:
        """A server stops without notice: of what was not durable some is lost."""
        for shard in self.shards:
            was_serving = serving(self.row(shard)) == [host.number]
            lost = host.copy(shard).crash(self.dice)
            if lost:
                self.say("server", host.number, "loses", lost, "of shard", shard, "by a crash")
                self.coverage["a crash lost writes"] += 1
            self.cut_history(host, shard, bool(lost), was_serving)
            replica = host.at[shard]
            if not self.rules.raise_stored:
                replica.needed, replica.lowered, replica.raised = replica.taken
        host.forget_words()
        host.is_alive = False
        host.stop()

    def cut_history(self, host: Host, shard: int, has_lost: bool, was_serving: bool) -> None:
        """What was executed and nowhere durable is no write any more."""
        copy, slot = host.copy(shard), host.server.slots[shard]
        serves = was_serving or host.cell(shard).kind is Kind.PREPARED
        if not (has_lost and serves and copy.is_whole):
            return
        if host.cell(shard).kind is Kind.PRIMARY:
            self.writes.history[shard] = list(copy.writes)
        elif slot.cut is not None:
            keep = max(copy.position, slot.cut)
            self.writes.history[shard] = self.writes.history[shard][:keep]

    # Messages.

    def deliver(self, message: Message | Lower, is_eager: bool = False) -> None:
        """A message comes. An order's work is done at once if `is_eager`."""
        if isinstance(message, Lower):
            host = self.hosts[message.server]
            if host.hears_controller:
                self.deliver_lower(host, message)
            return
        host = self.hosts[message.server] if getattr(message, "server", MAP) != MAP else None
        if host is not None and host.is_cut_off:
            return
        was_known = host is not None and host.server.is_known
        super().deliver(message, is_eager)
        if was_known and not host.server.is_known:
            host.reset()
            for replica in host.at:
                replica.former = 0

    def deliver_order(self, host: Host, order: Order, is_eager: bool) -> None:
        """An order comes to its server, which knows its terms from now on, also for work under way."""
        slot = host.server.slots[order.shard]
        if host.server.is_known and order.journal == host.server.journal and order.fence <= host.server.base:
            is_under_way = slot.work is not None and not self.rules.newest_terms
            if order.number > host.server.base and order.number >= max(slot.work or 0, slot.last) and not is_under_way:
                host.at[order.shard].terms = order.terms
        super().deliver_order(host, order, is_eager)

    def work(self, host: Host, order: Order) -> None:
        """The work of an order is done: it commits, has to wait, or is thrown away."""
        shard, was = order.shard, host.cell(order.shard)
        replica, copy = host.at[shard], host.copy(shard)
        copy.flush()
        begins = order.call.verb is Verb.ADD and was == ABSENT and self.is_alone(host, shard)
        shown = Shown(
            copy.position, host.runs(shard), True, copy.is_whole or begins,
            replica.has_leave or self.is_alone(host, shard), self.has_greatest(host, shard), self.is_alone(host, shard),
        )
        commit = host.server.commit(order, shown)
        if commit is Commit.NOT_YET:
            return
        if order in host.workers:
            host.workers.remove(order)
        if commit is Commit.THROWN_AWAY:
            if was == ABSENT and host.server.is_known and host.order(shard) is None:
                copy.clear()
            replica.asking, replica.has_leave = None, False
            return
        driving.effect_once(self, order)
        self.say("server", host.number, "commits", order.number, order.call, "of shard", shard)
        self.put_data(host, order, was, begins)
        self.network.answers.add(plain.Answered(order.plan, order.stream, order.number))
        if order.call.verb is Verb.PREPARE_DROP:
            cut = host.server.slots[shard].cut
            self.writes.seals.append(Seal(shard, host.number, order.call.party, order.call.handover, cut))

    def put_data(self, host: Host, order: Order, was: Cell, begins: bool) -> None:
        """The data follow a cell that an order has changed."""
        shard = order.shard
        replica, cell = host.at[shard], host.cell(shard)
        has_leave, is_last = replica.has_leave, self.is_alone(host, shard)
        self.end_order(host, order)
        replica.owed = None
        if cell.kind is not Kind.PRIMARY:
            replica.replies = []
        if cell == ABSENT:
            others = [it for it in self.hosts if it is not host and it.cell(shard) != ABSENT]
            if (others or not is_last) and not has_leave:
                laws.last_copy_stays(self, host, shard)
            replica.copy.clear()
            if is_last and not others:
                self.writes.drop(shard)
        elif was == ABSENT and (cell.kind is Kind.PRIMARY or (begins and not replica.copy.is_whole)):
            replica.copy.begin_empty(order.number if cell.kind is Kind.PRIMARY else 0)
            self.writes.history[shard] = []
        elif cell.kind is Kind.PRIMARY and was == SECONDARY:
            if self.rules.change_begins_view:
                replica.copy.begin_view(order.number)
            self.writes.history[shard] = list(replica.copy.writes)
        replica.former = order.number if cell == SECONDARY and was.kind is Kind.PRIMARY else 0

    def end_order(self, host: Host, order: Order) -> None:
        """An order is done: its terms hold, and a new connection begins."""
        replica = host.at[order.shard]
        replica.agree(order.terms)
        if self.rules.grant_ends:
            host.hang_up(order.shard)
        if self.rules.work_ends_connections:
            replica.endings += 1
            replica.forget_words()
        replica.asking, replica.has_leave = None, False

    def give_up(self, host: Host) -> None:
        """A server gives up what is at work; the orders come again."""
        host.server.abandon()
        host.end_work()

    def deliver_fence(self, host: Host, fence: Fence) -> None:
        """A fence comes to a server."""
        self.coverage["fence met work"] += fence.base > host.server.base and bool(host.workers)
        before = host.server.base
        if self.dice.random() < 0.5:
            for replica in host.at:
                replica.copy.flush()
        found = host.server.fence(fence, frozenset(it.shard for it in host.running), host.told())
        if host.server.base != before and self.rules.fence_ends_work:
            host.end_work()
        if host.server.base != before and self.rules.is_built and not self.rules.number_until_slots:
            for replica in host.at:
                replica.needed = 1
        if found:
            self.say("server", host.number, "is fenced at", fence.base, "and tells", found)
            self.network.inventories.add(plain.Fenced(host.number, fence.base, found))

    def deliver_slots(self, host: Host, message: Settle | Restore) -> None:
        """A settle or a restore comes to a server."""
        before = host.server.slots
        has_it = host.server.settle(message) if isinstance(message, Settle) else host.server.restore(message)
        if host.server.slots is not before:
            self.say("server", host.number, "takes", message)
            self.coverage["restored" if isinstance(message, Restore) else "settled"] += 1
            host.workers = [] if self.rules.fence_ends_work else host.workers
            host.reopened = message.base if isinstance(message, Settle) else message.fence
            host.reset()
            for shard, told in enumerate(message.slots):
                self.take_slot(host, shard, told, message)
        if has_it and isinstance(message, Settle):
            self.network.settlements.add(plain.Settled(host.number, message.base))

    def take_slot(self, host: Host, shard: int, told: SlotTold, message: Settle | Restore) -> None:
        """The data follow a slot that a settle or a restore brings."""
        replica, copy, cell = host.at[shard], host.copy(shard), host.cell(shard)
        copy.flush()
        replica.lowered = replica.raised = 0
        replica.agree(told.terms)
        replica.former = 0
        is_bare = cell != ABSENT and not copy.is_whole and not copy.is_doubted
        replica.came_bare = isinstance(message, Restore) and is_bare
        if cell == ABSENT:
            # (in the small form what is set aside counts as kept)
            if not self.rules.is_small or not self.rules.set_aside:
                laws.last_copy_stays(self, host, shard)
            self.take_away(host, shard)
        elif cell.kind is Kind.PRIMARY:
            self.become_primary(host, shard, told.view, message)

    def take_away(self, host: Host, shard: int) -> None:
        """A settle or a restore brings a server nothing of a shard of which it may have a copy."""
        before = host.copy(shard).kept()
        host.copy(shard).clear()
        self.set_aside(host, shard, before)

    def become_primary(self, host: Host, shard: int, view: int | None, message: Settle | Restore) -> None:
        """A server that takes a slot is primary: as before, or it begins a view."""
        copy, history = host.copy(shard), self.writes.history
        if copy.is_whole and view is None:
            if isinstance(message, Restore) and copy.writes == history[shard][:copy.position]:
                # (what it had executed that was not durable was lost while it was Unknown)
                history[shard] = list(copy.writes)
            return
        if copy.is_whole or (copy.is_doubted and self.rules.doubt_kept):
            copy.begin_view(view or 0)
        else:
            laws.last_copy_stays(self, host, shard)
            self.take_away(host, shard)
            copy.begin_empty(view or 0)
        history[shard] = list(copy.writes)
        if isinstance(message, Settle):
            self.named.discard(shard)
        if isinstance(message, Settle) and shard in self.perhaps.get(message.base, ()):
            if self.rules.is_small:
                # (what the new primary has stays acknowledged)
                self.writes.keep(shard, copy.writes)
            else:
                self.writes.give_up(shard, copy.writes)
            self.coverage["a named loss taken"] += 1
