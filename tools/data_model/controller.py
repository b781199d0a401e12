"""The controller of `driving_model`, over data: numbers of copies, what may be lost, and what a reopening compares."""
from __future__ import annotations

from collections.abc import Iterable
from dataclasses import fields, replace

from driving_model import commands as driving
from driving_model import controller as base
from driving_model import replies
from driving_model.cells import ABSENT, PRIMARY, Kind, Verb
from driving_model.commands import Command
from driving_model.controller import Answer, refuse
from driving_model.messages import Message, Publication, Restore
from driving_model.record import primary_of
from driving_model.replies import Ignored, Outcome

from .built import BuiltReopening
from .commands import Confirm, Copied, CopiedAt, RestoreServer
from .messages import Lower, Order, SlotTold
from .record import Record
from .reopening import Replaced, Reopening
from .rules import Rules, SOUND


class Controller(base.Controller):
    """The controller of one journal."""

    rules: Rules
    record: Record | None
    reopening: Reopening | None

    def __init__(self, rules: Rules = SOUND) -> None:
        super().__init__(rules)
        # Since the last opening: whom orders were on their way to that bring it a shard, and replaced settlements.
        self.ordered: set[tuple[int, int]] = set()
        self.replaced: list[Replaced] = []

    # What goes out.

    def order(self, plan: int, stream: int) -> Order | Publication | None:
        """The order that the stream stands before, with what its shard asks for."""
        order = super().order(plan, stream)
        if order is None or isinstance(order, Publication):
            return order
        members = {it.name: getattr(order, it.name) for it in fields(order)}
        return Order(**members, terms=self.record.terms(order.shard, self.brought(order.shard)))

    def brought(self, shard: int) -> frozenset[int]:
        """The servers to which a present order brings a replica of the shard."""
        found = set()
        for _, _, state in self.record.running():
            it = state.instruction
            if it is not None and it.shard == shard and it.verb in (Verb.ADD, Verb.PREPARE_ADD):
                found.add(it.server)
        return frozenset(found)

    def outgoing(self) -> list[Message | Lower]:
        """All that may be sent now."""
        return super().outgoing() + self.lowers()

    def lowers(self) -> list[Lower]:
        """What primaries are told of replicas that are recorded down."""
        if not self.is_open or self.rules.is_small:
            return []
        record, found = self.record, []
        for shard in record.shards:
            primary = primary_of(record.cells[shard])
            if record.copies[shard] < record.wanted[shard] and primary is not None:
                lowered, up = record.lowered[shard], record.staying(shard) - {primary}
                found.append(Lower(primary, self.journal, self.fence, shard, record.copies[shard], lowered, up))
        return found

    def restore_of(self, server: int, nonce: int) -> Restore:
        """The slots of a server as they are recorded, with what their shards ask for."""
        restore = super().restore_of(server, nonce)
        slots = (SlotTold(it.cell, it.load, self.record.terms(shard)) for shard, it in enumerate(restore.slots))
        return replace(restore, slots=tuple(slots))

    # Commands.

    def apply(self, command: Command | Copied | CopiedAt) -> Outcome:
        """Applies one command."""
        kinds = {
            RestoreServer: self.restore, Confirm: self.confirm, Copied: self.copied, CopiedAt: self.copied_at,
        }
        handler = kinds.get(type(command))
        try:
            return handler(command) if handler else super().apply(command)
        except Answer as answer:
            return Outcome(answer.reply, has_changed=False)

    def open(self, command: driving.Open) -> Outcome:
        """Opens a settled placement."""
        outcome = super().open(command)
        self.record = Record.over(self.record, rules=self.rules)
        return outcome

    def begin(self, command: driving.Begin) -> Outcome:
        """Begins a plan."""
        if command.name not in self.begun and self.is_open:
            record, rules, plan = self.record, self.rules, command.plan
            for shard in record.shards:
                is_short = rules.drops_leave_copies and record.is_short_of_copies(shard, plan)
                is_last = rules.last_is_alone and record.adds_beside_the_last(shard, plan)
                if is_short or is_last or (rules.first_is_alone and record.adds_beside_the_first(shard, plan)):
                    raise refuse("ShortCopies", shard=shard)
        return super().begin(command)

    def answered(self, command: driving.Answered) -> Outcome:
        """Records that a present order was answered."""
        order = self.order(command.plan, command.stream) if self.is_begun(command) else None
        call = order.call if isinstance(order, Order) else None
        was = self.record.cells[order.shard][order.server] if call else None
        outcome = super().answered(command)
        if was == PRIMARY and call.verb in (Verb.CHANGE, Verb.DROP):
            self.record.former[order.shard] = (order.server, order.number)
        if call and call.role is Kind.PRIMARY:
            self.record.former[order.shard] = None
            if self.rules.primary_renumbers:
                self.record.renumber(order.shard, self.base + self.record.log)
        return outcome

    def is_begun(self, command: driving.Answered) -> bool:
        """The command names a stream of an epoch that is in force."""
        plans = self.record.plans if self.is_open else []
        return command.plan < len(plans) and command.stream < len(plans[command.plan].streams)

    def approve(self, command: driving.Approve) -> Outcome:
        """Gives leave to restart a server, and lowers the numbers of its shards."""
        outcome = super().approve(command)
        self.lower_for(command.server)
        return outcome

    def lower_for(self, server: int) -> None:
        """A server is recorded down."""
        for shard in self.record.shards if self.rules.down_lowers else ():
            if self.record.cells[shard][server] != ABSENT:
                self.record.lower(shard, self.record.permits[server])

    def restore(self, command: RestoreServer) -> Outcome:
        """Restores a server that has no slots: as a primary with its data alone. One without a copy is down."""
        last = self.restores.get(command.server)
        is_again = last is not None and last.nonce == command.nonce
        if is_again or not self.is_open or command.server not in self.record.document.servers:
            return super().restore(command)
        bare = [
            shard for shard, row in enumerate(self.record.cells)
            if row[command.server] != ABSENT and shard not in command.data
        ]
        lost = [it for it in bare if self.record.cells[it][command.server] == PRIMARY]
        if lost and self.rules.primary_has_data:
            raise refuse("DataLost", server=command.server, shard=lost[0])
        is_new = bool(bare) and command.server not in self.record.permits and self.rules.empty_is_down
        if is_new and self.record.free_places() < 2:
            raise refuse("LogFull")
        outcome = super().restore(command)
        if is_new:
            self.take_down(command.server)
        return outcome

    def take_down(self, server: int) -> None:
        """A restored server without a copy is recorded down, under a permit of its own."""
        permit = self.base + self.record.log + 1
        self.record.permits[server] = permit
        self.record.log += 1
        self.permit_servers[permit] = server
        self.lower_for(server)

    def copied(self, command: Copied) -> Outcome:
        """A primary asks for all copies again, and has them."""
        if not self.is_open:
            raise Answer(Ignored("old"))
        record, shard = self.record, command.shard
        if record.copies[shard] == record.wanted[shard] or record.cells[shard][command.server] != PRIMARY:
            raise Answer(Ignored("old"))
        restore = self.restores.get(command.server)
        is_last = restore is None or restore.base < self.fence or restore.nonce == command.nonce
        is_named = command.base >= self.fence and is_last and command.lowered == record.lowered[shard]
        if self.rules.copied_named and not is_named:
            raise Answer(Ignored("old"))
        engaged = any(at.shard == shard for _, _, state in record.running() for at in state.stream.code)
        if self.rules.copied_at_rest and engaged:
            raise Answer(Ignored("old"))
        record.copies[shard] = record.wanted[shard]
        return Outcome(replies.Up(command.server), has_changed=True)

    def copied_at(self, command: CopiedAt) -> Outcome:
        """As many replicas as are wanted have each acknowledged write, from now on until the next reopening."""
        if not self.is_open:
            raise Answer(Ignored("old"))
        record, rules, shard = self.record, self.rules, command.shard
        copies = command.copies if rules.is_built else record.wanted[shard]
        is_no_more = copies <= record.copies[shard] and (not rules.is_built or rules.copied_only_rises)
        is_wrong = (
            is_no_more
            or (rules.copied_names_journal and command.journal != self.journal)
            or (rules.copied_names_fence and command.fence < self.fence)
        )
        if is_wrong:
            raise Answer(Ignored("old"))
        if copies > record.document.wants[shard]:
            raise refuse("AboveWant", shard=shard)
        record.copies[shard] = copies
        return Outcome(replies.Up(command.server), has_changed=True)

    # Epochs.

    def new_epoch(self, command: driving.NewEpoch) -> Outcome:
        """Opens the next epoch over the placement as it stands."""
        before = self.record
        outcome = super().new_epoch(command)
        self.record = Record.over(self.record, before, rules=self.rules)
        return outcome

    def reopen(self, command: driving.Reopen) -> Outcome:
        """Begins a reopening, or replaces the one under way."""
        before = self.reopening
        if self.record is not None and before is None:
            self.ordered |= {(it.shard, it.server) for it in self.orders() if isinstance(it, Order)}
        idle, kept = self.idle_before(command), self.kept_now()
        outcome = super().reopen(command)
        if before and before.settles:
            self.replaced.append(before.as_replaced())
        if self.rules.replaced_fenced:
            self.named |= command.lost
        form = BuiltReopening if self.rules.is_built else Reopening
        self.reopening = form.over(self.reopening, frozenset(self.ordered), tuple(self.replaced), idle)
        if self.rules.is_built:
            self.reopening.kept = kept
        return outcome

    def kept_now(self) -> tuple[int, ...]:
        """In the built form: by shard, the copies by which a reopening counts that begins now. Beyond these there is
        1."""
        rules, reopening, record = self.rules, self.reopening, self.record
        if not rules.is_built or record is None:
            return ()
        if reopening is not None:
            return () if reopening.settles and rules.replaced_keeps_one else reopening.kept
        ordered = {it.shard for it in self.orders() if isinstance(it, Order) and rules.ordered_keeps_one}
        handed = {
            it for it in record.shards
            if rules.handed_keeps_one and any(cell.is_in_handover for cell in record.cells[it])
        }
        return tuple(1 if it in ordered | handed else record.copies[it] for it in record.shards)

    def idle_before(self, command: driving.Reopen) -> tuple[frozenset[int], ...]:
        """By shard, who had stopped to serve it when a reopening was replaced that was not confirmed."""
        shards = range(len(command.document.loads))
        if self.reopening is None or self.reopening.settles:
            return tuple(frozenset() for _ in shards)
        return tuple(map(self.reopening.idle_now, shards))

    def fenced(self, command: driving.Fenced) -> Outcome:
        """Takes the first answer of a server to the fence."""
        reopening = self.need_reopening(command.base)
        if self.rules.views_below and reopening.is_above(command.found):
            raise refuse("Number", server=command.server)
        return super().fenced(command)

    def confirm(self, command: Confirm) -> Outcome:
        """Accepts the proposal, or other cells that may be chosen, and gives the settles."""
        reopening = self.reopening
        if reopening is None or reopening.settles or command.base != reopening.base:
            raise Answer(Ignored("old"))
        waits_for = reopening.waits_for(command.lost)
        if waits_for:
            raise refuse("Missing", server=waits_for[0])
        again = next((it for it in reopening.shards if it not in command.lost and reopening.asks_again(it)), None)
        if again is not None:
            raise refuse("Again", shard=again)
        unnamed = sorted(set(reopening.propose().lost) - command.lost)
        if unnamed and self.rules.loss_confirmed:
            raise refuse("Unnamed", shard=unnamed[0])
        cells = reopening.propose().cells if command.cells is None else command.cells
        self.refuse_for(reopening.fault_of(cells))
        reopening.confirm(cells, command.lost, command.copies)
        if not self.rules.settles_awaited:
            self.put_in_force(reopening)
            self.unawaited += reopening.settles
        return Outcome(replies.Settling(reopening.settles), has_changed=True)

    def put_in_force(self, reopening: Reopening) -> None:
        """Opens the epoch of a reopening."""
        super().put_in_force(reopening)
        self.record = Record.over(self.record, None, reopening.copies, reopening.base, self.rules)
        self.ordered, self.replaced = set(), []


def replayed(journal: Iterable[Command], rules: Rules = SOUND) -> Controller:
    """A controller that has applied these commands, none of which it may refuse."""
    controller = Controller(rules)
    for command in journal:
        outcome = controller.apply(command)
        if not outcome.has_changed:
            raise ValueError(f"the journal has {command}, to which the controller replies {outcome.reply}")
    return controller
