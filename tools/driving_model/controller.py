"""The controller: a deterministic state machine over commands. The commands that changed something are its journal.

A command that does not fit is refused and changes nothing. A controller that applies a journal's commands to a fresh
state is the same controller: `replayed` does so.
"""
from __future__ import annotations

from collections.abc import Iterable
from copy import deepcopy
from dataclasses import dataclass, fields
from typing import Any

from . import commands, replies
from .cells import Call, Cell, PUBLICATIONS, Verb
from .commands import Command, Document
from .decisions import leave_fault, opening_fault, plan_fault
from .messages import (
    BASE_STEP, Fence, LAST_EPOCH, LONGEST_LOG, Message, Notice, Order, Publication, Restore, SlotTold,
)
from .plans import CrownRight, listed_by
from .record import PlanState, Record, StreamState
from .reopening import Reopening
from .replies import Ignored, Outcome, Refused, Reply
from .rules import Rules, SOUND


class Answer(Exception):
    """Ends a command early with a reply that changes nothing."""

    def __init__(self, reply: Reply) -> None:
        super().__init__(reply)
        self.reply = reply


def refuse(kind: str, **where) -> Answer:
    """A refusal, to be raised."""
    return Answer(Refused(kind, **where))


@dataclass(frozen=True, slots=True)
class Named:
    """A name that was given, by which the same command is known again: when, and what was replied."""

    epoch: int
    reply: Reply


class Controller:
    """The controller of one journal."""

    def __init__(self, rules: Rules = SOUND) -> None:
        self.rules = rules
        self.journal: int | None = None
        self.epoch = 0
        self.epoch_before = 0
        self.fence = 0
        self.record: Record | None = None
        self.reopening: Reopening | None = None
        self.begun: dict[str, Named] = {}
        self.approved: dict[str, Named] = {}
        self.restores: dict[int, Restore] = {}
        self.carried: set[int] = set()
        # Since the last opening: who was sent a settle of a replaced reopening, and who was named by its document.
        self.settle_sent: set[int] = set()
        self.named: set[int] = set()
        self.permit_servers: dict[int, int] = {}
        # Only without the rules `publication_awaited` and `settles_awaited` anything is sent beside what is present.
        self.unawaited: list[Message] = []

    # Reading.

    @property
    def base(self) -> int:
        """The base of the present epoch."""
        return self.epoch * BASE_STEP

    @property
    def is_open(self) -> bool:
        """An epoch is in force."""
        return self.record is not None and self.reopening is None

    def call_of(self, stream: StreamState) -> Call:
        """The call that a stream stands before, with the base in its handover number."""
        instruction = stream.instruction
        number = self.record.handovers[instruction.shard] + (instruction.verb is Verb.PREPARE_ADD)
        return instruction.call(number + (self.base if self.rules.handover_base else 0))

    def cell(self, shard: int, server: int) -> Cell:
        """What the server has of the shard as recorded, with the base in its handover number."""
        cell = self.record.cells[shard][server]
        if cell.handover is None or not self.rules.handover_base:
            return cell
        return Cell(cell.kind, cell.party, cell.handover + self.base)

    def order(self, plan: int, stream: int) -> Order | Publication | None:
        """The order that the stream stands before, if it stands before one."""
        if not self.is_open:
            return None
        state = self.record.plans[plan].streams[stream]
        instruction = state.instruction
        if state.is_done or instruction is None or instruction.verb in (Verb.SIGNAL, Verb.WAIT):
            return None
        number, shard = self.base + state.since + 1, instruction.shard
        names = (self.journal, self.epoch, self.fence, plan, stream, number)
        if instruction.verb in PUBLICATIONS:
            to = listed_by(instruction.verb, state.hold[CrownRight(shard)].lead)
            return Publication(*names, shard, to, self.base + self.record.versions[shard] + 1)
        document, server = self.record.document, instruction.server
        return Order(*names, server, shard, self.call_of(state), document.loads[shard], document.rooms[server])

    def orders(self) -> list[Order | Publication]:
        """The present orders, by plan and stream."""
        if not self.is_open:
            return []
        found = (self.order(plan, stream) for plan, stream, _ in self.record.running())
        return [it for it in found if it is not None]

    def outgoing(self) -> list[Message]:
        """All that may be sent now: orders, or fences and settles; restores; notices to servers carried over."""
        sent: list[Message] = list(self.orders())
        if self.reopening:
            sent += self.fences()
            sent += self.reopening.settles
        elif self.rules.fenced_is_stale:
            sent += [Notice(it, self.journal, self.fence) for it in sorted(self.carried)]
        return sent + list(self.restores.values()) + self.unawaited

    def fences(self) -> tuple[Fence, ...]:
        """The fences of the reopening under way."""
        return tuple(Fence(it, self.reopening.base, self.journal) for it in sorted(self.reopening.targets))

    def snapshot(self) -> dict[str, Any]:
        """A copy of the whole state, by which two controllers can be compared."""
        named = {name: value for name, value in vars(self).items() if name not in ("rules", "record", "reopening")}
        parts = {"record": self.record, "reopening": self.reopening}
        return deepcopy(named | {name: plain(part) for name, part in parts.items()})

    # Commands.

    def apply(self, command: Command) -> Outcome:
        """Applies one command."""
        handlers = {
            commands.Open: self.open, commands.Begin: self.begin, commands.Answered: self.answered,
            commands.Approve: self.approve, commands.Restarted: self.restarted,
            commands.RestoreServer: self.restore, commands.NewEpoch: self.new_epoch, commands.Reopen: self.reopen,
            commands.Fenced: self.fenced, commands.Confirm: self.confirm, commands.Settled: self.settled,
        }
        try:
            return handlers[type(command)](command)
        except Answer as answer:
            return Outcome(answer.reply, has_changed=False)

    @staticmethod
    def refuse_for(fault: Refused | None) -> None:
        """Refuses the command if there is a fault."""
        if fault:
            raise Answer(fault)

    def need_open(self) -> Record:
        """The record, if an epoch is in force."""
        if self.reopening:
            raise refuse("Reopening")
        if self.record is None:
            raise refuse("NotOpened")
        return self.record

    def open(self, command: commands.Open) -> Outcome:
        """Opens a settled placement."""
        if self.journal is not None:
            raise refuse("AlreadyOpened")
        document = command.document
        self.refuse_for(opening_fault(document))
        self.journal, self.epoch, self.epoch_before = command.journal, command.epoch, command.epoch
        self.record = Record(document, document.cells, self.permits_at_opening(document, {}))
        return Outcome(self.opened(), has_changed=True)

    def opened(self) -> Reply:
        """The reply of an epoch that is in force."""
        return replies.Opened(self.journal, self.epoch, tuple(sorted(self.record.permits.items())))

    def permits_at_opening(self, document: Document, permits: dict[int, int]) -> dict[int, int]:
        """The permits of servers that are down: open ones stay, and a document's get numbers behind any log's."""
        kept = {server: permit for server, permit in permits.items() if server in document.servers}
        new = {it: self.base + LONGEST_LOG + 1 + it for it in document.down if it not in kept}
        self.permit_servers.update({permit: server for server, permit in new.items()})
        return kept | new

    # Plans.

    def begin(self, command: commands.Begin) -> Outcome:
        """Begins a plan."""
        known = self.begun.get(command.name)
        if known and isinstance(known.reply, replies.Begun):
            again = known.reply
            raise Answer(replies.Begun(again.epoch, again.plan, again.calls, again.streams, is_again=True))
        record = self.need_open()
        self.refuse_for(plan_fault(record, command.plan))
        plan = record.begin(command.plan)
        number = len(record.plans) - 1
        calls = sum(it.stream.tries - it.stream.retries for it in plan.streams)
        reply = replies.Begun(self.epoch, number, calls, len(plan.streams))
        self.begun[command.name] = Named(self.epoch, reply)
        self.advance(number)
        return self.outcome(reply, number, range(len(plan.streams)))

    def answered(self, command: commands.Answered) -> Outcome:
        """Records that a present order was answered."""
        if self.reopening:
            raise Answer(Ignored("old"))
        plans = self.need_open().plans
        if command.plan >= len(plans) or command.stream >= len(plans[command.plan].streams):
            raise Answer(Ignored("unknown"))
        order = self.order(command.plan, command.stream)
        if order is None or order.number != command.number:
            raise Answer(Ignored("old"))
        plan = plans[command.plan]
        state = plan.streams[command.stream]
        self.record.step(plan, state)
        moved = self.advance(command.plan) | {command.stream}
        return self.outcome(replies.Moved(command.plan, command.stream, state.at), command.plan, sorted(moved))

    def outcome(self, reply: Reply, plan: int, streams: Iterable[int]) -> Outcome:
        """A reply with the orders of these streams of a plan, and the plan if it has ended."""
        found = (self.order(plan, it) for it in streams)
        ended = (plan,) if self.record.plans[plan].is_done else ()
        return Outcome(reply, True, tuple(it for it in found if it is not None), ended)

    def goes_by_itself(self, plan: PlanState, stream: StreamState) -> bool:
        """The stream's next step is local."""
        if stream.is_done:
            return False
        instruction = stream.instruction
        if instruction is None or instruction.verb is Verb.SIGNAL:
            return True
        if instruction.verb in PUBLICATIONS:
            return not self.rules.publication_awaited
        return instruction.verb is Verb.WAIT and instruction.signal in plan.posted

    def advance(self, number: int) -> set[int]:
        """Makes every step of a plan that is local, always of the lowest stream that has one. Returns who moved."""
        plan, moved = self.record.plans[number], set()
        while True:
            ready = (it for it, stream in enumerate(plan.streams) if self.goes_by_itself(plan, stream))
            stream = next(ready, None)
            if stream is None:
                return moved
            order = self.order(number, stream)
            self.unawaited += [order] if order else []
            self.record.step(plan, plan.streams[stream])
            moved.add(stream)

    # Restarts.

    def approve(self, command: commands.Approve) -> Outcome:
        """Gives leave to restart a server, once for each `by`."""
        if command.by in self.approved:
            raise Answer(self.approved_before(command))
        record, server = self.need_open(), command.server
        if server not in record.document.servers:
            raise refuse("UnknownServer", server=server)
        self.refuse_for(leave_fault(record, server))
        permit = self.base + record.log + 1
        record.permits[server] = permit
        record.log += 1
        self.permit_servers[permit] = server
        reply = replies.Approved(server, permit)
        self.approved[command.by] = Named(self.epoch, reply)
        return Outcome(reply, has_changed=True)

    def approved_before(self, command: commands.Approve) -> Reply:
        """What a `by` is told that was given before."""
        reply = self.approved[command.by].reply
        if reply.server != command.server:
            return Refused("OtherServer", server=reply.server)
        is_present = self.record is not None and self.record.permits.get(reply.server) == reply.permit
        return reply if is_present else replies.PermitEnded(reply.server, reply.permit)

    def restarted(self, command: commands.Restarted) -> Outcome:
        """Records the end of a restart, by its permit."""
        permits = self.record.permits if self.record else {}
        server = next((it for it, permit in permits.items() if permit == command.permit), None)
        if not self.rules.permit_named:
            named = self.permit_servers.get(command.permit)
            server = named if named in permits else None
        if server is None:
            raise Answer(Ignored("old"))
        record = self.need_open()
        is_settled = command.base is not None and command.base >= self.fence
        if self.rules.restart_settled and not is_settled:
            raise refuse("Unsettled", server=server)
        del record.permits[server]
        self.carried.discard(server)
        record.log += 1
        return Outcome(replies.Up(server), has_changed=True)

    # Restoring.

    def restore_of(self, server: int, nonce: int) -> Restore:
        """The slots of a server as they are recorded."""
        record = self.record
        base = self.base + (record.log if self.rules.restore_base_high else 0)
        base += 0 if self.rules.restore_base_low else 1
        slots = tuple(SlotTold(self.cell(shard, server), load) for shard, load in enumerate(record.document.loads))
        return Restore(server, nonce, self.journal, self.fence, base, slots)

    def restore(self, command: commands.RestoreServer) -> Outcome:
        """Restores a server that has no slots. The nonce that was recorded last gets the same entry again."""
        last = self.restores.get(command.server)
        if last and last.nonce == command.nonce:
            raise Answer(replies.Restoring(last))
        if self.record is None:
            raise refuse("Reopening" if self.reopening else "NotOpened")
        if command.server not in self.record.document.servers:
            raise refuse("UnknownServer", server=command.server)
        if self.reopening and self.rules.restore_at_rest:
            raise refuse("Reopening")
        engaging = self.record.engaging(command.server)
        if engaging and self.rules.restore_disengaged:
            raise refuse("Engaged", server=command.server, plan=engaging[0], stream=engaging[1])
        self.restores[command.server] = self.restore_of(command.server, command.nonce)
        return Outcome(replies.Restoring(self.restores[command.server]), has_changed=True)

    # Epochs.

    def new_epoch(self, _command: commands.NewEpoch) -> Outcome:
        """Opens the next epoch over the placement as it stands, if no plan is running."""
        record = self.need_open()
        running = next((it for it, plan in enumerate(record.plans) if not plan.is_done), None)
        if running is not None:
            raise refuse("Running", plan=running)
        if self.epoch >= LAST_EPOCH:
            raise refuse("LastEpoch")
        self.epoch, self.epoch_before = self.epoch + 1, self.epoch
        fresh = Record(record.document, tuple(map(tuple, record.cells)), record.permits)
        fresh.listed = record.listed
        fresh.floors, fresh.limit = record.floors, record.limit
        self.record = fresh
        self.forget_names()
        return Outcome(self.opened(), has_changed=True)

    def forget_names(self) -> None:
        """Keeps the names of this epoch and of the one that was in force before."""
        kept = (self.epoch, self.epoch_before) if self.rules.names_kept else ()
        self.begun = {name: it for name, it in self.begun.items() if it.epoch in kept}
        self.approved = {name: it for name, it in self.approved.items() if it.epoch in kept}

    def reopen(self, command: commands.Reopen) -> Outcome:
        """Begins a reopening, or replaces the one under way: every server is fenced, and all plans end."""
        epoch = self.epoch_of(command)
        self.journal = command.journal if self.journal is None else self.journal
        if self.reopening and self.reopening.settles:
            self.settle_sent |= {it.server for it in self.reopening.settles}
        sent, named = frozenset(self.settle_sent), frozenset(self.named)
        self.reopening = Reopening(
            epoch, self.journal, command.document, command.lost, self.record, sent, named, self.rules
        )
        if self.rules.replaced_fenced:
            self.named |= command.document.servers
        for plan in self.record.plans if self.record else []:
            plan.is_broken_off = True
        return Outcome(replies.Fencing(self.fences()), has_changed=True)

    def epoch_of(self, command: commands.Reopen) -> int:
        """The epoch that a reopening opens; refuses one that does not fit."""
        epoch = (self.reopening.epoch if self.reopening else self.epoch) + 1
        if self.journal is None:
            if command.journal is None or command.epoch is None:
                raise refuse("NotOpened")
            epoch = command.epoch
        elif command.journal not in (None, self.journal):
            raise refuse("OtherJournal")
        if epoch > LAST_EPOCH:
            raise refuse("LastEpoch")
        kept = sorted(command.lost & command.document.servers)
        if kept:
            raise refuse("LostServer", server=kept[0])
        return epoch

    def need_reopening(self, base: int) -> Reopening:
        """The reopening under way, if it has this base."""
        reopening = self.reopening
        if reopening is None or (base != reopening.base and self.rules.fenced_names_base):
            raise Answer(Ignored("old"))
        return reopening

    def fenced(self, command: commands.Fenced) -> Outcome:
        """Takes the first answer of a server to the fence."""
        reopening = self.need_reopening(command.base)
        is_known = command.server in reopening.inventories or command.server not in reopening.targets
        if reopening.settles or is_known:
            raise Answer(Ignored("old"))
        reopening.inventories[command.server] = command.found
        waits_for = tuple(reopening.waits_for())
        return Outcome(replies.Waiting(waits_for) if waits_for else reopening.propose(), has_changed=True)

    def confirm(self, command: commands.Confirm) -> Outcome:
        """Accepts the proposal, or other cells that may be chosen, and gives the settles."""
        reopening = self.reopening
        if reopening is None or reopening.settles or command.base != reopening.base:
            raise Answer(Ignored("old"))
        waits_for = reopening.waits_for()
        if waits_for:
            raise refuse("Missing", server=waits_for[0])
        cells = reopening.propose().cells if command.cells is None else command.cells
        self.refuse_for(reopening.fault_of(cells))
        reopening.settle(cells)
        if not self.rules.settles_awaited:
            self.put_in_force(reopening)
            self.unawaited += reopening.settles
        return Outcome(replies.Settling(reopening.settles), has_changed=True)

    def settled(self, command: commands.Settled) -> Outcome:
        """Takes the answer to a settle; with the last one the opening is in force."""
        reopening = self.reopening
        if reopening is None or command.base != reopening.base or command.server not in reopening.unsettled:
            raise Answer(Ignored("old"))
        if not reopening.settles:
            raise Answer(Ignored("old"))
        reopening.settled.add(command.server)
        if reopening.unsettled:
            return Outcome(replies.Waiting(tuple(reopening.unsettled)), has_changed=True)
        self.put_in_force(reopening)
        return Outcome(self.opened(), has_changed=True)

    def put_in_force(self, reopening: Reopening) -> None:
        """Opens the epoch of a reopening."""
        self.epoch, self.epoch_before = reopening.epoch, self.epoch
        permits = self.record.permits if self.record else {}
        self.record = Record(
            reopening.document, reopening.cells, self.permits_at_opening(reopening.document, permits)
        )
        self.fence = reopening.base
        self.carried = (self.carried | set(reopening.carried)) & set(self.record.permits) - set(reopening.inventories)
        self.settle_sent, self.named, self.unawaited, self.reopening = set(), set(), [], None
        self.forget_names()


def plain(part: Any) -> Any:
    """The members of a record or a reopening, whose own record is that of the controller."""
    if isinstance(part, Record):
        return vars(part)
    if isinstance(part, Reopening):
        return {it.name: getattr(part, it.name) for it in fields(part) if it.name not in ("record", "rules")}
    return part


def replayed(journal: Iterable[Command], rules: Rules = SOUND) -> Controller:
    """A controller that has applied these commands, none of which it may refuse."""
    controller = Controller(rules)
    for command in journal:
        outcome = controller.apply(command)
        if not outcome.has_changed:
            raise ValueError(f"the journal has {command}, to which the controller replies {outcome.reply}")
    return controller
