"""The controller of `controller`, with changes of sizes."""
from __future__ import annotations

from collections.abc import Iterable
from dataclasses import fields, replace

from . import commands, controller
from .cells import ABSENT
from .commands import Command
from .controller import Answer, refuse
from .messages import Publication
from .record import Record
from .replies import Ignored, Outcome
from .sized_decisions import epoch_fault, newcomers, resize_fault, unmet_shard
from .sizes import NewEpoch, Order, Resize, Resized, SOUND, SizedDocument, SizedRules


class SizedController(controller.Controller):
    """The controller of one journal. Sizes are as they are since the number `sized`."""

    rules: SizedRules

    def __init__(self, rules: SizedRules = SOUND) -> None:
        super().__init__(rules)
        self.sized = 0

    def order(self, plan: int, stream: int) -> Order | Publication | None:
        """The order that the stream stands before, with the number since which sizes are as they are."""
        order = super().order(plan, stream)
        if order is None or isinstance(order, Publication):
            return order
        return Order(**{it.name: getattr(order, it.name) for it in fields(order)}, sized=self.sized)

    def apply(self, command: Command | Resize) -> Outcome:
        """Applies one command."""
        handlers = {NewEpoch: self.new_sizes, Resize: self.resize}
        handler = handlers.get(type(command))
        if handler is None:
            return super().apply(command)
        try:
            return handler(command)
        except Answer as answer:
            return Outcome(answer.reply, has_changed=False)

    def begin(self, command: commands.Begin) -> Outcome:
        """Begins a plan over shards that there are."""
        if command.name not in self.begun and self.is_open:
            shard = unmet_shard(command.plan, self.record.document)
            if shard is not None:
                raise refuse("UnknownShard", shard=shard)
        return super().begin(command)

    # Changes of sizes.

    def new_sizes(self, command: NewEpoch) -> Outcome:
        """Opens the next epoch over the placement as it stands, with the sizes of a document. A server that is added is
        down, and in the way of one that was carried over: it may have slots of before the last reopening."""
        record, document = self.need_open(), command.document
        running = next((it for it, plan in enumerate(record.plans) if not plan.is_done), None)
        if running is not None:
            raise refuse("Running", plan=running)
        self.refuse_for(epoch_fault(record, document, self.rules))
        outcome = super().new_epoch(command)
        self.record = self.record_over(record, document)
        self.sized = self.base
        self.carried = (self.carried | newcomers(record, document, self.rules.newcomer_told)) & set(self.record.permits)
        self.restores = {server: it for server, it in self.restores.items() if server in document.servers}
        return replace(outcome, reply=self.opened())

    def record_over(self, before: Record, document: SizedDocument) -> Record:
        """The record of an epoch with these sizes, over the placement before. Who was down is, whatever the document
        says, and so is who is added."""
        source = before.cells if self.rules.cells_stay else document.cells
        cells = tuple(
            tuple(
                cell if server in document.servers and shard not in document.left_out else ABSENT
                for server, cell in enumerate(row)
            )
            for shard, row in enumerate(source)
        )
        down = newcomers(before, document, self.rules.newcomer_down)
        permits = self.permits_at_opening(replace(document, down=down), before.permits)
        record = Record(document, cells, permits)
        record.listed = [None if it in document.left_out else before.listed[it] for it in before.shards]
        if not self.rules.floors_live:
            record.floors = [document.floor(it) for it in record.shards]
        if not self.rules.limit_down:
            record.limit = document.limit
        return record

    def resize(self, command: Resize) -> Outcome:
        """Changes loads and rooms beside the plans that run."""
        record = self.need_open()
        loads, rooms = list(record.document.loads), list(record.document.rooms)
        for sizes, changes in ((loads, command.loads), (rooms, command.rooms)):
            for at, size in changes:
                sizes[at] = size
        sized = replace(record.document, loads=tuple(loads), rooms=tuple(rooms))
        if sized == record.document:
            raise Answer(Ignored("old"))
        self.refuse_for(resize_fault(record, command, sized, self.rules))
        record.document = sized
        self.sized = self.base + record.log + 1
        return Outcome(Resized(self.sized), has_changed=True)


def replayed(journal: Iterable[Command | Resize], rules: SizedRules = SOUND) -> SizedController:
    """A controller that has applied these commands, none of which it may refuse."""
    made = SizedController(rules)
    for command in journal:
        outcome = made.apply(command)
        if not outcome.has_changed:
            raise ValueError(f"the journal has {command}, to which the controller replies {outcome.reply}")
    return made
