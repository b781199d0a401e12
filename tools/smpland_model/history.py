"""What happened at which place. A place counts the commands that changed something."""
from __future__ import annotations

from driving_model import replies
from driving_model.cells import Cell
from driving_model.replies import Outcome
from smpland_model.controller import NamedController


class History:
    """Where present orders came up, where entries of the map changed, and where plans of the epoch ended."""

    def __init__(self, controller: NamedController) -> None:
        self.controller = controller
        self.place = 0
        self.ordered: dict[tuple[int, int], int] = {}
        self.published: dict[str, int] = {}
        self.ended: dict[int, int] = {}
        # Where the cell of a shard at a server was recorded last.
        self.changed: dict[tuple[int, int], int] = {}
        self.cells: list[list[Cell]] = []
        self.versions: dict[int, int] = {}

    def add(self, outcome: Outcome) -> None:
        """Counts a command that changed something."""
        self.place += 1
        if isinstance(outcome.reply, replies.Opened):
            self.ordered, self.ended = {}, {}
            if not self.is_same_map():
                self.published = {name: self.place for name in self.controller.document.shards}
                self.changed, self.cells = {}, []
            self.keep_versions()
        for order in outcome.orders:
            self.ordered[order.plan, order.stream] = self.place
        self.ended |= {plan: self.place for plan in outcome.ended}
        self.add_published()
        self.add_changed()

    def add_changed(self) -> None:
        """Notes the cells that have changed."""
        record = self.controller.record
        if record is None or self.controller.reopening:
            return
        for shard, row in enumerate(record.cells):
            before = self.cells[shard] if shard < len(self.cells) else []
            for server, cell in enumerate(row):
                if server >= len(before) or before[server] != cell:
                    self.changed[shard, server] = self.place
        self.cells = [list(row) for row in record.cells]

    def is_same_map(self) -> bool:
        """The opening is that of the next epoch at rest, of which the map's owner is told nothing."""
        return self.controller.fence != self.controller.base and self.place > 1

    def add_published(self) -> None:
        """Notes the shards whose entry in the map has changed."""
        record = self.controller.record
        if record is None or self.controller.reopening:
            return
        for shard, version in enumerate(record.versions):
            if self.versions.get(shard, 0) != version:
                self.published[self.controller.shard_name(shard)] = self.place
        self.keep_versions()

    def keep_versions(self) -> None:
        """Keeps the versions of the map's entries as they are."""
        self.versions = dict(enumerate(self.controller.record.versions))
