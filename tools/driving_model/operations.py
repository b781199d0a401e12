"""Who operates the service: reopenings with their documents, what is confirmed, and a journal that takes over."""
from __future__ import annotations

import random
from dataclasses import replace

from . import commands
from .cells import ABSENT, PRIMARY, SECONDARY, serving
from .controller import Controller
from .world import World


class Operator:
    """An operator with dice: what is left to choose is chosen at random."""

    def __init__(self, world: World, dice: random.Random) -> None:
        self.world, self.dice, self.rules = world, dice, world.rules
        # (dice of its own for what is rare, so that the other events of a seed stay as they are)
        self.rare = random.Random(dice.getstate()[1][0])
        self.has_new_journal = False

    @property
    def controller(self) -> Controller:
        """The controller."""
        return self.world.controller

    def chance(self, probability: float) -> bool:
        """Is true with this probability."""
        return self.dice.random() < probability

    def steady_cells(self) -> commands.Cells:
        """The recorded cells without handovers, for a document."""
        cells = self.controller.record.cells
        return tuple(tuple(it if it in (PRIMARY, SECONDARY) else ABSENT for it in row) for row in cells)

    def reopen(self, is_plain: bool = False) -> None:
        """A reopening begins, or replaces the one under way. If its document is not to be plain, it leaves a server out
        now and then, or calls one down."""
        world, record = self.world, self.controller.record
        recorded = record.document.servers if record else frozenset()
        servers = [
            it.number for it in world.hosts
            if not it.is_lost and (it.number in recorded or it.number not in world.given_up or self.chance(0.5))
        ]
        lost = frozenset(it.number for it in world.hosts if it.is_lost)
        world.given_up |= lost
        if not servers:
            return
        down: frozenset[int] = frozenset()
        if not is_plain and self.rare.random() < 0.1:
            down = frozenset({self.rare.choice(servers)})
        elif not is_plain and len(servers) > 1 and self.rare.random() < 0.1:
            servers.remove(self.rare.choice(servers))
            world.coverage["left out"] += 1
        world.given_up -= set(servers)
        world.are_floors_excused = True
        world.coverage["reopening replaced"] += self.controller.reopening is not None
        cells = self.steady_cells() if record else world.document.cells
        document = replace(world.document, servers=frozenset(servers), cells=cells, down=down)
        world.do(commands.Reopen(document, lost))

    def confirm(self, alters: bool = True) -> bool:
        """The proposal is confirmed, or changed before."""
        reopening = self.controller.reopening
        if reopening is None or reopening.settles or reopening.waits_for():
            return False
        rows = [list(it) for it in reopening.propose(self.dice.randrange(6)).cells]
        for row in rows if alters else ():
            self.alter(row)
        for number, room in enumerate(self.world.rooms):
            self.fit(rows, number, room)
        self.world.coverage["carried over"] += bool(reopening.missing)
        outcome = self.world.do(commands.Confirm(reopening.base, tuple(map(tuple, rows))))
        return outcome.has_changed

    def alter(self, row: list) -> None:
        """Another choice for a shard: a secondary becomes the primary."""
        secondaries = [it for it, cell in enumerate(row) if cell == SECONDARY]
        if secondaries and PRIMARY not in row:
            row[self.dice.choice(secondaries)] = PRIMARY
        elif secondaries and self.chance(0.15):
            row[row.index(PRIMARY)] = SECONDARY
            row[self.dice.choice(secondaries)] = PRIMARY

    def fit(self, rows: list[list], number: int, room: int) -> None:
        """Leaves secondaries out where a document's cells are more than a server has room for."""
        for row in rows:
            load = sum(self.world.loads[it] for it, other in enumerate(rows) if other[number] != ABSENT)
            if load > room and row[number] == SECONDARY:
                row[number] = ABSENT

    def adopt(self) -> None:
        """The journal is lost; a new one adopts the running service."""
        world, old = self.world, self.controller
        if old.record is None:
            return
        highest = old.reopening.epoch if old.reopening and self.rules.journal_above else old.epoch
        cells = self.steady_cells()
        world.take_new_journal()
        world.coverage["journal replaced"] += 1
        world.are_floors_excused = True
        servers = frozenset(it.number for it in world.hosts if not it.is_lost)
        if not self.rules.journal_named:
            self.take_over(servers)
            return
        lost = frozenset(it.number for it in world.hosts) - servers
        world.given_up |= lost
        document = replace(world.document, servers=servers, cells=cells, down=frozenset())
        world.do(commands.Reopen(document, lost, world.journals, highest + 1))

    def take_over(self, servers: frozenset[int]) -> None:
        """Without names of journals: a new journal opens over servers that keep their slots and their last numbers."""
        world = self.world
        rows = []
        for shard in world.shards:
            row = world.row(shard)
            successors = serving(row) or [it for it, cell in enumerate(row) if cell.is_in_handover]
            rows.append(tuple(
                PRIMARY if successors[:1] == [it] else SECONDARY if cell == SECONDARY else ABSENT
                for it, cell in enumerate(row)
            ))
        for host in world.hosts:
            if host.is_up:
                host.stop()
                host.server.abandon()
                for shard, slot in enumerate(host.server.slots):
                    slot.cell, slot.load = rows[shard][host.number], world.loads[shard]
        size = len(world.shards)
        world.writes.acknowledged, world.writes.has_lost = [set() for _ in range(size)], [True] * size
        self.has_new_journal = True
        none = (0,) * size
        document = replace(world.document, servers=servers, cells=tuple(rows), wants=none, caps=none, down=frozenset())
        world.do(commands.Open(document, world.journals, 0))
