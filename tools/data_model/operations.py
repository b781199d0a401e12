"""Who operates the service, as in `driving_model`, and names what may be lost."""
from __future__ import annotations

from dataclasses import replace

from driving_model import operations as driving
from driving_model.cells import PRIMARY
from driving_model.commands import Reopen

from .commands import Confirm
from .reopening import Reopening
from .world import World


class Operator(driving.Operator):
    """An operator with dice: what is left to choose is chosen at random."""

    world: World

    def reopen(self, is_plain: bool = False) -> None:
        """A reopening begins, or replaces the one under way. Whom the controller does not reach may be given up. If its
        document is not to be plain, it leaves a server out now and then, or calls one down."""
        world, record = self.world, self.controller.record
        recorded = record.document.servers if record else frozenset()
        gone = {it.number for it in world.hosts if it.is_lost or (it.is_cut_off and self.rare.random() < 0.7)}
        world.given_up |= gone
        there = [it.number for it in world.hosts if it.number not in gone]
        servers = [it for it in there if it in recorded or it not in world.given_up or is_plain or self.chance(0.5)]
        if not servers:
            return
        down: frozenset[int] = frozenset()
        if not is_plain and self.rare.random() < 0.1:
            down = frozenset({self.rare.choice(servers)})
        elif not is_plain and len(servers) > 1 and self.rare.random() < 0.1:
            servers.remove(self.rare.choice(servers))
            world.coverage["left out"] += 1
        world.given_up -= set(servers)
        world.are_floors_excused = True
        world.coverage["reopening replaced"] += self.controller.reopening is not None
        cells = self.steady_cells() if record else world.document.cells
        document = replace(world.document, servers=frozenset(servers), cells=cells, down=down)
        if self.rules.is_small and self.rare.random() < 0.4:
            document = replace(document, copies=tuple(self.rare.choice([None, 2, 2, 3]) for _ in world.shards))
        world.do(Reopen(document, frozenset(gone)))

    def confirm(self, alters: bool = True) -> bool:
        """The proposal is confirmed, or changed before; now and then a shard is named rather than waited for."""
        reopening = self.controller.reopening
        if reopening is None or reopening.settles:
            return False
        lost = self.named(reopening)
        if reopening.waits_for(lost):
            return False
        if any(reopening.asks_again(it) for it in set(self.world.shards) - lost):
            self.world.coverage["asked again"] += 1
            self.reopen(is_plain=True)
            return False
        rows = [list(it) for it in reopening.propose(self.dice.randrange(6)).cells]
        for row in rows if alters else ():
            self.alter(row)
        for number, room in enumerate(self.world.rooms):
            self.fit(rows, number, room)
        self.world.coverage["carried over"] += bool(reopening.missing)
        is_chosen = alters and not self.rules.is_small
        chosen = tuple(self.rare.choice([None, None, None, 1]) if is_chosen else None for _ in self.world.shards)
        confirm = Confirm(reopening.base, tuple(map(tuple, rows)), lost, chosen)
        return self.world.do(confirm).has_changed

    def named(self, reopening: Reopening) -> frozenset[int]:
        """The shards that a confirmation names as lost."""
        proposed = frozenset(reopening.propose().lost)
        awaited = frozenset(it for it in self.world.shards if reopening.awaited(it))
        if awaited and self.rare.random() < 0.2:
            self.world.coverage["named rather than awaited"] += 1
            return proposed | awaited
        return proposed

    def take_over(self, servers: frozenset[int]) -> None:
        """Without names of journals: a new journal opens over servers that keep their slots and their last numbers."""
        super().take_over(servers)
        world = self.world
        world.writes.seen = [set() for _ in world.shards]
        for shard in world.shards:
            primary = next((it for it in world.hosts if it.cell(shard) == PRIMARY), None)
            world.writes.history[shard] = list(primary.copy(shard).writes) if primary else []
