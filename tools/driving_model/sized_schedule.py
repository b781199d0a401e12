"""Random schedules in which sizes change, at rest and beside running plans."""
from __future__ import annotations

import random
from dataclasses import replace

from . import commands, schedule
from .cells import ABSENT, PRIMARY, SECONDARY, Stage
from .commands import Document
from .fair import finish_all
from .generator import PlanMaker, random_document
from .laws import Violation
from .plans import CellRight, CrownRight, Hold, SpareRight, drop, unlist
from .schedule import Chances, Found, USUAL
from .sized_world import SizedOperator, SizedWorld
from .sizes import SizedDocument, SizedRules

WEIGHTS = schedule.WEIGHTS | {"sizes": 0.05, "resize": 0.04}
REST = {"plan": 0.5, "answer": 2, "deliver": 1.3, "work": 2, "sizes": 2, "resize": 0.3, "epoch": 0.5, "fault": 0.6}
# (changes at rest alone)
STILL = REST | {"sizes": 2.5, "resize": 0, "restart": 2, "ask": 2}
BUSY = {"plan": 2, "sizes": 0.3, "resize": 3, "fault": 0.5, "epoch": 0.5}
TIGHT = {
    "plan": 4, "deliver": 2, "work": 3, "answer": 2, "sizes": 0.5, "resize": 5, "fault": 0.2, "epoch": 0.3,
    "request": 0.3, "approve": 0.3, "restart": 0.5,
}
# How much more often something happens in a schedule that is about changes at rest, beside running plans, and so on.
OWN: dict[str, dict[str, float]] = {"still": STILL, "rest": REST, "busy": BUSY, "tight": TIGHT}
PROFILES: dict[str, dict[str, float]] = schedule.PROFILES | OWN
OFTEN = ("still", "still", "still", "still", "rest", "busy", "tight", *USUAL)


def tight_document(dice: random.Random) -> Document:
    """Four servers and five shards, with little room beside what is there."""
    width, height = 4, 5
    loads = tuple(dice.choice([2, 3, 4, 5]) for _ in range(height))
    rows = []
    for _ in range(height):
        row, places = [ABSENT] * width, dice.sample(range(width), dice.choice([1, 2]))
        for at in places:
            row[at] = PRIMARY if at == places[0] else SECONDARY
        rows.append(tuple(row))
    used = [sum(load for load, row in zip(loads, rows) if row[at] != ABSENT) for at in range(width)]
    rooms = tuple(it + dice.choice([0, 2, 3, 5]) for it in used)
    wants = tuple(sum(it != ABSENT for it in row) for row in rows)
    return Document(frozenset(range(width)), rooms, loads, wants, wants, 1, tuple(rows))


def wider_document(dice: random.Random, profile: str) -> SizedDocument:
    """A document that leaves servers and shards out: up to two of each."""
    document = tight_document(dice) if profile == "tight" else random_document(dice)
    width, height = len(document.rooms) + dice.choice([0, 1, 1, 2]), len(document.loads) + dice.choice([0, 1, 1, 2])
    more = height - len(document.loads)
    rooms = document.rooms + tuple(dice.choice([7, 9, 12]) for _ in range(width - len(document.rooms)))
    cells = tuple(row + (ABSENT,) * (width - len(row)) for row in document.cells) + ((ABSENT,) * width,) * more
    return SizedDocument(
        document.servers, rooms, document.loads + (2,) * more, document.wants + (1,) * more,
        document.caps + (1,) * more, document.limit, cells, document.down, document.log,
        left_out=frozenset(range(height - more, height)),
    )


class SizedPlanMaker(PlanMaker):
    """Makes plans for the shards that there are."""

    def add_streams(self, shard: int, shards: list[int]) -> bool:
        """Adds what is to be done to a shard; now and then all its replicas go."""
        if shard in self.record.document.left_out:
            return False
        return self.retire(shard) if self.dice.random() < 0.2 else super().add_streams(shard, shards)

    def retire(self, shard: int) -> bool:
        """A stream drops all replicas of a shard, if they are free and none has to be live."""
        lead, secondaries = self.record.lead(shard), self.free(shard, SECONDARY)
        count = len(secondaries) + 1
        held = sum(it != ABSENT for it in self.record.cells[shard])
        if lead.stage is not Stage.AT or count != held or self.record.free_spare(shard, self.held) < count:
            return False
        rights: Hold = {CrownRight(shard): self.record.crown(shard), SpareRight(shard): count}
        rights |= {CellRight(shard, it): SECONDARY for it in secondaries}
        drops = tuple(drop(shard, it) for it in (*secondaries, lead.owner))
        self.add(rights, drops[:-1] + (unlist(shard), drops[-1]))
        return False


class SizedSchedule(schedule.Schedule):
    """One random schedule, which its seed determines."""

    def __init__(
        self, seed: int, rules: SizedRules, steps: int, profile: str = "", keeps_trace: bool = False
    ) -> None:
        self.dice = random.Random(seed)
        self.rules, self.steps = rules, steps
        self.profile = profile or self.dice.choice(OFTEN)
        document = wider_document(self.dice, self.profile)
        self.weights = self.drawn_weights()
        self.chances = Chances.drawn(self.dice, self.profile)
        if self.profile in OWN:
            often = self.dice.choice([0, 0.05, 0.15])
            present = self.dice.choice([0.6, 0.85])
            self.chances = replace(self.chances, present=present, reopen=often, forget=0.2)
        self.world = SizedWorld(document, rules, seed, keeps_trace)
        self.operator = SizedOperator(self.world, self.dice)
        self.rare = random.Random(seed)
        self.plans = self.bys = self.events = 0
        self.restarted: list[commands.Restarted] = []
        self.begun: list[commands.Begin] = []
        self.kinds = list(WEIGHTS)
        self.put_outside()

    def put_outside(self) -> None:
        """Now and then a server outside is another service's."""
        for number in sorted(self.world.given_up):
            if self.rare.random() < 0.4:
                self.world.hosts[number].server.begin_elsewhere()

    def run(self) -> None:
        """Makes all events, and then what is fair until all is done."""
        for _ in range(self.steps):
            self.event()
            self.world.check()
        self.operator.begin_anew()
        finish_all(self.world, self.operator)

    def drawn_weights(self) -> list[float]:
        """The weights of the kinds of events, each somewhat more or less."""
        more = PROFILES[self.profile]
        return [weight * more.get(kind, 1) * self.dice.choice([0.5, 1, 1, 2]) for kind, weight in WEIGHTS.items()]

    def on_plan(self) -> None:
        """A plan begins; now and then under a name that was given before."""
        if not self.controller.is_open:
            return
        if self.begun and self.chance(0.05):
            self.world.do(self.dice.choice(self.begun))
            return
        self.plans += 1
        begin = SizedPlanMaker(self.controller, self.dice, self.profile == "hands").make(f"plan-{self.plans}")
        if begin and self.world.do(begin).has_changed:
            self.begun.append(begin)

    def on_sizes(self) -> None:
        """Sizes change at rest. Now and then a server that is another service's is begun anew before."""
        if self.rare.random() < 0.15:
            self.operator.begin_anew()
        self.operator.change_at_rest()

    def on_resize(self) -> None:
        """Sizes change beside running plans."""
        self.operator.resize()


def run_schedule(
    seed: int, rules: SizedRules, steps: int, profile: str = "", keeps_trace: bool = False
) -> Found:
    """Runs the schedule of a seed."""
    made = SizedSchedule(seed, rules, steps, profile, keeps_trace)
    try:
        made.run()
    except Violation as violation:
        return Found(seed, made.events, violation, made)
    return Found(seed, made.events, None, made)
