"""Random schedules over data: as in `driving_model`, with events and profiles of their own."""
from __future__ import annotations

import random
from dataclasses import dataclass, replace

from driving_model import commands as driving
from driving_model import schedule as base
from driving_model.cells import PRIMARY, SECONDARY, Stage
from driving_model.laws import Violation
from driving_model.messages import BASE_STEP, Fence, Restore
from driving_model.plans import CrownRight, Plan
from driving_model.schedule import Chances

from .copies import Began, Copy
from .fair import finish_all
from .generator import PlanMaker, random_document
from .host import Host
from .messages import Order
from .operations import Operator
from .rules import Rules
from .world import World

WEIGHTS = base.WEIGHTS | {"ask_others": 0.05, "read": 0.02, "stream_lost": 0.003}
DATA = {
    "fault": 1.5, "epoch": 2, "ask": 2, "request": 2, "finish": 2, "acknowledge": 4, "follow": 2, "plan": 0.7,
    "approve": 2, "restart": 1.5, "work": 1.5, "answer": 1.5, "stream_lost": 3,
}
BACK = {
    "fault": 1.2, "epoch": 0.5, "ask": 2, "request": 3, "finish": 4, "acknowledge": 5, "follow": 1.5, "plan": 0.1,
    "approve": 0.3, "restart": 1,
}
DROPS = {"plan": 4, "ask_others": 4, "work": 3, "answer": 2, "fault": 1.5, "epoch": 0.5}
DOWN = {"approve": 4, "restart": 4, "request": 2, "finish": 2, "acknowledge": 6, "follow": 4, "plan": 0.5, "epoch": 0.7}
# How much more often something happens in a schedule that is about data, servers that come back, and so on.
PROFILES: dict[str, dict[str, float]] = base.PROFILES | {
    "data": DATA, "back": BACK, "views": BACK | {"fault": 2, "plan": 0.3, "finish": 3, "follow": 2},
    "drops": DATA | DROPS, "down": DOWN, "old views": DATA, "old drops": DATA | DROPS,
    "swaps": DATA | {"plan": 5, "epoch": 0.3}, "doubt": DATA | {"fault": 3},
    "one shard": {
        "plan": 2, "ask_others": 2, "work": 2, "answer": 2, "seal": 3, "request": 4, "finish": 4, "acknowledge": 5,
        "follow": 3, "ask": 3, "restart": 2, "approve": 1.5, "fault": 0.9, "epoch": 0.8, "stream_lost": 3, "read": 2,
    },
}
# Those of the small form: one is about how many copies are kept.
SMALL_PROFILES = PROFILES | {
    "kept": {
        "fault": 1.3, "epoch": 0.6, "ask": 3, "request": 2, "finish": 3, "acknowledge": 8, "follow": 4, "plan": 0.6,
        "approve": 0.7, "restart": 2, "work": 2, "answer": 1.5, "ask_others": 2, "seal": 2,
    },
}
# The profiles whose documents have a shard of more than one copy, and those that start from copies of different views.
SEVERAL = frozenset({"drops", "views", "old views", "old drops", "down", "one shard", "kept"})
OLD = frozenset({"old views", "old drops"})
USUAL = (
    *base.USUAL, "data", "data", "back", "views", "drops", "down", "old views", "old drops", "swaps", "doubt", "one shard",
)
SMALL_USUAL = (*USUAL, "kept", "kept", "kept", "one shard", "drops", "swaps")


def drawn_chances(dice: random.Random, profile: str) -> Chances:
    """How likely it is that an epoch ends, a server is lost, and so on."""
    chances = Chances.drawn(dice, profile)
    if profile in ("back", "views"):
        return replace(
            chances, new_epoch=0.02, reopen=0.3, go_on=0.95, present=0.95, replace=0.003, forget=0.02, lose=0.2
        )
    if profile == "kept":
        return replace(
            chances, new_epoch=0.03, reopen=0.25, go_on=0.9, present=0.9, replace=dice.choice([0.01, 0.06]),
            forget=0.15, lose=0.3,
        )
    if profile == "one shard":
        return replace(
            chances, new_epoch=0.05, reopen=0.1, go_on=0.9, present=0.9, replace=0.01, forget=0.15, lose=0.06
        )
    if profile in base.PROFILES:
        return chances
    return replace(
        chances, new_epoch=0.05, reopen=dice.choice([0.02, 0.1]), go_on=0.5, present=0.7, forget=0.12, lose=0.12,
        replace=dice.choice([0.01, 0.03]),
    )


class Schedule(base.Schedule):
    """One random schedule, which its seed determines."""

    def __init__(self, seed: int, rules: Rules, steps: int, profile: str = "", keeps_trace: bool = False) -> None:
        self.dice = random.Random(seed)
        self.rules, self.steps = rules, steps
        self.profile = profile or self.dice.choice(SMALL_USUAL if rules.is_small else USUAL)
        most = 1 if self.profile in ("one shard", "kept") else 3
        least = 2 if self.profile in SEVERAL else 0 if rules.is_small else 1
        document = random_document(self.dice, least, most, rules.is_small)
        self.weights = self.drawn_weights()
        self.chances = drawn_chances(self.dice, self.profile)
        self.world = World(document, rules, seed, keeps_trace)
        self.operator = Operator(self.world, self.dice)
        self.rare = random.Random(seed)
        self.plans = self.bys = self.events = 0
        self.restarted: list[driving.Restarted] = []
        self.begun: list[driving.Begin] = []
        self.kinds = list(WEIGHTS)
        if self.profile == "kept":
            self.kinds += ["fail_over", "catch_up"]
            self.weights += [sum(self.weights) * it for it in (0.05, 0.15)]
        if self.profile == "kept" and rules.is_built:
            self.kinds.append("two_faults")
            self.weights.append(sum(self.weights) * 0.05)
        if self.profile in OLD:
            self.begin_with_old_views()
        if self.profile == "kept":
            self.begin_with_lagging_copies()

    def begin_with_old_views(self) -> None:
        """Copies are of different views, as after a failover: the primary has begun another one."""
        dice = random.Random(self.dice.random())
        for shard in self.world.shards:
            row = self.world.controller.record.cells[shard]
            first = 9000 + 10 * shard
            main = [first, *[first + 1] * dice.choice([0, 1, 1])]
            older, newer = Began(0, 0), Began(1, 1)
            for host in self.world.hosts:
                if host.has_copy(shard) and PRIMARY in row:
                    draw = 0.0 if row[host.number] == PRIMARY else dice.random()
                    longer = [first, first + 5, first + 6, first + 7][:dice.choice([2, 3, 4])]
                    self.put(host.copy(shard), draw, main, longer, older, newer)
            self.world.writes.history[shard] = list(main) if PRIMARY in row else []

    def begin_with_lagging_copies(self) -> None:
        """The service has acknowledged writes before it had a controller; secondaries may lack some."""
        dice = random.Random(self.dice.random())
        for shard in self.world.shards:
            row = self.world.controller.record.cells[shard]
            first = 9000 + 10 * shard
            writes = [first, first + 1][:dice.choice([1, 2, 2])] if PRIMARY in row else []
            for host in self.world.hosts:
                if host.has_copy(shard) and writes:
                    is_whole = row[host.number] == PRIMARY or dice.random() < 0.4
                    keep = len(writes) if is_whole else dice.randrange(len(writes) + 1)
                    host.copy(shard).put(writes[:keep], [Began(0, 0)], True)
            self.world.writes.history[shard] = list(writes)
            self.world.writes.acknowledge(shard, set(writes), 1)

    def put(self, copy: Copy, draw: float, main: list[int], longer: list[int], older: Began, newer: Began) -> None:
        """A copy of the primary, of the older view, of the newer one's beginning, or none."""
        if draw == 0.0:
            copy.put(list(main), [older, newer], True)
        elif draw < 0.6:
            copy.put(longer, [older], True)
        elif draw < 0.8:
            copy.put(main[:1], [older, newer], True)
        else:
            copy.clear()

    def drawn_weights(self) -> list[float]:
        """The weights of the kinds of events, each somewhat more or less."""
        more = SMALL_PROFILES[self.profile]
        weights = []
        for kind, weight in WEIGHTS.items():
            often = [0, 0, 0.3, 1, 1, 2] if kind == "fault" and self.profile == "any" else [0.5, 1, 1, 2]
            weights.append(weight * more.get(kind, 1) * self.dice.choice(often))
        return weights

    def run(self) -> None:
        """Makes all events, and then what is fair until all is done."""
        for _ in range(self.steps):
            self.event()
            self.world.check()
        finish_all(self.world, self.operator)

    # What happens.

    def on_plan(self) -> None:
        """A plan begins; now and then under a name that was given before."""
        if not self.controller.is_open:
            return
        if self.begun and self.chance(0.05):
            outcome = self.world.do(self.dice.choice(self.begun))
            self.world.coverage["a forgotten name"] += outcome.has_changed
            return
        self.plans += 1
        maker = PlanMaker(self.controller, self.dice, self.profile == "hands")
        begin = self.swap(maker) if self.profile == "swaps" and self.chance(0.5) else None
        begin = begin or maker.make(f"plan-{self.plans}")
        if begin and self.world.do(begin).has_changed:
            self.begun.append(begin)

    def swap(self, maker: PlanMaker) -> driving.Begin | None:
        """The primary of a shard and a secondary change their roles."""
        shard = self.dice.choice(list(self.world.shards))
        lead, secondaries = maker.record.lead(shard), maker.free(shard, SECONDARY)
        crown = maker.record.crown(shard)
        if lead.stage is not Stage.AT or not secondaries or CrownRight(shard) in maker.held:
            return None
        maker.swap(shard, lead.owner, self.dice.choice(secondaries), {CrownRight(shard): crown})
        return driving.Begin(f"plan-{self.plans}", Plan(tuple(maker.streams), ()))

    def on_work(self) -> None:
        """Work at some server is done, or given up."""
        work = [(host, it) for host in self.world.hosts if host.answers for it in host.workers]
        if not work:
            return
        host, order = self.dice.choice(work)
        if self.chance(0.3 if "drops" in self.profile else 0.12):
            self.world.give_up(host)
        else:
            if self.chance(0.4):
                self.world.ask(host, order.shard)
            self.world.work(host, order)

    def on_ask_others(self) -> None:
        """A server asks others what its shard's work needs."""
        asking = [
            (host, shard) for host in self.world.hosts if host.answers and host.server.is_known
            for shard in self.world.shards if self.world.asks_for(host, shard)
        ]
        if asking:
            self.world.ask(*self.dice.choice(asking))

    def on_acknowledge(self) -> None:
        """Writes are acknowledged, and copies asked for again; a primary's word of it comes, or an old one."""
        shard, copied = self.dice.randrange(len(self.world.shards)), self.world.network.copied
        self.world.raise_copies(shard)
        if copied and self.dice.random() < 0.6:
            self.world.coverage["copied"] += self.world.do(self.pick(copied, 5)).has_changed
        self.world.acknowledge(shard)

    def on_read(self) -> None:
        """A client reads."""
        self.world.read(self.dice.choice(self.world.hosts), self.dice.randrange(len(self.world.shards)))

    def on_stream_lost(self) -> None:
        """A follower's stream is lost: it has to copy anew."""
        host, shard = self.dice.choice(self.world.hosts), self.dice.randrange(len(self.world.shards))
        if host.cell(shard) == SECONDARY and host.has_copy(shard):
            host.at[shard].has_lost_stream = True

    # Several events at once, for schedules that are about how many copies are kept.

    def on_fail_over(self) -> None:
        """A server is lost, or loses something; a reopening begins or goes on, as far as it comes."""
        world = self.world
        if self.controller.reopening is None or self.chance(0.2):
            primaries = [it for it in world.hosts if it.cell(0) == PRIMARY and it.answers]
            host = self.dice.choice(primaries if primaries and self.chance(0.6) else world.hosts)
            draw = self.dice.random()
            if host.answers and draw < 0.5 and self.may_be_lost():
                world.lose(host, is_for_good=True)
            elif host.answers and draw < 0.75:
                world.lose(host, keeps_data=self.chance(0.4))
            self.operator.reopen(is_plain=self.chance(0.6))
        self.drive_reopening()

    def drive_reopening(self) -> None:
        """A reopening goes on, as far as it comes."""
        world = self.world
        for _ in range(self.dice.choice([6, 20, 40])):
            messages = self.controller.outgoing()
            if self.controller.reopening is None or not messages:
                return
            world.deliver(self.dice.choice(messages))
            self.go_on_reopening()
            world.check()

    def on_two_faults(self) -> None:
        """Some secondary has a write with the primary, and loses something or goes down by leave; then the primary is
        lost, or it loses its disk while a reopening asks the others. The dice of the built form."""
        world = self.world
        self.on_catch_up()
        primary = next((it for it in world.hosts if it.cell(0) == PRIMARY and it.answers), None)
        others = [it for it in world.hosts if it.cell(0) == SECONDARY and it.answers]
        if not self.controller.is_open or primary is None or not others:
            return
        self.write_with(primary, self.dice.choice(others))
        is_late = self.chance(0.25)
        if is_late:
            self.operator.reopen(is_plain=True)
            for fence in self.controller.fences():
                if fence.server != primary.number:
                    world.deliver(fence)
            self.write_with(primary, self.dice.choice(others))
        else:
            self.fail_partly(self.dice.choice(others))
        world.lose(primary, is_for_good=not is_late and self.may_be_lost())
        if not is_late:
            self.operator.reopen(is_plain=True)
        self.drive_reopening()

    def write_with(self, primary: Host, other: Host) -> None:
        """The primary executes a write, which comes to one secondary, and is acknowledged if that is enough."""
        world = self.world
        world.request(primary, world.writes.new_write(0))
        for write in list(primary.running):
            world.finish(primary, write)
        primary.copy(0).flush()
        if other.copy(0).is_whole:
            world.follow_one(other, primary, 0)
            other.copy(0).flush()
        world.tell(0, world.row(0))
        for word in world.words[-4:]:
            world.hear_word(word)
        world.acknowledge(0)
        world.check()

    def fail_partly(self, host: Host) -> None:
        """A server loses its slots, or its disk, and may be restored with nothing; or goes down by leave; or nothing
        happens to it."""
        world, draw = self.world, self.dice.random()
        if draw < 0.5:
            world.lose(host, keeps_data=draw < 0.1)
            self.ask(host)
            for message in self.controller.outgoing() if draw < 0.35 else ():
                if isinstance(message, Restore) and message.server == host.number:
                    world.deliver(message)
        elif draw < 0.75:
            self.bys += 1
            if world.do(driving.Approve(host.number, f"by-{self.bys}")).has_changed:
                world.crash(host)
                world.away.add(host.number)
        world.check()

    def on_catch_up(self) -> None:
        """Servers get their slots and writes, the primary says what it may, servers that were given up come back."""
        world = self.world
        for host in world.hosts:
            if host.is_lost and self.chance(0.3):
                self.come_back_as_new(host, 0)
            if host.answers and not host.server.is_known:
                self.ask(host)
        sent = [it for it in self.controller.outgoing() if not isinstance(it, Order)]
        for message in sent:
            world.deliver(message)
        for _ in range(self.dice.choice([2, 6])):
            world.follow(0)
            if self.chance(0.5):
                self.on_request()
            self.on_acknowledge()
            world.check()

    # Restarts and faults.

    def on_restart(self) -> None:
        """A server that is recorded down goes down, comes back, or is called up; or an old end of a restart comes."""
        permits = self.controller.record.permits if self.controller.record else {}
        if not permits or self.chance(0.3):
            if self.restarted and self.chance(0.5):
                self.end_restart(self.pick(self.restarted, 3))
            return
        number = self.dice.choice(sorted(permits))
        host, away = self.world.hosts[number], self.world.away
        if host.is_lost or (self.profile == "carry" and not host.is_alive and self.chance(0.6)):
            return
        draw = self.dice.random()
        if draw < 0.3 and host.is_alive and number not in away:
            self.world.say("server", number, "goes down by leave")
            self.world.crash(host)
            away.add(number)
        elif draw < 0.6 and not host.is_alive:
            self.come_back(host, forgets=self.chance(0.6))
        elif host.hears_controller:
            self.restarted.append(host.restarted(permits[number]))
            self.end_restart(self.restarted[-1])

    def come_back(self, host: Host, forgets: bool) -> None:
        """A server starts, with or without its slots."""
        host.start()
        self.world.say("server", host.number, "comes back", "without slots" if forgets else "")
        if forgets:
            self.world.lose(host, keeps_data=self.rare.random() < 0.4)

    def on_fault(self) -> None:
        """A server crashes, forgets, is lost for good, or comes back; or a stray fence comes."""
        host, draw = self.dice.choice(self.world.hosts), self.dice.random()
        if host.is_cut_off:
            self.world.reconnect(host)
        elif host.is_lost:
            self.come_back_as_new(host, draw)
        elif not host.is_alive and host.number not in self.world.away:
            self.come_back(host, forgets=False)
        elif host.is_alive and draw < 0.45:
            self.world.coverage["crashed at work"] += bool(host.workers)
            self.world.say("server", host.number, "crashes")
            self.world.crash(host)
        elif draw < 0.45 + self.chances.forget:
            self.world.coverage["forgot"] += 1
            self.world.lose(host, keeps_data=self.rare.random() < 0.3)
            host.is_alive = True
        elif draw < 0.45 + self.chances.forget + self.chances.lose and self.may_be_lost():
            self.world.coverage["lost for good"] += 1
            self.world.lose(host, is_for_good=True)
        elif draw > (0.9 if self.profile == "doubt" else 0.98) and host.is_alive and host.server.is_known:
            (self.world.lose if self.rules.is_built else self.world.go_back)(host)
        elif 0.95 < draw < 0.97 and host.is_up and host.follows_alone:
            self.world.say("server", host.number, "is cut off from the controller")
            self.world.coverage["cut off"] += 1
            host.is_cut_off = True
        elif draw > 0.97 and self.rules.journal_named and not (self.rules.is_built and host.server.is_known):
            stray = Fence(host.number, host.server.base + (1 << 21) * BASE_STEP, 77)
            self.world.deliver(stray if host.server.is_known else Fence(host.number, 1, 77))

    def come_back_as_new(self, host: Host, draw: float) -> None:
        """A server that was given up comes back, with its data or without."""
        record = self.controller.record
        is_known = record is not None and host.number in record.document.servers
        often = 0.9 if self.profile in ("back", "views") else 0.3
        if draw >= often or host.number not in self.world.given_up or is_known:
            return
        host.is_lost, host.is_alive = False, True
        self.world.forget(host)
        if self.rare.random() < 0.4:
            for replica in host.at:
                replica.copy.clear()
                replica.aside = set()
        self.world.say("server", host.number, "comes back as a new one")


@dataclass(frozen=True, slots=True)
class Found:
    """What came of a schedule: the law that it broke, if any, and how many events it had."""

    seed: int
    events: int
    violation: Violation | None
    schedule: Schedule


def run_schedule(seed: int, rules: Rules, steps: int, profile: str = "", keeps_trace: bool = False) -> Found:
    """Runs the schedule of a seed."""
    schedule = Schedule(seed, rules, steps, profile, keeps_trace)
    try:
        schedule.run()
    except Violation as violation:
        return Found(seed, schedule.events, violation, schedule)
    return Found(seed, schedule.events, None, schedule)
