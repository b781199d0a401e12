"""Random schedules: weights say what happens next, laws are looked at after each event, and a fair end follows."""
from __future__ import annotations

import random
from dataclasses import dataclass, replace
from typing import Any

from . import commands, replies
from .clients import Write
from .controller import Controller
from .fair import finish_all
from .generator import PlanMaker, random_document
from .laws import Violation
from .messages import Restore
from .operations import Operator
from .rules import Rules
from .server import Pass, Server
from .world import Host, World

WEIGHTS = {
    "plan": 0.06, "deliver": 0.30, "work": 0.10, "answer": 0.14, "approve": 0.03, "restart": 0.05, "ask": 0.03,
    "request": 0.09, "finish": 0.04, "follow": 0.04, "acknowledge": 0.02, "seal": 0.025, "fault": 0.05, "epoch": 0.035,
}
# How much more often something happens in a schedule that is about handovers, restarts, and so on.
PROFILES: dict[str, dict[str, float]] = {
    "any": {},
    "hands": {"fault": 0, "request": 2, "epoch": 3, "restart": 0, "approve": 0},
    "restarts": {"fault": 0, "approve": 4, "restart": 4, "plan": 0.5},
    "carry": {"approve": 4, "restart": 1.5, "epoch": 3, "plan": 0.6, "fault": 1.5},
    "forget": {"fault": 1.5, "epoch": 2, "ask": 2},
}
USUAL = ["any", "any", "any", "hands", "restarts", "carry", "forget"]


@dataclass(slots=True)
class Chances:
    """How likely it is, at an event of its kind, that an epoch ends at rest or by a reopening, and so on."""

    new_epoch: float
    reopen: float
    go_on: float
    present: float
    replace: float
    forget: float
    lose: float

    @staticmethod
    def drawn(dice: random.Random, profile: str) -> "Chances":
        """Chances that differ from schedule to schedule."""
        chances = Chances(
            new_epoch=dice.choice([0.1, 0.25, 0.6]), reopen=dice.choice([0, 0.05, 0.15, 0.3]),
            go_on=dice.choice([0.15, 0.3, 0.5]), present=dice.choice([0.35, 0.65, 0.65, 0.85]),
            replace=dice.choice([0.01, 0.03, 0.1]), forget=0.08, lose=0.04,
        )
        if profile == "hands":
            chances = replace(chances, new_epoch=0.7, reopen=dice.choice([0, 0.05]))
        elif profile == "restarts":
            chances = replace(chances, reopen=0)
        elif profile == "carry":
            chances = replace(chances, new_epoch=0.1, reopen=0.12, replace=dice.choice([0.01, 0.03, 0.06]), lose=0.12)
        elif profile == "forget":
            chances = replace(chances, new_epoch=0.1, reopen=dice.choice([0.1, 0.3]), present=dice.choice([0.35, 0.5]))
            chances = replace(chances, forget=0.3, lose=0.03)
        return chances


class Schedule:
    """One random schedule, which its seed determines."""

    def __init__(self, seed: int, rules: Rules, steps: int, profile: str = "", keeps_trace: bool = False) -> None:
        self.dice = random.Random(seed)
        self.rules, self.steps = rules, steps
        self.profile = profile or self.dice.choice(USUAL)
        document = random_document(self.dice)
        self.weights = self.drawn_weights()
        self.chances = Chances.drawn(self.dice, self.profile)
        self.world = World(document, rules, seed, keeps_trace)
        self.operator = Operator(self.world, self.dice)
        self.rare = random.Random(seed)
        self.plans = self.bys = self.events = 0
        self.restarted: list[commands.Restarted] = []
        self.begun: list[commands.Begin] = []
        self.kinds = list(WEIGHTS)

    def drawn_weights(self) -> list[float]:
        """The weights of the kinds of events, each somewhat more or less."""
        more = PROFILES[self.profile]
        weights = []
        for kind, weight in WEIGHTS.items():
            often = [0, 0, 0.3, 1, 1, 2] if kind == "fault" and self.profile == "any" else [0.5, 1, 1, 2]
            weights.append(weight * more.get(kind, 1) * self.dice.choice(often))
        return weights

    def run(self) -> None:
        """Makes all events, and then what is fair until all is done."""
        for _ in range(self.steps):
            self.event()
            self.world.check()
        finish_all(self.world, self.operator)

    # What happens.

    @property
    def controller(self) -> Controller:
        """The controller."""
        return self.world.controller

    def chance(self, probability: float) -> bool:
        """Is true with this probability."""
        return self.dice.random() < probability

    def pick(self, items: list[Any], near: int = 6, probability: float = 0.7) -> Any:
        """One of the newest items, or any."""
        return self.dice.choice(items[-near:] if self.chance(probability) else items)

    def event(self) -> None:
        """Makes one event."""
        self.events += 1
        kind = self.dice.choices(self.kinds, self.weights)[0]
        getattr(self, f"on_{kind}")()
        is_reopening = self.controller.reopening is not None
        if (is_reopening or self.world.network.inventories.items) and self.chance(
            self.chances.go_on if is_reopening else 0.02
        ):
            self.go_on_reopening()

    def on_plan(self) -> None:
        """A plan begins; now and then under a name that was given before."""
        if not self.controller.is_open:
            return
        if self.begun and self.chance(0.05):
            outcome = self.world.do(self.dice.choice(self.begun))
            if outcome.has_changed:
                self.world.coverage["a forgotten name"] += 1
            return
        self.plans += 1
        begin = PlanMaker(self.controller, self.dice, self.profile == "hands").make(f"plan-{self.plans}")
        if begin and self.world.do(begin).has_changed:
            self.begun.append(begin)

    def on_deliver(self) -> None:
        """A message comes, a present one or any that was ever sent."""
        sent = self.world.network.messages
        present = self.controller.outgoing() if self.chance(self.chances.present) else []
        message = self.dice.choice(present or sent.items)
        if message in sent.known:
            self.world.deliver(message, is_eager=self.chance(0.5))

    def on_work(self) -> None:
        """Work at some server is done, or given up."""
        work = [(host, it) for host in self.world.hosts if host.answers for it in host.workers]
        if not work:
            return
        host, order = self.dice.choice(work)
        if self.chance(0.12):
            host.server.abandon()
        else:
            self.world.work(host, order)

    def on_answer(self) -> None:
        """An answer comes to the controller."""
        answers = self.world.network.answers.items
        if answers:
            self.world.do(self.pick(answers, 4, 0.8))

    def on_approve(self) -> None:
        """Somebody asks for leave to restart a server; now and then under a `by` that was given before."""
        server = self.dice.randrange(len(self.world.hosts))
        self.bys += self.chance(0.8)
        outcome = self.world.do(commands.Approve(server, f"by-{self.bys}"))
        self.world.coverage["approved"] += outcome.has_changed

    def on_ask(self) -> None:
        """A server without slots asks for them, or what was asked comes late or again."""
        asks = self.world.network.asks.items
        if asks and self.rules.restore_whole_journal and self.rare.random() < 0.3:
            late = self.rare.choice(asks)
            self.world.coverage["a late ask"] += self.world.hosts[late.server].server.nonce != late.nonce
            self.world.do(late)
        self.ask(self.dice.choice(self.world.hosts))

    def ask(self, host: Host) -> None:
        """A server asks for its slots, if it has none. What it asks may come now, or later."""
        if not host.answers or host.server.is_known:
            return
        if self.rules.restore_whole_journal:
            self.world.network.asks.add(host.ask())
            if self.rare.random() < 0.8:
                self.world.do(host.ask())
            return
        restore = self.unrecorded_restore(host.server)
        if restore:
            self.world.network.send([restore])

    def unrecorded_restore(self, server: Server) -> Restore | None:
        """What a controller with a beginning of the journal tells, if it does not make an entry of it."""
        controller = self.controller
        if self.chance(0.5):
            controller = self.world.replay(self.dice.randrange(1, len(self.world.journal) + 1))
        if not controller.is_open or server.number not in controller.record.document.servers:
            return None
        is_engaged = controller.record.engaging(server.number)
        return None if is_engaged else controller.restore_of(server.number, server.nonce)

    def on_request(self) -> None:
        """A client's request comes to a server, and one that was passed on."""
        world, shard = self.world, self.dice.randrange(len(self.world.shards))
        if self.chance(0.7) or not world.writes.requests:
            write = world.writes.new_write(shard)
        else:
            write = self.pick(world.writes.requests, 5)
        named = world.map_owner.entries[write.shard].server
        number = named if named is not None and self.chance(0.6) else self.dice.randrange(len(world.hosts))
        self.request(world.hosts[number], write)
        if world.writes.passed:
            it = self.pick(world.writes.passed, 3, 0.5)
            self.request(world.hosts[it.passed.to], it.write, it.passed)

    def request(self, host: Host, write: Write, passed: Pass | None = None) -> None:
        """A request comes, and may be executed at once."""
        was_running = len(host.running)
        self.world.request(host, write, passed)
        if len(host.running) > was_running and self.chance(0.5):
            self.world.finish(host, write)

    def on_finish(self) -> None:
        """A request that runs ends."""
        running = [(host, it) for host in self.world.hosts if host.answers for it in host.running]
        if running:
            self.world.finish(*self.dice.choice(running))

    def on_follow(self) -> None:
        """Writes come to those that follow."""
        self.world.follow(self.dice.randrange(len(self.world.shards)))

    def on_acknowledge(self) -> None:
        """Writes are acknowledged."""
        self.world.acknowledge(self.dice.randrange(len(self.world.shards)))

    def on_seal(self) -> None:
        """The end of an old owner's writes comes."""
        if self.world.writes.seals:
            self.world.deliver_seal(self.pick(self.world.writes.seals, 2))

    # Restarts and faults.

    def on_restart(self) -> None:
        """A server that is recorded down goes down, comes back, or is called up; or an old end of a restart comes."""
        permits = self.controller.record.permits if self.controller.record else {}
        if not permits or self.chance(0.3):
            if self.restarted and self.chance(0.5):
                self.end_restart(self.pick(self.restarted, 3))
            return
        number = self.dice.choice(sorted(permits))
        host, away = self.world.hosts[number], self.world.away
        if host.is_lost or (self.profile == "carry" and not host.is_alive and self.chance(0.6)):
            return
        draw = self.dice.random()
        if draw < 0.3 and host.is_alive and number not in away:
            host.is_alive = False
            host.stop()
            away.add(number)
            self.world.say("server", number, "goes down by leave")
        elif draw < 0.6 and not host.is_alive:
            self.come_back(host, forgets=self.chance(0.6))
        elif number in away and host.is_alive:
            self.restarted.append(host.restarted(permits[number]))
            self.end_restart(self.restarted[-1])

    def end_restart(self, command: commands.Restarted) -> None:
        """Says that a restart has ended. Who is recorded up then is no longer away."""
        reply = self.world.do(command).reply
        if isinstance(reply, replies.Up):
            self.world.away.discard(reply.server)

    def come_back(self, host: Host, forgets: bool) -> None:
        """A server starts, with or without its slots."""
        host.start()
        self.world.say("server", host.number, "comes back", "without slots" if forgets else "")
        if forgets:
            self.world.lose(host)

    def on_fault(self) -> None:
        """A server crashes, forgets, is lost for good, or comes back."""
        host, draw = self.dice.choice(self.world.hosts), self.dice.random()
        record = self.controller.record
        if host.is_lost:
            is_known = record is not None and host.number in record.document.servers
            if draw < 0.3 and host.number in self.world.given_up and not is_known:
                host.is_lost, host.is_alive = False, True
                host.server.forget()
                self.world.say("server", host.number, "comes back as a new one")
        elif not host.is_alive and host.number not in self.world.away:
            self.come_back(host, forgets=False)
        elif host.is_alive and draw < 0.45:
            self.world.coverage["crashed at work"] += bool(host.workers)
            host.is_alive = False
            host.stop()
            self.world.say("server", host.number, "crashes")
        elif draw < 0.45 + self.chances.forget:
            self.world.coverage["forgot"] += 1
            self.world.lose(host)
            host.is_alive = True
        elif draw < 0.45 + self.chances.forget + self.chances.lose and self.may_be_lost():
            self.world.coverage["lost for good"] += 1
            self.world.lose(host, is_for_good=True)

    def may_be_lost(self) -> bool:
        """One more server may be lost."""
        return sum(it.is_lost for it in self.world.hosts) < (1 if len(self.world.hosts) == 3 else 2)

    # Epochs.

    def on_epoch(self) -> None:
        """An epoch ends, a journal is replaced, or a controller comes back from a beginning of the journal."""
        draw, chances, rules = self.dice.random(), self.chances, self.rules
        reopen = 0.35 if any(it.is_lost for it in self.world.hosts) else chances.reopen
        adopts = 1.0 if not rules.journal_named and not self.operator.has_new_journal else 0.2
        if draw < chances.new_epoch:
            self.world.do(commands.NewEpoch())
        elif draw < chances.new_epoch + reopen:
            self.operator.reopen()
        elif draw < chances.new_epoch + 0.45 and self.chance(0.3) and self.chance(adopts):
            self.operator.adopt()
        elif self.world.journal and rules.publication_awaited and rules.settles_awaited and self.chance(0.35):
            length = self.dice.randrange(1, len(self.world.journal) + 1)
            if length <= 250:
                self.world.check_replay(length)

    def go_on_reopening(self) -> None:
        """Answers of a reopening come, it is confirmed, or another one replaces it."""
        network = self.world.network
        if network.inventories.items and self.chance(0.6):
            self.world.do(self.pick(network.inventories.items, 6, 0.8))
        elif network.settlements.items and self.chance(0.7):
            self.world.do(self.pick(network.settlements.items, 6, 0.8))
        reopening = self.controller.reopening
        if reopening and not reopening.settles and (not reopening.missing or self.chance(0.2)):
            self.operator.confirm()
        if self.controller.reopening and self.chance(self.chances.replace):
            self.operator.reopen()


@dataclass(frozen=True, slots=True)
class Found:
    """What came of a schedule: the law that it broke, if any, and how many events it had."""

    seed: int
    events: int
    violation: Violation | None
    schedule: Schedule


def run_schedule(seed: int, rules: Rules, steps: int, profile: str = "", keeps_trace: bool = False) -> Found:
    """Runs the schedule of a seed."""
    schedule = Schedule(seed, rules, steps, profile, keeps_trace)
    try:
        schedule.run()
    except Violation as violation:
        return Found(seed, schedule.events, violation, schedule)
    return Found(seed, schedule.events, None, schedule)
