"""Leases: a server that is given up may be out of reach of controllers and of other servers, and clients come to it all the same. With a lease it
serves for so long, by its own clock, since it asked a controller that answered; who gives it up waits for longer before anything is confirmed.

All that is known of clocks is that none runs more than CLOCKS times as fast as another one: a premise."""
from __future__ import annotations

import random

from .cells import ABSENT, Cell, PRIMARY, SECONDARY
from .clients import Write
from .play import Play
from .rules import Rules

# The time of a lease, and how many times as fast as another clock one runs at most.
LEASE, CLOCKS = 10.0, 1.1
A_SHARD = (PRIMARY, SECONDARY, ABSENT)


class LeasePlay(Play):
    """A shard whose primary, server 0, goes apart. `fast` is how many times as fast as its clock that of the controller runs."""

    def __init__(self, rules: Rules, fast: float = 1.0, row: tuple[Cell, ...] = A_SHARD) -> None:
        super().__init__(rules, row, want=2)
        self.rules, self.fast = rules, fast
        # By the clock of the server, the present, and since when its lease counts.
        self.now = self.since = 0.0
        self.given_up_at = 0.0

    @property
    def host(self):
        """The server that goes apart."""
        return self.world.hosts[0]

    def pass_time(self, seconds: float) -> None:
        """Time goes by."""
        self.now += seconds
        self.world.say(seconds, "seconds go by")
        self.look()

    def look(self) -> None:
        """The server knows whether its lease is over."""
        self.host.is_over = self.rules.lease_ends and self.now - self.since >= LEASE
        self.world.check()

    def answer(self, asked: float) -> None:
        """What a controller answers comes to the server, which asked at some moment."""
        self.since = max(self.since, asked if self.rules.lease_from_asking else self.now)
        self.world.say("a controller's answer comes")
        self.look()

    def go_apart(self) -> None:
        """Nobody but clients reaches the server any longer."""
        self.host.is_apart, self.world.are_floors_excused = True, True
        self.world.say("server 0 is out of reach")

    def give_up(self) -> None:
        """A reopening begins that gives the server up; no controller answers it from then on. The others tell what they have."""
        self.reopen(frozenset({1, 2}), frozenset({0}))
        self.given_up_at = self.now
        self.turn()

    def wait(self) -> None:
        """Who gave the server up waits, by its own clock, for as long as the lease takes by the slowest one."""
        if self.rules.lease_waited:
            left = LEASE * CLOCKS - (self.now - self.given_up_at) * self.fast
            self.pass_time(max(0.0, left / self.fast))

    def go_on(self) -> None:
        """The reopening comes to its end, and a client goes to each server."""
        self.confirm(ABSENT, PRIMARY, ABSENT)
        self.turn()
        for server in (0, 1):
            self.request(server, Write(0, 7 + server))
        self.world.check()


def given_up_while_it_serves(rules: Rules) -> None:
    """A primary is out of reach and given up, and clients go on to use it; its clock is as slow as may be."""
    play = LeasePlay(rules, fast=CLOCKS)
    play.go_apart()
    play.give_up()
    play.wait()
    play.go_on()


def answer_that_comes_late(rules: Rules) -> None:
    """A controller answers a server, which is out of reach and given up then; the answer was on its way for long."""
    play = LeasePlay(rules)
    play.pass_time(0.5 * LEASE)
    asked = play.now
    play.give_up()
    play.pass_time(0.9 * LEASE)
    play.answer(asked)
    play.go_apart()
    play.wait()
    play.go_on()


def random_play(seed: int, rules: Rules, clocks: float = CLOCKS) -> None:
    """A play with dice: answers that come late, or never, before and while the server is given up."""
    dice = random.Random(seed)
    play = LeasePlay(rules, fast=dice.uniform(1 / clocks, clocks))
    asked: list[float] = []
    for _ in range(dice.randint(0, 12)):
        play.pass_time(dice.uniform(0.0, 0.3 * LEASE))
        if dice.random() < 0.6:
            asked.append(play.now)
        if asked and dice.random() < 0.5:
            play.answer(asked.pop(dice.randrange(len(asked))))
    if dice.random() < 0.5:
        play.go_apart()
    play.give_up()
    for _ in range(dice.randint(0, 4)):
        play.pass_time(dice.uniform(0.0, 0.5 * LEASE))
        if asked and dice.random() < 0.5:
            play.answer(asked.pop())
    play.go_apart()
    play.wait()
    play.go_on()
