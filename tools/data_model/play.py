"""A play by hand over data: one shard at three servers, of which each message is delivered when the play says so."""
from __future__ import annotations

import random
from collections.abc import Iterable
from dataclasses import replace
from typing import Any

from driving_model import play as base
from driving_model.cells import ABSENT, Cell, GONE, Kind, Lead, PRIMARY, SECONDARY, Stage
from driving_model.clients import Write
from driving_model.commands import Approve, Reopen
from driving_model.messages import Message, Order, Publication, Restore
from driving_model.plans import CellRight, Crown, CrownRight, RoomRight, SpareRight, add, change, drop, unlist
from driving_model.replies import Approved, Reply

from .commands import Confirm, Document
from .fair import finish_all
from .host import Host
from .messages import Answer, Question
from .operations import Operator
from .reopening import Reopening
from .rules import Rules
from .world import World

Row = tuple[Cell, ...]
ALL, TWO, ALONE = (PRIMARY, SECONDARY, SECONDARY), (PRIMARY, SECONDARY, ABSENT), (PRIMARY, ABSENT, ABSENT)


class Whole(random.Random):
    """Dice by which a copy gets all at once, and a crash takes all that it may."""

    def choice(self, items: Any) -> Any:
        """The first."""
        return items[0]

    def random(self) -> float:
        """As low as can be."""
        return 0.0


class Play(base.Play):
    """One shard at three servers, moved by hand; `beside` it another one that is only there."""

    document: Document
    world: World

    def __init__(
        self, rules: Rules, row: Row, want: int, cap: int | None = None, copies: int | None = None,
        beside: tuple[Row, ...] = (),
    ) -> None:
        missing = want - 1 if cap is None else cap
        servers, others = frozenset(range(len(row))), (1,) * len(beside)
        self.document = Document(
            servers, rooms=(9,) * len(row), loads=(1, *others), wants=(want, *others), caps=(missing, *others), limit=2,
            cells=(row, *beside), copies=(copies, *others),
        )
        self.world = World(self.document, rules, keeps_trace=True)
        self.plans = 0

    def host(self, server: int) -> Host:
        """A server with its service."""
        return self.world.hosts[server]

    # What happens to copies.

    def turn(self, silent: frozenset[int] = frozenset(), copies: bool = True) -> None:
        """All that may be sent comes, but to silent servers; writes follow; servers ask; answers come to the
        controller."""
        world = self.world
        for message in self.controller.outgoing():
            if isinstance(message, (Order, Publication)) or message.server not in silent:
                self.deliver(message)
        for _ in range(9 if copies else 0):
            world.follow(0)
        for seal in world.writes.seals:
            world.deliver_seal(seal)
        self.tell_all()
        self.work(world.hosts)
        self.take_answers()

    def work(self, hosts: Iterable[Host]) -> None:
        """Servers ask what they have to, and their work is done if it may be."""
        for host in hosts:
            for _ in range(9):
                self.world.ask(host, 0)
            for order in list(host.workers):
                self.world.work(host, order)
                self.world.check()

    def step(self, *servers: int) -> None:
        """Orders come to these servers, or to all, and are worked on; nothing is copied."""
        for message in self.controller.outgoing():
            if not servers or getattr(message, "server", servers[0]) in servers:
                self.deliver(message)
        self.tell_all()
        self.work(self.world.hosts)
        self.take_answers()

    def step_of_plan(self, plan: int) -> None:
        """The orders of one plan come, and are worked on; nothing is copied."""
        self.tell_all()
        for message in self.controller.orders():
            if message.plan == plan:
                self.deliver(message)
                self.work([self.host(message.server)] if isinstance(message, Order) else [])
        for answer in list(self.world.network.answers.items):
            if answer.plan == plan:
                self.do(answer)

    def tell_all(self) -> None:
        """All that there is becomes durable, and is told."""
        for host in self.world.hosts:
            host.copy(0).flush()
        self.world.words.clear()
        self.world.tell(0, self.world.row(0))
        for word in list(self.world.words):
            self.world.hear_word(word)

    def copy(self, to: int, source: int, most: int | None = None) -> None:
        """A copy is brought up to its source, or a part of one is made anew."""
        sent = self.host(source).copy(0).sent(self.world.rules.durable_first)
        if most is None:
            self.follow(to, source, sent.position)
        else:
            self.host(to).copy(0).make_anew(sent, most)

    def follow(self, to: int, source: int, most: int) -> None:
        """A copy gets its source's writes up to a position."""
        rules, copy = self.world.rules, self.host(to).copy(0)
        sent = self.host(source).copy(0).sent(rules.durable_first)
        copy.take(sent, most, rules.views_resumed, rules.lesser_waits, rules.anew_beside, rules.views_in_turn)

    def execute(self, server: int, identity: int) -> None:
        """A server executes a write; it is not durable yet."""
        write, copy = Write(0, identity), self.host(server).copy(0)
        before = copy.durable
        self.request(server, write)
        self.world.finish(self.host(server), write)
        copy.durable = before

    def write(self, identity: int, copies: tuple[int, ...], primary: int = 0) -> None:
        """The primary executes a write, which comes to these servers and is acknowledged if they are enough."""
        self.execute(primary, identity)
        self.host(primary).copy(0).flush()
        for server in copies:
            self.copy(server, primary)
        self.tell_all()
        self.acknowledge()

    def acknowledge(self) -> None:
        """What may be acknowledged is."""
        self.world.acknowledge(0)
        self.world.check()

    def raise_copies(self) -> None:
        """What the primary is told of their number comes, and it asks for all copies again if it may."""
        for lower in self.controller.lowers():
            self.deliver(lower)
        self.tell_all()
        self.world.raise_copies(0)

    def lose(self, server: int) -> None:
        """A server is lost for good."""
        self.world.lose(self.host(server), is_for_good=True)

    def come_back(self, server: int, *, with_data: bool = True) -> None:
        """A server that was given up comes back, Unknown, with its data or without."""
        host = self.host(server)
        host.is_lost, host.is_alive = False, True
        self.world.forget(host)
        if not with_data:
            host.copy(0).clear()

    def crash(self, server: int) -> None:
        """A server crashes, loses all that it may, and starts."""
        dice, self.world.dice = self.world.dice, Whole()
        self.world.crash(self.host(server))
        self.world.dice = dice
        self.host(server).start()

    def restore(self, server: int) -> Reply:
        """A server asks for its slots, and gets them."""
        reply = self.do(self.host(server).ask())
        for restore in self.sent_to(server, Restore)[-1:]:
            self.deliver(restore)
        return reply

    # The controller.

    def approve(self, server: int) -> int:
        """A server is approved to go down. Returns the permit."""
        self.plans += 1
        reply = self.do(Approve(server, f"by-{self.plans}"))
        assert isinstance(reply, Approved), reply
        return reply.permit

    def reopening(
        self, lost: set[int], row: Row, silent: frozenset[int] = frozenset(), down: frozenset[int] = frozenset()
    ) -> Reopening:
        """A reopening up to its proposal; the document has this row."""
        servers = self.document.servers - lost
        document = replace(self.document, servers=servers, cells=(row,), down=down)
        self.do(Reopen(document, frozenset(lost)))
        for message in self.controller.outgoing():
            if message.server not in silent:
                self.deliver(message)
        self.take_inventories()
        return self.controller.reopening

    def reopen(self, servers: frozenset[int] | None = None, lost: frozenset[int] = frozenset()) -> None:
        """A reopening begins, with a document that knows of no replicas."""
        nothing = (ABSENT,) * len(self.document.rooms)
        document = replace(self.document, servers=servers or self.document.servers, cells=(nothing,))
        self.do(Reopen(document, lost))

    def confirm(self, *row: Cell, lost: frozenset[int] | None = None, copies: int | None = None) -> Reply:
        """These cells are confirmed, or the proposal if none are named; what it may lose is named."""
        reopening = self.controller.reopening
        named = frozenset(reopening.propose().lost) if lost is None else lost
        return self.do(Confirm(reopening.base, (row,) if row else None, named, (copies,)))

    def settle(self, silent: frozenset[int] = frozenset()) -> None:
        """The proposal is confirmed, and taken by all."""
        self.confirm()
        for _ in range(3):
            for message in self.controller.outgoing():
                if message.server not in silent:
                    self.deliver(message)
            self.take_answers()

    def fail_over(self, lost: int, row: Row) -> None:
        """A server is lost for good, and a reopening goes on without it."""
        self.lose(lost)
        self.reopening({lost}, row)
        self.settle()

    # Plans.

    def drop(self, server: int) -> None:
        """A secondary is to be dropped."""
        self.begin((drop(0, server),), (CellRight(0, server), SECONDARY), (SpareRight(0), 1))

    def drop_primary(self, server: int = 0) -> None:
        """The primary is to be dropped."""
        crown = Crown(Lead(Stage.AT, server), server)
        self.begin((unlist(0), drop(0, server)), (CrownRight(0), crown), (SpareRight(0), 1))

    def change_to_secondary(self, server: int = 0) -> None:
        """The primary is to become a secondary."""
        crown = Crown(Lead(Stage.AT, server), server)
        self.begin((unlist(0), change(0, server, Kind.SECONDARY)), (CrownRight(0), crown))

    def change_to_primary(self, server: int) -> None:
        """A secondary is to become primary."""
        rights = (CrownRight(0), Crown(GONE, None)), (CellRight(0, server), SECONDARY)
        self.begin((change(0, server, Kind.PRIMARY),), *rights)

    def add_secondary(self, server: int) -> None:
        """A secondary is to be added."""
        self.begin((add(0, server, Kind.SECONDARY),), (CellRight(0, server), ABSENT), (RoomRight(server), 1))

    def move_secondary(self, old: int, new: int) -> None:
        """A secondary is to be added, and then another one dropped."""
        rights = (CellRight(0, new), ABSENT), (RoomRight(new), 1), (CellRight(0, old), SECONDARY)
        self.begin((add(0, new, Kind.SECONDARY), drop(0, old)), *rights)

    def deliver_orders(self) -> None:
        """Orders come, and are at work."""
        for order in self.controller.orders():
            self.world.deliver(order)

    # Questions by hand.

    def question(self, by: int, to: int) -> Question:
        """A server asks another one; the question is on its way."""
        self.world.questions.clear()
        self.world.ask_one(self.host(by), 0, to)
        return self.world.questions.pop()

    def answer(self, question: Question) -> Answer | None:
        """A question comes. Returns what is answered, on its way."""
        self.world.answered.clear()
        self.world.answer(question)
        return self.world.answered.pop() if self.world.answered else None

    def finish_all(self) -> None:
        """All that is fair happens."""
        finish_all(self.world, Operator(self.world, self.world.random))

    def deliver(self, message: Message) -> None:
        """A message comes, and its work is done."""
        self.world.deliver(message, is_eager=True)
        self.world.check()
