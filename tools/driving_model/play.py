"""A play by hand: one shard at three servers, of which each message is delivered when the play says so."""
from __future__ import annotations

from dataclasses import replace

from . import commands
from .cells import ABSENT, Cell, Lead, Stage
from .clients import Write
from .commands import Cells, Document
from .controller import Controller
from .fair import finish_all
from .messages import Message, Order, Publication
from .operations import Operator
from .plans import CellRight, Crown, CrownRight, Instruction, Plan, RoomRight, Stream, handover
from .replies import Reply
from .rules import Rules
from .server import Pass
from .world import World

Row = tuple[Cell, ...]


class Play:
    """One shard at three servers, moved by hand."""

    def __init__(self, rules: Rules, row: Row, want: int, cap: int | None = None) -> None:
        missing = want - 1 if cap is None else cap
        self.document = Document(
            frozenset({0, 1, 2}), rooms=(9, 9, 9), loads=(1,), wants=(want,), caps=(missing,), limit=2, cells=(row,)
        )
        self.world = World(self.document, rules, keeps_trace=True)
        self.plans = 0

    @property
    def controller(self) -> Controller:
        """The controller."""
        return self.world.controller

    def do(self, command: commands.Command) -> Reply:
        """Applies a command."""
        outcome = self.world.do(command)
        self.world.check()
        return outcome.reply

    def deliver(self, message: Message) -> None:
        """A message comes, and its work is done."""
        self.world.deliver(message, is_eager=True)
        self.world.check()

    def turn(self, silent: frozenset[int] = frozenset()) -> None:
        """All that may be sent comes, but to silent servers; writes follow; answers come to the controller."""
        world = self.world
        for message in self.controller.outgoing():
            if isinstance(message, (Order, Publication)) or message.server not in silent:
                self.deliver(message)
        for _ in range(9):
            world.follow(0)
        for seal in world.writes.seals:
            world.deliver_seal(seal)
        for host in world.hosts:
            for order in list(host.workers):
                world.work(host, order)
        self.take_answers()

    def take_answers(self) -> None:
        """All answers come to the controller."""
        network = self.world.network
        for sent in (network.answers, network.inventories, network.settlements):
            for answer in list(sent.items):
                self.do(answer)

    def begin(self, code: tuple[Instruction, ...], *rights: tuple) -> None:
        """A plan of one stream begins."""
        self.plans += 1
        self.do(commands.Begin(f"plan-{self.plans}", Plan((Stream(dict(rights), code),))))

    def hand(self, owner: int, new_owner: int) -> None:
        """A handover begins."""
        crown = Crown(Lead(Stage.AT, owner), owner)
        self.begin(
            handover(0, owner, new_owner),
            (CrownRight(0), crown), (CellRight(0, new_owner), ABSENT), (RoomRight(new_owner), 1),
        )

    def reopen(self, servers: frozenset[int] | None = None, lost: frozenset[int] = frozenset()) -> None:
        """A reopening begins, with a document that knows of no replicas."""
        document = replace(self.document, servers=servers or self.document.servers, cells=((ABSENT,) * 3,))
        self.do(commands.Reopen(document, lost))

    def confirm(self, *row: Cell) -> None:
        """These cells are confirmed, or the proposal if none are named."""
        cells: Cells | None = (row,) if row else None
        self.do(commands.Confirm(self.controller.reopening.base, cells))

    def sent_to(self, server: int, *kinds: type) -> list[Message]:
        """What was ever sent to a server."""
        return [it for it in self.world.network.messages.items if isinstance(it, kinds) and it.server == server]

    def request(self, server: int, write: Write, passed: Pass | None = None) -> None:
        """A request comes to a server."""
        self.world.request(self.world.hosts[server], write, passed)

    def take_inventories(self) -> None:
        """The answers to fences come to the controller."""
        for answer in list(self.world.network.inventories.items):
            self.do(answer)

    def lose_and_ask(self, server: int) -> None:
        """A server forgets, and asks for its slots."""
        host = self.world.hosts[server]
        self.world.lose(host)
        self.do(host.ask())

    def write(self, identity: int, copies: tuple[int, ...], primary: int = 0) -> None:
        """The primary executes a write, which comes to these servers and is acknowledged if they are enough."""
        write = Write(0, identity)
        self.request(primary, write)
        self.world.finish(self.world.hosts[primary], write)
        for server in copies:
            self.world.hosts[server].data[0] = list(self.world.hosts[primary].data[0])
        self.world.acknowledge(0)

    def fence_all(self) -> None:
        """A reopening begins, and everyone answers its fence."""
        self.reopen()
        for fence in self.controller.fences():
            self.deliver(fence)
        self.take_inventories()

    def finish_all(self) -> None:
        """All that is fair happens."""
        finish_all(self.world, Operator(self.world, self.world.random))
