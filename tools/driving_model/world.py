"""A controller, servers, the map's owner, clients, and the network between them."""
from __future__ import annotations

import random
from collections import Counter
from dataclasses import dataclass, field

from . import commands, laws, replies
from .cells import ABSENT, Cell, Kind, Verb, serving
from .clients import PassedWrite, Seal, Write, Writes
from .commands import Command, Document
from .controller import Controller, replayed
from .map_owner import Entry, MapOwner
from .messages import Fence, MAP, Message, Notice, Order, Publication, Restore, Settle, SettleMap
from .network import Network
from .replies import Outcome
from .rules import Rules
from .server import Commit, Judgement, Pass, Route, Server, Shown


@dataclass(slots=True)
class Host:
    """A server with its service: data, requests that run, and orders at work. A lost one is lost for good. One that is apart is reached by clients
    alone, and serves nobody once its lease is over."""

    server: Server
    data: list[list[int]]
    is_alive: bool = True
    is_lost: bool = False
    is_apart: bool = False
    is_over: bool = False
    running: list[Write] = field(default_factory=list)
    workers: list[Order] = field(default_factory=list)

    @property
    def number(self) -> int:
        """The server's number."""
        return self.server.number

    @property
    def is_up(self) -> bool:
        """It has its slots."""
        return self.server.is_known and not self.is_lost and not self.is_over

    @property
    def answers(self) -> bool:
        """Messages come to it."""
        return self.is_alive and not self.is_lost and not self.is_apart

    def cell(self, shard: int) -> Cell:
        """What it has of a shard; nothing if it is lost, Unknown, or serves nobody."""
        return ABSENT if self.is_lost or self.is_over else self.server.cell(shard)

    def stop(self) -> None:
        """Its work and its requests end; its slots stay."""
        self.workers, self.running = [], []

    def start(self) -> None:
        """Messages come to it again."""
        self.is_alive = True
        self.server.start()

    def ask(self) -> commands.RestoreServer:
        """What it asks, being Unknown."""
        return commands.RestoreServer(self.number, self.server.nonce)

    def restarted(self, permit: int) -> commands.Restarted:
        """The end of its restart, with the base that it tells."""
        return commands.Restarted(permit, None if self.is_lost else self.server.settled_base())

    def positions(self) -> list[int]:
        """How many writes it has of each shard."""
        return [len(it) for it in self.data]


class World:
    """All parts, the journal, and what the laws look at. `trace` tells what happened if `keeps_trace`."""

    def __init__(self, document: Document, rules: Rules, seed: int = 0, keeps_trace: bool = False) -> None:
        self.random = random.Random(seed)
        self.rules, self.document, self.keeps_trace = rules, document, keeps_trace
        self.loads, self.rooms = document.loads, document.rooms
        self.shards = range(len(document.loads))
        self.hosts = [self.new_host(it) for it in range(len(document.rooms))]
        self.map_owner = MapOwner(len(document.loads), rules)
        self.network, self.writes = Network(), Writes(len(document.loads))
        self.controller, self.journal, self.journals = Controller(rules), [], 1
        # What laws compare: orders that had their effect, permits that ended a restart, names with their epochs, and
        # that a server was lost or has forgotten which was not recorded down.
        self.effects: set[tuple[int, int, int, int]] = set()
        self.ended_permits: set[int] = set()
        self.names: dict[str, int] = {}
        self.are_floors_excused = False
        # Servers that were taken down by leave and not called up since, and those that were given up as lost.
        self.away: set[int] = set()
        self.given_up: set[int] = set()
        # All commands with their outcomes, those that changed nothing too.
        self.session: list[tuple[Command, Outcome]] = []
        self.coverage: Counter[str] = Counter()
        self.trace: list[str] = []
        self.has_changed = True
        self.start()

    def new_host(self, number: int) -> Host:
        """A server without slots or data."""
        return Host(Server(number, len(self.loads), self.rules, nonce=1), [[] for _ in self.shards])

    def start(self) -> None:
        """Opens the document, and restores every server."""
        self.do(commands.Open(self.document, 1, 0))
        self.map_owner.journal = 1
        self.map_owner.entries = [Entry(it) for it in self.controller.record.listed]
        self.shown = list(self.map_owner.entries)
        for host in self.hosts:
            reply = self.do(host.ask()).reply
            assert isinstance(reply, replies.Restoring)
            host.server.restore(reply.restore)

    def say(self, *words: object) -> None:
        """Tells what has changed, after which the laws are looked at."""
        self.has_changed = True
        if self.keeps_trace:
            self.trace.append(" ".join(map(str, words)))

    def check(self) -> None:
        """Looks at the standing laws, if anything has changed."""
        if self.has_changed:
            laws.check_standing(laws.Sight(self))
            self.has_changed = False

    def row(self, shard: int) -> list[Cell]:
        """What the servers have of a shard."""
        return [it.cell(shard) for it in self.hosts]

    def is_away(self, host: Host) -> bool:
        """The server was taken down by leave."""
        return not host.is_alive and host.number in self.away

    # The controller.

    def do(self, command: Command) -> Outcome:
        """Applies a command, looks at the laws on what it may break, and sends what goes out."""
        was_reopening = self.controller.reopening is not None
        laws.decisions_are_right(self, command)
        outcome = self.controller.apply(command)
        self.session.append((command, outcome))
        if not outcome.has_changed:
            return outcome
        self.journal.append(command)
        self.say("controller", command, "->", outcome.reply)
        laws.own_steps_are_made(self)
        laws.name_once(self, outcome.reply, command)
        if isinstance(command, commands.Restarted):
            laws.permit_once(self, command.permit)
        if isinstance(command, commands.Fenced):
            laws.one_primary_is_told(self)
        if was_reopening and self.controller.reopening is None:
            self.coverage["reopened"] += 1
            recorded = (self.hosts[it] for it in self.controller.record.document.servers)
            self.are_floors_excused = any(
                not it.is_up and it.number not in self.controller.record.permits for it in recorded
            )
        self.network.send(self.controller.outgoing())
        return outcome

    def take_new_journal(self) -> None:
        """The journal is lost with its controller; a new one has no entry yet."""
        self.controller, self.journal, self.journals = Controller(self.rules), [], self.journals + 1

    def replay(self, length: int) -> Controller:
        """A controller with a beginning of the journal."""
        return replayed(self.journal[:length], self.rules)

    def check_replay(self, length: int) -> None:
        """A controller with a beginning of the journal sends nothing new, and with all of it is this one."""
        controller = self.replay(length)
        for message in controller.outgoing():
            if message not in self.network.messages.known:
                raise laws.Violation("a_beginning_sends_nothing_new", f"{message} by {length} entries")
        if length == len(self.journal) and controller.snapshot() != self.controller.snapshot():
            raise laws.Violation("a_replay_is_the_same", f"{controller.snapshot()} is not {self.controller.snapshot()}")

    # Data.

    def others_have(self, host: Host, shard: int) -> set[int]:
        """The writes of a shard that other servers have."""
        return set().union(*(it.data[shard] for it in self.hosts if it is not host and not it.is_lost))

    def copy_for(self, host: Host, shard: int) -> list[int]:
        """The longest copy of a shard elsewhere: of who is primary or forwards, if one has it."""
        copies = [it for it in self.hosts if it is not host and not it.is_lost and it.data[shard]]
        owners = [it for it in copies if it.cell(shard).kind in (Kind.PRIMARY, Kind.FORWARDING)]
        return list(max((it.data[shard] for it in owners or copies), key=len, default=[]))

    def put_data(self, host: Host, shard: int, was: Cell) -> None:
        """The data follow a cell that has changed: they go with a replica, and are copied if one has come."""
        cell = host.cell(shard)
        if cell == ABSENT:
            if self.writes.has_lost[shard]:
                self.writes.excuse(shard, self.others_have(host, shard))
            host.data[shard] = []
        elif was == ABSENT and cell.kind is not Kind.PREPARED:
            host.data[shard] = max(host.data[shard], self.copy_for(host, shard), key=len)

    def lose(self, host: Host, is_for_good: bool = False) -> None:
        """The server loses its slots and its data."""
        self.say("server", host.number, "is lost for good" if is_for_good else "forgets")
        for shard in self.shards:
            others, data = self.others_have(host, shard), host.data[shard]
            if data:
                self.writes.excuse(shard, others)
            is_copy = host.is_up and host.cell(shard).kind in (Kind.ABSENT, Kind.SECONDARY)
            if not is_copy or not set(data) <= others:
                self.writes.has_lost[shard] = True
            host.data[shard] = []
        if not self.controller.record or host.number not in self.controller.record.permits:
            self.are_floors_excused = True
        host.stop()
        host.server.forget()
        host.is_lost = is_for_good

    def follow(self, shard: int) -> None:
        """Each server that follows another one gets some of the writes that it lacks."""
        row = self.row(shard)
        owners = serving(row) + [it for it, cell in enumerate(row) if cell.kind is Kind.FORWARDING]
        for host in self.hosts:
            cell = row[host.number]
            if not host.is_alive or host.is_apart or cell.kind in (Kind.ABSENT, Kind.PRIMARY):
                continue
            sources = owners if cell.kind is Kind.SECONDARY else self.source_of(row, host.number)
            data = [self.hosts[it].data[shard] for it in sources if it != host.number and not self.hosts[it].is_apart]
            if data:
                self.follow_one(host, shard, max(data, key=len))

    def source_of(self, row: list[Cell], server: int) -> list[int]:
        """Whom a party of a handover follows: the other party, if they are in the same handover."""
        cell = row[server]
        other = row[cell.party]
        if cell.kind is Kind.FORWARDING:
            return [cell.party] if other != ABSENT else []
        is_party = other.kind is Kind.PRIMARY or (other.kind is Kind.FORWARDING and other.party == server)
        return [cell.party] if is_party else []

    def follow_one(self, host: Host, shard: int, source: list[int]) -> None:
        """A server gets some of the writes of its source; a copy that is no beginning of it is given up."""
        data, kind = host.data[shard], host.cell(shard).kind
        if kind is not Kind.SECONDARY and data[:len(source)] == source:
            return
        if data != source[:len(data)]:
            if kind is not Kind.FORWARDING:
                host.data[shard] = list(source) if kind is Kind.SECONDARY else []
        elif len(source) > len(data):
            host.data[shard] = source[:self.random.randint(len(data) + 1, len(source))]

    def acknowledge(self, shard: int) -> None:
        """Who serves acknowledges the writes that every secondary has, and in a handover the old owner too."""
        row = self.row(shard)
        for host in self.hosts:
            if not host.is_alive or not self.may_acknowledge(host, shard, row):
                continue
            number, data = host.number, host.data[shard]
            copies = [self.hosts[it].data[shard] for it in self.witnesses(row, number)]
            new = {it for it in data if all(it in copy for copy in copies)} - self.writes.acknowledged[shard]
            if new and self.writes.history[shard][:len(data)] == data:
                self.say("writes", sorted(new), "of shard", shard, "are acknowledged")
                self.coverage["acknowledged"] += len(new)
                laws.one_loss_loses_nothing(self, number, shard, new)
                self.writes.acknowledged[shard] |= new

    def witnesses(self, row: list[Cell], server: int) -> list[int]:
        """Who has to have a write beside the server that acknowledges it."""
        copies = [it for it, cell in enumerate(row) if cell.kind is Kind.SECONDARY]
        old = [it for it, cell in enumerate(row) if cell.kind is Kind.FORWARDING and cell.party == server]
        copies = copies if self.rules.copies_acknowledge else []
        return [it for it in copies + (old if self.rules.old_owner_acknowledges else []) if it != server]

    def may_acknowledge(self, host: Host, shard: int, row: list[Cell]) -> bool:
        """It is primary, or is handed the shard and has the last write."""
        cell, data = row[host.number], host.data[shard]
        if cell.kind is not Kind.PREPARED:
            return cell.kind is Kind.PRIMARY
        return bool(data) and self.writes.history[shard][-1:] == data[-1:] and serving(row) == [host.number]

    # Requests.

    def request(self, host: Host, write: Write, passed: Pass | None = None) -> None:
        """A request comes to a server: it is executed, passed on, or neither."""
        if not (host.answers or host.is_apart) or host.is_over:
            return
        route = host.server.route(write.shard, len(host.data[write.shard]), passed)
        if isinstance(route, Pass):
            self.writes.passed.append(PassedWrite(write, route))
            self.say("server", host.number, "passes", write, "on:", route)
        elif route is Route.EXECUTE:
            laws.executes_where_it_serves(self, host, write.shard, "starts a request")
            self.say("server", host.number, "starts", write, passed or "")
            self.coverage["passed executed"] += passed is not None
            if write not in host.running:
                host.running.append(write)

    def finish(self, host: Host, write: Write) -> None:
        """A request that runs has been executed."""
        host.running.remove(write)
        shard = write.shard
        if write.identity in host.data[shard]:
            return
        laws.executes_where_it_serves(self, host, shard, "ends a request")
        self.writes.begin_anew(shard, host.data[shard])
        laws.one_list_of_writes(self, host, shard, write.identity)
        host.data[shard].append(write.identity)
        self.writes.history[shard].append(write.identity)
        self.say("server", host.number, "has executed", write)
        self.coverage["executed"] += 1

    # Messages.

    def deliver(self, message: Message, is_eager: bool = False) -> None:
        """A message comes. An order's work is done at once if `is_eager`."""
        if message.__class__ in (Publication, SettleMap) or (isinstance(message, Fence) and message.server == MAP):
            self.deliver_to_map(message)
            return
        host = self.hosts[message.server]
        if not host.answers:
            return
        was_known = host.server.is_known
        if isinstance(message, Order):
            self.deliver_order(host, message, is_eager)
        elif isinstance(message, Notice):
            host.server.notice(message)
        elif isinstance(message, Fence):
            self.deliver_fence(host, message)
        elif isinstance(message, (Settle, Restore)):
            self.deliver_slots(host, message)
        if was_known and not host.server.is_known:
            self.say("server", host.number, "turns Unknown by", message)
            self.coverage["turned Unknown"] += 1
            host.stop()

    def deliver_to_map(self, message: Message) -> None:
        """A message comes to the map's owner."""
        owner = self.map_owner
        if isinstance(message, Publication) and owner.publish(message):
            self.say("the map's owner answers", message)
            self.network.answers.add(commands.Answered(message.plan, message.stream, message.number))
        elif isinstance(message, Fence):
            found = owner.fence(message)
            if found:
                self.say("the map's owner is fenced at", message.base)
                self.network.inventories.add(commands.Fenced(MAP, message.base, found))
        elif isinstance(message, SettleMap) and owner.settle(message):
            self.say("the map's owner has", message)
            self.network.settlements.add(commands.Settled(MAP, message.base))

    def deliver_order(self, host: Host, order: Order, is_eager: bool) -> None:
        """An order comes to its server."""
        judgement = host.server.judge(order)
        if judgement is Judgement.REFUSED:
            laws.no_order_is_refused(order, host)
        if judgement in (Judgement.OLD, Judgement.FOREIGN) and order in self.controller.orders():
            laws.present_orders_are_not_old(order, judgement.value)
        if judgement is Judgement.AGAIN:
            self.network.answers.add(commands.Answered(order.plan, order.stream, order.number))
        elif judgement is Judgement.BEGIN:
            self.say("server", host.number, "begins", order)
            host.server.begin(order)
            host.workers.append(order)
            if is_eager or not self.rules.work_before_commit:
                self.work(host, order)

    def work(self, host: Host, order: Order) -> None:
        """The work of an order is done: it commits, has to wait, or is thrown away."""
        shard, was = order.shard, host.cell(order.shard)
        is_running = any(it.shard == shard for it in host.running)
        shown = Shown(len(host.data[shard]), is_running, self.is_copied(host, shard))
        commit = host.server.commit(order, shown)
        if commit is Commit.NOT_YET:
            return
        if order in host.workers:
            host.workers.remove(order)
        if commit is Commit.THROWN_AWAY:
            return
        laws.effect_once(self, order)
        if was == ABSENT:
            host.data[shard] = []
        if was.kind is Kind.PRIMARY and host.cell(shard) == ABSENT:
            self.writes.has_lost[shard] = True
        self.put_data(host, shard, was)
        self.say("server", host.number, "commits", order.number, order.call, "of shard", shard)
        self.network.answers.add(commands.Answered(order.plan, order.stream, order.number))
        if order.call.verb is Verb.PREPARE_DROP:
            cut = host.server.slots[shard].cut
            self.writes.seals.append(Seal(shard, host.number, order.call.party, order.call.handover, cut))

    def is_copied(self, host: Host, shard: int) -> bool:
        """Every secondary has the server's writes."""
        secondaries = (it for it in self.hosts if it is not host and it.cell(shard).kind is Kind.SECONDARY)
        return all(it.data[shard] == host.data[shard] for it in secondaries)

    def deliver_seal(self, seal: Seal) -> None:
        """The end of the old owner's stream of writes comes to the new owner."""
        host = self.hosts[seal.to]
        if host.answers:
            host.server.seal(seal.shard, seal.sender, seal.handover, seal.cut)

    def deliver_fence(self, host: Host, fence: Fence) -> None:
        """A fence comes to a server."""
        self.coverage["fence met work"] += fence.base > host.server.base and bool(host.workers)
        before = host.server.base
        found = host.server.fence(fence, frozenset(it.shard for it in host.running), host.positions())
        if host.server.base != before and self.rules.fence_ends_work:
            host.workers = []
        if found:
            self.say("server", host.number, "is fenced at", fence.base, "and tells", found)
            self.network.inventories.add(commands.Fenced(host.number, fence.base, found))

    def deliver_slots(self, host: Host, message: Settle | Restore) -> None:
        """A settle or a restore comes to a server."""
        before, cells = host.server.slots, [it.cell for it in host.server.slots]
        has_it = host.server.settle(message) if isinstance(message, Settle) else host.server.restore(message)
        if host.server.slots is not before:
            self.say("server", host.number, "takes", message)
            self.coverage["restored" if isinstance(message, Restore) else "settled"] += 1
            host.workers = [] if self.rules.fence_ends_work else host.workers
            for shard in self.shards:
                self.put_data(host, shard, cells[shard])
        if has_it and isinstance(message, Settle):
            self.network.settlements.add(commands.Settled(host.number, message.base))


