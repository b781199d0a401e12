"""The world of `world` if sizes change: what the laws look at, and the laws on sizes."""
from __future__ import annotations

import random
from dataclasses import dataclass, replace

from . import laws
from .cells import ABSENT
from .commands import Command, Open, Reopen, Restarted
from .controller import Controller
from .laws import Sight, Violation
from .map_owner import Entry
from .messages import LONGEST_LOG
from .operations import Operator
from .plans import Faulty
from .replies import Outcome, Refused, Restoring
from .sized_controller import SizedController, replayed
from .sized_server import SizedServer
from .sizes import NewEpoch, Resize, SizedDocument, SizedRules
from .world import Host, World


@dataclass(slots=True)
class SizedHost(Host):
    """A server with its service, in a world whose controller it may be asked by."""

    world: "SizedWorld | None" = None

    def restarted(self, permit: int) -> Restarted:
        """The end of its restart, with the base that it tells."""
        return Restarted(permit, None if self.is_lost else self.server.base_for(self.world.controller.journal))


class SizedWorld(World):
    """All parts, the journal, and what the laws look at. There are more servers and shards than the first document
    has."""

    rules: SizedRules
    document: SizedDocument
    controller: SizedController

    def new_host(self, number: int) -> Host:
        """A server without slots or data."""
        server = SizedServer(number, len(self.loads), self.rules, nonce=1)
        return SizedHost(server, [[] for _ in self.shards], world=self)

    def start(self) -> None:
        """Opens the document, and restores every server that it has."""
        self.controller = SizedController(self.rules)
        self.do(Open(self.document, 1, 0))
        self.map_owner.journal = 1
        self.map_owner.entries = [Entry(it) for it in self.controller.record.listed]
        self.shown = list(self.map_owner.entries)
        for host in self.hosts:
            if host.number not in self.document.servers:
                self.given_up.add(host.number)
                continue
            reply = self.do(host.ask()).reply
            assert isinstance(reply, Restoring)
            host.server.restore(reply.restore)

    def do(self, command: Command | Resize) -> Outcome:
        """Applies a command; from then on its sizes are the present ones."""
        was_reopening = self.controller.reopening is not None
        try:
            outcome = super().do(command)
        except Faulty as fault:
            raise Violation("plans_stay_checked", f"a running plan breaks off: {fault}") from None
        record = self.controller.record
        if was_reopening and self.controller.is_open:
            self.away &= set(record.permits)
        if outcome.has_changed and isinstance(command, NewEpoch):
            self.pass_on(self.document, command.document)
        self.see()
        return outcome

    def pass_on(self, old: SizedDocument, new: SizedDocument) -> None:
        """The next epoch has opened with a document: who is added may be called up, and who is taken away is not the
        service's any longer."""
        self.count(old, new)
        self.given_up = (self.given_up | old.servers) - new.servers
        self.away = (self.away & new.servers) | ((new.servers - old.servers) & set(self.controller.record.permits))

    def strangers(self) -> list[Host]:
        """The servers that are recorded as down, and have the slots of another journal."""
        record = self.controller.record
        down = [self.hosts[it] for it in sorted(record.permits)] if record else []
        return [it for it in down if it.is_up and it.server.journal != self.controller.journal]

    def see(self) -> None:
        """The present sizes are those of the reopening under way, or as they are recorded."""
        reopening, record = self.controller.reopening, self.controller.record
        if reopening or record:
            self.document = reopening.document if reopening else record.document
            self.loads, self.rooms = self.document.loads, self.document.rooms

    def count(self, old: SizedDocument, new: SizedDocument) -> None:
        """Notes what a change of sizes is about."""
        for name, number in {
            "server added": len(new.servers - old.servers), "server taken away": len(old.servers - new.servers),
            "shard added": len(old.left_out - new.left_out), "shard taken away": len(new.left_out - old.left_out),
            "shrunk": sum(it < at for it, at in zip(new.loads, old.loads)),
            "grown": sum(it > at for it, at in zip(new.loads, old.loads)),
        }.items():
            self.coverage[name] += number

    def check(self) -> None:
        """Looks at the standing laws, if anything has changed."""
        if not self.has_changed:
            return
        sight = Sight(self)
        for law in STANDING:
            found = law(sight)
            if found:
                raise Violation(law.__name__, found)
        self.has_changed = False

    def take_new_journal(self) -> None:
        """The journal is lost with its controller; a new one has no entry yet."""
        super().take_new_journal()
        self.controller = SizedController(self.rules)
        self.away.clear()

    def replay(self, length: int) -> Controller:
        """A controller with a beginning of the journal."""
        return replayed(self.journal[:length], self.rules)

    def sizes_at(self, host: Host) -> SizedDocument | None:
        """The document that says how large the server and its shards are, for the law of rooms.

        It is the recorded one from the entry on that changes it: at rest all orders have had their effect, so each
        server has what is recorded, of which the entry was refused if it had not room by the new sizes. Only in a
        reopening the new sizes come server by server: with its settle, since that brings the cells that fit them.
        """
        reopening, record = self.controller.reopening, self.controller.record
        server = host.server
        is_settled = reopening and reopening.settles and server.base >= reopening.base and not server.is_fenced
        document = reopening.document if is_settled else record.document if record else None
        return document if document and host.number in document.servers else None


def loads_fit(sight: Sight) -> str | None:
    """A server's load is within its room, both as they are now."""
    world = sight.world
    for host in world.hosts:
        document = world.sizes_at(host)
        if document is None:
            continue
        load = sum(document.loads[it] for it, row in enumerate(sight.rows) if row[host.number] != ABSENT)
        if load > document.rooms[host.number]:
            return f"server {host.number} has a load of {load}, and room for {document.rooms[host.number]}"
    return None


def away_is_recorded(sight: Sight) -> str | None:
    """A recorded server that was taken down by leave is recorded as down until it is back, and no more are than may."""
    world, controller = sight.world, sight.world.controller
    if not controller.is_open:
        return None
    record = controller.record
    for number in sorted(world.away & record.document.servers - set(record.permits)):
        if not world.hosts[number].is_alive:
            return f"server {number} is down by leave, and is recorded as up"
    if len(record.permits) > record.limit:
        return f"{len(record.permits)} servers are recorded as down, of {record.limit}"
    return None


def nobody_has_what_is_not_there(sight: Sight) -> str | None:
    """No server has anything of a shard that the service has not, unless it was left behind."""
    world, controller = sight.world, sight.world.controller
    if not controller.is_open:
        return None
    for shard in sorted(controller.record.document.left_out):
        for host in world.hosts:
            is_behind = host.server.base < controller.fence or host.server.journal != controller.journal
            if sight.rows[shard][host.number] != ABSENT and not is_behind:
                return f"server {host.number} has {sight.rows[shard][host.number]} of shard {shard}, which is not there"
    return None


def what_counts_is_recorded(sight: Sight) -> str | None:
    """A load that counts against orders at its server is the shard's load as recorded."""
    world, controller = sight.world, sight.world.controller
    if not controller.is_open:
        return None
    document = controller.record.document
    for number in sorted(document.servers):
        server = world.hosts[number].server
        if not world.hosts[number].is_up or server.is_fenced or server.base < controller.fence:
            continue
        for shard, slot in enumerate(server.slots):
            counts = slot.cell != ABSENT and max(slot.last, server.base) >= controller.sized
            if counts and slot.load != document.loads[shard] and world.rules.old_loads_left:
                return f"server {number} counts {slot.load} of shard {shard}, recorded is {document.loads[shard]}"
    return None


STANDING = tuple(
    loads_fit if it is laws.loads_fit else it for it in laws.STANDING
) + (away_is_recorded, nobody_has_what_is_not_there, what_counts_is_recorded)


class SizedOperator(Operator):
    """An operator who changes sizes, with dice of its own for that."""

    world: SizedWorld

    def __init__(self, world: SizedWorld, dice: random.Random) -> None:
        super().__init__(world, dice)
        self.sizer = random.Random(dice.getstate()[1][1])

    def near(self, size: int) -> int:
        """A size that is not far away."""
        return max(1, size + self.sizer.choice([-3, -2, -1, 1, 2, 3]))

    def other_sizes(self, document: SizedDocument) -> SizedDocument:
        """The document with some other sizes."""
        loads, rooms = list(document.loads), list(document.rooms)
        for at in range(len(loads)):
            loads[at] = self.near(loads[at]) if self.sizer.random() < 0.5 else loads[at]
        for at in range(len(rooms)):
            rooms[at] = self.near(rooms[at]) if self.sizer.random() < 0.3 else rooms[at]
        wants, caps, limit, log = list(document.wants), list(document.caps), document.limit, document.log
        if self.sizer.random() < 0.3:
            shard = self.sizer.randrange(len(wants))
            wants[shard] = self.sizer.choice([1, 2])
            caps[shard] = self.sizer.randint(0, wants[shard])
        if self.sizer.random() < 0.2:
            limit, log = self.sizer.choice([0, 1, 2]), self.sizer.choice([1, 9, 30, log])
        return replace(
            document, loads=tuple(loads), rooms=tuple(rooms), wants=tuple(wants), caps=tuple(caps), limit=limit, log=log
        )

    def other_parts(self, document: SizedDocument) -> SizedDocument:
        """The document with a server or a shard more or less."""
        servers, left_out = document.servers, document.left_out
        outside = [it.number for it in self.world.hosts if it.number not in servers and not it.is_lost]
        draw = self.sizer.random()
        if draw < 0.35 and outside:
            servers |= {self.sizer.choice(outside)}
        elif draw < 0.5 and len(servers) > 2:
            servers -= {self.sizer.choice(self.bare_servers() or sorted(servers))}
        elif draw < 0.75 and left_out:
            left_out -= {self.sizer.choice(sorted(left_out))}
        elif draw < 0.9:
            left_out |= {self.sizer.choice(self.bare_shards() or list(self.world.shards))}
        return replace(document, servers=servers, left_out=left_out)

    def bare_servers(self) -> list[int]:
        """The recorded servers without cells."""
        record = self.controller.record
        rows = record.cells
        return [it for it in sorted(record.document.servers) if all(row[it] == ABSENT for row in rows)]

    def bare_shards(self) -> list[int]:
        """The shards without cells."""
        return [it for it, row in enumerate(self.controller.record.cells) if set(row) == {ABSENT}]

    def change_at_rest(self) -> None:
        """The next epoch opens with other sizes, if no plan is running."""
        if not self.controller.is_open:
            return
        document = self.controller.record.document
        before = document.servers
        if self.sizer.random() < 0.7:
            document = self.other_sizes(document)
        while self.sizer.random() < 0.5:
            document = self.other_parts(document)
        added = len(document.servers - before)
        if added and self.sizer.random() < 0.8:
            document = replace(document, limit=document.limit + added)
        outcome = self.world.do(NewEpoch(document))
        self.world.coverage["new sizes"] += outcome.has_changed
        if isinstance(outcome.reply, Refused):
            self.world.coverage[f"refused: {outcome.reply.kind}"] += 1
        else:
            self.move_machines(before, document.servers)

    def move_machines(self, before: frozenset[int], after: frozenset[int]) -> None:
        """A server that was added comes with the slots that it left with, or is another machine without any. One that
        was taken away may go to another service."""
        for number in sorted(after - before):
            if self.sizer.random() < 0.5:
                self.world.say("server", number, "comes without slots")
                self.world.lose(self.world.hosts[number])
            else:
                self.world.coverage["came with slots"] += self.world.hosts[number].is_up
        for number in sorted(before - after):
            if self.sizer.random() < 0.2:
                self.world.say("server", number, "goes to another service")
                self.world.hosts[number].server.begin_elsewhere()

    def begin_anew(self) -> None:
        """Servers that were added with the slots of another service are begun without any."""
        for host in self.world.strangers():
            self.world.say("server", host.number, "was another service's")
            self.world.lose(host)

    def resize(self) -> None:
        """Some sizes change beside the plans that run."""
        record = self.controller.record
        if not self.controller.is_open:
            return
        loads = rooms = ()
        if self.sizer.random() < 0.7:
            shard = self.sizer.choice(list(self.world.shards))
            loads = ((shard, self.near(record.document.loads[shard])),)
        else:
            server = self.sizer.choice(sorted(record.document.servers))
            rooms = ((server, self.near(record.document.rooms[server])),)
        is_running = next(record.running(), None) is not None
        outcome = self.world.do(Resize(loads, rooms))
        if outcome.has_changed:
            self.world.coverage["resized beside a plan" if is_running else "resized at rest"] += 1
        elif isinstance(outcome.reply, Refused):
            self.world.coverage[f"not resized: {outcome.reply.kind}"] += 1

    def reopen(self, is_plain: bool = False) -> None:
        """A reopening begins, now and then with other sizes. If it is to be plain, servers and the log have room for
        all."""
        document = self.world.document
        if is_plain:
            rooms = (sum(document.loads),) * len(document.rooms)
            self.world.document = replace(document, rooms=rooms, log=LONGEST_LOG)
        elif self.sizer.random() < 0.4:
            self.world.document = self.other_sizes(document)
        super().reopen(is_plain)
        self.world.see()


def begins_a_journal(command: Command | Resize) -> bool:
    """The command is the first one of a journal."""
    return isinstance(command, Open) or (isinstance(command, Reopen) and command.journal is not None)
