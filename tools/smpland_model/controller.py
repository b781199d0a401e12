"""The controller of `driving_model` over documents with names, each of which may have other servers and shards.

What the model leaves open is closed here as the crates have it: the words of a plan that does not begin, an
answer that comes too soon, and cells that `confirm` may not make.
"""
from __future__ import annotations

from dataclasses import dataclass, field, replace

from driving_model import commands, replies
from driving_model.cells import Cell
from driving_model.controller import Answer, Controller, Named
from driving_model.decisions import MOST_PLANS
from driving_model.messages import Inventory, LAST_EPOCH, LONGEST_LOG, MAP, Order, Unknown
from driving_model.plans import CellRight, Hold, Key, Plan, RoomRight, SpareRight, is_amount
from driving_model.record import Record
from driving_model.replies import Ignored, Outcome
from driving_model.reopening import Reopening
from smpland_model import words
from smpland_model.numbering import Numbering
from smpland_model.reopening import NamedReopening
from smplan import model as documents
from smplan.placement import Placement, double_cells, bad_leads, opening_findings
from smplan.verdict import log_findings, plan_findings


class Refusal(Exception):
    """A refusal in the words of `smpland`."""

    def __init__(self, told: words.Json) -> None:
        super().__init__(told["text"])
        self.told = told


def refuse(kind: str, **where: object) -> Refusal:
    """Returns a refusal that no report has, to be raised."""
    return Refusal(words.own(kind, **where))


def missing(server: str | None) -> words.Json:
    """Returns the refusal to confirm before a server, or the map's owner, has answered."""
    if server is None:
        return {"kind": "Missing", "server": None, "text": "refused: Missing map"}
    return words.own("Missing", server=server)


def refuse_first(findings: list) -> None:
    """Refuses a command for the first of these findings."""
    if findings:
        raise Refusal(words.reported(findings[0].line))


@dataclass
class Beginning:
    """A plan that is to begin: as it was read, and in numbers."""

    name: str
    plan: documents.Plan


@dataclass
class Reopened:
    """A reopening that is to begin: its document, and who is lost."""

    document: documents.Document
    lost: list[str]
    journal: int | None = None
    epoch: int | None = None


@dataclass
class Copied:
    """A shard each of whose acknowledged writes is on so many of its replicas, of a journal and since a reopening."""

    shard: str
    journal: int
    fence: int
    copies: int


@dataclass
class Noted:
    """What is replied once that is noted."""

    shard: str
    copies: int


@dataclass
class Told:
    """What a server tells of its slots: those of shards of the document, and the others that it has."""

    found: Inventory | Unknown
    strays: list[str] = field(default_factory=list)


class NamedController(Controller):
    """The controller of one journal, over documents."""

    def __init__(self) -> None:
        super().__init__()
        self.numbering = Numbering()
        self.document: documents.Document | None = None
        self.next_document: documents.Document | None = None
        self.start: Placement | None = None
        # The servers that the reopening under way has numbered.
        self.names_under_way: frozenset[str] = frozenset()
        # The plans of this epoch that have begun, as they were begun, by their names.
        self.plans_begun: dict[str, documents.Plan] = {}
        # By shard, on how many of its replicas each acknowledged write surely is.
        self.copies: list[int] = []

    # Names.

    def server_name(self, number: int | None) -> str | None:
        """Returns the name of a server; the map's owner has none."""
        return self.numbering.server_name(number)

    def shard_name(self, number: int) -> str:
        """Returns the name of a shard."""
        return self.numbering.shards[number]

    # Opening.

    def open_document(self, document: documents.Document, journal: int, epoch: int) -> Outcome:
        """Opens a settled placement."""
        refuse_first(opening_findings(document))
        start = Placement(document)
        refuse_first(log_findings(document, start))
        self.numbering = Numbering().opened(document)
        outcome = self.open(commands.Open(self.numbering.document(document), journal, epoch))
        self.document, self.start = document, start
        self.copies = [1] * len(document.shards)
        self.record.listed = self.numbering.listed(document)
        return outcome

    def check_first(self) -> None:
        """Refuses an opening in a journal that has one."""
        if self.journal is not None:
            raise refuse("AlreadyOpened")

    def need_journal(self) -> None:
        """Refuses what is told of a journal before there is one."""
        if self.record is None and self.reopening is None:
            raise refuse("NotOpened")

    def check_journal(self, journal: int | None, epoch: int | None) -> None:
        """Refuses a reopening in a journal that does not fit."""
        nothing = commands.Document(frozenset(), (), (), (), (), 0, ())
        self.epoch_of(commands.Reopen(nothing, frozenset(), journal, epoch))

    # Plans.

    def check(self, plan: documents.Plan) -> Plan:
        """Returns a plan in numbers that would begin now."""
        record = self.need_open()
        refuse_first(plan_findings(plan, self.start))
        numbered = self.numbering.plan(plan)
        self.check_known(numbered)
        held = record.held()
        self.check_rights(record, numbered, held)
        self.check_amounts(record, numbered, held)
        self.check_places(record, numbered)
        return numbered

    def is_known(self, server: int) -> bool:
        """Returns whether a server is known: a reopening has settled the journal, or a restore of the server is kept."""
        return self.fence > 0 or server in self.restores

    def unknown(self) -> list[int]:
        """Returns the servers that are not known."""
        return [it for it in range(len(self.record.document.rooms)) if not self.is_known(it)]

    def check_known(self, plan: Plan) -> None:
        """Refuses a plan that calls a server that is not known, for the first such call."""
        for call in (it for stream in plan.streams for it in stream.code if it.server is not None):
            if not self.is_known(call.server):
                raise refuse("Unknown", server=self.server_name(call.server))

    def right_words(self, key: Key) -> str:
        """Returns the words of a right to a cell or a crown."""
        shard = self.shard_name(key.shard)
        return f"cell {shard} {self.server_name(key.server)}" if isinstance(key, CellRight) else f"crown {shard}"

    def check_rights(self, record: Record, plan: Plan, held: Hold) -> None:
        """Refuses a plan that declares a right which is untrue or taken."""
        rights = [(key, it.declares[key]) for it in plan.streams for key in it.declares if not is_amount(key)]
        for key, value in rights:
            if not record.is_true(key, value):
                raise Refusal(words.reported(f"held: 1 Untrue {self.right_words(key)}"))
        seen = set(held)
        for key, _ in rights:
            if key in seen:
                raise Refusal(words.reported(f"held: 2 Taken {self.right_words(key)}"))
            seen.add(key)

    def check_amounts(self, record: Record, plan: Plan, held: Hold) -> None:
        """Refuses a plan that declares more room or spare replicas than are free."""
        declared: dict[Key, int] = {}
        for stream in plan.streams:
            for key, value in stream.declares.items():
                if is_amount(key):
                    declared[key] = declared.get(key, 0) + value
        for server in range(len(record.document.rooms)):
            wanted, free = declared.get(RoomRight(server), 0), max(0, record.free_room(server, held))
            if wanted > free:
                name = self.server_name(server)
                raise Refusal(words.reported(f"held: 3 ShortRoom server {name} free {free} declared {wanted}"))
        for shard in record.shards:
            wanted, free = declared.get(SpareRight(shard), 0), max(0, record.free_spare(shard, held))
            if wanted > free:
                name = self.shard_name(shard)
                raise Refusal(words.reported(f"held: 4 ShortSpare shard {name} free {free} declared {wanted}"))

    def check_places(self, record: Record, plan: Plan) -> None:
        """Refuses a plan that names a server which is down, one for which the log has no room, and one too many."""
        for server in sorted(frozenset().union(*(it.servers for it in plan.streams))):
            if server in record.permits:
                raise Refusal(words.reported(f"held: 5 ServerDown server {self.server_name(server)}"))
        places = sum(it.tries + sum(at.server is None for at in it.code) + 1 for it in plan.streams)
        if places > record.free_places():
            raise Refusal(words.reported("not begun: 4 LogFull"))
        if sum(not it.is_done for it in record.plans) >= MOST_PLANS:
            raise Refusal(words.reported("not begun: 5 TooManyPlans"))

    def is_kept(self, name: str) -> bool:
        """Returns whether the plan that has begun under a name is of this epoch: those of earlier ones are not kept."""
        return self.begun[name].epoch == self.epoch

    def check_again(self, command: Beginning) -> None:
        """Refuses another plan than the one that has begun under its name."""
        if command.plan != self.plans_begun[command.name]:
            raise refuse("OtherPlan", name=command.name)

    def begun_before(self, name: str) -> Outcome:
        """Tells what came of a plan of this name. It begins nothing."""
        known = self.begun[name]
        again = replace(known.reply, is_again=True)
        if known.epoch != self.epoch or not self.is_open:
            return Outcome(again, has_changed=False)
        streams = range(len(self.record.plans[again.plan].streams))
        return replace(self.outcome(again, again.plan, streams), has_changed=False)

    def begin(self, command: Beginning) -> Outcome:
        """Begins a plan under a new name."""
        plan = self.check(command.plan)
        self.record.begin(plan)
        number = len(self.record.plans) - 1
        reply = replies.Begun(self.epoch, number, command.plan.calls, len(plan.streams))
        self.begun[command.name] = Named(self.epoch, reply)
        self.plans_begun[command.name] = command.plan
        self.advance(number)
        return self.outcome(reply, number, range(len(plan.streams)))

    def answered(self, command: commands.Answered) -> Outcome:
        """Records that a present order was answered. What the stream does not wait for is old or unknown."""
        if self.reopening:
            return Outcome(Ignored("old"), has_changed=False)
        plans = self.need_open().plans
        if command.plan < len(plans) and command.stream < len(plans[command.plan].streams):
            state = plans[command.plan].streams[command.stream]
            number = self.base + state.since + 1
            order = None if state.is_done else self.order(command.plan, command.stream)
            if not state.is_done and command.number >= number and (command.number > number or order is None):
                return Outcome(Ignored("unknown"), has_changed=False)
        return super().answered(command)

    # Restarts.

    def approve(self, command: commands.Approve) -> Outcome:
        """Gives leave to restart a server, once for each `by`."""
        try:
            return super().approve(command)
        except Answer as answer:
            refused = answer.reply
        if not isinstance(refused, replies.Refused) or refused.kind in ("NotOpened", "Reopening"):
            raise Answer(refused)
        if refused.kind == "OtherServer":
            raise refuse("OtherServer", server=self.server_name(refused.server))
        raise Refusal(self.with_down(words.reported(self.denied(refused)), command.server))

    def with_down(self, told: words.Json, server: int | None) -> words.Json:
        """Returns a refusal. If the server is down, or too many are, it has who is, and for whom; null if that was not
        given, or is forgotten."""
        if told["kind"] not in ("AlreadyDown", "GlobalCap"):
            return told
        names = {it.reply.permit: by for by, it in self.approved.items()}
        down = [server] if told["kind"] == "AlreadyDown" else sorted(self.record.permits)
        members = {"down": [self.server_name(it) for it in down], "by": [names.get(self.record.permits[it]) for it in down]}
        return {it: told[it] for it in told if it != "text"} | members | {"text": told["text"]}

    def denied(self, why: replies.Refused) -> str:
        """Returns the words of a report for a restart that is denied."""
        number = ("AlreadyDown", "Engaged", "GlobalCap", "ShardCap", "LogFull").index(why.kind) + 1
        rest = f" plan {why.plan} stream {why.stream}" if why.kind == "Engaged" else ""
        rest += f" shard {self.shard_name(why.shard)}" if why.kind == "ShardCap" else ""
        return f"denied {number} {why.kind}{rest}"

    # Epochs.

    def new_epoch(self, command: commands.NewEpoch) -> Outcome:
        """Opens the next epoch at rest. Versions of the map go on, as the driver has it, up to a log's length."""
        versions = self.record.versions if self.record else []
        spent = next((it for it, version in enumerate(versions) if version >= LONGEST_LOG), None)
        is_at_rest = self.is_open and all(it.is_done for it in self.record.plans)
        if spent is not None and is_at_rest and self.epoch < LAST_EPOCH:
            raise refuse("VersionsSpent", shard=self.shard_name(spent))
        outcome = super().new_epoch(command)
        self.record.versions = versions
        return outcome

    # Copies.

    def copied(self, command: Copied) -> Outcome:
        """Notes on how many replicas of a shard each acknowledged write is. The number only rises until a reopening."""
        if self.reopening:
            return Outcome(Ignored("old"), has_changed=False)
        record = self.need_open()
        shard = self.numbering.shard_numbers[command.shard]
        is_of_another = (command.journal, command.fence) != (self.journal, self.fence)
        if is_of_another or command.copies <= self.copies[shard]:
            return Outcome(Ignored("old"), has_changed=False)
        want = record.document.wants[shard]
        if command.copies > want:
            raise refuse("AboveWant", shard=command.shard, want=want)
        self.copies[shard] = command.copies
        return Outcome(Noted(command.shard, command.copies), has_changed=True)

    def is_moving(self, shard: int) -> bool:
        """Returns whether an order of a shard is present, or a handover of it is recorded: then who has its writes may
        be other servers than are recorded."""
        is_ordered = any(isinstance(it, Order) and it.shard == shard for it in self.orders())
        return is_ordered or any(it.is_in_handover for it in self.record.cells[shard])

    def kept_copies(self) -> tuple[int, ...]:
        """Returns by shard the copies by which a reopening counts that begins now. Beyond these there is one."""
        if self.reopening:
            return () if self.reopening.settles else self.reopening.kept
        return tuple(1 if self.is_moving(it) else copies for it, copies in enumerate(self.copies))

    # Reopening.

    def begin_reopening(self, command: Reopened) -> Outcome:
        """Begins a reopening, or replaces the one under way."""
        known = self.names_under_way if self.reopening else frozenset(self.document.servers if self.document else ())
        unknown = [it for it in command.lost if it not in known]
        if unknown and self.record:
            raise refuse("UnknownName", server=unknown[0])
        refuse_first([*double_cells(command.document), *bad_leads(command.document)])
        kept = [it for it in command.document.servers if it in command.lost]
        if kept:
            raise refuse("LostServer", server=kept[0])
        numbering = self.numbering.reopened(command.document)
        lost = frozenset(numbering.server_numbers[it] for it in command.lost if it in numbering.server_numbers)
        document, kept_copies = numbering.document(command.document), self.kept_copies()
        outcome = self.reopen(commands.Reopen(document, lost, command.journal, command.epoch))
        self.renumber(numbering)
        self.next_document = command.document
        self.names_under_way = known | frozenset(command.document.servers)
        shards = numbering.shards_of(command.document)
        self.reopening = NamedReopening.of(self.reopening, numbering, shards, kept_copies)
        return outcome

    def renumber(self, numbering: Numbering) -> dict[int, int]:
        """Gives servers other numbers, and returns them by those that they had."""
        old, self.numbering = self.numbering, numbering
        numbers = {it: numbering.server_numbers[name] for name, it in old.server_numbers.items()}
        self.carried = {numbers[it] for it in self.carried}
        self.approved = {
            by: Named(it.epoch, replace(it.reply, server=numbers[it.reply.server])) for by, it in self.approved.items()
        }
        self.restores = {
            numbers[it]: replace(restore, server=numbers[it]) for it, restore in self.restores.items()
        }
        return numbers

    def awaits(self, server: int | None, base: int) -> bool:
        """Returns whether this would be the first answer of a server to the fence."""
        reopening = self.reopening
        is_open = reopening is not None and base == reopening.base and not reopening.settles
        return is_open and server in reopening.targets and server not in reopening.inventories

    def take_inventory(self, server: int, base: int, told: Told) -> Outcome:
        """Takes the first answer of a server to the fence."""
        self.reopening.strays[server] = told.strays
        return self.fenced(commands.Fenced(server, base, told.found))

    def may_confirm(self, base: int) -> bool:
        """Returns whether a reopening with this base waits to be confirmed, or will."""
        return self.reopening is not None and not self.reopening.settles and base == self.reopening.base

    def confirm_cells(self, base: int, chosen: dict[int, tuple[Cell, ...]], named: list[str]) -> Outcome:
        """Accepts the proposal, with these cells of some shards in place of the proposed ones. Those that it names as lost
        are named."""
        reopening = self.reopening
        waits_for = reopening.waits_for()
        if waits_for:
            raise Refusal(missing(self.server_name(waits_for[0])))
        lost = [self.numbering.shards[it] for it in reopening.propose().lost]
        unnamed = [it for it in lost if it not in named] + [it for it in named if it not in lost]
        if unnamed:
            is_known = unnamed[0] in self.numbering.shard_numbers
            raise Refusal(words.own("Unnamed", **({"shard": unnamed[0]} if is_known else {})))
        proposed = reopening.propose().cells
        cells = tuple(chosen.get(shard, row) for shard, row in enumerate(proposed))
        fault = reopening.fault(cells)
        if fault:
            raise Refusal(fault)
        return self.confirm(commands.Confirm(base, cells))

    def put_in_force(self, reopening: Reopening) -> None:
        """Opens the epoch of a reopening, in which servers and shards have the numbers of the document's order."""
        before, numbering = self.numbering, self.numbering.opened(self.next_document)
        cells = [reopening.cells[before.shard_numbers[it]] for it in numbering.shards]
        servers = [before.server_numbers[it] for it in numbering.servers]
        numbers = self.renumber(numbering)
        reopening.cells = tuple(tuple(row[it] for it in servers) for row in cells)
        reopening.document = numbering.document(self.next_document)
        reopening.carried = tuple(numbers[it] for it in reopening.carried)
        reopening.inventories = {numbers.get(it, MAP): found for it, found in reopening.inventories.items()}
        if self.record:
            self.record.permits = {numbers[it]: permit for it, permit in self.record.permits.items()}
        super().put_in_force(reopening)
        self.document, self.next_document = self.next_document, None
        self.start, self.copies = Placement(self.document), [1] * len(self.document.shards)
