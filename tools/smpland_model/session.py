"""A session: each line has one reply. A line that changes something is an entry of the journal."""
from __future__ import annotations

from collections.abc import Callable
from typing import Any

from driving_model import commands, replies
from driving_model.cells import Cell, Kind, PRIMARY, SECONDARY
from driving_model.controller import Answer
from driving_model.messages import Inventory, Unknown
from driving_model.replies import Outcome
from smpland_model import lines, words
from smpland_model.asking import Asking
from smpland_model.controller import Beginning, Copied, NamedController, Noted, Refusal, Reopened, Told
from smpland_model.history import History
from smpland_model.lines import BadLine, Known
from smpland_model.messages import Writer, hexadecimal
from smpland_model.reopening import ABSENT_SLOT, SlotOfLine
from smplan.faults import Fault, FaultKind
from smplan.model import Document, document_of, plan_of
from smplan.reading import Names

Json = dict[str, Any]

TOO_LONG = BadLine(Fault(FaultKind.TOO_LONG, None, "$", "the line is too long"), "$", None)


class Session:
    """A controller, the place of its last entry, and what happened where."""

    def __init__(self, program: str | None = None) -> None:
        self.controller = NamedController()
        self.writer = Writer(self.controller)
        self.history = History(self.controller)
        self.asking = Asking(self.controller, self.writer, self.history, self.read_inside, program)
        self.known = known_of(self.controller)
        # The restore of each server that was recorded last, as it was told.
        self.restores: dict[str, Json] = {}

    # Lines.

    def reply(self, line: bytes) -> Json:
        """Returns the reply to a line."""
        try:
            command = lines.read(line, self.known)
            return identified(command.get("id"), self.done(command))
        except BadLine as bad:
            return identified(bad.identity, {"bad": bad.told})

    @staticmethod
    def reply_to_long() -> Json:
        """Returns the reply to a line that is too long."""
        return {"bad": TOO_LONG.told}

    def done(self, command: Json) -> Json:
        """Does a command, and returns the reply."""
        do = command["do"]
        try:
            if do in self.asking.answers:
                return self.asking.answers[do](command)
            doers: dict[str, Callable[[Json], Outcome]] = {
                "open": self.open, "begin": self.begin, "answered": self.answered, "approve": self.approve,
                "restarted": self.restarted, "restore": self.restore, "new_epoch": self.new_epoch,
                "copied": self.copied, "reopen": self.reopen, "fenced": self.fenced, "confirm": self.confirm,
                "settled": self.settled,
            }
            outcome = doers[do](command)
        except Refusal as refusal:
            return {"refused": refusal.told}
        except Answer as answer:
            outcome = Outcome(answer.reply, has_changed=False)
        told = self.told(outcome)
        if outcome.has_changed:
            self.history.add(outcome)
            if isinstance(outcome.reply, (replies.Opened, replies.Fencing)):
                self.known = known_of(self.controller)
        return told

    # What came of a command.

    def told(self, outcome: Outcome) -> Json:
        """Returns the reply to a command that is no question."""
        writers: dict[type, Callable[[Any], Json]] = {
            replies.Opened: lambda it: {"opened": self.opened(it)},
            replies.Begun: lambda it: self.begun(it, outcome),
            replies.Moved: lambda it: {
                "moved": {"plan": it.plan, "stream": it.stream, "at": it.at}, **self.following(outcome),
            },
            replies.Approved: lambda it: {"approved": self.approved(it)},
            replies.PermitEnded: lambda it: {"ended": {"server": self.writer.server(it.server), "permit": it.permit}},
            replies.Up: lambda it: {"up": self.writer.server(it.server)},
            replies.Restoring: lambda it: {"restore": self.restored(it, outcome.has_changed)},
            Noted: lambda it: {"copied": {"shard": it.shard, "copies": it.copies}},
            replies.Fencing: lambda it: {"fence": [self.writer.fence(fence) for fence in it.fences]},
            replies.Waiting: lambda it: {"waiting": self.writer.waiting(it.servers)},
            replies.Proposal: lambda it: {"proposal": self.writer.proposal(it)},
            replies.Settling: lambda it: {"settle": [self.writer.settle(settle) for settle in it.settles]},
            replies.Ignored: lambda it: {"ignored": it.why},
            replies.Refused: lambda it: {"refused": self.refused(it)},
        }
        return writers[type(outcome.reply)](outcome.reply)

    def following(self, outcome: Outcome) -> Json:
        """Returns the orders that came of a command, and the plans that ended."""
        return {"orders": self.writer.orders(outcome.orders), "ended": list(outcome.ended)}

    def opened(self, opened: replies.Opened) -> Json:
        """Returns what is told of an opening."""
        permits = [{"server": self.writer.server(server), "permit": permit} for server, permit in opened.permits]
        unknown = [self.writer.server(server) for server in self.controller.unknown()]
        return {"journal": hexadecimal(opened.journal), "epoch": opened.epoch, "permits": permits, "restore": unknown}

    def begun(self, begun: replies.Begun, outcome: Outcome) -> Json:
        """Returns what is told of a plan that has begun."""
        told: Json = {"plan": begun.plan, "calls": begun.calls, "streams": begun.streams, "epoch": begun.epoch}
        return {"begun": told, **({"again": True} if begun.is_again else {}), **self.following(outcome)}

    def approved(self, approved: replies.Approved) -> Json:
        """Returns what is told of a restart that is approved: its permit, and the shards that nobody serves meanwhile."""
        unserved = [self.writer.shard(it) for it in self.asking.shards() if self.writer.owner(it) == approved.server]
        return {"server": self.writer.server(approved.server), "permit": approved.permit, "unserved": unserved}

    def restored(self, restoring: replies.Restoring, is_new: bool) -> Json:
        """Returns a restore as it was told first."""
        name = self.writer.server(restoring.restore.server)
        if is_new:
            self.restores[name] = self.writer.restore(restoring.restore)
        return self.restores[name]

    def refused(self, refused: replies.Refused) -> Json:
        """Returns a refusal of the model."""
        where: Json = {}
        if refused.shard is not None:
            where["shard"] = self.writer.shard(refused.shard)
        if refused.server is not None:
            where["server"] = self.writer.server(refused.server)
        where |= {name: it for name in ("plan", "stream") if (it := getattr(refused, name)) is not None}
        return words.own(refused.kind, **where)

    # Commands.

    def read_inside(self, command: Json) -> None:
        """Looks at the objects inside a command, once it is known that they count."""
        lines.read_inside(command, self.known)

    def open(self, command: Json) -> Outcome:
        """Opens a settled placement."""
        self.controller.check_first()
        self.read_inside(command)
        document = document_of(command["document"])
        return self.controller.open_document(document, int(command["journal"], 16), command["epoch"])

    def begin(self, command: Json) -> Outcome:
        """Begins a plan."""
        controller = self.controller
        if command["name"] in controller.begun:
            if controller.is_kept(command["name"]):
                self.read_inside(command)
                controller.check_again(Beginning(command["name"], plan_of(command["plan"])))
            return controller.begun_before(command["name"])
        controller.need_open()
        self.read_inside(command)
        return controller.begin(Beginning(command["name"], plan_of(command["plan"])))

    def answered(self, command: Json) -> Outcome:
        """Takes the answer to an order."""
        return self.controller.answered(
            commands.Answered(command["plan"], command["stream"], command["number"])
        )

    def approve(self, command: Json) -> Outcome:
        """Gives leave to restart a server."""
        server = self.controller.numbering.server_numbers.get(command["server"])
        return self.controller.approve(commands.Approve(server, command["by"]))

    def restarted(self, command: Json) -> Outcome:
        """Takes the end of a restart."""
        self.controller.need_journal()
        return self.controller.restarted(commands.Restarted(command["permit"], command["base"]))

    def restore(self, command: Json) -> Outcome:
        """Restores a server."""
        server = self.controller.numbering.server_numbers.get(command["server"])
        if server is None:
            self.controller.need_open()
        return self.controller.restore(commands.RestoreServer(server, int(command["nonce"], 16)))

    def new_epoch(self, _command: Json) -> Outcome:
        """Opens the next epoch."""
        return self.controller.new_epoch(commands.NewEpoch())

    def copied(self, command: Json) -> Outcome:
        """Notes how many replicas surely have each acknowledged write."""
        journal = int(command["journal"], 16)
        return self.controller.copied(Copied(command["shard"], journal, command["fence"], command["copies"]))

    def reopen(self, command: Json) -> Outcome:
        """Begins a reopening."""
        journal = int(command["journal"], 16) if "journal" in command else None
        self.controller.check_journal(journal, command.get("epoch"))
        self.read_inside(command)
        document = document_of(command["document"])
        reopened = Reopened(document, command.get("lost", []), journal, command.get("epoch"))
        return self.controller.begin_reopening(reopened)

    def fenced(self, command: Json) -> Outcome:
        """Takes what a server has."""
        controller = self.controller
        controller.need_journal()
        server = controller.numbering.server(command["server"])
        if not controller.awaits(server, command["base"]):
            return Outcome(replies.Ignored("old"), has_changed=False)
        self.read_inside(command)
        return controller.take_inventory(server, command["base"], self.inventory(command))

    def inventory(self, command: Json) -> Told:
        """Returns what a server tells."""
        if command["server"] is None:
            return Told(Inventory())
        if "unknown" in command:
            return Told(Unknown(int(command["unknown"], 16)))
        numbers = self.controller.numbering.shard_numbers
        found = [ABSENT_SLOT] * len(numbers)
        strays = []
        for slot in command["slots"]:
            if slot["shard"] in numbers:
                found[numbers[slot["shard"]]] = slot_found(slot)
            elif slot["cell"] != "absent":
                strays.append(slot["shard"])
        return Told(Inventory(tuple(found)), strays)

    def confirm(self, command: Json) -> Outcome:
        """Confirms what is settled."""
        self.controller.need_journal()
        if not self.controller.may_confirm(command["base"]):
            return Outcome(replies.Ignored("old"), has_changed=False)
        self.read_inside(command)
        return self.controller.confirm_cells(command["base"], self.chosen(command.get("cells", [])), command.get("lost", []))

    def chosen(self, shards: list[Json]) -> dict[int, tuple[Cell, ...]]:
        """Returns cells that are to be settled in place of the proposed ones."""
        numbering = self.controller.numbering
        chosen = {}
        for shard in shards:
            row = [Cell(Kind.ABSENT)] * len(numbering.servers)
            for cell in shard["cells"]:
                row[numbering.server_numbers[cell["server"]]] = PRIMARY if cell["state"] == "primary" else SECONDARY
            chosen[numbering.shard_numbers[shard["shard"]]] = tuple(row)
        return chosen

    def settled(self, command: Json) -> Outcome:
        """Takes the answer to a settle."""
        self.controller.need_journal()
        server = self.controller.numbering.server(command["server"])
        return self.controller.settled(commands.Settled(server, command["base"]))


def known_of(controller: NamedController) -> Known:
    """Returns the names that a line may have."""
    return Known(names_of(controller.document), names_of(controller.next_document))


def names_of(document: Document | None) -> Names:
    """Returns the names of a document; without one any name is known."""
    if document is None:
        return Names(all_known=True)
    return Names({name: "" for name in document.servers}, {name: "" for name in document.shards})


def slot_found(slot: Json) -> SlotOfLine:
    """Returns what a server tells of a shard."""
    kind = Kind(slot["cell"])
    in_handover = kind in (Kind.PREPARED, Kind.FORWARDING)
    cell = Cell(kind, slot["party"], slot["handover"]) if in_handover else Cell(kind)
    return SlotOfLine(cell, slot.get("position", 0), slot.get("reached", False), slot.get("view", 0))


def identified(identity: Any, reply: Json) -> Json:
    """Returns a reply with the identity of its line."""
    return reply if identity is None else {"id": identity} | reply
