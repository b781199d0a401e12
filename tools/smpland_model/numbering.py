"""The numbers of servers and shards, and documents, plans and cells in numbers.

While an opening is in force, the servers and shards of its document have the numbers of its order. In a reopening they
keep them, those of a reopening that is replaced keep theirs, and what is new in the document follows in its order.
"""
from __future__ import annotations

from collections.abc import Iterable
from dataclasses import dataclass, field

from driving_model.cells import ABSENT, GONE, Kind, Lead, PRIMARY, SECONDARY, Stage, Verb
from driving_model.commands import Cells, Document
from driving_model.messages import MAP
from driving_model.plans import (
    CellRight, Crown, CrownRight, Hold, Instruction, Plan, RoomRight, SpareRight, Stream, add, change, drop,
    prepare_add, prepare_drop, publish, signal, unlist, wait,
)
from smplan import model as documents

ROLES = {"primary": PRIMARY, "secondary": SECONDARY, "absent": ABSENT}


def behind(first: Iterable[str], others: Iterable[str]) -> tuple[str, ...]:
    """Returns these names, and then those of the others that are not among them."""
    return tuple(dict.fromkeys([*first, *others]))


def without(names: Iterable[str], others: Iterable[str]) -> tuple[str, ...]:
    """Returns the names that are not among the others."""
    left_out = set(others)
    return tuple(it for it in names if it not in left_out)


@dataclass(frozen=True)
class Numbering:
    """Servers and shards by their numbers."""

    servers: tuple[str, ...] = ()
    shards: tuple[str, ...] = ()
    # Servers that only documents before have had. They have numbers behind all others, for what is told of them.
    gone: tuple[str, ...] = ()
    server_numbers: dict[str, int] = field(init=False)
    shard_numbers: dict[str, int] = field(init=False)

    def __post_init__(self) -> None:
        servers = self.servers + self.gone
        object.__setattr__(self, "server_numbers", {name: it for it, name in enumerate(servers)})
        object.__setattr__(self, "shard_numbers", {name: it for it, name in enumerate(self.shards)})

    def opened(self, document: documents.Document) -> Numbering:
        """Returns the numbering of an opening that is in force: that of its document's order."""
        servers, shards = tuple(document.servers), tuple(document.shards)
        return Numbering(servers, shards, without(self.servers + self.gone, servers))

    def reopened(self, document: documents.Document) -> Numbering:
        """Returns the numbering of a reopening: names that have a number keep it, and the document's new ones follow."""
        servers = behind(self.servers, document.servers)
        return Numbering(servers, behind(self.shards, document.shards), without(self.gone, servers))

    def shards_of(self, document: documents.Document) -> tuple[int, ...]:
        """Returns the numbers of a document's shards, the lowest first."""
        return tuple(it for it, name in enumerate(self.shards) if name in document.shards)

    def server(self, name: str | None) -> int | None:
        """Returns the number of a server, or of the map's owner, if it has one."""
        return MAP if name is None else self.server_numbers.get(name)

    def server_name(self, number: int | None) -> str | None:
        """Returns the name of a server; the map's owner has none."""
        return None if number is None or number == MAP else (self.servers + self.gone)[number]

    # Documents.

    def cells(self, document: documents.Document) -> Cells:
        """Returns the cells of all shards, each row as wide as there are servers."""
        rows = []
        for name in self.shards:
            cells = document.shards[name].cells if name in document.shards else ()
            states = {self.server_numbers[it.server]: ROLES[it.state] for it in cells}
            rows.append(tuple(states.get(it, ABSENT) for it in range(len(self.servers))))
        return tuple(rows)

    def document(self, document: documents.Document) -> Document:
        """Returns a document. Shards that it leaves out have no load there, and no cells."""
        servers, shards = document.servers, [document.shards.get(it) for it in self.shards]
        return Document(
            servers=frozenset(self.server_numbers[it] for it in servers),
            rooms=tuple(servers[it].room if it in servers else 0 for it in self.servers),
            loads=tuple(it.load if it else 0 for it in shards),
            wants=tuple(it.want if it else 0 for it in shards),
            caps=tuple(it.cap if it else 0 for it in shards),
            limit=document.limit,
            cells=self.cells(document),
            down=frozenset(self.server_numbers[it.name] for it in servers.values() if it.down),
            log=document.log,
        )

    def listed(self, document: documents.Document) -> list[int | None]:
        """Returns the server that the map names for each shard of a document."""
        return [None if it.listed is None else self.server_numbers[it.listed] for it in document.shards.values()]

    # Plans.

    def plan(self, plan: documents.Plan) -> Plan:
        """Returns a plan."""
        streams = tuple(
            Stream(self.parcel(it.holds), tuple(map(self.instruction, it.code)), it.budget, it.retries)
            for it in plan.streams
        )
        return Plan(streams, tuple(map(self.parcel, plan.signals)))

    def parcel(self, parcel: documents.Parcel) -> Hold:
        """Returns rights, in the order of their keys."""
        servers, shards = self.server_numbers, self.shard_numbers
        cells = {CellRight(shards[s], servers[v]): ROLES[state] for (s, v), state in parcel.cells.items()}
        crowns = {CrownRight(shards[it]): self.crown(crown) for it, crown in parcel.crowns.items()}
        room = {RoomRight(servers[it]): amount for it, amount in parcel.room.items()}
        spare = {SpareRight(shards[it]): amount for it, amount in parcel.spare.items()}
        hold: Hold = {}
        for part in (cells, crowns, room, spare):
            hold |= dict(sorted(part.items(), key=lambda it: it[0]))
        return hold

    def crown(self, crown: documents.Crown) -> Crown:
        """Returns a crown."""
        lead = crown.lead
        numbers = [self.server_numbers[it] for it in (lead.owner, lead.taker) if it is not None]
        listed = None if crown.listed is None else self.server_numbers[crown.listed]
        return Crown(GONE if lead.state == "gone" else Lead(Stage(lead.state), *numbers), listed)

    def instruction(self, it: documents.Instruction) -> Instruction:
        """Returns an instruction."""
        verb = Verb(it.do)
        if verb in (Verb.SIGNAL, Verb.WAIT):
            return signal(it.signal) if verb is Verb.SIGNAL else wait(it.signal)
        shard = self.shard_numbers[it.shard]
        if verb in (Verb.PUBLISH, Verb.UNLIST):
            return publish(shard) if verb is Verb.PUBLISH else unlist(shard)
        server = self.server_numbers[it.server]
        if verb in (Verb.PREPARE_ADD, Verb.PREPARE_DROP):
            make = prepare_add if verb is Verb.PREPARE_ADD else prepare_drop
            return make(shard, server, self.server_numbers[it.other])
        if verb is Verb.DROP:
            return drop(shard, server)
        return (add if verb is Verb.ADD else change)(shard, server, Kind(it.role))
