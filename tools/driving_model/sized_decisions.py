"""The decisions of the controller on changes of sizes. Each returns the first reason against it, or None."""
from __future__ import annotations

from collections.abc import Iterable

from .cells import ABSENT
from .plans import CellRight, CrownRight, Key, Plan, RoomRight, SpareRight
from .record import Record
from .replies import Refused
from .sizes import Resize, SizedDocument, SizedRules


def newcomers(record: Record, document: SizedDocument, has_rule: bool = True) -> frozenset[int]:
    """The servers that the document adds; none without the rule that is about them."""
    return document.servers - record.document.servers if has_rule else frozenset()


def epoch_fault(record: Record, document: SizedDocument, rules: SizedRules) -> Refused | None:
    """Why no epoch opens over the record with the document's sizes."""
    return leaver_fault(record, document, rules) or place_fault(record, document, rules)


def leaver_fault(record: Record, document: SizedDocument, rules: SizedRules) -> Refused | None:
    """A server or a shard that is taken away, and has a cell."""
    for server in sorted(record.document.servers - document.servers):
        shard = next((it for it in record.shards if record.cells[it][server] != ABSENT), None)
        if shard is not None and rules.leaver_is_bare:
            return Refused("StillThere", server=server, shard=shard)
    for shard in sorted(document.left_out - record.document.left_out):
        server = next((it for it, cell in enumerate(record.cells[shard]) if cell != ABSENT), None)
        if server is not None and rules.shard_is_bare:
            return Refused("StillThere", server=server, shard=shard)
    return None


def place_fault(record: Record, document: SizedDocument, rules: SizedRules) -> Refused | None:
    """Why the placement would not be settled with the document's sizes."""
    for server in sorted(document.servers & record.document.servers):
        load = sum(document.loads[it] for it in record.shards if record.cells[it][server] != ABSENT)
        if load > document.rooms[server] and rules.loads_fit:
            return Refused("OverRoom", server=server, detail=f"{load} of {document.rooms[server]}")
    return live_fault(record, document, rules) or down_fault(record, document, rules)


def live_fault(record: Record, document: SizedDocument, rules: SizedRules) -> Refused | None:
    """A floor that is raised above the shard's live replicas. One that a reopening has lowered may stay so."""
    for shard in record.shards:
        live, floor = record.live(shard), document.floor(shard)
        if live < floor and floor > record.document.floor(shard) and rules.floors_live:
            return Refused("Short", shard=shard, detail=f"{live} of {floor}")
    return None


def down_fault(record: Record, document: SizedDocument, rules: SizedRules) -> Refused | None:
    """A limit or a log that is too low for those who are down and stay, and whom the document adds."""
    added = newcomers(record, document, rules.newcomer_down)
    down, limit = len(added | (document.servers & set(record.permits))), document.limit
    if down > limit and (added or limit < record.document.limit) and rules.limit_down:
        return Refused("TooManyDown", detail=f"{down} of {limit}")
    return Refused("LogFull", detail=f"{down} of {document.log}") if down > document.log and rules.log_down else None


def names_of_keys(keys: Iterable[Key]) -> tuple[set[int], set[int]]:
    """The shards and the servers that rights name."""
    shards, servers = set(), set()
    for key in keys:
        if isinstance(key, (CellRight, CrownRight, SpareRight)):
            shards.add(key.shard)
        if isinstance(key, (CellRight, RoomRight)):
            servers.add(key.server)
    return shards, servers


def named_by(record: Record) -> tuple[set[int], set[int]]:
    """The shards and the servers that unfinished streams name, in their code, in what they declare and in parcels."""
    shards: set[int] = set()
    servers: set[int] = set()
    for plan, _, state in record.running():
        parcels = record.plans[plan].plan.signals
        for keys in (state.stream.declares, *parcels):
            more_shards, more_servers = names_of_keys(keys)
            shards, servers = shards | more_shards, servers | more_servers
        shards |= {it.shard for it in state.stream.code if it.shard is not None}
        servers |= state.stream.servers
    return shards, servers


def resize_fault(record: Record, command: Resize, sized: SizedDocument, rules: SizedRules) -> Refused | None:
    """Why sizes do not change to those of the document `sized` beside the plans that run."""
    for shard, _ in command.loads:
        if shard in record.document.left_out:
            return Refused("UnknownShard", shard=shard)
    for server, _ in command.rooms:
        if server not in record.document.servers:
            return Refused("UnknownServer", server=server)
    shards, servers = named_by(record)
    for shard, _ in command.loads:
        if shard in shards and rules.named_loads_stay:
            return Refused("Engaged", shard=shard)
    for server, _ in command.rooms:
        if server in servers and rules.named_rooms_stay:
            return Refused("Engaged", server=server)
    held = record.held()
    for server in sorted(sized.servers):
        load = sum(sized.loads[it] for it in record.shards if record.cells[it][server] != ABSENT)
        load += held.get(RoomRight(server), 0) if rules.held_rooms_fit else 0
        if load > sized.rooms[server]:
            return Refused("OverRoom", server=server, detail=f"{load} of {sized.rooms[server]}")
    return None


def unmet_shard(plan: Plan, document: SizedDocument) -> int | None:
    """A shard that the plan names, and the document has not."""
    keys = [key for it in plan.streams for key in it.declares] + [key for it in plan.signals for key in it]
    shards = names_of_keys(keys)[0] | {at.shard for it in plan.streams for at in it.code if at.shard is not None}
    return min(shards & document.left_out, default=None)
