"""Commands of the model of the network as lines of `smpland`, and replies of both in one form, to be compared.

Server 2 is named `v2` and shard 1 is named `s1`; the map's owner has no name.
"""
from __future__ import annotations

from dataclasses import replace
from typing import Any

from driving_model import commands, replies
from driving_model.cells import ABSENT, PRIMARY, Stage, Verb
from driving_model.controller import Controller
from driving_model.messages import MAP, Order, Publication, Settle, SettleMap, SlotTold, Unknown
from driving_model.plans import CellRight, Crown, CrownRight, Instruction, Plan, RoomRight, Stream
from driving_model.record import primary_of

Json = dict[str, Any]


def server_name(number: int | None) -> str | None:
    """Returns the name of a server."""
    return None if number is None or number == MAP else f"v{number}"


def shard_name(number: int) -> str:
    """Returns the name of a shard."""
    return f"s{number}"


# Commands.

def with_own_cells(document: commands.Document) -> commands.Document:
    """Returns a document without the cells of servers that it has not."""
    rows = tuple(tuple(it if at in document.servers else ABSENT for at, it in enumerate(row)) for row in document.cells)
    return replace(document, cells=rows)


def document_json(document: commands.Document) -> Json:
    """Returns a document."""
    return {
        "limit": document.limit, "log": document.log,
        "servers": [
            {"name": server_name(it), "region": "r", "room": document.rooms[it], "down": it in document.down}
            for it in sorted(document.servers)
        ],
        "shards": [
            {
                "name": shard_name(it), "load": document.loads[it], "want": document.wants[it],
                "cap": document.caps[it], "spread": 0, "listed": server_name(primary_of(row)), "cells": cells_json(row),
            }
            for it, row in enumerate(document.cells)
        ],
    }


def cells_json(row: Any) -> list[Json]:
    """Returns the cells of a shard."""
    return [{"server": server_name(it), "state": cell.kind.value} for it, cell in enumerate(row) if cell != ABSENT]


def plan_json(plan: Plan) -> Json:
    """Returns a plan."""
    streams = [stream_json(it) for it in plan.streams]
    return {
        "format": 2, "budget": sum(it["budget"] + it["retries"] for it in streams),
        "signals": [parcel_json(it) for it in plan.signals], "streams": streams,
    }


def stream_json(stream: Stream) -> Json:
    """Returns a stream."""
    code = [instruction_json(it) for it in stream.code]
    budget = stream.tries - stream.retries
    return {"budget": budget, "retries": stream.retries, "holds": parcel_json(stream.declares), "code": code}


def parcel_json(hold: Any) -> Json:
    """Returns rights."""
    told: Json = {"cells": [], "crowns": [], "room": [], "spare": []}
    for key, value in hold.items():
        if isinstance(key, CellRight):
            names = {"shard": shard_name(key.shard), "server": server_name(key.server)}
            told["cells"].append(names | {"state": value.kind.value})
        elif isinstance(key, CrownRight):
            told["crowns"].append(crown_json(key, value))
        elif isinstance(key, RoomRight):
            told["room"].append({"server": server_name(key.server), "amount": value})
        else:
            told["spare"].append({"shard": shard_name(key.shard), "amount": value})
    return told


def crown_json(key: CrownRight, crown: Crown) -> Json:
    """Returns a crown."""
    lead = crown.lead
    told = {"shard": shard_name(key.shard), "lead": lead.stage.value, "listed": server_name(crown.listed)}
    if lead.stage is Stage.AT:
        return told | {"server": server_name(lead.owner)}
    if lead.stage is Stage.GONE:
        return told
    return told | {"from": server_name(lead.owner), "to": server_name(lead.new_owner)}


def instruction_json(it: Instruction) -> Json:
    """Returns an instruction."""
    told: Json = {"do": it.verb.value}
    if it.verb in (Verb.SIGNAL, Verb.WAIT):
        return told | {"signal": it.signal}
    told["shard"] = shard_name(it.shard)
    if it.server is not None:
        told["server"] = server_name(it.server)
    if it.party is not None:
        told["other"] = server_name(it.party)
    if it.role is not None:
        told["role" if it.verb is Verb.ADD else "to"] = it.role.value
    return told


def slot_json(shard: int, slot: Any) -> Json:
    """Returns what a server tells of a shard."""
    cell = slot.cell
    told: Json = {"shard": shard_name(shard), "cell": cell.kind.value, "position": slot.position}
    if cell.is_in_handover:
        told |= {"party": server_name(cell.party), "handover": cell.handover, "reached": slot.has_reached_cut}
    return told


def command_json(command: commands.Command) -> Json:
    """Returns a command as a line has it."""
    match command:
        case commands.Open():
            told = {"do": "open", "document": document_json(command.document)}
            return told | {"journal": f"{command.journal:x}", "epoch": command.epoch}
        case commands.Begin():
            return {"do": "begin", "plan": plan_json(command.plan), "name": command.name}
        case commands.Answered():
            return {"do": "answered", "plan": command.plan, "stream": command.stream, "number": command.number}
        case commands.Approve():
            return {"do": "approve", "server": server_name(command.server), "by": command.by}
        case commands.Restarted():
            return {"do": "restarted", "permit": command.permit, "base": command.base}
        case commands.RestoreServer():
            return {"do": "restore", "server": server_name(command.server), "nonce": f"{command.nonce:x}"}
        case commands.NewEpoch():
            return {"do": "new_epoch"}
        case commands.Settled():
            return {"do": "settled", "server": server_name(command.server), "base": command.base}
        case commands.Reopen():
            return reopen_json(command)
        case commands.Fenced():
            return fenced_json(command)
        case commands.Confirm():
            rows = enumerate(command.cells or ())
            cells = [{"shard": shard_name(it), "cells": cells_json(row)} for it, row in rows]
            return {"do": "confirm", "base": command.base} | ({"cells": cells} if command.cells else {})
    raise ValueError(f"this is no command: {command}")


def reopen_json(command: commands.Reopen) -> Json:
    """Returns a reopening."""
    told: Json = {"do": "reopen", "document": document_json(command.document)}
    told["lost"] = [server_name(it) for it in sorted(command.lost)]
    if command.journal is not None:
        told |= {"journal": f"{command.journal:x}", "epoch": command.epoch}
    return told


def fenced_json(command: commands.Fenced) -> Json:
    """Returns an answer to a fence."""
    told: Json = {"do": "fenced", "server": server_name(command.server), "base": command.base}
    if command.server == MAP:
        return told
    if isinstance(command.found, Unknown):
        return told | {"unknown": f"{command.found.nonce:x}"}
    return told | {"slots": [slot_json(it, slot) for it, slot in enumerate(command.found.slots)]}


# Replies.

def order_form(order: Order | Publication) -> Json:
    """Returns the members of an order that the reply has, too."""
    told: Json = {
        "plan": order.plan, "stream": order.stream, "number": order.number, "shard": shard_name(order.shard),
        "epoch": order.epoch, "fence": order.fence, "journal": f"{order.journal:x}",
    }
    if isinstance(order, Publication):
        return told | {"server": None, "call": "publish", "to": server_name(order.to), "version": order.version}
    call = order.call
    told |= {"server": server_name(order.server), "call": call.verb.value, "load": order.load, "room": order.room}
    match call.verb:
        case Verb.ADD:
            return told | {"role": call.role.value}
        case Verb.CHANGE:
            return told | {"from": call.previous.value, "to": call.role.value}
        case Verb.PREPARE_ADD:
            return told | {"from": server_name(call.party), "handover": call.handover}
        case Verb.PREPARE_DROP:
            return told | {"to": server_name(call.party), "handover": call.handover}
    return told


def without(told: Json, *members: str) -> Json:
    """Returns an object without these members."""
    return {name: it for name, it in told.items() if name not in members}


def told_slots(slots: tuple[SlotTold, ...], given_up: frozenset[int] = frozenset()) -> list[Json]:
    """The slots of a restore or a settle."""
    found = []
    for shard, slot in enumerate(slots):
        cell = slot.cell
        told = {"shard": shard_name(shard), "cell": cell.kind.value, "load": slot.load}
        if cell.is_in_handover:
            told |= {"party": server_name(cell.party), "handover": cell.handover}
        found += [told] if cell != ABSENT or shard in given_up else []
    return found


def settle_form(settle: Settle | SettleMap) -> Json:
    """Returns a settle."""
    told: Json = {"server": server_name(settle.server), "base": settle.base, "journal": f"{settle.journal:x}"}
    if isinstance(settle, SettleMap):
        entries = [(shard_name(it), server_name(to)) for it, to in enumerate(settle.entries)]
        return told | {"entries": [{"shard": it, "to": to, "version": settle.base} for it, to in entries]}
    nonce = None if settle.nonce is None else f"{settle.nonce:x}"
    return told | {"nonce": nonce, "slots": told_slots(settle.slots, settle.given_up)}


def reply_form(reply: replies.Reply) -> Json:
    """Returns a reply of the model, but for what has another order or other words."""
    match reply:
        case replies.Opened():
            servers = [server_name(it) for it, _ in reply.permits]
            return {"opened": {"epoch": reply.epoch, "journal": f"{reply.journal:x}", "permits": servers}}
        case replies.Begun():
            names = ("plan", "calls", "streams", "epoch")
            return {"begun": {it: getattr(reply, it) for it in names}} | ({"again": True} if reply.is_again else {})
        case replies.Moved():
            return {"moved": {"plan": reply.plan, "stream": reply.stream, "at": reply.at}}
        case replies.Approved():
            # (the session also tells the shards that nobody serves meanwhile)
            return {"approved": {"server": server_name(reply.server), "permit": reply.permit}}
        case replies.PermitEnded():
            return {"ended": {"server": server_name(reply.server), "permit": reply.permit}}
        case replies.Up():
            return {"up": server_name(reply.server)}
        case replies.Restoring():
            restore = reply.restore
            return {"restore": {
                "server": server_name(restore.server), "nonce": f"{restore.nonce:x}", "journal": f"{restore.journal:x}",
                "fence": restore.fence, "base": restore.base, "slots": told_slots(restore.slots),
            }}
        case replies.Fencing():
            return {"fence": {server_name(it.server): it.base for it in reply.fences}}
        case replies.Waiting():
            return {"waiting": set(map(server_name, reply.servers))}
        case replies.Proposal():
            return {"proposal": {
                "cells": [cells_json(row) for row in reply.cells], "lost": [shard_name(it) for it in reply.lost],
                "floors": [(shard_name(it), live) for it, live in reply.floors],
                "carried": set(map(server_name, reply.carried)),
            }}
        case replies.Settling():
            return {"settle": {server_name(it.server): settle_form(it) for it in reply.settles}}
        case replies.Ignored():
            return {"ignored": True}
        case replies.Refused():
            return {"refused": reply.kind}
    raise ValueError(f"this is no reply: {reply}")


def in_order(cells: list[Json]) -> list[Json]:
    """Returns cells by their servers."""
    return sorted(cells, key=lambda it: it["server"])


def line_form(told: Json) -> Json:
    """Returns the reply to a line in the form of `reply_form`."""
    word = next(iter(told))
    value = told[word]
    match word:
        case "opened":
            # (the session also tells whom to restore)
            return {"opened": without(value, "restore") | {"permits": [it["server"] for it in value["permits"]]}}
        case "begun":
            return {"begun": value} | ({"again": True} if told.get("again") else {})
        case "fence":
            return {"fence": {it["server"]: it["base"] for it in value}}
        case "waiting":
            return {"waiting": set(value)}
        case "proposal":
            return {"proposal": {
                "cells": [in_order(it["cells"]) for it in value["cells"]], "lost": value["lost"],
                "floors": [(it["shard"], it["live"]) for it in value["floors"]], "carried": set(value["carried"]),
            }}
        case "settle":
            return {"settle": {it["server"]: it for it in value}}
        case "ignored":
            return {"ignored": True}
        case "refused":
            return {"refused": value["kind"]}
        case "bad":
            return {"refused": "UnknownServer"} if value["kind"] == "UnknownName" else told
    return {word: value}


def present(controller: Controller) -> list[Json]:
    """Returns the present orders."""
    return [order_form(it) for it in controller.orders()]


def has_two_primaries(document: commands.Document) -> bool:
    """Returns whether a shard of a document has two primaries."""
    return any(sum(it == PRIMARY for it in row) > 1 for row in document.cells)
