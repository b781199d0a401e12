"""What goes out, as JSON values: orders, publications, restores, fences, settles, proposals and placements."""
from __future__ import annotations

from collections.abc import Iterable
from typing import Any

from driving_model.cells import ABSENT, Cell, Kind, Lead, Stage, Verb, lead_of
from driving_model.commands import Cells
from driving_model.messages import Fence, MAP, Message, Order, Publication, Restore, Settle, SettleMap, SlotTold
from driving_model.replies import Proposal
from smpland_model.controller import NamedController

Json = dict[str, Any]


def hexadecimal(number: int | None) -> str | None:
    """Returns 64 random bits as they are written."""
    return None if number is None else f"{number:x}"


def owner_of(lead: Lead) -> int | None:
    """Returns from whom a replica is copied: in a handover the old owner until the new one has taken over."""
    return lead.new_owner if lead.stage is Stage.HANDED else lead.owner


class Writer:
    """Writes what a controller says."""

    def __init__(self, controller: NamedController) -> None:
        self.controller = controller

    def server(self, number: int | None) -> str | None:
        """Returns the name of a server; the map's owner has none."""
        return self.controller.server_name(number)

    def shard(self, number: int) -> str:
        """Returns the name of a shard."""
        return self.controller.shard_name(number)

    def owner(self, shard: int) -> int | None:
        """Returns the server that has a shard's data."""
        return owner_of(lead_of(self.controller.record.cells[shard]))

    # Orders.

    def order(self, order: Order | Publication) -> Json:
        """Returns an order, or a publication."""
        names: Json = {
            "journal": hexadecimal(order.journal), "epoch": order.epoch, "fence": order.fence, "plan": order.plan,
            "stream": order.stream, "number": order.number,
        }
        if isinstance(order, Publication):
            names |= {"server": None, "call": "publish", "shard": self.shard(order.shard)}
            return names | {"to": self.server(order.to), "version": order.version}
        row = self.controller.record.cells[order.shard]
        replicas = [self.server(it) for it, cell in enumerate(row) if cell != ABSENT]
        names |= {"server": self.server(order.server), "call": order.call.verb.value, "shard": self.shard(order.shard)}
        names |= self.by_call(order) | {"load": order.load, "room": order.room}
        return names | {"primary": self.server(owner_of(lead_of(row))), "replicas": replicas}

    def by_call(self, order: Order) -> Json:
        """Returns the members that an order has by its call."""
        call = order.call
        if call.verb is Verb.ADD:
            return {"role": call.role.value}
        if call.verb is Verb.CHANGE:
            return {"from": call.previous.value, "to": call.role.value}
        if call.verb is Verb.DROP:
            return {}
        end = "from" if call.verb is Verb.PREPARE_ADD else "to"
        return {end: self.server(call.party), "handover": call.handover}

    def orders(self, orders: Iterable[Order | Publication]) -> list[Json]:
        """Returns orders and publications."""
        return [self.order(it) for it in orders]

    # Slots.

    def cell(self, cell: Cell) -> Json:
        """Returns a cell, with both members of a handover if it is in one."""
        told = {"cell": cell.kind.value}
        return told | ({"party": self.server(cell.party), "handover": cell.handover} if cell.is_in_handover else {})

    def slot(self, shard: int, slot: SlotTold) -> Json:
        """A slot of a server."""
        return {"shard": self.shard(shard)} | self.cell(slot.cell) | {"load": slot.load}

    def slots(self, slots: Iterable[SlotTold]) -> list[Json]:
        """Returns the slots of a server that are not absent."""
        return [self.slot(it, slot) for it, slot in enumerate(slots) if slot.cell != ABSENT]

    def brought(self, settle: Settle) -> list[Json]:
        """The slots that a settle brings: those that are not absent from now on, and those that the server gives up."""
        slots = enumerate(settle.slots)
        return [self.slot(it, slot) for it, slot in slots if slot.cell != ABSENT or it in settle.given_up]

    def restore(self, restore: Restore) -> Json:
        """Returns a restore."""
        return {
            "server": self.server(restore.server), "nonce": hexadecimal(restore.nonce),
            "journal": hexadecimal(restore.journal), "fence": restore.fence, "base": restore.base,
            "slots": self.slots(restore.slots),
        }

    def fence(self, fence: Fence) -> Json:
        """Returns a fence."""
        return {"server": self.server(fence.server), "journal": hexadecimal(fence.journal), "base": fence.base}

    def settle(self, settle: Message) -> Json:
        """Returns a settle, of the map's owner with all entries of the map."""
        told = {"server": self.server(settle.server), "journal": hexadecimal(settle.journal), "base": settle.base}
        if isinstance(settle, SettleMap):
            entries = [(self.shard(it), self.server(settle.entries[it])) for it in self.controller.reopening.shards]
            return told | {"entries": [{"shard": it, "to": to, "version": settle.base} for it, to in entries]}
        assert isinstance(settle, Settle)
        return told | {"nonce": hexadecimal(settle.nonce), "slots": self.brought(settle)}

    # Placements.

    def row(self, row: dict[int, Cell]) -> list[Json]:
        """Returns the cells of a shard that are not absent, by their servers."""
        found = []
        for server, cell in row.items():
            if cell.kind is not Kind.ABSENT:
                party = {"party": self.server(cell.party), "handover": cell.handover} if cell.is_in_handover else {}
                found.append({"server": self.server(server), "state": cell.kind.value} | party)
        return found

    def cells(self, cells: Cells, shards: Iterable[int]) -> list[Json]:
        """Returns the cells of shards."""
        return [{"shard": self.shard(it), "cells": self.row(dict(enumerate(cells[it])))} for it in shards]

    def proposal(self, proposal: Proposal) -> Json:
        """Returns what may be confirmed."""
        reopening = self.controller.reopening
        document = reopening.document
        return {
            "base": proposal.base, "cells": self.cells(proposal.cells, reopening.shards),
            "lost": [self.shard(it) for it in proposal.lost],
            "floors": [
                {"shard": self.shard(it), "live": live, "floor": document.floor(it)} for it, live in proposal.floors
            ],
            "carried": [self.server(it) for it in proposal.carried],
        }

    def waiting(self, servers: Iterable[int]) -> list[str | None]:
        """Returns whose answers are missing; the map's owner is null."""
        return [None if it == MAP else self.server(it) for it in servers]
