"""What servers may have when they are asked: what is recorded, or what orders and settles have made of it meanwhile."""
from __future__ import annotations

import random
from dataclasses import dataclass
from typing import Any

from driving_model.cells import Cell, led
from driving_model.messages import MAP, Order
from smpland_model.session import Session

Json = dict[str, Any]
KINDS = ("absent", "prepared", "secondary", "primary", "forwarding")


@dataclass(frozen=True)
class Held:
    """What a server has of a shard."""

    kind: str = "absent"
    party: str | None = None
    handover: int = 0

    @property
    def json(self) -> Json:
        """The members of a slot."""
        is_handed = self.kind in ("prepared", "forwarding")
        return {"cell": self.kind} | ({"party": self.party, "handover": self.handover} if is_handed else {})


class Slots:
    """The servers of a session, as far as their slots go."""

    def __init__(self, session: Session, dice: random.Random) -> None:
        self.session, self.dice = session, dice
        # What has come to a server beside what is recorded, by shard and server.
        self.ahead: dict[tuple[str, str], Held] = {}

    def chance(self, probability: float) -> bool:
        """Returns true with this probability."""
        return self.dice.random() < probability

    def held_of(self, cell: Cell) -> Held:
        """Returns a recorded cell."""
        party = self.session.controller.server_name(cell.party)
        return Held(cell.kind.value, party, cell.handover or 0)

    def note_effects(self) -> None:
        """Notes effects of some present orders, or of some settles, before a reopening begins or replaces another."""
        controller = self.session.controller
        if controller.is_open:
            self.ahead = {}
        for order in controller.orders():
            if isinstance(order, Order) and self.chance(0.6):
                cell = led(controller.cell(order.shard, order.server), order.call)
                names = controller.shard_name(order.shard), controller.server_name(order.server)
                self.ahead |= {names: self.held_of(cell)} if cell else {}
        for settle in controller.reopening.settles if controller.reopening else ():
            if settle.server != MAP and self.chance(0.5):
                for shard, slot in enumerate(settle.slots):
                    names = controller.shard_name(shard), controller.server_name(settle.server)
                    self.ahead[names] = self.held_of(slot.cell)

    def held(self, shard: str, server: str) -> Held:
        """Returns what a server has of a shard."""
        controller = self.session.controller
        if (shard, server) in self.ahead:
            return self.ahead[shard, server]
        numbers = controller.numbering.shard_numbers.get(shard), controller.numbering.server_numbers.get(server)
        if controller.record is None or None in numbers:
            return self.documented(shard, server)
        cells = controller.record.cells
        row = cells[numbers[0]] if numbers[0] < len(cells) else []
        return self.held_of(controller.cell(*numbers)) if numbers[1] < len(row) else Held()

    def documented(self, shard: str, server: str) -> Held:
        """Returns what the document of a service that is adopted says of a shard, or a party of a handover."""
        document = self.session.controller.next_document
        if document is None or shard not in document.shards or not document.servers or self.chance(0.2):
            return Held()
        state = next((it.state for it in document.shards[shard].cells if it.server == server), "absent")
        if state == "primary" and self.chance(0.4):
            return Held("forwarding", self.dice.choice(list(document.servers)), 2)
        if state == "absent" and self.chance(0.15):
            return Held("prepared", self.dice.choice(list(document.servers)), 2)
        return Held(state)

    def wrong(self, held: Held) -> Held:
        """Returns what a server may have that is not where the record has it."""
        names = list(self.session.controller.numbering.servers) or ["v0"]
        return self.dice.choice([held, held, Held(self.dice.choice(KINDS), self.dice.choice([*names, "w"]), 1)])

    def of(self, server: str, error: float, is_asked: bool) -> list[Json]:
        """Returns the slots of a server; with what a fence asks for, if it is asked."""
        found = []
        for shard in self.session.controller.numbering.shards:
            held = self.held(shard, server)
            if self.chance(error):
                held = self.wrong(held)
            if held.kind != "absent" or self.chance(0.1):
                found.append(self.slot(shard, held, is_asked))
        if self.chance(error / 2):
            found.append(self.slot(self.dice.choice(["x0", "x1"]), self.wrong(Held("secondary")), is_asked))
        if self.chance(0.2):
            self.dice.shuffle(found)
        return found

    def slot(self, shard: str, held: Held, is_asked: bool) -> Json:
        """Returns a slot."""
        dice = self.dice
        slot: Json = {"shard": shard} | held.json
        if is_asked or self.chance(0.3):
            slot["position"] = dice.choice([0, 1, 1, 2, 3, 2**53 - 1])
            slot |= dice.choice([{}, *({"view": it} for it in (0, 1, 1, 2, 3, 2**53 - 1))])
            slot["reached"] = self.chance(0.5)
        if self.chance(0.3):
            slot["last"] = self.session.controller.base + dice.choice([0, 1, 2, 7, 90])
        if self.chance(0.2):
            slot |= {"load": dice.choice([0, 2]), "cut": dice.choice([None, 0, 3])}
        return slot
