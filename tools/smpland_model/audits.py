"""A server's slots against the record."""
from __future__ import annotations

from typing import Any

from driving_model.cells import ABSENT, Cell, Kind, led
from driving_model.messages import Order
from smpland_model.controller import NamedController
from smpland_model.history import History
from smpland_model.messages import Writer

Json = dict[str, Any]


class Audit:
    """Compares what a server has with what is recorded."""

    def __init__(self, controller: NamedController, writer: Writer, history: History) -> None:
        self.controller, self.writer, self.history = controller, writer, history

    def audit(self, command: Json) -> Json:
        """Tells whether a server has what is recorded, or what its present orders make of it."""
        controller = self.controller
        server = controller.numbering.server_numbers[command["server"]]
        orders = {it.shard: it for it in controller.orders() if isinstance(it, Order) and it.server == server}
        slots = {it["shard"]: it for it in command["slots"]}
        if any(self.is_ahead(it, orders) for it in slots.values()):
            return self.told(command, "ahead")
        names = list(dict.fromkeys([*controller.document.shards, *slots]))
        found = (self.differing(name, server, slots.get(name), orders, command["place"]) for name in names)
        differing = [it for it in found if it]
        return self.told(command, "differs", slots=differing) if differing else self.told(command, "agrees")

    @staticmethod
    def told(command: Json, word: str, **more: Any) -> Json:
        """Returns the reply."""
        return {"audit": {"server": command["server"], "is": word} | more}

    def order_of(self, name: str, orders: dict[int, Order]) -> Order | None:
        """Returns the present order to the server for a shard."""
        number = self.controller.numbering.shard_numbers.get(name)
        return None if number is None else orders.get(number)

    def is_ahead(self, slot: Json, orders: dict[int, Order]) -> bool:
        """The last order of a slot is none that this journal has sent."""
        order = self.order_of(slot["shard"], orders)
        last, highest = slot.get("last", 0), self.controller.base + self.controller.record.log
        return last > highest and not (order and last == order.number)

    def differing(self, name: str, server: int, slot: Json | None, orders: dict[int, Order], place: int) -> Json | None:
        """Returns how a slot differs from the record. A cell that was recorded after the place is passed over."""
        controller = self.controller
        number = controller.numbering.shard_numbers.get(name, len(controller.record.cells))
        is_recorded = number < len(controller.record.cells)
        if is_recorded and self.history.changed.get((number, server), 0) > place:
            return None
        recorded = controller.cell(number, server) if is_recorded else ABSENT
        order = self.order_of(name, orders)
        ahead = led(recorded, order.call) if order else recorded
        found = self.found(slot)
        if found in (recorded, ahead):
            return None
        slot = slot or {"cell": "absent"}
        told = {it: slot[it] for it in ("cell", "party", "handover") if it in slot}
        return {"shard": name, "recorded": self.writer.cell(recorded), "found": told}

    def found(self, slot: Json | None) -> Cell:
        """Returns the cell that a slot tells."""
        if slot is None:
            return ABSENT
        kind = Kind(slot["cell"])
        if kind in (Kind.PREPARED, Kind.FORWARDING):
            party = self.controller.numbering.server_numbers.get(slot["party"], slot["party"])
            return Cell(kind, party, slot["handover"])
        return Cell(kind)
