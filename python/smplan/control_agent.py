"""Turns what a session sends into what the agent takes, and slots back."""
from __future__ import annotations

from typing import Any, Dict, Mapping, Optional, Union

from .agent import Call, Cell, Order, Restoration, Role, Settlement, Slot


def role_of(word: Any) -> Role:
    """Returns a role by its word."""
    return Role[word.upper()] if word else Role.NONE


def order_of(line: Dict[str, Any], numbers: Mapping[str, int]) -> Order:
    """Returns an order as the agent judges it. `numbers` are the servers' own."""
    call = Call[line["call"].upper()]
    other = line.get("from") if call == Call.PREPARE_ADD else line.get("to") if call == Call.PREPARE_DROP else None
    is_change = call == Call.CHANGE
    return Order(
        journal=int(line["journal"], 16), fence=line["fence"], number=line["number"], load=line["load"], room=line["room"],
        handover=line.get("handover", 0), call=call, role=role_of(line["from"] if is_change else line.get("role")),
        new_role=role_of(line["to"]) if is_change else Role.NONE, party=numbers[other] if other is not None else 0,
    )


def slot_of(told: Dict[str, Any], numbers: Mapping[str, int]) -> Slot:
    """Returns a slot that a restore or a settle brings."""
    other = told.get("party")
    return Slot(
        cell=Cell[told["cell"].upper()], party=numbers[other] if other is not None else 0, handover=told.get("handover", 0),
        load=told.get("load", 0),
    )


def told_of(shard: str, slot: Slot, names: Mapping[int, str], position: int, reached: bool, view: Optional[int] = None) -> Dict[str, Any]:
    """Returns what a server tells of a slot when it is fenced: with the shard's position, the view of its copy's list if it keeps views, and whether a
    new owner has reached its cut. `names` are the servers' by their numbers."""
    told: Dict[str, Any] = {"shard": shard, "cell": Cell(slot.cell).name.lower(), "last": slot.last, "load": slot.load, "position": position}
    if view is not None:
        told["view"] = view
    if slot.cell in (Cell.PREPARED, Cell.FORWARDING):
        told.update(party=names[slot.party], handover=slot.handover)
    if slot.cell == Cell.FORWARDING:
        told["cut"] = slot.cut
    if slot.cell == Cell.PREPARED:
        told["reached"] = reached
    return told


def slots_of(told: Dict[str, Any], numbers: Mapping[str, int]) -> Dict[str, Slot]:
    """Returns the slots that a restore or a settle brings, by shard."""
    return {it["shard"]: slot_of(it, numbers) for it in told["slots"]}


def assignment_of(told: Dict[str, Any]) -> Union[Settlement, Restoration]:
    """Returns a restore, which names the last reopening by its `fence`, or a settle, as the agent takes it."""
    journal, nonce = int(told["journal"], 16), told["nonce"]
    if "fence" in told:
        return Restoration(journal, told["fence"], told["base"], int(nonce, 16))
    return Settlement(journal, told["base"], None if nonce is None else int(nonce, 16))
