"""Leave: who drops a shard asks another server that has all that counts. That one counts it no more from then on."""
from __future__ import annotations

import secrets
from dataclasses import astuple
from typing import TYPE_CHECKING, Any, Dict, List

from .agent import Cell, Slot
from .server_offers import LOST, is_source_for
from .server_records import Mark, Records

if TYPE_CHECKING:
    from .server import Server

Line = Dict[str, Any]


def may_give(slot: Slot, position: int, line: Line) -> bool:
    """Whether a server with this slot gives leave, if it has all: who executes; if nobody else does, a secondary."""
    if slot.cell == Cell.SECONDARY:
        return bool(line["beside"])
    return slot.cell in (Cell.PRIMARY, Cell.PREPARED) and is_source_for(slot, position, line["from"])


class Leaves:
    """The leaves that a server asks for and gives. Each question has a number, and is over at a crash, at a fence, and once it is given up."""

    def __init__(self, server: "Server") -> None:
        self.server = server

    def given(self, line: Line) -> Line:
        """Answers who asks for leave, and counts it no more until it joins again, or tells that it asks no longer."""
        shard, number = line["shard"], line["from"]
        with self.server.storage.transaction() as tx:
            it = Records(tx)
            base, slot, mark, copies = it.base(), it.slot(shard), it.mark(shard), it.counting()[1]
            if not base.known or base.fenced or int(line["journal"], 16) != base.journal or it.heard() != line["heard"]:
                return {"later": "it knows of another reopening"}
            if not self.may_answer(shard, number):
                return {"later": "it leaves, too"}
            if not may_give(slot, mark.position, line):
                return {"later": f"it does not serve {shard}"}
            theirs = Mark(*line["mark"])
            if not it.has_copy(shard) or theirs.has_more_than(mark) or it.differs(shard, theirs):
                return {"later": "it lacks writes"}
            with self.server.changed:
                link = self.server.streams.link(self.server.live(shard), number)
                link.left, link.joined = line["question"], link.joined + 1
        if slot.cell != Cell.SECONDARY and not self.server.streams.has_enough(shard):
            return {"later": f"fewer than {copies} others have all"}
        return {"leave": True}

    def may_answer(self, shard: str, number: int) -> bool:
        """Whether this server stays. Of two that ask each other the one with the higher number does, and asks anew."""
        with self.server.changed:
            live = self.server.live(shard)
            if live.leaving and not live.leave and self.server.number > number:
                live.stay()
            return not live.leaving

    def take(self, shard: str, line: Line, others: List[int]) -> None:
        """Gets leave to drop a shard: from its primary, or, if that is this server or nobody, from as many others that have all that is here as
        each write has to be at. Who is alone needs none. OSError if nobody gives it."""
        live, question, named = self.server.live(shard), secrets.token_hex(8), line.get("primary")
        if others and named and named not in self.server.numbers:
            raise OSError(f"the primary {named} is not known here")
        primary = self.server.numbers.get(named or self.server.name, 0)
        is_beside = primary == self.server.number
        with self.server.changed:
            live.leaving, live.leave = question, "" if others else question
        said = self.asked(shard, question, is_beside, others if is_beside else [primary]) if others else ""
        with self.server.changed:
            if said and live.leaving == question:
                live.leaving = ""
            elif live.leaving == question:
                live.leave = question
        if said:
            raise OSError(said)

    def asked(self, shard: str, question: str, is_beside: bool, givers: List[int]) -> str:
        """Asks for leave until somebody gives it; returns why nobody does, if so."""
        with self.server.storage.transaction() as tx:
            it = Records(tx)
            if is_beside and not it.has_copy(shard):
                return LOST.format(shard)
            settled, copies = it.counting()
            if is_beside and copies > 1 and it.slot(shard).cell != Cell.PRIMARY and it.mark(shard).view > settled:
                return "nobody leads it, and this copy may have writes of a primary since the last reopening"
            line = {"shard": shard, "from": self.server.number, "journal": f"{it.base().journal:x}", "heard": it.heard(),
                    "mark": astuple(it.mark(shard)), "question": question, "beside": is_beside}
        said, needed = [], copies if is_beside else 1
        for number in givers:
            try:
                told = self.server.ask(number, "leave", line, self.server.limits.peer)
            except (OSError, ValueError) as why:
                told = {"later": str(why)}
            if told.get("leave") is True:
                needed -= 1
            else:
                said.append(f"no leave from {self.server.name_of(number)}: {told.get('later')}")
            if needed == 0:
                return ""
        return "; ".join(said) or f"fewer than {copies} others are named"
