"""What other servers have of a shard, and which of them serves it."""
from __future__ import annotations

from typing import TYPE_CHECKING, Any, Dict, Optional

import psycopg
from smplan.agent import Base, Cell
from smplan.server_offers import fewer

from .database import unsigned, value
from .records import Mark, Records
from .streams import Stuck

if TYPE_CHECKING:
    from .server import Server


class Sources:
    """The other servers, as sources of a shard."""

    def __init__(self, server: "Server") -> None:
        self.server = server

    def offer(self, number: int, shard: str) -> Dict[str, Any]:
        """What another server says of a shard to this one."""
        row = self.server.peer(number).row("SELECT * FROM sm.offers(%s, %s)", shard, self.server.number)
        assert row is not None
        return row

    def primary_of(self, shard: str, base: Base) -> Optional[int]:
        """The server that serves a shard and was settled with this one."""
        for number in self.server.others():
            try:
                it = self.offer(number, shard)
            except (Stuck, OSError, psycopg.Error):
                continue
            if it["cell"] == Cell.PRIMARY and is_of(it, base) and not it["fenced"]:
                return number
        return None

    def present(self, shard: str, number: int) -> int:
        """Who may be copied from instead of a server that has handed the shard over: the new owner, once it has sealed."""
        it = self.offer(number, shard)
        if it["cell"] != Cell.FORWARDING or it["party"] == self.server.number:
            return number
        if not serves(self.offer(it["party"], shard)):
            raise Stuck(f"{self.server.names.get(number)} has handed the shard over, and the new owner has not sealed yet")
        return it["party"]

    def join(self, shard: str, number: int) -> bool:
        """Counts at another server from now on; for the number of copies, too, if there are to be several. Whether that serves the shard. (The lock is there
        before it is asked, and before it is looked what may be said: a question that comes late has no effect.)"""
        with self.server.peer(number).transaction() as there:
            there.execute("SELECT sm.lock_part(%s, %s)", (shard, self.server.number))
            with self.server.database.transaction() as tx:
                it = Records(tx)
                said = it.connection(shard) if it.copies() > 1 else ()
            return bool(value(there.execute(f"SELECT sm.join(%s, %s{', %s' * len(said)})", (shard, self.server.number, *said)).fetchone()))

    def copies_at(self, number: int) -> int:
        """How many servers have each write that one acknowledges."""
        database = self.server.database if number == self.server.number else self.server.peer(number)
        return int(value(database.row("SELECT copies FROM sm.state")))

    def check_copies(self, number: int, leader: int) -> None:
        """Stops what would let a server lead after another one whose acknowledged writes are at more servers: controllers count by that."""
        wanted = self.copies_at(leader)
        copies = self.copies_at(number) if wanted > 1 else wanted
        if copies < wanted:
            name, first = (self.server.names.get(it, str(it)) for it in (number, leader))
            raise Stuck(fewer(name, copies, first, wanted))

    def check(self, shard: str, number: int) -> None:
        """Stops what copies from a server that sends nothing any more."""
        it, name = self.offer(number, shard), self.server.names.get(number)
        if not serves(it) and not (it["cell"] == Cell.FORWARDING and it["party"] == self.server.number):
            raise Stuck(f"{name} does not serve the shard any more")
        if not it["has_stream"]:
            raise Stuck(f"{name} has dropped the stream: the copy begins anew")

    def mark_at(self, number: int, shard: str) -> Optional[Mark]:
        """What a server has of a shard; none if it has no whole copy, which is not less than another: it may have had all."""
        database = self.server.database if number == self.server.number else self.server.peer(number)
        row = database.row("SELECT sm.view(%s) AS view, sm.position(%s) AS position, "
                           "coalesce((SELECT is_whole FROM sm.slots WHERE shard = %s), false) AS is_whole", shard, shard, shard)
        assert row is not None
        return Mark(row["view"], row["position"]) if row["is_whole"] else None


def is_of(offer: Dict[str, Any], base: Base) -> bool:
    """Whether who offers was settled at the same reopening, or restored behind it."""
    return bool(offer["known"]) and unsigned(offer["journal"]) == base.journal


def serves(offer: Dict[str, Any]) -> bool:
    """Whether who offers executes requests, be it only those that are passed on."""
    return offer["cell"] == Cell.PRIMARY or (offer["cell"] == Cell.PREPARED and bool(offer["has_cut"]))
