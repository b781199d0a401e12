"""What a server tells the controllers of the copies of its shards: a reopening counts by it, and names fewer shards as lost."""
from __future__ import annotations

from dataclasses import dataclass
from typing import TYPE_CHECKING, Any, Dict, Tuple

from smplan.server_copied import Recorded

from .database import Row, unsigned, value

if TYPE_CHECKING:
    from .server import Server

# The shards that this server leads and of which no controller knows since it was settled, or began to lead, and where its log ends.
UNTOLD = """SELECT s.shard, s.sealed::text AS sealed, b.journal, b.settled, b.copies, pg_current_wal_flush_lsn()::text AS place FROM sm.slots s, sm.state b
  WHERE b.known = 1 AND b.fenced = 0 AND b.copies > 1 AND s.cell = 4 AND s.told IS DISTINCT FROM b.settled ORDER BY s.shard"""

# The shards that this server leads, and of which too few servers have what its log has up to a place.
SHORT = """SELECT s.shard, b.copies FROM sm.slots s, sm.state b
  WHERE b.known = 1 AND b.copies > 1 AND s.cell = 4 AND NOT sm.has_copies(s.shard, %s::pg_lsn) ORDER BY s.shard"""

# For how long it is so until it is said, in seconds.
SHORTLY = 5.0


@dataclass(frozen=True)
class Noted:
    """Where a server's log ended as it was seen first that it leads a shard, and since which reopening and place of the log it does. (What is acknowledged
    before that is at enough servers, too: sm.acknowledged goes by their number from the start on.)"""

    since: Tuple[Any, ...]
    place: str


class Copied:
    """How many servers have each acknowledged write of the shards that this one leads, told until a controller knows it: anew behind each reopening, and once
    it leads or starts anew."""

    def __init__(self, server: "Server") -> None:
        self.server, self.recorded = server, Recorded(server)
        self.noted: Dict[str, Noted] = {}
        self.short: Dict[str, float] = {}
        self.seen = "0/0"

    def tell(self) -> None:
        """Tells of each shard of which no controller knows, as soon as enough servers have all up to the place that was noted."""
        rows = {it["shard"]: it for it in self.server.database.rows(UNTOLD)}
        self.noted = {shard: self.note(it) for shard, it in rows.items()}
        copies = {shard: it["copies"] for shard, it in rows.items() if self.has_copies(shard)}
        for it in [rows[shard] for shard in copies][:1]:  # (they are settled together)
            for shard in self.recorded.take(unsigned(it["journal"]), it["settled"], copies):
                told = "UPDATE sm.slots SET told = %s WHERE shard = %s AND sealed IS NOT DISTINCT FROM %s::pg_lsn"
                self.server.database.do(told, it["settled"], shard, rows[shard]["sealed"])

    def has_copies(self, shard: str) -> bool:
        """Whether enough servers have a shard up to the place that was noted."""
        return bool(value(self.server.database.row("SELECT sm.has_copies(%s, %s::pg_lsn)", shard, self.noted[shard].place)))

    def note(self, row: Row) -> Noted:
        """What is noted of a shard; anew if it is led anew."""
        since, before = (row["settled"], row["sealed"]), self.noted.get(row["shard"])
        return before if before is not None and before.since == since else Noted(since, row["place"])

    def look(self) -> None:
        """Says of which shards writes wait, since too few servers have what was written until the last look."""
        now = self.server.silence.now()
        rows = {it["shard"]: it["copies"] for it in self.server.database.rows(SHORT, self.seen)}
        self.seen = value(self.server.database.row("SELECT pg_current_wal_flush_lsn()::text"))
        self.short = {shard: self.short.get(shard, now) for shard in rows}
        for shard, since in self.short.items():
            if now - since > SHORTLY:
                self.server.say(f"fewer than {rows[shard]} servers have what is written of {shard}: who writes waits")
                self.short[shard] = float("inf")
