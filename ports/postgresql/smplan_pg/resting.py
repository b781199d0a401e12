"""Shards at rest. Of all that follow one server a few questions tell whether each gets on; one that may not is looked
at alone. (Each look at a shard takes a dozen questions, and each of these takes processor time, here and at two
databases.)"""
from __future__ import annotations

import time
from typing import TYPE_CHECKING, Dict, Iterable, List, Set

from psycopg import sql
from smplan.agent import Slot

from .database import Connection, Row
from .records import SLOT, Mark, Records
from .sources import is_of, serves

if TYPE_CHECKING:
    from .following import Following

# The shards that follow or are in a handover, each with whom it follows if it is at rest, as far as slots tell.
WATCHED = """SELECT shard, CASE WHEN cell = 3 AND at_work = 0 AND is_whole
    AND NOT EXISTS (SELECT FROM sm.copying c WHERE c.shard = s.shard) THEN source END AS source
  FROM sm.slots s WHERE cell IN (2, 3, 5) UNION SELECT shard, NULL FROM sm.copying"""

# What a server has of shards whose subscriptions work.
HERE = """SELECT s.*, sm.view(s.shard) AS view, sm.position(s.shard) AS position,
    coalesce(t.apply_error_count, 0) AS errors
  FROM sm.slots s CROSS JOIN sm.state JOIN pg_subscription p ON subname = sm.stream(s.shard, me) AND subenabled
    LEFT JOIN pg_stat_subscription_stats t ON t.subid = p.oid
  WHERE s.shard = ANY(%s) AND cell = 3 AND at_work = 0 AND is_whole AND source = %s AND sm.is_adopted(s.shard)"""

# What their source says of them, and has.
THERE = """SELECT it.shard, o.*, sm.view(it.shard) AS view_now, sm.position(it.shard) AS position_now,
    coalesce((SELECT is_whole FROM sm.slots s WHERE s.shard = it.shard), false) AS is_whole
  FROM unnest(%s::text[]) AS it (shard) CROSS JOIN LATERAL sm.offers(it.shard, %s) o"""


class Resting:
    """The looks of a server at shards that rest."""

    def __init__(self, following: "Following") -> None:
        self.following, self.server = following, following.server
        self.asked: Set[int] = set()  # (the sources that are asked now)

    def begin(self, source: int, shards: List[str], rest: float) -> bool:
        """Begins to look at shards that follow a server, in a thread of its own. Not while it is asked: it may stand
        still."""
        with self.server.lock:
            if source in self.asked:
                return False
            self.asked.add(source)
        until = time.monotonic() + 1.0
        self.following.next_look.update((shard, until) for shard in shards)
        self.server.beside.submit(self.look, source, shards, until, rest)
        return True

    def look(self, source: int, shards: List[str], until: float, rest: float) -> None:
        """Looks at shards: those that get on rest, the others are looked at alone."""
        calm: Set[str] = set()
        try:
            calm = self.calm(source, shards)
        except Exception:  # pylint: disable=broad-exception-caught  (each is looked at alone then, and that tells)
            pass
        finally:
            with self.server.lock:
                self.asked.discard(source)
        for shard in shards:
            if shard not in calm:
                self.following.look_beside(shard)
            elif self.following.next_look.get(shard) == until:  # (nobody has looked meanwhile)
                self.following.next_look[shard] = time.monotonic() + rest

    def calm(self, source: int, shards: List[str]) -> Set[str]:
        """The shards that get on: they follow who serves them, count there, have no cut, and have what was there."""
        with self.server.database.transaction() as tx:
            base, settled, copies = Records(tx).state()
            rows = tx.execute(HERE, (shards, source)).fetchall() if base.known and not base.fenced else []
            cut = cuts_of(tx, [it["shard"] for it in rows], {0, self.server.number, source})
        here: Dict[str, Row] = {it["shard"]: it for it in rows if it["shard"] not in cut}
        there = self.server.peer(source).rows(THERE, list(here), self.server.number) if here else []
        found = set()
        for it in there:
            row = here[it["shard"]]
            told = self.following.rested(base, Slot(**{name: row[name] for name in SLOT}), source, settled, copies)
            is_served = it["has_stream"] and is_of(it, base) and serves(it) and not self.following.has_to_join(it, told)
            seen = Mark(it["view_now"], it["position_now"]) if it["is_whole"] else None
            mark = Mark(row["view"], row["position"])
            if is_served and self.following.gets_on(row["shard"], mark, row["errors"], seen):
                self.following.unserved.pop(row["shard"], None)
                found.add(row["shard"])
        return found


def cuts_of(tx: Connection, shards: Iterable[str], known: Set[int]) -> Set[str]:
    """The shards to which a cut has come that names another server than these."""
    cut = "SELECT {shard} AS shard, party FROM {own}.sm_cut"
    its = [sql.SQL(cut).format(shard=sql.Literal(it), own=sql.Identifier(it)) for it in shards]
    rows = tx.execute(sql.SQL(" UNION ALL ").join(its)).fetchall() if its else []
    return {it["shard"] for it in rows if it["party"] not in known}
