"""What a server keeps, in a transaction: its base, the slots and what stands beside them, and all servers."""
from __future__ import annotations

from dataclasses import astuple, dataclass
from typing import Dict, List, Optional, Tuple

from psycopg import sql
from smplan.agent import VACANT, Base, Cell, Slot

from .database import Connection, signed, unsigned, value

SLOT = ("cell", "party", "handover", "last", "at_work", "load", "cut", "has_cut")


@dataclass(frozen=True, order=True)
class Mark:
    """What a copy has: the number of what made the last primary of its list, and how many writes. Two copies of one mark are the same."""

    view: int = 0
    position: int = 0


@dataclass(frozen=True)
class Cut:
    """The last thing that an old owner, or a primary that becomes a secondary, has put into its stream."""

    handover: int
    position: int
    party: int
    sequences: Dict[str, int]


@dataclass(frozen=True)
class Peer:
    """Another server: how its database is reached, none if that is not known yet."""

    number: int
    name: str
    url: str
    reach: Optional[str]


class Records:
    """The records of one transaction."""

    def __init__(self, tx: Connection) -> None:
        self.tx = tx

    # -- the server

    def base(self, lock: str = "") -> Base:
        """The base. Who changes it, or slots, takes it FOR UPDATE first; who works on one shard alone FOR SHARE."""
        return self.state(lock)[0]

    def state(self, lock: str = "") -> Tuple[Base, int, int]:
        """The base, the last reopening at which it was settled, and how many replicas have each write that it
        acknowledges."""
        row = self.tx.execute(f"SELECT * FROM sm.state {lock}").fetchone()
        assert row is not None
        base = Base(unsigned(row["journal"]), row["number"], unsigned(row["nonce"]), row["known"], row["fenced"])
        return base, row["settled"], row["copies"]

    def heard(self) -> int:
        """The number of the last reopening of its journal that it has heard of."""
        return value(self.tx.execute("SELECT heard FROM sm.state").fetchone())

    def settled(self) -> int:
        """The number of the last reopening at which it was settled."""
        return value(self.tx.execute("SELECT settled FROM sm.state").fetchone())

    def copies(self) -> int:
        """How many replicas have each write that it acknowledges, itself among them."""
        return value(self.tx.execute("SELECT copies FROM sm.state").fetchone())

    def put_copies(self, copies: int) -> int:
        """Stores at a start how many these are to be. They get no fewer: a controller may count by them. How many they are; it tells a controller anew."""
        self.tx.execute("UPDATE sm.slots SET told = NULL WHERE told IS NOT NULL")
        return value(self.tx.execute("UPDATE sm.state SET copies = greatest(copies, %s) RETURNING copies", (copies,)).fetchone())

    def put_settled(self, number: int, copies: int, may_fall: bool) -> None:
        """Stores at which reopening it is settled. By the settle of a later one its writes may be at fewer replicas than before. By a restore they are not: who
        leads may have told controllers since the reopening, and have looked here, before this server was restored."""
        self.tx.execute("UPDATE sm.state SET copies = CASE WHEN %s AND settled < %s THEN %s ELSE greatest(copies, %s) END, settled = %s",
                        (may_fall, number, copies, copies, number))

    def put_base(self, base: Base, heard: int) -> None:
        """Stores the base."""
        self.tx.execute("UPDATE sm.state SET journal = %s, number = %s, nonce = %s, known = %s, fenced = %s, heard = %s",
                        (signed(base.journal), base.number, signed(base.nonce), base.known, base.fenced, heard))

    def peers(self) -> Dict[int, Peer]:
        """All servers that it knows, by number."""
        return {it["number"]: Peer(**it) for it in self.tx.execute("SELECT number, name, url, reach FROM sm.servers").fetchall()}

    # -- slots

    def slots(self) -> Dict[str, Slot]:
        """All slots by shard."""
        rows = self.tx.execute("SELECT * FROM sm.slots ORDER BY shard").fetchall()
        return {it["shard"]: Slot(**{name: it[name] for name in SLOT}) for it in rows}

    def slot(self, shard: str, base: Optional[Base] = None) -> Slot:
        """The slot of a shard."""
        return self.entry(shard, base)[0]

    def entry(self, shard: str, base: Optional[Base] = None) -> Tuple[Slot, Optional[int], bool]:
        """The slot of a shard, whom it is followed from, and whether the copy is whole."""
        row = self.tx.execute("SELECT * FROM sm.slots WHERE shard = %s", (shard,)).fetchone()
        if row is not None:
            return Slot(**{name: row[name] for name in SLOT}), row["source"], row["is_whole"]
        return (VACANT if (base or self.base()).known else Slot()), None, False

    def put_slot(self, shard: str, slot: Slot) -> None:
        """Stores a slot."""
        names = ", ".join(SLOT)
        self.tx.execute(f"INSERT INTO sm.slots (shard, {names}) VALUES (%s{', %s' * len(SLOT)}) ON CONFLICT (shard) DO UPDATE SET "
                        + ", ".join(f"{it} = excluded.{it}" for it in SLOT), (shard, *(int(it) for it in astuple(slot))))

    def used(self) -> int:
        """The load of all that the server has."""
        return int(value(self.tx.execute("SELECT coalesce(sum(load), 0) FROM sm.slots WHERE cell <> 1").fetchone()))

    def source(self, shard: str) -> Optional[int]:
        """Whom the shard is followed from."""
        return value(self.tx.execute("SELECT source FROM sm.slots WHERE shard = %s", (shard,)).fetchone())

    def put_source(self, shard: str, source: Optional[int], is_whole: bool) -> None:
        """Stores whom a shard is followed from, and whether the copy is whole."""
        self.tx.execute("UPDATE sm.slots SET source = %s, is_whole = %s WHERE shard = %s", (source, is_whole, shard))

    def is_whole(self, shard: str) -> bool:
        """Whether the copy of a shard is a beginning of the shard's list of writes."""
        return bool(value(self.tx.execute("SELECT is_whole FROM sm.slots WHERE shard = %s", (shard,)).fetchone()))

    def put_seal(self, shard: str, place: str, mark: Mark) -> None:
        """Stores where the writes of its own begin, and what its copy was then."""
        self.tx.execute("UPDATE sm.slots SET sealed = %s::pg_lsn, sealed_view = %s, sealed_position = %s, told = NULL WHERE shard = %s",
                        (place, mark.view, mark.position, shard))

    def end_questions(self) -> None:
        """Gives up all questions for leave, answered or not."""
        self.tx.execute("DELETE FROM sm.leaving")

    # -- a shard's own tables

    def is_adopted(self, shard: str) -> bool:
        """Whether there is a schema with a shard's own tables."""
        return value(self.tx.execute("SELECT sm.is_adopted(%s)", (shard,)).fetchone())

    def mark(self, shard: str) -> Mark:
        """What the copy of a shard has."""
        row = self.tx.execute("SELECT sm.view(%s) AS view, sm.position(%s) AS position", (shard, shard)).fetchone()
        assert row is not None
        return Mark(row["view"], row["position"])

    def begins(self, old: str, new: str) -> bool:
        """Whether one copy is a beginning of the other's list: that has its last view, and all up to its position before the next one."""
        mark, views = self.mark(old), "SELECT count(*) FILTER (WHERE view = %s) AS has, min(position) FILTER (WHERE view > %s) AS ends FROM {}.sm_views"
        row = self.tx.execute(self.own(views, new), (mark.view, mark.view)).fetchone()
        assert row is not None
        ends = self.mark(new).position if row["ends"] is None else row["ends"]
        return (row["has"] > 0 or mark.view == 0) and mark.position <= ends

    def kept(self, shard: str) -> Optional[str]:
        """The schema of an old copy that stands beside one that is made anew."""
        return value(self.tx.execute("SELECT kept FROM sm.copying WHERE shard = %s", (shard,)).fetchone())

    def told_mark(self, shard: str) -> Mark:
        """View and position as they are told when all work is given up: those of the copy that is whole then."""
        if self.is_whole(shard):
            return self.mark(shard)
        kept = self.kept(shard)
        return self.mark(kept) if kept is not None else Mark()

    def cut(self, shard: str) -> Optional[Cut]:
        """The cut that has come to this copy."""
        if not self.is_adopted(shard):
            return None
        row = self.tx.execute(self.own("SELECT handover, position, party, sequences FROM {}.sm_cut", shard)).fetchone()
        return None if row is None else Cut(**row)

    def put_cut(self, shard: str, cut: Cut) -> None:
        """Stores a cut, beside its count."""
        self.tx.execute(self.own("DELETE FROM {}.sm_cut", shard))
        self.tx.execute(self.own("INSERT INTO {}.sm_cut VALUES (%s, %s, %s, sm.sequences(%s))", shard), (cut.handover, cut.position, cut.party, shard))

    def end_cut(self, shard: str) -> None:
        """Deletes the cut: the shard is served here now, and followers see this behind it."""
        self.tx.execute(self.own("DELETE FROM {}.sm_cut", shard))

    def members(self, shard: str) -> Dict[int, bool]:
        """The servers that count for a shard, and whether they are the old owner."""
        if not self.is_adopted(shard):
            return {}
        rows = self.tx.execute(self.own("SELECT server, was_owner FROM {}.sm_members", shard)).fetchall()
        return {it["server"]: it["was_owner"] for it in rows}

    def members_of(self, shards: List[str]) -> Dict[str, Dict[int, bool]]:
        """The same of many shards, by one question."""
        its = self.tx.execute("SELECT it FROM unnest(%s::text[]) it WHERE sm.is_adopted(it)", (shards,)).fetchall()
        found: Dict[str, Dict[int, bool]] = {it["it"]: {} for it in its}
        text = "SELECT {shard} AS shard, server, was_owner FROM {own}.sm_members"
        each = [sql.SQL(text).format(shard=sql.Literal(it), own=sql.Identifier(it)) for it in found]
        for row in self.tx.execute(sql.SQL(" UNION ALL ").join(each)).fetchall() if each else []:
            found[row["shard"]][row["server"]] = row["was_owner"]
        return found

    def connection(self, shard: str) -> Tuple[Optional[int], Optional[int]]:
        """What this server says of a shard that it follows as it begins a connection: the journal, and at which reopening of that it was settled. Nothing unless
        its copy is whole, and it stays: neither fenced, nor at work on an order, nor asking for leave."""
        row = self.tx.execute("SELECT journal, settled FROM sm.state, sm.slots WHERE known = 1 AND fenced = 0 AND shard = %s AND cell IN (3, 5) AND at_work = 0 "
                              "AND is_whole AND NOT EXISTS (SELECT FROM sm.leaving l WHERE l.shard = slots.shard)", (shard,)).fetchone()
        return (None, None) if row is None else (row["journal"], row["settled"])

    def put_members(self, shard: str, members: Dict[int, bool]) -> None:
        """Stores who counts, as this server begins to lead: all connections of before are over."""
        self.tx.execute("DELETE FROM sm.connections WHERE shard = %s", (shard,))
        self.tx.execute(self.own("DELETE FROM {}.sm_members", shard))
        for server, was_owner in members.items():
            self.tx.execute(self.own("INSERT INTO {}.sm_members VALUES (%s, %s)", shard), (server, was_owner))

    def end_handover(self, shard: str) -> None:
        """The old owner of a shard that is served here counts no more, unless it follows: a reopening has taken its part away."""
        if self.tx.execute(self.own("DELETE FROM {}.sm_members WHERE was_owner", shard)).rowcount:
            self.count(shard)

    def put_begun(self, shard: str, mark: Mark) -> None:
        """Stores what the copy here is as it begins to be written here: followers take nothing of it unless theirs is the same."""
        self.tx.execute(self.own("DELETE FROM {}.sm_begun", shard))
        self.tx.execute(self.own("INSERT INTO {}.sm_begun (view, position) VALUES (%s, %s)", shard), (mark.view, mark.position))

    def put_view(self, shard: str, view: int, position: int) -> None:
        """A new primary begins a view."""
        self.tx.execute(self.own("INSERT INTO {}.sm_views VALUES (%s, %s) ON CONFLICT (view) DO NOTHING", shard), (view, position))

    def count(self, shard: str) -> None:
        """Counts a write of this transaction."""
        self.tx.execute("SELECT sm.count(%s)", (shard,))

    def own(self, text: str, shard: str) -> sql.Composed:
        """A statement over a table of a shard."""
        return sql.SQL(text).format(sql.Identifier(shard))


def is_served(slot: Slot) -> bool:
    """Whether a server with this slot executes requests, be it only those that are passed on."""
    return slot.cell == Cell.PRIMARY or (slot.cell == Cell.PREPARED and bool(slot.has_cut))
