"""Followers: a new owner that has all writes seals, and everybody else goes over to it; who has lost its source joins the new primary, or copies anew."""
from __future__ import annotations

import select
import time
from collections import defaultdict
from contextlib import suppress
from dataclasses import dataclass
from typing import TYPE_CHECKING, Any, Dict, List, Optional, Tuple

import psycopg
from smplan.agent import Base, Cell, Slot

from . import streams
from .copies import GivenUp, begun, remove
from .database import value
from .records import Cut, Mark, Records
from .resting import WATCHED, Resting
from .sources import is_of, serves
from .streams import Stuck

if TYPE_CHECKING:
    from .server import Server

# For how long a follower waits for the last writes of a source that serves no more, in seconds.
CUT_COMES = 5.0

# For how long a stream may take to begin while a cut is awaited, in seconds.
HASTE = 1.0

# How often it is looked whether a source still serves, in seconds. (A cut tells itself.)
AT_REST = 3.0

# How often streams that nobody reads yet are moved up to now, in seconds.
ADVANCING = 5.0


# What a follower has, and how often what came to it could not be applied.
APPLIED = """SELECT sm.view(%s) AS view, sm.position(%s) AS position,
    (SELECT apply_error_count FROM pg_stat_subscription_stats WHERE subname = sm.stream(%s, %s)) AS errors"""


@dataclass(frozen=True)
class Applied:
    """What a follower had when it was seen first behind its source, how often what came could not be applied by then, and when that was."""

    mark: Mark
    errors: int
    since: float


@dataclass(frozen=True)
class State:
    """What a server has of a shard, as its watch sees it."""

    base: Base
    slot: Slot
    source: Optional[int]
    is_whole: bool
    is_leftover: bool
    cut: Optional[Cut]
    settled: int
    copies: int


class Following:
    """The followers' side of a server."""

    def __init__(self, server: "Server") -> None:
        self.server = server
        self.next_look: Dict[str, float] = {}
        self.busy: Dict[str, bool] = {}  # (the shards that are looked at, and whether once more behind it)
        self.unserved: Dict[str, float] = {}
        self.applied: Dict[str, Applied] = {}
        self.refused: Dict[str, int] = {}
        self.advanced: Dict[str, Tuple[int, float]] = {}
        self.resting = Resting(self)

    # -- when to look

    def wake(self, shard: str) -> None:
        """Looks at a shard at once."""
        self.next_look.pop(shard, None)
        self.look_beside(shard, True)

    def watch(self) -> None:
        """Looks at each shard that follows, in turn; at those in a handover more often, at those at rest together."""
        now = time.monotonic()
        due: Dict[Optional[int], List[str]] = defaultdict(list)
        for it in self.server.database.rows(WATCHED):
            if now >= self.next_look.get(it["shard"], 0.0):
                due[it["source"]].append(it["shard"])
        for source, shards in due.items():
            if source is None or source == self.server.number or not self.resting.begin(source, shards, AT_REST):
                for shard in shards:
                    self.look_beside(shard)

    def listen(self) -> None:
        """Looks at a shard as soon as a cut comes to it."""
        with self.server.database.connect() as c:
            c.add_notify_handler(lambda it: self.wake(it.payload))
            c.execute("LISTEN sm_cut")
            while True:
                ready = select.select([c.fileno()], [], [], 5.0)[0]
                if not ready:
                    c.execute("SELECT 1")
                c.pgconn.consume_input()
                while (it := c.pgconn.notifies()) is not None:
                    self.wake(it.extra.decode())

    def look_beside(self, shard: str, again: bool = False) -> None:
        """Looks at a shard in a thread of its own. If one does already, it looks once more if there is something new:
        it may have seen what was before."""
        with self.server.lock:
            if shard in self.busy:
                self.busy[shard] |= again
                return
            self.busy[shard] = False
        self.server.beside.submit(self.look_until_still, shard)

    def look_until_still(self, shard: str) -> None:
        """Looks at a shard, again and again if somebody asks for it meanwhile."""
        while True:
            self.look_once(shard)
            with self.server.lock:
                if not self.busy[shard]:
                    del self.busy[shard]
                    return
                self.busy[shard] = False

    def look_once(self, shard: str) -> None:
        """Looks at a shard, if nobody changes its streams."""
        hands = self.server.live(shard).hands
        self.next_look[shard] = time.monotonic() + 1.0
        try:
            if hands.acquire(timeout=0.05):
                try:
                    self.look(shard)
                finally:
                    hands.release()
        except (Stuck, GivenUp, OSError, psycopg.Error) as why:
            self.tell(shard, str(why).strip())
        except Exception as why:  # pylint: disable=broad-exception-caught  (the next look comes)
            self.server.say("look at", shard, type(why).__name__, why)

    def tell(self, shard: str, words: str) -> None:
        """Notes why a look came to nothing; tells it once."""
        live = self.server.live(shard)
        if live.said != words:
            self.server.say("look at", shard, words)
        live.said = words

    # -- what is there to do

    def state(self, shard: str) -> State:
        """What the server has of a shard."""
        with self.server.database.transaction() as tx:
            it = Records(tx)
            base, settled, copies = it.state()
            slot, source, is_whole = it.entry(shard, base)
            is_leftover = self.server.copies.is_copying(tx, shard)
            return State(base, slot, source, is_whole, is_leftover, it.cut(shard), settled, copies)

    def look(self, shard: str) -> None:
        """Does what a shard needs now."""
        told = self.state(shard)
        if not told.base.known or told.slot.at_work:
            return
        if told.base.fenced:
            if told.is_leftover and told.slot.cell == Cell.SECONDARY:
                self.put_back(shard)
        elif told.slot.cell == Cell.ABSENT and told.is_leftover:
            self.clear(shard)
        elif told.slot.cell == Cell.PREPARED and not told.slot.has_cut:
            self.prepare(shard, told)
        elif told.slot.cell in (Cell.SECONDARY, Cell.FORWARDING):
            self.follow(shard, told)

    def clear(self, shard: str) -> None:
        """Deletes what a copy has left that came to nothing."""
        with self.server.database.connection() as c:
            mine = streams.name_of(c, shard, self.server.number)
        streams.halt(self.server.database, mine)
        with self.server.database.transaction() as tx:
            it = Records(tx)
            if it.base("FOR SHARE").known and it.slot(shard).cell == Cell.ABSENT and not it.slot(shard).at_work:
                remove(tx, shard, self.server.number)
        streams.drop_streams(self.server.database, shard)

    def put_back(self, shard: str) -> None:
        """Puts an old copy back: a copy that was begun comes to nothing by the reopening."""
        with self.server.database.connection() as c:
            mine = streams.name_of(c, shard, self.server.number)
        streams.halt(self.server.database, mine)
        with self.server.database.transaction() as tx:
            it = Records(tx)
            if it.base("FOR SHARE").fenced and it.slot(shard).cell == Cell.SECONDARY:
                self.server.copies.put_back(tx, shard)

    # -- a new owner

    def prepare(self, shard: str, told: State) -> None:
        """Seals once the cut has come; until then keeps streams ready for all who will follow."""
        if not told.is_whole:
            return self.copy_anew(shard, told.slot.party, told)
        if told.cut is not None and (told.cut.handover, told.cut.party) == (told.slot.handover, self.server.number):
            return self.seal(shard, told.cut)
        self.make_streams(shard)
        self.advance(shard, told.slot.handover)
        return None

    def advance(self, shard: str, handover: int) -> None:
        """Moves its streams up to now from time to time. (They read all the log for that, and a cut that comes
        meanwhile waits: so not as they are made.)"""
        number, since = self.advanced.get(shard, (0, 0.0))
        if number != handover:
            self.advanced[shard] = (handover, time.monotonic())
        elif time.monotonic() > since + ADVANCING:
            streams.advance(self.server.database, shard)
            self.advanced[shard] = (handover, time.monotonic())

    def make_streams(self, shard: str) -> None:
        """Makes streams for all who count, also who began to since it was prepared. It waits shortly for transactions that are open here, since a cut may come."""
        with self.server.database.transaction() as tx:
            present = streams.streams_of(tx, shard)
            lacking = [it for it in Records(tx).members(shard) if it != self.server.number and streams.name_of(tx, shard, it) not in present]
        streams.make_streams(self.server.database, shard, lacking, HASTE)

    def seal(self, shard: str, cut: Cut) -> None:
        """The new owner has all writes. It takes nothing more from the old one, begins the streams of its followers here, and then may execute."""
        database, begins = self.server.database, time.monotonic()
        made = begun(self.make_streams, shard)
        with database.connection() as c:
            mine = streams.name_of(c, shard, self.server.number)
        streams.halt(database, mine)
        halted = time.monotonic()
        with suppress(psycopg.Error):  # (who has no stream copies anew)
            made.result()
        with database.transaction() as tx:
            it = Records(tx)
            base = it.base("FOR SHARE")
            slot = it.slot(shard, base)
            if slot.cell != Cell.PREPARED or slot.has_cut or slot.handover != cut.handover or base.fenced:
                return
            row = tx.execute("SELECT pg_current_wal_insert_lsn()::text AS place").fetchone()
            assert row is not None
            mark = it.mark(shard)
            streams.publish(tx, shard, streams.ALL)  # (first: what a transaction has written before is not told)
            it.put_begun(shard, mark)
            tx.execute(it.own("SELECT sm.set_sequences(%s, sequences) FROM {}.sm_cut", shard), (shard,))
            members = {number: False for number in it.members(shard) if number != self.server.number}
            it.put_members(shard, {**members, slot.party: True})
            it.put_slot(shard, self.server.agent.seal(slot, cut.handover, cut.position))
            it.put_seal(shard, row["place"], mark)
            it.put_source(shard, None, True)
            it.count(shard)
            streams.drop_subscription(tx, mine)  # (last: until it is committed no other stream begins here)
        self.server.say("sealed", shard, f"halt {halted - begins:.3f} store {time.monotonic() - halted:.3f}")

    # -- everybody else

    def follow(self, shard: str, told: State) -> None:
        """Goes over to the new owner if the cut has come, and otherwise looks whether its source still serves it."""
        me = self.server.number
        if told.cut is not None and told.cut.party not in (0, me, told.source) and told.is_whole:
            if self.go_over(shard, told.cut.party):
                return
        if told.source is not None and told.is_whole and self.is_served(shard, told):
            self.next_look[shard] = time.monotonic() + AT_REST
            return
        primary = self.server.sources.primary_of(shard, told.base)
        if primary is None or self.serves_again(shard, told, primary) or (told.is_whole and self.refused.get(shard) != primary and self.join(shard, primary)):
            return
        if told.slot.cell == Cell.SECONDARY and not self.may_get_on(shard, told, primary):
            self.copy_anew(shard, primary, told)

    def serves_again(self, shard: str, told: State, primary: int) -> bool:
        """Whether the source was away only as it was asked first, as one that starts is: the next look goes on with it."""
        if primary != told.source or not told.is_whole or self.refused.get(shard) == primary or not self.is_enabled(shard):
            return False
        return bool(self.server.sources.offer(primary, shard)["has_stream"])

    def may_get_on(self, shard: str, told: State, primary: int) -> bool:
        """Whether a source that serves no more, or is away for a moment, may still bring the last writes."""
        now = self.server.silence.now()
        since = self.unserved.setdefault(shard, now)
        return told.is_whole and told.cut is None and told.source not in (None, primary) and now - since < CUT_COMES

    def go_over(self, shard: str, owner: int, seconds: float = 3.0) -> bool:
        """Follows the new owner as soon as it has sealed. Whether it does. Behind the cut nothing comes from the old
        one: so the subscription is made anew while the new owner seals."""
        until, is_ready = time.monotonic() + seconds, False
        while time.monotonic() < until:
            try:
                it = self.server.sources.offer(owner, shard)
            except (Stuck, OSError, psycopg.Error):
                return False  # (it may be gone, and another one the primary)
            if it["cell"] not in (Cell.PREPARED, Cell.PRIMARY):
                return False
            if not is_ready and (self.may_join(shard, it) if serves(it) else it["cell"] == Cell.PREPARED):
                self.get_ready(shard, owner)
                is_ready = True
            if is_ready and self.begin(shard, owner, it):
                return True
            time.sleep(0.004)
            told = self.server.database.row("SELECT FROM sm.slots WHERE shard = %s AND at_work = 0 AND cell IN (%s, %s)",
                                            shard, int(Cell.SECONDARY), int(Cell.FORWARDING))
            if told is None or self.server.live(shard).worker:
                return False
        return False

    def is_served(self, shard: str, told: State) -> bool:
        """Whether the source still sends this server what it lacks. If it serves, this server counts there."""
        assert told.source is not None
        was = self.applied.pop(shard, None)
        try:
            it = self.server.sources.offer(told.source, shard)
        except (Stuck, OSError, psycopg.Error):
            return False
        if not it["has_stream"] or not is_of(it, told.base):
            return False
        if serves(it):
            self.unserved.pop(shard, None)
            if not (self.is_enabled(shard) or (told.slot.cell == Cell.FORWARDING and self.go_on(shard))) or self.refuses(shard, told.source, was):
                return False
            if self.has_to_join(it, told) and not self.server.live(shard).worker:
                self.server.sources.join(shard, told.source)
            return True
        return False

    def has_to_join(self, offer: Dict[str, Any], told: State) -> bool:
        """Whether it does not count at its source; nor for the number of copies, if there are to be several."""
        is_connected = told.copies < 2 or offer["connected"] == told.settled
        return not (offer["is_member"] and is_connected) if told.slot.cell == Cell.SECONDARY else bool(offer["is_member"]) and not is_connected

    def is_enabled(self, shard: str) -> bool:
        """Whether the shard's subscription works."""
        enabled = "SELECT EXISTS (SELECT FROM pg_subscription WHERE subname = sm.stream(%s, %s) AND subenabled)"
        return bool(value(self.server.database.row(enabled, shard, self.server.number)))

    def go_on(self, shard: str) -> bool:
        """Lets an old owner follow again that had leave to drop its copy, and has not dropped it: it counts until then. Whether it does."""
        with self.server.database.transaction() as tx:
            mine = streams.name_of(tx, shard, self.server.number)
            if not streams.has_subscription(tx, mine):
                return False
            streams.enable(tx, mine)
        return True

    def refuses(self, shard: str, source: int, was: Optional[Applied]) -> bool:
        """Whether what a source sends could not be applied for a while, again and again, and nothing got on: it does not go on from the copy here."""
        row = self.server.database.row(APPLIED, shard, shard, shard, self.server.number)
        assert row is not None
        mark, errors, now = Mark(row["view"], row["position"]), row["errors"] or 0, self.server.silence.now()
        self.applied.update({shard: was} if was is not None else {})
        if self.gets_on(shard, mark, errors, self.server.sources.mark_at(source, shard)):
            return False
        was = self.applied[shard]
        if errors < was.errors + 2 or now - was.since < self.server.limits.dead:
            return False
        self.server.say("refuses what", self.server.names.get(source), "sends of", shard)
        self.refused[shard] = source
        return True

    def gets_on(self, shard: str, mark: Mark, errors: int, there: Optional[Mark]) -> bool:
        """Whether a follower has more than when it was seen first behind its source, or is not behind it."""
        was = self.applied.get(shard)
        if was is not None and was.mark == mark and was.errors <= errors and there is not None and mark < there:
            return False
        self.applied[shard] = Applied(mark, errors, self.server.silence.now())
        return True

    def rested(self, base: Base, slot: Slot, source: int, settled: int, copies: int) -> State:
        """What the server has of a shard at rest."""
        return State(base, slot, source, True, False, None, settled, copies)

    def join(self, shard: str, owner: int) -> bool:
        """Follows another server from the place on where its own writes began, if the copy here is the same as its was there. Whether it does."""
        if not self.may_join(shard, self.server.sources.offer(owner, shard)):
            return False
        with self.server.database.connection() as c:
            mine = streams.name_of(c, shard, self.server.number)
        streams.halt(self.server.database, mine)
        it = self.server.sources.offer(owner, shard)
        if not self.may_join(shard, it):
            return False
        self.get_ready(shard, owner)
        return self.begin(shard, owner, it)

    def may_join(self, shard: str, offer: Dict[str, Any]) -> bool:
        """Whether who offers serves, and this server may go on from where its writes began."""
        if not serves(offer) or not offer["is_joinable"]:
            return False
        return self.server.sources.mark_at(self.server.number, shard) == mark_of(offer)

    def get_ready(self, shard: str, owner: int) -> None:
        """Follows nobody any more, and has a subscription that follows another server once it begins."""
        database = self.server.database
        with database.connection() as c:
            mine, publication = streams.name_of(c, shard, self.server.number), streams.name_of(c, shard)
        streams.halt(database, mine)
        with database.transaction() as tx:
            tx.execute("SET LOCAL synchronous_commit = off")  # (what follows is durable, and this before it)
            Records(tx).put_source(shard, None, True)
            streams.drop_subscription(tx, mine)
        streams.subscribe(database, mine, publication, self.server.peers[owner].reach or "")

    def begin(self, shard: str, owner: int, offer: Dict[str, Any]) -> bool:
        """Lets the subscription that is ready begin from the place on where its source's own writes began. Whether it
        does."""
        if not serves(offer) or not offer["is_joinable"]:
            return False
        with self.server.database.transaction() as tx:
            records = Records(tx)
            follows = records.slot(shard).cell in (Cell.SECONDARY, Cell.FORWARDING)
            if not follows or records.mark(shard) != mark_of(offer):
                return False
            streams.begin_behind(tx, streams.name_of(tx, shard, self.server.number), offer["place"])
            records.put_source(shard, owner, True)
        self.server.say("follows", self.server.names[owner], "for", shard)
        self.server.sources.join(shard, owner)
        return True

    def copy_anew(self, shard: str, source: int, told: State) -> None:
        """Copies a shard whose copy here is none, or no beginning of the primary's list, or too old to be followed from where it is."""
        live = self.server.live(shard)

        def still() -> bool:
            with self.server.database.transaction() as tx:
                it = Records(tx)
                return it.base() == told.base and it.slot(shard) == told.slot

        def tell(words: str) -> None:
            live.said = words

        for its in (self.unserved, self.applied, self.refused):
            its.pop(shard, None)
        self.server.copies.make(shard, source, still, tell, waits=False)
        with self.server.database.transaction() as tx:
            it = Records(tx)
            if it.base("FOR SHARE") != told.base or it.slot(shard) != told.slot:
                return
            self.server.copies.end(tx, shard)
            it.put_source(shard, source, True)
        if told.slot.cell == Cell.SECONDARY:
            self.server.sources.join(shard, source)


def mark_of(offer: Dict[str, Any]) -> Mark:
    """What the copy of who offers was as its own writes began."""
    return Mark(offer["view"], offer["position"])
