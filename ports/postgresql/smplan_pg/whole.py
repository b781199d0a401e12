"""The server as a whole: fences, settles, restores, notices, starts."""
from __future__ import annotations

import secrets
import time
from contextlib import ExitStack
from typing import TYPE_CHECKING, Any, Dict, List

import psycopg
from smplan import agent
from smplan.agent import Answer, Cell, Restoration, Slot
from smplan.control_agent import assignment_of, slots_of, told_of

from . import streams
from .copies import remove, set_aside
from .database import Connection, value
from .records import Records
from .streams import Stuck

if TYPE_CHECKING:
    from .server import Server

Line = Dict[str, Any]
IN_HANDOVER = (Cell.PREPARED, Cell.FORWARDING)


def nonce() -> int:
    """A fresh random number, never 0."""
    return secrets.randbits(63) | 1


class Whole:
    """What happens to all slots at once."""

    def __init__(self, server: "Server") -> None:
        self.server = server

    # -- fences

    def fence(self, line: Line) -> Line:
        """Takes a fence once no request of a handover runs, and answers with all slots, or with the nonce of an Unknown server."""
        journal, number, until = int(line["journal"], 16), line["base"], time.monotonic() + self.server.limits.fencing
        while True:
            try:
                return self.fence_once(journal, number)
            except psycopg.errors.LockNotAvailable:
                if time.monotonic() > until:
                    with self.server.database.transaction() as tx:
                        held = [shard for shard, slot in Records(tx).slots().items() if slot.cell in IN_HANDOVER]
                    for it in held:
                        self.end_requests(it)

    def fence_once(self, journal: int, number: int) -> Line:
        """One try to take a fence."""
        with self.server.database.transaction() as tx:
            it = Records(tx)
            tx.execute("SET LOCAL lock_timeout = '300ms'")
            if it.base().number < number:
                for shard, slot in it.slots().items():
                    if slot.cell in IN_HANDOVER:
                        tx.execute("SELECT sm.hold(%s)", (shard,))
            answer, base = self.server.agent.fence(it.base("FOR UPDATE"), journal, number, nonce())
            if answer == Answer.TAKEN:
                it.put_base(base, number)
                self.abandon_all(it)
            if answer == Answer.IGNORED:
                return {"said": "ignored"}
            return {"slots": self.told_slots(it)} if base.known else {"unknown": f"{base.nonce:x}"}

    def end_requests(self, shard: str) -> None:
        """Ends the sessions whose requests of a shard run: they are not acknowledged."""
        held = ("SELECT pg_terminate_backend(pid) FROM pg_locks WHERE locktype = 'advisory' AND granted AND mode = 'ShareLock' "
                "AND classid = 1936531056 AND objid = (hashtext(%s)::bigint & 4294967295)::oid AND pid <> pg_backend_pid()")
        self.server.database.rows(held, shard)
        self.server.say("ends requests of", shard)

    def told_slots(self, it: Records) -> List[Line]:
        """All slots, as they are told; not that of a copy that is not whole, from which nobody could go on."""
        told = []
        for shard, slot in it.slots().items():
            if slot.cell != Cell.ABSENT and (slot.cell == Cell.FORWARDING or it.is_whole(shard) or it.kept(shard) is not None):
                mark = it.told_mark(shard)
                told.append(told_of(shard, slot, self.server.names, mark.position, self.server.agent.has_reached_cut(slot, mark.position), mark.view))
        return told

    def tell_slots(self, _: Line) -> Line:
        """What it has, for an `audit`."""
        with self.server.database.transaction() as tx:
            return {"slots": self.told_slots(Records(tx))}

    # -- settles and restores

    def settle(self, line: Line) -> Line:
        """Takes the slots that end a reopening."""
        answer = self.take(line)
        return {"done": True} if answer in (Answer.TAKEN, Answer.AGAIN) else {"said": "ignored"}

    def restore(self, line: Line) -> Line:
        """Takes the slots that it asked for under a nonce, unless it has lost the data of one that makes it primary."""
        lost = self.lost(line)
        if lost:
            name = self.server.name
            self.server.say(f"{name} is to be primary of {lost}, and has no such data: adopt it, or if it is lost reopen with {name} lost")
            return {"said": f"it has no data of {lost}"}
        self.take(line)
        return {"done": True}

    def lost(self, line: Line) -> str:
        """The shards that it is to serve, and has no whole copy of."""
        with self.server.database.transaction() as tx:
            it = Records(tx)
            if it.base().known:
                return ""
            served = [told["shard"] for told in line["slots"] if told["cell"] in ("primary", "forwarding")]
            return ", ".join(shard for shard in served if it.kept(shard) is None and (not it.is_adopted(shard) or self.server.copies.is_copying(tx, shard)))

    def take(self, line: Line) -> Answer:
        """Takes a settle or a restore as a whole: each slot that it does not bring is absent afterwards, and its data set aside."""
        self.server.know(line)
        told, brought = assignment_of(line), slots_of(line, self.server.numbers)
        with self.server.database.transaction() as tx:
            it = Records(tx)
            before = it.slots()
            answer, _, after = self.server.agent.take(it.base(), told, before, brought)
        if answer != Answer.TAKEN:
            return answer
        with ExitStack() as hands:
            for shard in sorted(after):
                live = self.server.live(shard)
                if not live.hands.acquire(timeout=2.0):
                    raise Stuck(f"the work of {shard} ends")
                hands.callback(live.hands.release)
            waits = True
            for shard, slot in after.items():
                waits = self.prepare(shard, before.get(shard, Slot()), slot, waits)
            with self.server.database.transaction() as tx:
                it = Records(tx)
                before, was = it.slots(), it.base("FOR UPDATE")
                answer, base, after = self.server.agent.take(was, told, before, brought)
                if answer == Answer.TAKEN:
                    number = told.fence if isinstance(told, Restoration) else told.number
                    it.put_base(base, number)
                    it.put_settled(number, self.server.limits.copies, may_fall=not isinstance(told, Restoration))
                    for shard in sorted(after if was.known else {*after, *self.adopted(tx)}):
                        self.store(tx, shard, before.get(shard, Slot()), after.get(shard, agent.VACANT), number)
        for shard in after:
            self.server.following.wake(shard)
        return answer

    def adopted(self, tx: Connection) -> List[str]:
        """All schemas here that have been a shard of a service."""
        rows = tx.execute("SELECT nspname FROM pg_namespace n JOIN pg_class c ON relnamespace = n.oid AND relname = 'sm_counters' "
                          "WHERE nspname NOT LIKE 'sm\\_aside\\_%'").fetchall()
        return [it["nspname"] for it in rows if tx.execute(Records(tx).own("SELECT FROM {}.sm_views LIMIT 1", it["nspname"])).fetchone() is not None]

    def prepare(self, shard: str, before: Slot, after: Slot, waits: bool) -> bool:
        """What goes before the transaction: a new primary follows nobody any more, and makes streams for those who may follow it. Whether they did not wait in
        vain for transactions that are open here: otherwise none is made for the shards that come then, and who has none copies the shard anew."""
        if after.cell == before.cell == Cell.PRIMARY or after.cell in (Cell.SECONDARY, Cell.PREPARED):
            return waits
        with self.server.database.transaction() as tx:
            it = Records(tx)
            mine = streams.name_of(tx, shard, self.server.number)
            members = set(it.members(shard)) | ({before.party} if before.cell in IN_HANDOVER else set()) if after.cell == Cell.PRIMARY else set()
        streams.halt(self.server.database, mine)
        for number in members - {self.server.number, 0}:
            try:
                waits = waits and streams.make_stream(self.server.database, shard, number, self.server.limits.ending)
            except psycopg.Error as why:  # (who has no stream copies the shard anew)
                self.server.say("no stream of", shard, "for", number, why)
        if not waits:
            self.server.say("transactions here are open for long: who follows copies", shard, "anew")
        return waits

    def store(self, tx: Connection, shard: str, before: Slot, after: Slot, view: int) -> None:
        """Stores a slot, with what becomes of its data."""
        it = Records(tx)
        it.put_slot(shard, after)
        if after.cell == Cell.ABSENT:
            if before.cell == Cell.UNKNOWN:
                set_aside(tx, shard, self.server.number, "another server has it, as this one was told when it was restored")
            elif it.is_whole(shard):
                set_aside(tx, shard, self.server.number, "a reopening has left it to other servers")
            else:
                remove(tx, shard, self.server.number)
        elif after.cell == Cell.PRIMARY and before.cell != Cell.PRIMARY:
            self.server.copies.put_back(tx, shard)
            self.begin_view(tx, shard, view, {})
        elif after.cell == Cell.PRIMARY:
            it.end_handover(shard)
        elif after.cell == Cell.SECONDARY and before.cell in (Cell.PRIMARY, *IN_HANDOVER):
            streams.publish(tx, shard, "")
            it.put_source(shard, it.source(shard) if before.cell != Cell.PRIMARY else None, it.is_whole(shard))
        elif before.cell == Cell.UNKNOWN and after.cell in (Cell.FORWARDING, Cell.SECONDARY):
            it.put_source(shard, None, it.is_adopted(shard) and not self.server.copies.is_copying(tx, shard))

    def begin_view(self, tx: Connection, shard: str, view: int, members: Dict[int, bool]) -> None:
        """From now on the shard is written here. What it followed is halted already."""
        it = Records(tx)
        place, mark, cut = value(tx.execute("SELECT pg_current_wal_insert_lsn()::text").fetchone()), it.mark(shard), it.cut(shard)
        streams.publish(tx, shard, streams.ALL)  # (first: what a transaction has written before is not told)
        it.put_begun(shard, mark)
        streams.drop_subscription(tx, streams.name_of(tx, shard, self.server.number))
        if cut is not None:
            tx.execute("SELECT sm.set_sequences(%s, %s::jsonb)", (shard, psycopg.types.json.Jsonb(cut.sequences)))
        tx.execute("SELECT sm.advance_sequences(%s)", (shard,))
        it.end_cut(shard)
        it.put_members(shard, members)
        it.put_view(shard, view, mark.position)
        it.count(shard)
        it.put_seal(shard, place, mark)
        it.put_source(shard, None, True)
        self.server.copies.end(tx, shard)

    # -- notices, and the base

    def notice(self, line: Line) -> Line:
        """Heeds the last reopening that a message names."""
        self.heed(int(line["journal"], 16), line["fence"])
        return {"done": True}

    def heed(self, journal: int, fence: int) -> None:
        """Turns Unknown if it was left behind at a reopening: slots are deleted, data is kept."""
        with self.server.database.transaction() as tx:
            it = Records(tx)
            base = it.base()
            if not base.known or self.server.agent.heed(base, journal, fence, 1).known:
                if base.known and base.journal == journal and it.heard() < fence:
                    it.put_base(it.base("FOR UPDATE"), fence)
                return
            forget(it)
        self.server.say("was left behind a reopening; it asks for its slots")

    def tell_base(self, _: Line) -> Line:
        """The number of its base; none if it is Unknown or fenced."""
        with self.server.database.transaction() as tx:
            base = Records(tx).base()
        return {"base": base.number if base.known and not base.fenced else None}

    def start(self) -> None:
        """Begins without work; an Unknown server under a new nonce."""
        with self.server.database.transaction() as tx:
            it = Records(tx)
            if not it.base("FOR UPDATE").known:
                it.put_base(agent.forget(nonce()), 0)
            self.abandon_all(it)
            copies = it.put_copies(self.server.limits.copies)
        if copies > self.server.limits.copies:
            self.server.say(f"acknowledges only what {copies} servers have, as before, until it is settled at a reopening")

    def abandon_all(self, it: Records) -> None:
        """Gives up all work, and all questions for leave."""
        it.end_questions()
        for shard, slot in it.slots().items():
            if slot.at_work:
                it.put_slot(shard, self.server.agent.abandon(slot))


def forget(it: Records) -> None:
    """Turns a server Unknown: slots are deleted, data is kept."""
    it.base("FOR UPDATE")
    it.tx.execute("DELETE FROM sm.slots")
    it.end_questions()
    it.put_base(agent.forget(nonce()), 0)
