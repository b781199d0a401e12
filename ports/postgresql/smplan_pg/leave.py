"""Leave: who drops a shard asks another server that has all that counts. While a question is open, or was answered, who asks gives no leave himself."""
from __future__ import annotations

import secrets
import time
from contextlib import contextmanager, suppress
from typing import TYPE_CHECKING, Any, Dict, Iterator, List, Tuple

import psycopg
from smplan.agent import Cell, Slot

from .database import Connection, signed, value
from .records import Records
from .streams import Stuck

if TYPE_CHECKING:
    from .server import Server

Line = Dict[str, Any]

# For how long one that is asked may wait for its locks, in seconds: while requests run here, and while they are held.
WAITING, HOLDING = 2.0, 0.5

Words = Tuple[Any, ...]


class Leave:
    """A question for leave to drop a shard, and who may give it. Those who are asked answer by sm.leave."""

    def __init__(self, server: "Server", shard: str, line: Line, others: List[int]) -> None:
        self.server, self.shard, self.question = server, shard, secrets.randbits(63)
        primary = server.numbers.get(line.get("primary") or server.name, 0)
        self.is_beside = primary == server.number
        self.givers = others if self.is_beside else [primary]
        self.needed = 1

    def words(self, tx: Connection, slot: Slot) -> Words:
        """What those who are asked have to know; none if there is nobody to be asked."""
        it = Records(tx)
        if self.is_beside and (not self.givers or slot.cell == Cell.PREPARED):
            return ()
        if self.is_beside and not it.is_whole(self.shard):
            raise Stuck("what is here is not whole: it waits, as nobody can tell who has all of it")
        base, mark = it.base(), it.mark(self.shard)
        self.needed = it.copies() if self.is_beside else 1
        if self.needed > 1 and slot.cell != Cell.PRIMARY and mark.view > it.settled():
            raise Stuck("nobody leads it, and this copy may have writes of a primary since the last reopening")
        return self.shard, self.server.number, signed(base.journal), it.heard(), self.is_beside, mark.view, mark.position

    def get(self, words: Words, patience: float = WAITING) -> None:
        """Asks until somebody gives leave; without a primary as many as each write has to be at. They are asked alone from then on."""
        until = time.monotonic() + self.server.limits.holding
        while words:
            said: Dict[int, str] = {}
            for it in self.givers:
                said[it] = self.answer(it, words, patience)
                given = [it for it, why in said.items() if why == "leave"]
                if len(given) == self.needed:
                    self.givers = given
                    return
            if time.monotonic() > until:
                whys = [f"no leave from {self.server.names.get(it, it)}: {why}" for it, why in said.items() if why != "leave"]
                raise Stuck("; ".join(whys) or f"fewer than {self.needed} others are named")
            time.sleep(0.005)

    def answer(self, number: int, words: Words, patience: float) -> str:
        """What another server answers."""
        try:
            with self.server.peer(number).transaction() as there:
                there.execute(f"SET LOCAL statement_timeout = {int(1000 * patience)}")
                return str(value(there.execute("SELECT sm.leave(%s, %s, %s, %s, %s, %s, %s)", words).fetchone()))
        except (Stuck, OSError, psycopg.Error) as why:
            return str(why).strip()

    def keep(self, tx: Connection, slot: Slot) -> None:
        """Gets leave again for what is here by now, as the drop is committed in this transaction, in which nothing more comes to the copy."""
        if self.is_beside:
            self.get(self.words(tx, slot), HOLDING)
        if not value(tx.execute("SELECT sm.end_leaving(%s, %s)", (self.shard, self.question)).fetchone()):
            raise Stuck("it has given leave to another server that leaves, and asks anew")

    def tell(self) -> None:
        """Tells the primary that the drop is committed: an old owner counts there until then."""
        for it in () if self.is_beside else self.givers:
            with suppress(Stuck, OSError, psycopg.Error):  # (the primary looks, too)
                self.server.peer(it).row("SELECT sm.left(%s, %s)", self.shard, self.server.number)


@contextmanager
def leaving(server: "Server", shard: str, line: Line, others: List[int]) -> Iterator[Leave]:
    """A question for leave, which is open until the drop is committed or given up."""
    it = Leave(server, shard, line, others)
    server.database.row("SELECT sm.begin_leaving(%s, %s)", shard, it.question)
    try:
        yield it
    finally:
        with suppress(psycopg.Error):  # (the next try, or the next start, ends it)
            server.database.do("DELETE FROM sm.leaving WHERE shard = %s AND question = %s", shard, it.question)
