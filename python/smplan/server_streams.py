"""Writes on their way to who follows a shard: a request is acknowledged when all who have to have what it saw have it, and enough do."""
from __future__ import annotations

import time
from typing import TYPE_CHECKING, Any, Dict, Iterable, Tuple

from .agent import Cell, Slot
from .server_offers import Told, is_source_for
from .server_records import Mark, Records
from .server_shard import Link, Live

if TYPE_CHECKING:
    from .server import Server

Line = Dict[str, Any]

# What the old owner of a handover answers that has all writes, or has dropped the shard.
RELEASED = (Told.HAS, Told.NOTHING)


class Streams:
    """The side of a server that executes."""

    def __init__(self, server: "Server") -> None:
        self.server, self.limits = server, server.limits
        self.lives: Dict[int, str] = {}

    def link(self, live: Live, number: int) -> Link:
        """What is known of another server. `changed` is held."""
        return live.links.setdefault(number, Link())

    def join(self, shard: str, number: int, mark: Mark) -> None:
        """Another server, whose list ends at a mark, gets each write from now on."""
        with self.server.changed:
            link = self.link(self.server.live(shard), number)
            link.mark = mark
            link.ask_anew()

    def push(self, shard: str, number: int, place: int, is_patient: bool = False) -> Told:
        """Sends another server what it lacks, if it lacks something up to a place."""
        live = self.server.live(shard)
        with self.server.changed:
            link = self.link(live, number)
        if not link.is_asked:
            return Told.NOTHING
        if link.left and not is_patient:
            return Told.LATER
        if time.monotonic() < link.dead_until and not is_patient:
            return Told.DEAD
        with link.lock:
            if link.has >= place:
                return Told.HAS
            told, until = self.push_once(shard, number, link), time.monotonic() + self.limits.peer
            while told == Told.LACKS and time.monotonic() < until:
                told = self.push_once(shard, number, link)
            return told

    def push_once(self, shard: str, number: int, link: Link) -> Told:
        """Sends one offer, and notes what the other server has. Its lock is held."""
        with self.server.storage.transaction() as tx:
            it = Records(tx)
            mark = it.mark(shard)
            if not is_source_for(it.slot(shard), mark.position, number):
                return Told.LATER
            joined, offer = link.joined, self.server.offers.offer(it, shard, link.mark or mark)
        try:
            answer = self.server.ask(number, "follow", offer, self.limits.peer if "writes" in offer else self.limits.working)
        except (OSError, ValueError):
            link.failures = min(link.failures + 1, 5)
            link.dead_until = time.monotonic() + self.limits.resting * 2 ** (link.failures - 1)
            return Told.DEAD
        link.failures, link.dead_until = 0, 0.0
        told = next((it for it in Told if it.value in answer), Told.LATER)
        with self.server.changed:
            if told == Told.HAS and link.joined == joined:
                link.has, link.mark, link.settled = mark.position, mark, answer.get("settled", -1)
            elif told == Told.LACKS:
                link.mark = Mark(*answer["lacks"])
            elif told == Told.NOTHING and link.joined == joined:
                link.is_asked = False
        return told

    def round(self, shard: str, place: int, must: Iterable[int]) -> Dict[int, Told]:
        """Sends all others what they lack, at once."""
        patient = set(must)
        numbers = [it for it in self.server.others() if it in patient or self.counts(shard, it)]
        told = {it: self.server.pool.submit(self.push, shard, it, place, it in patient) for it in numbers[1:]}
        first = {it: self.push(shard, it, place, it in patient) for it in numbers[:1]}
        return {**first, **{number: it.result() for number, it in told.items()}}

    def counts(self, shard: str, number: int) -> bool:
        """Whether another server may follow the shard."""
        with self.server.changed:
            return self.link(self.server.live(shard), number).counts

    def must_have(self, shard: str) -> Tuple[int, Tuple[int, int]]:
        """The old owner, whom each write of a handover waits for, live or not, 0 if there is none; and what all are counted by."""
        with self.server.storage.transaction() as tx:
            it = Records(tx)
            return it.old_owner(shard, it.slot(shard)), it.counting()

    def are_enough(self, live: Live, place: int, counting: Tuple[int, int]) -> bool:
        """Whether as many servers have the writes up to a place as each has to be at, this one among them. Another one counts by what it has said once it
        was settled at this one's last reopening: one that was given up may go on to follow. `changed` is held: nobody gets leave meanwhile."""
        settled, copies = counting
        return copies <= 1 + sum(it.counts and it.has >= place and it.settled >= settled for it in live.links.values())

    def replicate(self, shard: str, place: int, term: int, must: Iterable[int] = ()) -> bool:
        """Waits until each live server that follows has the writes up to a place, enough servers do, and those that must have them, live or not.
        Whether they have."""
        live, until = self.server.live(shard), time.monotonic() + self.limits.waiting
        while time.monotonic() < until:
            with self.server.changed:
                if live.term != term:
                    return False
                if live.acknowledged >= place and not must:
                    return True
            old, counting = self.must_have(shard)
            told = self.round(shard, place, {*must, old} - {0})
            if old and told.get(old) == Told.NOTHING:
                self.release(shard, old)
            if Told.OVERTAKEN in told.values():
                return False
            has_old = not old or told.get(old) in RELEASED
            if Told.LACKS not in told.values() and all(told.get(it) == Told.HAS for it in must) and has_old:
                with self.server.changed:
                    if live.term == term and self.are_enough(live, place, counting):
                        live.acknowledged = max(live.acknowledged, place)
                        return True
            time.sleep(0.05)
        return False

    def has_enough(self, shard: str) -> bool:
        """Whether enough servers that follow, and do not leave, have all that is acknowledged, and that was here when this one began to lead."""
        with self.server.storage.transaction() as tx:
            counting = Records(tx).counting()
        with self.server.changed:
            live = self.server.live(shard)
            is_noted = live.noted is not None and self.are_enough(live, max(live.acknowledged, live.noted), counting)
            return counting[1] < 2 or is_noted

    def release(self, shard: str, old: int) -> None:
        """The old owner has dropped the shard."""
        with self.server.storage.transaction() as tx:
            it = Records(tx)
            if it.slot(shard).cell == Cell.PRIMARY and it.old_owner(shard, Slot()) == old:
                it.put_old_owner(shard, 0)

    def keep_up(self) -> None:
        """Sends each follower what it lacks, also if nobody writes."""
        with self.server.storage.transaction() as tx:
            it = Records(tx)
            marks = {shard: (slot, it.mark(shard)) for shard, slot in it.slots().items()}
        for shard, (slot, mark) in marks.items():
            for number in self.server.others():
                if is_source_for(slot, mark.position, number) and self.is_behind(shard, number, mark):
                    self.server.beside.submit(self.push, shard, number, mark.position)
        for number in self.server.others() if marks else ():
            self.server.beside.submit(self.look_at, number)

    def look_at(self, number: int) -> None:
        """Asks another server for its life. If it is a new one, nothing is known of what it has. It has left no shard that it asks no leave for."""
        try:
            told = self.server.ask(number, "life", {}, self.limits.peer)
            life, leaving = told["life"], told["leaving"]
        except (OSError, ValueError, LookupError):
            return
        with self.server.changed:
            is_new = self.lives.get(number) != life
            self.lives[number] = life
            for shard, live in self.server.shards.items():
                link = live.links.get(number)
                if link is not None and (is_new or (link.left and link.left != leaving.get(shard))):
                    link.ask_anew()

    def is_behind(self, shard: str, number: int, mark: Mark) -> bool:
        """Whether another server lacks something, as far as is known, and is asked by nobody now."""
        with self.server.changed:
            link = self.link(self.server.live(shard), number)
        return link.counts and link.has < mark.position and not link.lock.locked()
