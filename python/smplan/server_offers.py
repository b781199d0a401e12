"""Offers bring a follower what it lacks of a shard: writes, or a whole copy. A source makes them, and a follower takes them: docs/YOUR-SERVERS.md
shows them."""
from __future__ import annotations

from dataclasses import asdict, astuple
from enum import Enum
from typing import TYPE_CHECKING, Any, Dict, List, Optional

from . import agent
from .agent import Cell, Slot, ViewStart
from .server_records import MOST_WRITES, End, Ledger, Mark, Records, Write

if TYPE_CHECKING:
    from .server import Server

Line = Dict[str, Any]

# What a server says of a shard that it is to have a copy of, and has none.
LOST = "it has lost its copy of {}: give it up as lost"


class Told(Enum):
    """What a follower makes of an offer."""

    HAS = "has"
    LACKS = "lacks"
    NOTHING = "nothing"
    LATER = "later"
    OVERTAKEN = "overtaken"
    DEAD = "dead"


def is_source_for(slot: Slot, position: int, number: int) -> bool:
    """Whether a server with this slot gives its writes to another one: who executes to all, an old owner up to its cut to the new one."""
    if slot.cell == Cell.FORWARDING:
        return slot.party == number
    return slot.cell == Cell.PRIMARY or (slot.cell == Cell.PREPARED and agent.has_reached_cut(slot, position))


def follows(slot: Slot, position: int) -> bool:
    """Whether a server with this slot takes what a primary executes."""
    return slot.cell == Cell.SECONDARY or (slot.cell == Cell.PREPARED and not agent.has_reached_cut(slot, position))


def views_of(offer: Line) -> List[ViewStart]:
    """The views of the list that an offer is of: of a copy all, of writes those from that of the mark on behind which they are."""
    return [ViewStart(*it) for it in offer.get("views") or [[0, 0]]]


def fewer(name: str, copies: int, leader: str, wanted: int) -> str:
    """What is said of a server that is to lead after one whose acknowledged writes are at more servers."""
    return f"{name} acknowledges what {copies} servers have, and {leader} only what {wanted} have: start {name} with --copies {wanted}"


class Offers:
    """Offers that a server makes, asks for and takes."""

    def __init__(self, server: "Server") -> None:
        self.server, self.limits = server, server.limits

    def offer(self, it: Records, shard: str, after: Mark) -> Line:
        """What a server lacks whose list ends at a mark: the writes behind it, or a whole copy if the mark is not this list's, or too far behind."""
        slot, mark, views = it.slot(shard), it.mark(shard), it.views(shard)
        told: Line = {"shard": shard, "from": self.server.number, "journal": f"{it.base().journal:x}", "heard": it.heard(), "mark": astuple(mark),
                      "copies": it.counting()[1], "after": astuple(after), "cut": [slot.handover, slot.cut] if slot.cell == Cell.FORWARDING else None}
        if it.has(shard, after) and mark.position - after.position <= MOST_WRITES:
            later = [view for view in views if after.view <= view.view]
            return {**told, "views": later, "writes": [asdict(write) for write in it.kept(shard, after.position)]}
        before = it.ledger(shard).before
        return {**told, "views": views, "copy": {"before": astuple(before), "writes": [asdict(write) for write in it.kept(shard)],
                                                 "data": self.server.service.copy(it.tx, shard)}}

    def load(self, it: Records, shard: str, offer: Line) -> None:
        """Puts an offered copy in place of what is here, which is set aside if it has more."""
        self.server.aside.keep_before(it, shard, offer)
        self.server.service.drop(it.tx, shard)
        old = it.old_owner(shard, Slot())
        it.clear(shard)
        it.put_old_owner(shard, old)
        copy = offer["copy"]
        it.put_ledger(shard, Ledger(End(*copy["before"]), End(*copy["before"])))
        for write in copy["writes"]:
            it.append(shard, Write(**write), self.limits.keeping)
        self.server.service.load(it.tx, shard, copy["data"])
        it.put_views(shard, views_of(offer))

    def append(self, it: Records, shard: str, offer: Line) -> None:
        """Puts offered writes behind those that are here, and takes over the views of the source's list once all up to its end is here."""
        end, after, views = it.ledger(shard).end, Mark(*offer["after"]).end, views_of(offer)
        for told in offer.get("writes", ()):
            write = Write(**told)
            if after == end:
                self.server.service.apply(it.tx, shard, write.command)
                it.append(shard, write, self.limits.keeping)
                end = write.end
            after = write.end
        if end == Mark(*offer["mark"]).end:
            it.take_views(shard, views)

    def take(self, it: Records, shard: str, offer: Line) -> bool:
        """Takes an offer, unless the list here has changed since it was asked for, or is greater. Whether all that the source has is here, in the
        source's view. Without a copy it takes the answer to a question of this life alone: another offer may be of before the copy was lost."""
        if not it.has_copy(shard) and offer.get("asked") != self.server.whole.life:
            return False
        here, source = it.mark(shard), Mark(*offer["mark"])
        if "copy" in offer and Mark(*offer["after"]) == here and not here.has_more_than(source):
            self.load(it, shard, offer)
        elif "copy" not in offer and agent.resumes(here.copy, views_of(offer), source.position):
            self.append(it, shard, offer)
        return it.mark(shard).view == source.view and it.has(shard, source)

    # -- messages

    def taken(self, line: Line) -> Line:
        """Takes what a source sends, and tells it what is here."""
        shard = line["shard"]
        with self.server.storage.transaction() as tx:
            it = Records(tx)
            told, is_lacking = self.refused(it, line), not it.has_copy(shard)
            why = "it leaves" if self.server.live(shard).leaving else self.fewer(it, line) if is_lacking else ""
            if told is None and why:
                told = {Told.LATER.value: why}
            if told is None and not is_lacking:
                has_all, mark = self.take(it, shard, line), it.mark(shard)
                if has_all and line["cut"] is not None:
                    it.put_slot(shard, agent.seal(it.slot(shard), *line["cut"]))
                told = {Told.HAS.value: True} if has_all else {Told.LACKS.value: astuple(mark)}
                if not has_all and mark.has_more_than(Mark(*line["mark"])):
                    told = {Told.LATER.value: "it has more"}
            settled = {"settled": it.counting()[0]} if told and Told.HAS.value in told else {}
        told = self.copied(shard, line["from"]) if told is None else {**told, **settled}
        self.server.wake()
        return told

    def copied(self, shard: str, source: int) -> Line:
        """Copies a shard anew from a source that has sent something, and tells that one where the copy ends."""
        live = self.server.live(shard)
        if not live.copying.acquire(blocking=False):
            return {Told.LATER.value: "it copies"}
        try:
            self.catch_up(shard, source)
        except (OSError, ValueError) as why:
            return {Told.LATER.value: str(why)}
        finally:
            live.copying.release()
        with self.server.storage.transaction() as tx:
            it = Records(tx)
            return {Told.LACKS.value: astuple(it.mark(shard))} if it.has_copy(shard) else {Told.LATER.value: LOST.format(shard)}

    def fewer(self, it: Records, offer: Line) -> str:
        """Why nothing is copied from a source whose acknowledged writes are at more servers than this one's, if so: this one may lead the shard next."""
        copies = it.counting()[1]
        return fewer(self.server.name, copies, self.server.name_of(offer["from"]), offer["copies"]) if copies < offer.get("copies", 1) else ""

    def refused(self, it: Records, line: Line) -> Optional[Line]:
        """What a server answers to a source that it does not follow now, if so."""
        base, slot = it.base(), it.slot(line["shard"])
        if not base.known or int(line["journal"], 16) != base.journal:
            return {Told.LATER.value: "unknown"}
        if line["heard"] < it.heard():
            return {Told.OVERTAKEN.value: True}
        if slot.cell == Cell.SECONDARY:
            return None
        if slot.cell == Cell.ABSENT and not slot.at_work and not base.fenced:
            return {Told.NOTHING.value: True}
        if slot.cell not in (Cell.PREPARED, Cell.FORWARDING) or slot.party != line["from"]:
            return {Told.LATER.value: "it follows another server"}
        is_done = slot.cell == Cell.PREPARED and agent.has_reached_cut(slot, it.mark(line["shard"]).position)
        return {Told.HAS.value: True} if is_done else None

    def given(self, line: Line) -> Line:
        """Gives another server what it lacks, and sends it each write from then on. A secondary gives what it has to one that becomes primary."""
        shard, number, after = line["shard"], line["from"], Mark(*line["after"])
        if number not in self.server.others():
            self.server.look()
        with self.server.storage.transaction() as tx:
            it = Records(tx)
            base, slot, mark = it.base(), it.slot(shard), it.mark(shard)
            if not base.known or int(line["journal"], 16) != base.journal or it.heard() < line["heard"]:
                return {"said": "it does not know"}
            if self.server.live(shard).leaving:
                return {"said": f"it leaves {shard}"}
            if line.get("beside") and slot.cell == Cell.SECONDARY:
                return self.offer_beside(it, shard, after)
            if not is_source_for(slot, mark.position, number):
                return {"said": f"it is no source of {shard}"}
            if after.has_more_than(mark):
                return {"said": f"it has less of {shard}"}
            self.server.streams.join(shard, number, after)
            return self.offer(it, shard, after)

    def offer_beside(self, it: Records, shard: str, after: Mark) -> Line:
        """What a secondary gives that becomes no primary itself: what a lesser copy lacks that ends at a mark; otherwise where its own one ends."""
        mark = it.mark(shard)
        if not it.has_copy(shard):
            return {"said": LOST.format(shard)}
        return self.offer(it, shard, after) if mark.has_more_than(after) and not it.differs(shard, after) else {"less": astuple(mark)}

    def asked(self, shard: str, source: int, after: Mark, beside: bool = False) -> Line:
        """Asks a source for what is lacking behind a mark. The offer is noted with the life in which it was asked for."""
        with self.server.storage.transaction() as tx:
            it, life = Records(tx), self.server.whole.life
            line = {"shard": shard, "from": self.server.number, "journal": f"{it.base().journal:x}", "heard": it.heard(), "after": astuple(after),
                    "beside": beside}
        return {**self.server.ask(source, "copy", line, self.limits.working), "asked": life}

    def catch_up(self, shard: str, source: int) -> None:
        """Takes all that a source has, if it is to be followed; OSError if it gives nothing."""
        with self.server.storage.transaction() as tx:
            it = Records(tx)
            after = it.mark(shard)
            if not follows(it.slot(shard), after.position):
                return
        offer = self.asked(shard, source, after)
        if "said" in offer:
            raise OSError(f"{self.server.name_of(source)}: {offer['said']}")
        with self.server.storage.transaction() as tx:
            it = Records(tx)
            why = "" if it.has_copy(shard) else self.fewer(it, offer)
            if why:
                raise OSError(why)
            if follows(it.slot(shard), it.mark(shard).position) and not self.take(it, shard, offer):
                raise OSError(f"{self.server.name_of(source)} has sent something else meanwhile")
