"""The server as a whole: fences, settles, restores, notices."""
from __future__ import annotations

import secrets
import sys
from typing import TYPE_CHECKING, Any, Dict

from . import agent
from .agent import VACANT, Answer, Cell, Restoration, Settlement, Slot
from .control_agent import assignment_of, slots_of, told_of
from .server_records import Records

if TYPE_CHECKING:
    from .server import Server

Line = Dict[str, Any]


def nonce() -> int:
    """A fresh random number, never 0."""
    return secrets.randbits(63) | 1


class Whole:
    """What happens to all slots at once."""

    def __init__(self, server: "Server") -> None:
        self.server, self.limits, self.life = server, server.limits, nonce()

    def tell_life(self, _: Line) -> Line:
        """A number that is another one after each start, and whenever its slots were set or lost; the shards that it asks leave to drop; and how
        many servers have what it acknowledges."""
        with self.server.storage.transaction() as tx:
            copies = Records(tx).counting()[1]
        with self.server.changed:
            leaving = {shard: live.leaving for shard, live in self.server.shards.items() if live.leaving}
            return {"life": f"{self.life:x}", "leaving": leaving, "copies": copies}

    def fence(self, line: Line) -> Line:
        """Takes a fence once no request of a handover runs, and answers with all slots, or with the nonce of an Unknown server."""
        journal, number = int(line["journal"], 16), line["base"]
        self.hold(number)
        try:
            with self.server.storage.transaction() as tx:
                it = Records(tx)
                answer, base = agent.fence(it.base(), journal, number, nonce())
                if answer == Answer.TAKEN:
                    it.put_base(base, number)
                    self.abandon_all(it)
                if answer == Answer.IGNORED:
                    return {"said": "ignored"}
                return {"slots": self.told_slots(it)} if base.known else {"unknown": f"{base.nonce:x}"}
        finally:
            with self.server.changed:
                for live in self.server.shards.values():
                    live.is_held = False
            self.server.wake()

    def hold(self, number: int) -> None:
        """Lets no request of a handover begin, and waits for those that run; at a deadline it ends them unacknowledged."""
        with self.server.storage.transaction() as tx:
            it = Records(tx)
            if it.base().number >= number:
                return
            with self.server.changed:
                held = [self.server.live(shard) for shard, slot in it.slots().items() if slot.cell in (Cell.PREPARED, Cell.FORWARDING)]
                for live in held:
                    live.is_held = True
        if not self.server.wait(lambda: all(live.running == 0 for live in held), self.limits.fencing):
            with self.server.changed:
                for live in held:
                    live.term += 1
            self.server.wake()

    def told_slots(self, it: Records) -> Any:
        """All slots, as they are told, with the views and positions of their copies: zeros without one."""
        told = []
        for shard, slot in it.slots().items():
            if slot.cell != Cell.ABSENT:
                mark = it.mark(shard)
                told.append(told_of(shard, slot, self.server.names, mark.position, agent.has_reached_cut(slot, mark.position), mark.view))
        return told

    def tell_slots(self, _: Line) -> Line:
        """What it has, for an `audit`."""
        with self.server.storage.transaction() as tx:
            return {"slots": self.told_slots(Records(tx))}

    def settle(self, line: Line) -> Line:
        """Takes the slots that end a reopening."""
        answer = self.take(line)
        return {"done": True} if answer in (Answer.TAKEN, Answer.AGAIN) else {"said": "ignored"}

    def restore(self, line: Line) -> Line:
        """Takes the slots that it asked for under a nonce, unless it has lost the data of one that makes it primary."""
        lost = self.lost(line)
        if lost:
            name = self.server.name
            print(f"{name}: it is to be primary of {lost}, and has lost the data: reopen, with {name} lost", file=sys.stderr, flush=True)
            return {"said": f"it has lost the data of {lost}"}
        self.take(line)
        return {"done": True}

    def lost(self, line: Line) -> str:
        """The shards that it is to serve, and has no data of."""
        with self.server.storage.transaction() as tx:
            it = Records(tx)
            if it.is_new() or it.base().known:
                return ""
            return ", ".join(told["shard"] for told in line["slots"] if told["cell"] in ("primary", "forwarding") and not it.has_copy(told["shard"]))

    def take(self, line: Line) -> Answer:
        """Takes a settle or a restore as a whole: each slot that it does not bring is absent afterwards, and its copy is set aside."""
        self.server.know(line)
        told, brought = assignment_of(line), slots_of(line, self.server.numbers)
        with self.server.storage.transaction() as tx:
            it = Records(tx)
            before = it.slots()
            answer, base, slots = agent.take(it.base(), told, before, brought)
            if answer != Answer.TAKEN:
                return answer
            number = told.fence if isinstance(told, Restoration) else told.number
            it.put_base(base, number)
            it.put_settled(number, self.server.copies, isinstance(told, Settlement))
            tx.delete("frame/new")
            for shard, slot in {**{one: VACANT for one in it.copies()}, **slots}.items():
                is_chosen = isinstance(told, Settlement) and before.get(shard, Slot()).cell != Cell.PRIMARY
                self.store(it, shard, slot, told.number if is_chosen else 0)
            with self.server.changed:
                self.begin_anew(before, slots)
        self.server.wake()
        return answer

    def store(self, it: Records, shard: str, slot: Slot, view: int) -> None:
        """Stores a slot, and sets the copy of an absent one aside. A primary that is chosen anew begins a view; so does one without a copy, with
        number 0."""
        it.put_slot(shard, slot)
        it.put_old_owner(shard, 0)
        if slot.cell == Cell.ABSENT:
            self.server.aside.keep(it, shard)
            self.server.service.drop(it.tx, shard)
            it.clear(shard)
        if slot.cell == Cell.PRIMARY and (view or not it.has_copy(shard)):
            it.begin_view(shard, view)

    def begin_anew(self, before: Dict[str, Slot], after: Dict[str, Slot]) -> None:
        """Begins a new life: ends the terms of all shards but of those that it serves as before."""
        self.life = nonce()
        for shard, live in self.server.shards.items():
            live.begin_anew()
            if {before.get(shard, Slot()).cell, after.get(shard, Slot()).cell} != {Cell.PRIMARY}:
                live.term += 1

    def notice(self, line: Line) -> Line:
        """Heeds the last reopening that a message names."""
        self.server.heed(int(line["journal"], 16), line["fence"])
        return {"done": True}

    def heed(self, journal: int, fence: int) -> None:
        """Turns Unknown if it was left behind at a reopening: slots are deleted, data is kept."""
        with self.server.storage.transaction() as tx:
            it = Records(tx)
            base = it.base()
            if not base.known or agent.heed(base, journal, fence, 1).known:
                if base.known and base.journal == journal and it.heard() < fence:
                    it.put_base(base, fence)
                return
            self.forget(it)
        self.server.wake()

    def forget(self, it: Records) -> None:
        """Turns Unknown."""
        for shard in it.slots():
            it.delete_slot(shard)
            it.put_old_owner(shard, 0)
        it.put_base(agent.forget(nonce()), 0)
        with self.server.changed:
            self.life = nonce()
            for live in self.server.shards.values():
                live.begin_anew()
                live.term += 1

    def tell_base(self, _: Line) -> Line:
        """The number of its base; none if it is Unknown or fenced."""
        with self.server.storage.transaction() as tx:
            base = Records(tx).base()
        return {"base": base.number if base.known and not base.fenced else None}

    def start(self) -> None:
        """Begins without work; an Unknown server under a new nonce."""
        with self.server.storage.transaction() as tx:
            it = Records(tx)
            copies = it.put_copies(self.server.copies)
            if not it.base().known:
                it.put_base(agent.forget(nonce()), 0)
            self.abandon_all(it)
            for shard, slot in it.slots().items():
                if agent.may_delete(it.base(), slot):
                    it.delete_slot(shard)
        if copies > self.server.copies:
            name = self.server.name
            print(f"{name}: acknowledges only what {copies} servers have, as before, until it is settled at a reopening", file=sys.stderr, flush=True)

    def abandon_all(self, it: Records) -> None:
        """Gives up all work."""
        for shard, slot in it.slots().items():
            it.put_slot(shard, agent.abandon(slot))
        with self.server.changed:
            for live in self.server.shards.values():
                live.stay()
