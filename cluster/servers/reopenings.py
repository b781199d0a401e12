"""Reopenings and restores: a server tells what it has, and takes what it is to have."""
from __future__ import annotations

import time
from typing import TYPE_CHECKING

from smplan.agent import Answer, Base, Cell, Restoration, Settlement, Slot, ViewStart

from ..wire import Failed, Message
from . import agent, limits
from .shard import CELLS, STATES, AllLocks, Shard, hexadecimal, nonce

if TYPE_CHECKING:
    from .server import Server


class Reopenings:
    """The side of a server that is fenced, settled and restored."""

    def __init__(self, server: "Server") -> None:
        self.server, self.store = server, server.store
        # The shards that a restore would have it serve, without their data.
        self.lost: list[str] = []

    async def fence(self, told: Message) -> Message:
        """Takes a fence once no request of a handover runs, and answers with all slots or with a nonce."""
        journal, number = int(told["journal"], 16), told["base"]
        async with self.server.changing:
            if self.store.base.number < number:
                await self.end_handovers()
            try:
                async with AllLocks(self.store.shards.values()):
                    answer, base = agent.fence(self.store.base, journal, number, nonce())
                    if answer == Answer.TAKEN:
                        await self.take_fence(base)
                    else:
                        self.store.note("fence-" + answer.name.lower(), base=number)
                    if answer == Answer.IGNORED:
                        raise Failed("Ignored", "it is not above the base")
                    return {"fenced": {"server": self.server.name, "base": number, **self.inventory()}}
            finally:
                self.hold(False)

    async def end_handovers(self) -> None:
        """Lets running requests of handovers end, and none begin; who waits for too long gets no acknowledgement."""
        self.hold(True)
        deadline = time.monotonic() + limits.FENCING
        for shard in self.store.shards.values():
            while shard.is_in_handover and shard.running:
                if not await shard.look_again(deadline):
                    shard.term += 1
                    deadline = time.monotonic() + limits.FENCING
                    shard.wake()

    def hold(self, is_held: bool) -> None:
        """Holds requests of handovers back, or no longer."""
        for shard in self.store.shards.values():
            if shard.is_held != is_held:
                shard.is_held = is_held
                shard.wake()

    async def take_fence(self, base: Base) -> None:
        """Stores a fence, and ends all work. All locks are held."""
        commands, slots = self.store.base_commands(base), self.abandoned()
        for name, slot in slots.items():
            commands += self.store.slot_commands(name, slot)
        await self.store.save(commands, "fence", base=base.number, slots=self.short_slots(), at_work=len(slots), nonce=hexadecimal(base.nonce))
        self.store.base = base
        for shard in self.store.shards.values():
            if shard.name in slots:
                shard.slot = slots[shard.name]
            self.server.orders.drop_work(shard, "a fence has come")
            shard.wake()

    def abandoned(self) -> dict[str, Slot]:
        """The slots whose work a fence ends, as they are then."""
        return {it.name: agent.abandon(it.slot) for it in self.store.shards.values() if it.slot.at_work}

    def short_slots(self) -> dict[str, list]:
        """Cells, positions and views, for history."""
        return {it.name: [STATES[Cell(it.slot.cell)], it.position, it.copy.view] for it in self.store.shards.values()
                if it.slot.cell not in (Cell.ABSENT, Cell.UNKNOWN)}

    def inventory(self) -> Message:
        """What it tells of its slots, or its nonce if it has none."""
        if not self.store.base.known:
            return {"unknown": hexadecimal(self.store.base.nonce)}
        return {"slots": [self.slot_told(it) for it in self.store.shards.values() if it.slot.cell != Cell.ABSENT]}

    def slot_told(self, shard: Shard) -> Message:
        """A slot as it is told."""
        slot = shard.slot
        told: Message = {"shard": shard.name, "state": STATES[Cell(slot.cell)], "load": slot.load, **shard.copy._asdict()}
        if shard.is_in_handover:
            told |= {"other": self.server.party(shard), "handover": slot.handover}
        return told | ({"reached": shard.has_reached_cut} if slot.cell == Cell.PREPARED else {})

    async def settle(self, told: Message) -> Message:
        """Takes the slots that end a reopening."""
        name = told.get("nonce")
        async with self.server.changing, AllLocks(self.shards_with(told)):
            settlement = Settlement(int(told["journal"], 16), told["base"], None if name is None else int(name, 16))
            answer = await self.take(self.store.base, settlement, told, "settle")
            if answer != Answer.TAKEN:
                self.store.note("settle-" + answer.name.lower(), base=told["base"])
        if answer not in (Answer.TAKEN, Answer.AGAIN):
            raise Failed("Ignored", "it is not for this server now")
        return {"settled": {"server": self.server.name, "base": told["base"]}}

    async def restore(self, told: Message) -> Message:
        """Takes the slots that it asked for under a nonce, unless it has lost the data of one that it is to serve."""
        async with self.server.changing, AllLocks(self.shards_with(told)):
            self.lost = self.lost_data(told)
            if self.lost:
                self.store.note("restore-without-data", shards=self.lost)
                raise Failed("NoData", f"it has no data of {', '.join(self.lost)}")
            restoration = Restoration(int(told["journal"], 16), told["fence"], told["base"], int(told["nonce"], 16) or 1)
            answer = await self.take(self.store.base, restoration, told, "restore")
            if answer != Answer.TAKEN:
                self.store.note("restore-ignored", nonce=told["nonce"], known=bool(self.store.base.known))
        if answer != Answer.TAKEN:
            raise Failed("Ignored", "it did not ask for this now")
        return {"restored": {"server": self.server.name, "nonce": told["nonce"]}}

    def lost_data(self, told: Message) -> list[str]:
        """The shards that an Unknown server is to serve, and has no data of."""
        serves = [it["shard"] for it in told["slots"] if it["state"] in ("primary", "forwarding")]
        return [] if self.store.base.known else [it for it in serves if not self.store.shard(it).has_copy]

    def shards_with(self, told: Message) -> list[Shard]:
        """All shards of this server, those that it is to have included."""
        for slot in told["slots"]:
            self.store.shard(slot["shard"])
        return list(self.store.shards.values())

    async def take(self, before: Base, assignment: Settlement | Restoration, told: Message, kind: str) -> Answer:
        """Takes a settle or a restore as a whole, or nothing of it. All locks are held."""
        slots = {it.name: it.slot for it in self.store.shards.values()}
        answer, base, after = agent.take(before, assignment, slots, {it["shard"]: self.slot_of(it) for it in told["slots"]})
        if answer == Answer.TAKEN:
            await self.keep(base, after, kind, told)
        return answer

    async def keep(self, base: Base, after: dict[str, Slot], kind: str, assignment: Message) -> None:
        """Makes the base and each slot what they have become, in one transaction. All locks are held."""
        named, opened = assignment.get("nonce"), assignment.get("fence", assignment["base"])
        commands = [*self.store.base_commands(base), ("SET", "opened", opened), ("DEL", "old_owner")]
        shards = self.store.shards.values()
        views = {it.name: self.views_after(it, after[it.name], base.number if kind == "settle" else 0) for it in shards}
        for shard in shards:
            slot = after[shard.name]
            commands += self.store.slot_commands(shard.name, slot)
            if slot.cell == Cell.ABSENT:
                commands += await self.store.aside_commands(shard)
            elif slot.cell == Cell.PRIMARY:
                commands += self.store.mark_commands(shard.name, shard.position, shard.chain) + self.store.view_commands(shard.name, views[shard.name])
        positions = {it.name: it.position for it in shards}
        told = {name: [STATES[Cell(it.cell)], positions[name]] for name, it in after.items() if it.cell != Cell.ABSENT}
        await self.store.save(commands, kind, base=base.number, slots=told, nonce=hexadecimal(int(named, 16)) if named else None)
        self.store.base, self.store.opened = base, opened
        for shard in shards:
            self.put(shard, after[shard.name], views[shard.name])
        self.server.resume()

    @staticmethod
    def views_after(shard: Shard, slot: Slot, number: int) -> tuple[ViewStart, ...]:
        """The views of a shard's list once a settle with this number, or a restore (0), has brought a slot: one more if that makes it the primary."""
        if slot.cell == Cell.ABSENT:
            return ()
        is_chosen = slot.cell == Cell.PRIMARY and shard.slot.cell != Cell.PRIMARY
        return shard.views_from(number) if is_chosen and (number or not shard.has_copy) else shard.views

    def put(self, shard: Shard, slot: Slot, views: tuple[ViewStart, ...]) -> None:
        """Makes a slot what was brought, in memory. Its lock is held."""
        before, has_taken_over = shard.slot, shard.slot.cell == Cell.PREPARED and shard.has_reached_cut
        shard.slot, shard.old_owner, shard.views = slot, None, views
        shard.begin_to_lead()
        shard.is_marked = slot.cell == Cell.PRIMARY or (shard.is_marked and slot.cell != Cell.ABSENT)
        if slot.cell == before.cell == Cell.PRIMARY:
            self.server.sources.count(shard)  # (who was settled first, and has connected since, has told already what it has)
            shard.wake()
            return
        self.server.end_term(shard, "the slots were set")
        self.server.stop_following(shard, leaves=slot.cell == Cell.ABSENT)
        if slot.cell != Cell.PRIMARY:
            self.server.sources.close(shard)
        elif has_taken_over:  # (it is a source since then, and knows who is away)
            self.server.sources.tell_views(shard)
        else:
            shard.expect(shard.members)
        if slot.cell == Cell.ABSENT:
            shard.position, shard.chain, shard.members = 0, "", set()

    def slot_of(self, told: Message) -> Slot:
        """A slot as a settle or a restore brings it."""
        party = self.server.cluster.servers[told["other"]].number if told.get("other") else 0
        return Slot(cell=CELLS[told["state"]], party=party, handover=told.get("handover") or 0, load=told.get("load") or 0)
