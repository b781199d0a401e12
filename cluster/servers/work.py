"""Orders: judged, begun, worked on and committed by the agent."""
from __future__ import annotations

import asyncio
import time
from dataclasses import dataclass
from typing import TYPE_CHECKING

from smplan.agent import Answer, Base, Call, Cell, Order, Role, Slot, ToldCopy, ViewStart

from ..wire import Failed, Message
from . import agent, limits
from .shard import STATES, Shard
from .store import Command

if TYPE_CHECKING:
    from .server import Server

CALLS = {"add": Call.ADD, "drop": Call.DROP, "change": Call.CHANGE, "prepare_add": Call.PREPARE_ADD, "prepare_drop": Call.PREPARE_DROP}
ROLES = {None: Role.NONE, "primary": Role.PRIMARY, "secondary": Role.SECONDARY}
REFUSALS = {Answer.DOWN: "Down", Answer.ALREADY_HELD: "AlreadyHeld", Answer.NOT_HELD: "NotHeld", Answer.WRONG_ROLE: "WrongRole",
            Answer.NO_ROOM: "NoRoom"}
TURNED_AWAY = {Answer.OLD: "Old", Answer.FOREIGN: "Foreign", Answer.NOT_READY: "NotReady"}


@dataclass(eq=False)
class Work:
    """An order at work."""

    order: Order
    told: Message
    done: "asyncio.Future[None]"
    task: "asyncio.Task[None] | None" = None


def party_of(told: Message) -> str | None:
    """The other server of a handover."""
    if told["call"] == "prepare_add":
        return told["from"]
    return told["to"] if told["call"] == "prepare_drop" else None


def views_after(shard: Shard, slot: Slot, before: Slot, is_empty: bool) -> tuple[ViewStart, ...]:
    """The views of a shard's list once an order has made a slot of the one before: one more if that makes it the primary, but not in a handover."""
    views = () if is_empty else shard.views
    if slot.cell != Cell.PRIMARY or before.cell == Cell.PREPARED:
        return views
    return (*views, ViewStart(slot.last, 0 if is_empty else shard.position))


class Orders:
    """The orders' side of a server."""

    def __init__(self, server: "Server") -> None:
        self.server, self.store = server, server.store

    def read(self, told: Message) -> Order:
        """An order as the agent has it."""
        call, party = CALLS[told["call"]], party_of(told)
        role = told.get("role") if call == Call.ADD else told.get("from") if call == Call.CHANGE else None
        new_role = told.get("to") if call == Call.CHANGE else None
        number = self.server.cluster.servers[party].number if party is not None else 0
        return Order(int(told["journal"], 16), told["fence"], told["number"], told["load"], told["room"], told.get("handover") or 0,
                     call, ROLES[role], ROLES[new_role], number)

    async def take(self, told: Message) -> Message:
        """Answers an order when it is done, now or before."""
        order = self.read(told)
        await self.server.heed(order.journal, order.fence)
        shard = self.store.shard(told["shard"])
        if self.judge(shard, order) == Answer.AGAIN:  # (not behind all requests that wait for the lock: what is seen is stored)
            return self.answered(shard, told)
        async with shard.lock:
            verdict = self.judge(shard, order)
            if verdict == Answer.BEGIN:
                await self.begin(shard, order, told)
            work = shard.work
        if verdict == Answer.WORKING:
            if work is not None:  # (what it names now may be otherwise)
                work.told = told
            self.store.note("order-at-work", shard=shard.name, number=order.number, call=told["call"])
        if verdict in (Answer.BEGIN, Answer.WORKING):
            if work is None:
                raise Failed("GivenUp", "nobody works")
            await self.wait_until_done(work)
            return {"answered": {it: told[it] for it in ("plan", "stream", "number")}}
        if verdict != Answer.AGAIN:
            self.store.note("order-" + verdict.name.lower().replace("_", "-"), shard=shard.name, number=order.number, last=shard.slot.last)
            raise Failed(TURNED_AWAY.get(verdict, "Refused"), REFUSALS.get(verdict, ""))
        return self.answered(shard, told)

    def answered(self, shard: Shard, told: Message) -> Message:
        """Answers an order that was done before."""
        self.store.note("order-again", shard=shard.name, number=told["number"])
        return {"answered": {it: told[it] for it in ("plan", "stream", "number")}}

    async def wait_until_done(self, work: Work) -> None:
        """Waits for the end of work; raises Failed if it is given up."""
        await asyncio.shield(work.done)

    def judge(self, shard: Shard, order: Order) -> Answer:
        """What the server makes of an order."""
        return agent.judge(self.store.base, shard.slot, self.store.used(), order)

    async def begin(self, shard: Shard, order: Order, told: Message) -> None:
        """Begins an order's work. The shard's lock is held."""
        if shard.work is not None:
            self.drop_work(shard, "another order has come")
        slot = agent.begin(shard.slot, order)
        await self.store.save(
            self.store.slot_commands(shard.name, slot), "begin", shard=shard.name, number=order.number, call=told["call"],
            plan=told["plan"], stream=told["stream"], epoch=told.get("epoch"), position=shard.position)
        shard.slot = slot
        work = Work(order, told, asyncio.get_running_loop().create_future())
        work.done.add_done_callback(lambda done: done.cancelled() or done.exception())
        shard.work = work
        work.task = asyncio.create_task(self.work(shard, work))

    def drop_work(self, shard: Shard, why: str) -> None:
        """Ends the task that works; the slot is the caller's affair."""
        work, shard.work = shard.work, None
        if work is not None:
            if work.task is not None:
                work.task.cancel()
            if not work.done.done():
                work.done.set_exception(Failed("GivenUp", why))
            if shard.following is not None and shard.slot.cell == Cell.ABSENT:
                shard.following.stop(leaves=True)
            self.end_waits(shard)

    def end_waits(self, shard: Shard) -> None:
        """What an order asked others for is over: it follows as before."""
        self.server.leaves.end(shard)
        if shard.following is not None and shard.following.beside:
            self.server.stop_following(shard)
            self.server.start_following(shard)

    async def work(self, shard: Shard, work: Work) -> None:
        """Does the work, and commits it; if it takes too long it is given up, and the order comes again."""
        try:
            await self.prepare(shard, work)
            committed = await self.commit(shard, work)
        except Failed as failed:
            committed, why = False, failed.why
        except Exception as error:  # (the store is gone, and the server with it)
            self.server.fail(error)
            return
        else:
            why = "thrown away"
        if not committed:
            await self.give_up(shard, work, why)

    async def give_up(self, shard: Shard, work: Work, why: str) -> None:
        """Abandons work that is still at work."""
        async with shard.lock:
            if shard.work is work:
                shard.work = None
                slot = agent.abandon(shard.slot)
                await self.store.save(self.store.slot_commands(shard.name, slot), "abandon", shard=shard.name, number=work.order.number, why=why)
                shard.slot = slot
                if shard.following is not None and slot.cell == Cell.ABSENT:
                    shard.following.stop(leaves=True)
                self.end_waits(shard)
        if not work.done.done():
            work.done.set_exception(Failed("GivenUp", why))
        shard.wake()

    # -- what has to be done before the commit

    async def prepare(self, shard: Shard, work: Work) -> None:
        """Returns when the order may be committed."""
        order, cell = work.order, shard.slot.cell
        if order.call == Call.PREPARE_ADD or (order.call == Call.ADD and order.role == Role.SECONDARY):
            await self.copy(shard, work)
        elif order.call == Call.ADD and cell == Cell.PREPARED:
            await self.wait_for_cut(shard, work)
        elif order.call == Call.PREPARE_DROP or (order.call == Call.DROP and cell == Cell.PRIMARY):
            await self.wait(shard, work, limits.HOLDING, lambda: shard.running == 0)
        elif order.call == Call.CHANGE and order.new_role == Role.SECONDARY:
            wanted = set(work.told.get("replicas") or shard.members) - {self.server.name}
            await self.wait(shard, work, limits.HOLDING, lambda: shard.running == 0 and self.have_all(shard, wanted))
        elif order.call == Call.CHANGE:
            await self.compare(shard, work)
        if order.call == Call.DROP:
            await self.server.leaves.take(shard, work)

    async def compare(self, shard: Shard, work: Work) -> None:
        """A secondary that becomes primary follows who has more, until nobody has. Each of the others has to answer."""
        deadline = time.monotonic() + limits.COPYING
        while shard.work is work:
            why, copies = "", {}
            for name in sorted(set(work.told.get("replicas") or ()) - {self.server.name}):
                try:
                    reply = await self.server.peer(name).ask(limits.LEAVING, compare={"shard": shard.name}, **self.server.hearsay.told())
                    copies[name] = ToldCopy(*reply["copy"])
                except Failed as failed:
                    why = f"{name}: {failed}"
            greatest = max(copies, key=lambda it: copies[it], default="")
            if greatest and agent.compare(copies[greatest], shard.copy) == Answer.GREATER:
                why = f"{greatest} has more"
                async with shard.lock:
                    if shard.work is work:
                        self.server.follow_beside(shard, greatest)
            if not why:
                return
            if not await shard.look_again(deadline):
                raise Failed("GivenUp", why)

    def have_all(self, shard: Shard, names: set[str]) -> bool:
        """These have all writes of the shard."""
        streams = shard.streams
        return all(it in streams and streams[it].acked >= shard.position for it in names)

    async def wait(self, shard: Shard, work: Work, seconds: float, condition) -> None:
        """Waits for something at this server."""
        deadline = time.monotonic() + seconds
        while shard.work is work and not condition():
            if not await shard.look_again(deadline):
                raise Failed("GivenUp", "it took too long")

    async def wait_for_cut(self, shard: Shard, work: Work) -> None:
        """Waits until a new owner has all writes up to the old one's cut."""
        await self.wait(shard, work, limits.COPYING, lambda: shard.has_reached_cut)

    async def copy(self, shard: Shard, work: Work) -> None:
        """Copies the shard, and follows its writes from then on."""
        self.refuse(shard)
        async with shard.lock:
            if shard.work is not work:
                raise Failed("GivenUp", "thrown away")
            if shard.following is not None:
                shard.following.stop()
            hint = party_of(work.told) or work.told.get("primary")
            following = shard.following = self.server.following(shard, hint, is_fresh=True)
        while not following.joined.is_set():
            if not await shard.look_again(following.copied_at + limits.COPYING):
                raise Failed("GivenUp", "nobody gives a copy")
            self.refuse(shard)

    def refuse(self, shard: Shard) -> None:
        """Gives work up for which a copy was refused, until the next one may be asked for."""
        if shard.refusal and (rest := shard.rest_before_copy):
            raise Failed("GivenUp", f"{shard.refusal}; it is asked for again in {rest:.0f} s")

    # -- the commit

    async def commit(self, shard: Shard, work: Work) -> bool:
        """Commits the work with its data in one transaction, and returns whether it did. Otherwise the order is not answered."""
        async with shard.lock:
            if shard.work is not work or (self.holds(work.order) and shard.running):
                return False
            slot, before = self.slot_after(self.store.base, shard.slot, work.order, shard.position), shard.slot
            if slot is None:
                return False
            empty = slot.cell == Cell.ABSENT or (slot.cell == Cell.PRIMARY and before.cell == Cell.ABSENT)
            commands = [*await self.store.delete_commands(shard.name), *await self.store.forget_copy_commands(shard.name)] if empty else []
            told, order = work.told, work.order
            # (who becomes primary by a change of roles waits for every replica, also for the former primary, which has yet to come)
            if slot.cell == Cell.PRIMARY and before.cell == Cell.SECONDARY:
                shard.members = (shard.members | set(told.get("replicas") or ())) - {self.server.name}
                commands += self.store.member_commands(shard.name, shard.members)
            if slot.cell == Cell.PRIMARY:  # (from then on there is a copy, be it an empty one)
                commands += self.store.mark_commands(shard.name, *((0, "") if empty else (shard.position, shard.chain)))
            views = views_after(shard, slot, before, empty)
            if slot.cell != Cell.ABSENT and views != shard.views:
                commands += self.store.view_commands(shard.name, views)
            await self.store.save(
                self.slot_commands(shard, slot) + commands, "commit", shard=shard.name, number=order.number, call=told["call"],
                plan=told["plan"], stream=told["stream"], epoch=told.get("epoch"), journal=told["journal"], before=STATES[Cell(before.cell)],
                state=STATES[Cell(slot.cell)], position=shard.position, load=slot.load, room=order.room,
                used=self.store.used() - before.load + slot.load,
                **({"leave": shard.question, "replicas": told.get("replicas")} if order.call == Call.DROP else {}))
            shard.slot, shard.work, shard.views, shard.question, shard.has_leave = slot, None, views, 0, False
            if empty:
                shard.position, shard.chain, shard.members, shard.old_owner = 0, "", set(), None
            shard.is_marked = slot.cell == Cell.PRIMARY or (shard.is_marked and not empty)
            self.follow_up(shard, before.cell)
        if not work.done.done():
            work.done.set_result(None)
        shard.wake()
        return True

    def holds(self, order: Order) -> bool:
        """Requests have to end before the order is committed."""
        return order.call == Call.PREPARE_DROP or (order.call == Call.CHANGE and order.new_role == Role.SECONDARY)

    def slot_commands(self, shard: Shard, slot: Slot) -> list[Command]:
        """Stores the slot."""
        return self.store.slot_commands(shard.name, slot)

    def slot_after(self, base: Base, slot: Slot, order: Order, applied: int) -> Slot | None:
        """The slot with the order's effect, None if the work is thrown away."""
        return agent.commit(base, slot, order, applied)

    def follow_up(self, shard: Shard, before: Cell) -> None:
        """Follows, is followed or ends both, as the new slot asks for. The shard's lock is held."""
        cell, server = shard.slot.cell, self.server
        if cell == Cell.PRIMARY:
            server.stop_following(shard)
            if before != Cell.PREPARED:
                shard.begin_to_lead()
            if before == Cell.SECONDARY:
                shard.expect(shard.members)
        elif cell == Cell.FORWARDING:
            server.sources.end(shard)
            server.start_following(shard)
        elif cell == Cell.ABSENT:
            server.stop_following(shard, leaves=True)
            server.sources.close(shard)
        elif before == Cell.PRIMARY:
            server.sources.retire(shard)
            server.start_following(shard)
        elif shard.following is None:
            server.start_following(shard)
        else:
            shard.following.tell_hold()
