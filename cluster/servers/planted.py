"""The bugs of bugs.py: each is a server with one part replaced."""
from __future__ import annotations

import asyncio
import random
from collections.abc import AsyncIterator
from dataclasses import replace

from smplan.agent import Answer, Base, Call, Cell, Order, Request, Restoration, Role, Settlement, Slot

from ..wire import Message
from . import agent
from .copied import Copied
from .following import Following
from .leaves import Leaves
from .reopenings import Reopenings
from .requests import Requests
from .server import Server
from .shard import Entry, Shard
from .sources import Sources, Stream
from .store import Command, Copying
from .work import REFUSALS, Orders, Work

# -- orders


class WithoutNumbers(Orders):
    """Judges by the cell alone."""

    def judge(self, shard: Shard, order: Order) -> Answer:
        if not self.store.base.known or shard.slot.at_work == order.number:
            return super().judge(shard, order)
        verdict = agent.judge(replace(self.store.base, number=order.fence), replace(shard.slot, last=0), self.store.used(), order)
        return Answer.AGAIN if verdict in REFUSALS else verdict

    def slot_after(self, base: Base, slot: Slot, order: Order, applied: int) -> Slot | None:
        return super().slot_after(replace(base, number=order.fence), replace(slot, last=0), order, applied)


class DeletingSlots(Orders):
    """Deletes a dropped slot, with its last number."""

    def slot_commands(self, shard: Shard, slot: Slot) -> list[Command]:
        return [("HDEL", "slots", shard.name)] if slot.cell == Cell.ABSENT else super().slot_commands(shard, slot)

    def slot_after(self, base: Base, slot: Slot, order: Order, applied: int) -> Slot | None:
        after = super().slot_after(base, slot, order, applied)
        return agent.VACANT if after is not None and after.cell == Cell.ABSENT else after


class CommittingBeforeCopy(Orders):
    """Commits prepare_add at once; who follows copies afterwards."""

    async def copy(self, shard: Shard, work: Work) -> None:
        if work.order.call == Call.ADD:
            await super().copy(shard, work)


class NotHolding(Orders):
    """Lets requests run while an order of one kind is committed."""

    def lets_run(self, order: Order) -> bool:
        return order.call == Call.PREPARE_DROP

    async def prepare(self, shard: Shard, work: Work) -> None:
        if not self.lets_run(work.order):
            await super().prepare(shard, work)

    def holds(self, order: Order) -> bool:
        return super().holds(order) and not self.lets_run(order)


class ChangingWhileWriting(NotHolding):
    """Lets them run while the primary becomes a secondary."""

    def lets_run(self, order: Order) -> bool:
        return order.call == Call.CHANGE and order.new_role == Role.SECONDARY


class NotWaitingForCut(Orders):
    """Takes over whatever writes there are."""

    async def wait_for_cut(self, shard: Shard, work: Work) -> None:
        pass

    def slot_after(self, base: Base, slot: Slot, order: Order, applied: int) -> Slot | None:
        is_blind = slot.cell == Cell.PREPARED and not slot.has_cut
        return super().slot_after(base, replace(slot, has_cut=1) if is_blind else slot, order, max(applied, slot.cut))


class AnsweringBefore(Orders):
    """Answers once work has begun."""

    async def wait_until_done(self, work: Work) -> None:
        pass


class CommittingBehindFence(Orders):
    """Goes on with work that a fence, a settle or the end of slots ends."""

    def drop_work(self, shard: Shard, why: str) -> None:
        if why == "another order has come":
            super().drop_work(shard, why)

    def slot_after(self, base: Base, slot: Slot, order: Order, applied: int) -> Slot | None:
        before = replace(base, number=order.fence, fenced=0, known=1, journal=order.journal)
        return super().slot_after(before, replace(slot, at_work=order.number), order, applied)


class Slow(Orders):
    """Works for a while before it commits, if that is a new owner's that takes over."""

    def takes_time(self, shard: Shard, order: Order) -> bool:
        return order.call == Call.ADD and shard.slot.cell == Cell.PREPARED

    async def prepare(self, shard: Shard, work: Work) -> None:
        await super().prepare(shard, work)
        if self.takes_time(shard, work.order):
            await asyncio.sleep(random.random() * 1.5)


class SlowBehindFence(CommittingBehindFence, Slow):
    """Works for a while at everything."""

    def takes_time(self, shard: Shard, order: Order) -> bool:
        return True


# -- requests


class ExecutingPrepared(Requests):
    """Executes before it has taken over."""

    def route(self, shard: Shard, how: Request) -> tuple[Answer, Request]:
        slot = shard.slot
        is_early = slot.cell == Cell.PREPARED and slot.handover and not shard.is_held
        return (Answer.EXECUTE, Request()) if is_early else super().route(shard, how)


class ExecutingAtWork(Requests):
    """Executes while an order is at work that lets requests run."""

    def route(self, shard: Shard, how: Request) -> tuple[Answer, Request]:
        is_let = shard.slot.cell == Cell.PRIMARY and shard.work is not None and self.server.orders.lets_run(shard.work.order)
        return (Answer.EXECUTE, Request()) if is_let else super().route(shard, how)


class WithoutIdentities(Requests):
    """Keeps no identities."""

    def kept(self, identity: str | None) -> str | None:
        return None


class NotHeedingCuts(Requests):
    """Takes no cut from requests."""

    async def heed_cut(self, shard: Shard, how: Request) -> None:
        pass


class Unleased(Requests):
    """Serves whatever becomes of the lease."""

    def may_not_serve(self) -> bool:
        return False


# -- sources and followers


class Alone(Sources):
    """Waits for nobody."""

    async def replicated(self, shard: Shard, position: int, term: int) -> None:
        pass


class Impatient(Sources):
    """Waits for a fifth of a second."""

    async def replicated(self, shard: Shard, position: int, term: int) -> None:
        try:
            async with asyncio.timeout(0.2):
                await super().replicated(shard, position, term)
        except TimeoutError:
            await self.tell_alone(shard, position, term)


class WithoutPart(Sources):
    """Leaves a part of each copy out."""

    left_out = "done"

    async def pieces(self, shard: Shard) -> AsyncIterator[dict]:
        async for piece in super().pieces(shard):
            if self.left_out not in piece:
                yield piece


class WithoutValues(WithoutPart):
    """Leaves values out."""

    left_out = "keys"


class JoiningAtOnce(Sources):
    """Counts who follows as one that has caught up."""

    async def begin(self, shard: Shard, writer: asyncio.StreamWriter, ask: Message) -> Stream | None:
        stream = await super().begin(shard, writer, ask)
        if stream is not None:
            await self.join(shard, stream)
        return stream


class WithoutNewcomers(Sources):
    """Makes no member of who joins."""

    async def set_members(self, shard: Shard, members: set[str]) -> None:
        await super().set_members(shard, members & shard.members)


class WithoutOldOwner(Sources):
    """Makes no member of who joins a new owner."""

    async def set_members(self, shard: Shard, members: set[str]) -> None:
        await super().set_members(shard, members & shard.members if shard.slot.cell == Cell.PREPARED else members)


class DeadAtOnce(Sources):
    """Waits for no member that is gone."""

    dead_after = 0.0


class LeavingAtEnd(Sources):
    """Takes who is gone for one that has left."""

    async def serve(self, reader: asyncio.StreamReader, writer: asyncio.StreamWriter, ask: Message) -> None:
        try:
            await super().serve(reader, writer, ask)
        finally:
            shard = self.store.shards.get(ask["shard"])
            if shard is not None and ask["from"] not in shard.streams:
                await self.leave(shard, ask["from"])


class WithoutTail(Following):
    """Counts writes behind the copy, and does not execute them."""

    def commands_of(self, entry: Entry, is_there: bool = False) -> list[Command]:
        return super().commands_of(entry, is_there) if self.shard.slot.cell == Cell.SECONDARY else []


class CountingTwice(Following):
    """Executes writes again that a copied value has."""

    def has(self, entry: Entry, copying: Copying) -> bool:
        return False


class WithoutMeanwhile(Following):
    """Counts writes that came during the copy, and does not execute them."""

    def meanwhile(self, copying: Copying) -> list[Entry]:
        return []


# -- leave, and copies


class LeavingUnasked(Leaves):
    """Asks nobody."""

    async def take(self, shard: Shard, work: Work) -> None:
        pass


class TellingEarly(Copied):
    """Tells of its copies as soon as it leads."""

    def has_enough(self, shard: Shard) -> bool:
        return True


class CountingLess(Sources):
    """Acknowledges what fewer servers have."""

    def may_acknowledge(self, shard: Shard, position: int) -> bool:
        return True


# -- reopenings


class NotWaitingForPassed(Reopenings):
    """Answers a fence while requests of handovers run."""

    async def end_handovers(self) -> None:
        pass


class KeepingWork(Reopenings):
    """Keeps work at a fence."""

    def abandoned(self) -> dict[str, Slot]:
        return {}


class SettlingTwice(Reopenings):
    """Takes a settle whenever it comes."""

    async def take(self, before: Base, assignment: Settlement | Restoration, told: Message, kind: str) -> Answer:
        if kind == "settle" and before.number == told["base"] and before.known:
            before, assignment = replace(before, fenced=1), replace(assignment, nonce=None)
        return await super().take(before, assignment, told, kind)


class RestoringWithoutNonce(Reopenings):
    """Takes a restore for any nonce."""

    async def take(self, before: Base, assignment: Settlement | Restoration, told: Message, kind: str) -> Answer:
        if kind == "restore":
            assignment = replace(assignment, nonce=before.nonce or 1)
            before = agent.forget(assignment.nonce)
        return await super().take(before, assignment, told, kind)


# -- the server as a whole


class Deaf(Server):
    """Heeds no word of a reopening."""

    async def heed_last(self, journal: int, number: int, teller: str) -> None:
        pass


class Resting(Server):
    """Forgets its slots, and asks for none."""

    async def forget(self, teller: str) -> None:
        self.resume, resume = lambda: None, self.resume
        await super().forget(teller)
        self.resume = resume


class NotWaitingForOldOwner(Server):
    """Acknowledges without the old owner of a handover."""

    sources_type = WithoutOldOwner

    def waited_for(self, shard: Shard) -> str:
        return ""


def with_parts(kind: type[Server] = Server, **parts: type) -> type[Server]:
    """A server with other parts."""
    return type(kind.__name__, (kind,), {f"{name}_type": it for name, it in parts.items()})


PLANTED = {
    "no-numbers": with_parts(orders=WithoutNumbers), "execute-prepared": with_parts(requests=ExecutingPrepared),
    "slot-deleted": with_parts(orders=DeletingSlots),
    "commit-before-copy": with_parts(orders=CommittingBeforeCopy),
    "drop-while-writing": with_parts(orders=NotHolding, requests=ExecutingAtWork),
    "tail-not-copied": with_parts(orders=NotWaitingForCut, following=WithoutTail), "no-identities": with_parts(requests=WithoutIdentities),
    "restore-without-nonce": with_parts(reopenings=RestoringWithoutNonce),
    "commit-after-fence": with_parts(orders=CommittingBehindFence, reopenings=KeepingWork),
    "settle-twice": with_parts(reopenings=SettlingTwice), "add-without-cut": with_parts(orders=NotWaitingForCut),
    "fence-while-passed": with_parts(reopenings=NotWaitingForPassed), "cut-unheeded": with_parts(requests=NotHeedingCuts),
    "change-while-writing": with_parts(orders=ChangingWhileWriting, requests=ExecutingAtWork),
    "acknowledge-alone": with_parts(sources=Alone), "impatient": with_parts(sources=Impatient),
    "answer-before-done": with_parts(orders=AnsweringBefore), "heed-nothing": Deaf, "copy-without-identities": with_parts(sources=WithoutPart),
    "copy-counts-twice": with_parts(following=CountingTwice), "copy-without-meanwhile": with_parts(following=WithoutMeanwhile),
    "copy-without-values": with_parts(sources=WithoutValues), "joined-at-once": with_parts(sources=JoiningAtOnce),
    "newcomers-not-waited-for": with_parts(sources=WithoutNewcomers), "old-owner-not-waited-for": NotWaitingForOldOwner,
    "dead-at-once": with_parts(sources=DeadAtOnce), "who-ends-leaves": with_parts(sources=LeavingAtEnd), "forgets-and-rests": Resting,
    "leave-not-asked": with_parts(leaves=LeavingUnasked), "copied-too-early": with_parts(copied=TellingEarly),
    "acknowledges-alone": with_parts(sources=CountingLess), "lease-unheeded": with_parts(requests=Unleased), "not-synced": Server,
}


# -- what a bug is about takes longer


class SlowRequests(Server):
    """Requests run for a while, passed ones for longer."""

    longest, longest_passed = 0.3, 0.3

    def think(self, shard: Shard, how: Request) -> float:
        return random.random() * (self.longest_passed if how.is_passed else self.longest)


class SlowChanges(SlowRequests):
    """Requests run for a tenth of a second."""

    longest, longest_passed = 0.1, 0.1


class SlowPassed(SlowRequests):
    """Passed requests run for long."""

    longest, longest_passed = 0.0, 0.6


class LateNewOwners(Server):
    """New owners are late with what they follow."""

    def lag(self, shard: Shard) -> float:
        return 1.5 if shard.slot.cell == Cell.PREPARED else 0.0


SLOW = {
    "drop-while-writing": with_parts(SlowRequests, orders=NotHolding, requests=ExecutingAtWork),
    "change-while-writing": with_parts(SlowChanges, orders=ChangingWhileWriting, requests=ExecutingAtWork),
    "fence-while-passed": with_parts(SlowPassed, reopenings=NotWaitingForPassed, orders=Slow),
    "add-without-cut": with_parts(LateNewOwners, orders=NotWaitingForCut),
    "commit-after-fence": with_parts(orders=SlowBehindFence, reopenings=KeepingWork),
}


def kind_of_server(bug: str | None, is_slow: bool) -> type[Server]:
    """The server with a bug, or as it is to be; if it is slow, what the bug is about takes longer."""
    return Server if bug is None else SLOW.get(bug, PLANTED[bug]) if is_slow else PLANTED[bug]
