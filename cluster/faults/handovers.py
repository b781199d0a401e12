"""What happens in handovers: a new owner that is given up for good, reopenings while requests are passed on, connections that break."""
from __future__ import annotations

import asyncio
import time
from collections.abc import AsyncIterator, Awaitable, Callable, Iterator
from contextlib import AsyncExitStack, asynccontextmanager, contextmanager, nullcontext
from dataclasses import dataclass

from smplan.control import Line

from cluster.launch.plans import move_stream, plan_of

from .outside import OutsideStory
from .reopenings import without


@dataclass(frozen=True)
class Handovers:
    """Handovers of shards to one server: each shard's old owner, and what was recorded before."""

    new: str
    olds: dict[str, str]
    streams: list[Line]
    state: Line


# Does harm for a while, to the new owner (named first) and the old ones of handovers.
Harm = Callable[[AsyncExitStack, str, set[str]], Awaitable[None]]


class HandoverStory(OutsideStory):
    """The whole story."""

    # A server that is lost.

    async def lose_server(self, target: str | None = None) -> bool:
        """Gives the new owner of a handover up for good while the old one waits to hand over, and reopens without it: once, or a second time in place of the first
        one; or that server is lost between fence and settle of a reopening, and another one takes its place. Tells whether it came to that."""
        how = self.dice.choice(("once", "twice", "fenced", "fenced"))
        async with self.restarting, self.reopening:
            if not await self.may_lose():
                return False
            until = time.monotonic() + self.operator.patience / 2
            while time.monotonic() < until:
                found = await self.lose_in_handover(target, how == "fenced")
                if found is not None:
                    document = without(found.state, self.document, self.lost)
                    return await self.reopen(document, [found.new], f"{found.new} was lost in a handover", replaces=how == "twice")
                await asyncio.sleep(0.3)
            return False

    async def lose_in_handover(self, target: str | None, is_fenced: bool) -> Handovers | None:
        """Kills the new owner of a handover for good, while orders to the old one are held back."""
        async with self.held_handovers(1, target) as found:
            if found is None or (is_fenced and not await self.fence_first(found)) or not await self.kill_for_good(found.new):
                return None
            ((shard, old),) = found.olds.items()
            self.tell(f"killed {found.new} for good, which is to take {shard} from {old}{', and is fenced' if is_fenced else ''}")
            self.give_up(found.new, found.state)
            self.forsaken.setdefault(shard, time.monotonic_ns())
            self.counts["servers lost in a handover"] += 1
            self.counts["servers lost between fence and settle"] += is_fenced
            return found

    async def fence_first(self, found: Handovers) -> bool:
        """Begins a reopening without a loss, and waits until the new owner is fenced. The old one hears nothing of it, so nobody is settled."""
        line = {"do": "reopen", "document": without(found.state, self.document, self.lost), "lost": [], "why": "a look at all slots"}
        return await self.begin_reopening(line) is not None and await self.wait_until_fenced(found.new)

    # Handovers while the new owner hears little.

    async def reopen_amid_passing(self) -> bool:
        """Reopens while requests are passed on, and orders are at work: the new owners have all writes up to the cuts, and their disk is slow."""
        return await self.in_handovers(self.undisturbed, self.reopen_slowly)

    async def reopen_behind_cut(self) -> bool:
        """Reopens while requests are passed on to new owners that have not heard of the cuts: the old owners keep the shards."""
        return await self.in_handovers(self.unheard, self.reopen_at_work)

    async def break_following(self) -> bool:
        """Hands shards over while the new owners lose the connections by which they follow, again and again: they hear of cuts by requests alone."""
        return await self.in_handovers(self.lossy, self.let_pass)

    async def lose_behind_cut(self) -> bool:
        """Gives the new owner of handovers up for good, under load, once it has executed requests that were passed on: the old owners have all that it acknowledged."""
        async with self.restarting:
            return await self.may_lose() and await self.in_handovers(self.late, self.lose_new_owner)

    async def lose_new_owner(self, found: Handovers) -> bool:
        """Kills the new owner as it is, and reopens without it."""
        await asyncio.sleep(1.0)
        await self.lose(found.new, f"which has taken requests for {', '.join(sorted(found.olds))} over")
        for shard in found.olds:
            self.forsaken.setdefault(shard, time.monotonic_ns())
        self.counts["losses of a new owner behind the cut"] += 1
        return await self.reopen(without(found.state, self.document, self.lost), [found.new], f"{found.new} was lost behind the cut")

    async def hand_over_unheard(self) -> bool:
        """Hands shards over while their old owners' answers to clients are lost: clients ask the new one for what was done."""
        async with self.reopening:
            found = self.handovers_in(await self.state(), 4, None)
            if found is None:
                return False
            self.mover.busy |= set(found.olds)
            try:
                async with self.muted(*(f"client clients {it}" for it in set(found.olds.values()))):
                    # (a request that is executed before the copy, and is not answered, is made again behind it)
                    await asyncio.sleep(0.5)
                    await self.operator.do({"do": "begin", "plan": plan_of(found.streams), "name": self.name("handover")})
                    is_done = await self.wait_for_cells(dict.fromkeys(found.olds, found.new), "primary", 6.0)
                self.tell(f"{', '.join(sorted(found.olds))} were handed over to {found.new}, while answers to clients were lost")
                self.counts["handovers unheard by clients"] += is_done
                return is_done
            finally:
                self.mover.busy -= set(found.olds)

    async def in_handovers(self, harm: Harm, act: Callable[[Handovers], Awaitable[bool]]) -> bool:
        """Begins handovers, and acts once requests are passed on, while no order gets to the new owner, and harm is done to it; tells whether it came to
        that. Behind it all orders of that time come once more."""
        async with self.reopening:
            until = time.monotonic() + self.operator.patience / 2
            while time.monotonic() < until:
                async with self.orders_again(), AsyncExitStack() as meanwhile:
                    found = await self.passing_handovers(meanwhile, harm)
                    if found is not None:
                        return await act(found)
                await asyncio.sleep(0.3)
            return False

    async def passing_handovers(self, meanwhile: AsyncExitStack, harm: Harm) -> Handovers | None:
        """Begins handovers to one server, and waits until their old owners pass requests on."""
        async with self.held_handovers(4) as found:
            if found is None:
                return None
            await meanwhile.enter_async_context(self.held(['"order"'], *self.orders_to(found.new)))
            await harm(meanwhile, found.new, set(found.olds.values()))
        meanwhile.enter_context(self.used(set(found.olds)))
        if not await self.wait_for_cells(found.olds, "forwarding"):
            return None
        await asyncio.sleep(0.4)
        return found

    @contextmanager
    def used(self, shards: set[str]) -> Iterator[None]:
        """Has clients use shards, and the mover leave them alone, while something is done."""
        self.mover.busy |= shards
        try:
            yield
        finally:
            self.mover.busy -= shards

    async def undisturbed(self, meanwhile: AsyncExitStack, new: str, olds: set[str]) -> None:
        """Does no harm."""

    async def late(self, meanwhile: AsyncExitStack, new: str, olds: set[str]) -> None:
        """Has the old owners hear late of what the new one executes, and of what it replies."""
        await meanwhile.enter_async_context(self.slowed(*(f"peer {it} {new}" for it in olds), shortest=0.3, longest=0.1))

    async def unheard(self, meanwhile: AsyncExitStack, new: str, olds: set[str]) -> None:
        """Has the new owner follow the old ones no more, and what they pass on come late."""
        await meanwhile.enter_async_context(self.cut(*(f"peer {new} {it}" for it in olds)))
        await meanwhile.enter_async_context(self.slowed(*(f"peer {it} {new}" for it in olds), shortest=2.5))

    async def lossy(self, meanwhile: AsyncExitStack, new: str, olds: set[str]) -> None:
        """Has the new owner's connections to the old ones end at each second message."""
        await meanwhile.enter_async_context(self.slowed(*(f"peer {new} {it}" for it in olds), shortest=0.15, drop=0.5))

    async def let_pass(self, found: Handovers) -> bool:
        """Lets requests be passed on for a while, and then orders through, before the connections last again."""
        self.tell(f"connections break, while {', '.join(sorted(found.olds))} are handed over to {found.new}")
        self.counts["handovers with broken connections"] += len(found.olds)
        await asyncio.sleep(1.0)
        await self.cluster.tell_proxies(links=self.orders_to(found.new), hold=[])
        await asyncio.sleep(1.0)
        return True

    async def reopen_slowly(self, found: Handovers) -> bool:
        """Reopens at work while the new owner's disk is slow: requests that were passed on are at work there as the fence comes."""
        return await self.reopen_at_work(found, True)

    async def reopen_at_work(self, found: Handovers, is_slow: bool = False) -> bool:
        """Reopens as soon as an order is at work at one of the other servers, where copies are slow meanwhile."""
        self.tell(f"reopen, while {', '.join(sorted(found.olds))} are handed over to {found.new}")
        olds = set(found.olds.values())
        others = [it for it in self.alive if it not in (found.new, *olds)] or sorted(olds)
        self.counts["reopenings in a handover"] += 1
        async with self.slowed(*(f"peer {it} " for it in others)):
            await self.begin_copy(others)
            await self.wait_for_work(others)
            async with self.stopped_store(found.new) if is_slow else nullcontext():
                return await self.reopen(without(found.state, self.document, self.lost), [], f"handovers to {found.new} stand still")

    async def begin_copy(self, targets: list[str]) -> None:
        """Moves a secondary to one of these servers, if there is one that rests, and room for it."""
        state = await self.state()
        rooms = {it: room for it, room in self.mover.rooms(state).items() if it in targets}
        for shard in state.get("shards", []):
            has = {it["server"]: it["state"] for it in shard["cells"]}
            source = next((it for it, word in has.items() if word == "secondary"), None)
            target = next((it for it, room in rooms.items() if it not in has and room >= shard["load"]), None)
            if source and target and "primary" in has.values() and shard["shard"] not in self.mover.busy:
                await self.operator.do({"do": "begin", "plan": plan_of([move_stream(shard, source, target)]), "name": self.name("copy")})
                return

    # Handovers that stand still.

    @asynccontextmanager
    async def held_handovers(self, most: int, target: str | None = None) -> AsyncIterator[Handovers | None]:
        """Begins handovers to one server, which is prepared, and holds orders to their old owners back while something is done. None if that does not come
        about."""
        found = self.handovers_in(await self.state(), most, target)
        if found is None:
            yield None
            return
        self.mover.busy |= set(found.olds)
        try:
            async with self.cut(*self.orders_to(*set(found.olds.values()))):
                reply = await self.operator.do({"do": "begin", "plan": plan_of(found.streams), "name": self.name("handover")})
                is_begun = "begun" in reply and await self.wait_for_cells(dict.fromkeys(found.olds, found.new), "prepared")
                yield found if is_begun else None
        finally:
            self.mover.busy -= set(found.olds)

    def handovers_in(self, state: Line, most: int, target: str | None) -> Handovers | None:
        """Chooses shards whose primaries may be handed over to one server, which is chosen, too, if no target is named."""
        rooms = {it["server"]: it["room"] - it["load"] - it["held"] for it in state.get("servers", []) if it["permit"] is None}
        new = target or (self.dice.choice(sorted(rooms)) if rooms else "")
        room = rooms.get(new, 0)
        shards = [it for it in state.get("shards", []) if it["shard"] not in self.mover.busy]
        self.dice.shuffle(shards)
        olds, streams = {}, []
        for shard in shards:
            has = {it["server"]: it["state"] for it in shard["cells"]}
            owner = next((it for it, word in has.items() if word == "primary"), None)
            is_at_rest = owner in rooms and new not in has and set(has.values()) <= {"primary", "secondary"}
            if is_at_rest and room >= shard["load"] and len(olds) < most:
                room -= shard["load"]
                olds[shard["shard"]] = owner
                streams.append(move_stream(shard, owner, new))
        return Handovers(new, olds, streams, state) if olds else None

    async def wait_for_cells(self, servers: dict[str, str], word: str, seconds: float = 8.0) -> bool:
        """Waits until each of these shards is at its server in a state, as recorded."""
        until = time.monotonic() + seconds
        while time.monotonic() < until:
            shards = (await self.operator.ask({"do": "state"})).get("state", {}).get("shards", [])
            found = {it["shard"]: {cell["server"]: cell["state"] for cell in it["cells"]} for it in shards}
            if all(found.get(shard, {}).get(server) == word for shard, server in servers.items()):
                return True
            await asyncio.sleep(0.05)
        return False
