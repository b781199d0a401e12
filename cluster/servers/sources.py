"""The side of a server whose writes others follow: it sends them a shard's copy, piece by piece, or its last writes, and
each write, and waits until all who are alive have a write before it is acknowledged."""
from __future__ import annotations

import asyncio
import time
from collections.abc import AsyncIterator
from typing import TYPE_CHECKING

from smplan.agent import Cell, ToldCopy

from ..resp import ErrorReply
from ..wire import Message, line_of, read_message
from . import agent, limits
from .shard import Entry, Shard
from .store import TooLarge

if TYPE_CHECKING:
    from .server import Server


class Stream:
    """A follower's connection for one shard. Once it has joined, writes wait for it, unless it is a new owner before
    the cut."""

    def __init__(self, writer: asyncio.StreamWriter, start: int, ask: Message) -> None:
        self.name, self.writer, self.start, self.takes_over = ask["from"], writer, start, ask["takes_over"]
        self.acked, self.view, self.begun = -1, 0, time.monotonic()
        # Its number, the question that the follower asked by then, the reopening by which it had its slots, and whether its copy's order is done.
        heard = ask.get("heard") or {"journal": "0", "base": -1}
        self.number, self.question, self.opened, self.holds = ask["number"], ask["question"], (int(heard["journal"], 16), heard["base"]), ask["holds"]
        self.has_joined = False
        # When a piece of a copy was sent last, until all of it is.
        self.copied_at: float | None = None

    @property
    def is_copying(self) -> bool:
        """Whether pieces of a copy are on their way, and have been a moment ago."""
        return self.copied_at is not None and time.monotonic() - self.copied_at < limits.COPYING

    def send(self, message: Message) -> None:
        """Sends a message, unless the connection is gone."""
        if not self.writer.is_closing():
            self.writer.write(line_of(message))

    def close(self) -> None:
        """Ends the connection."""
        self.writer.close()


class Sources:
    """All streams of a server."""

    # For how many seconds a member that is gone is waited for.
    dead_after = limits.DEAD_AFTER

    def __init__(self, server: "Server") -> None:
        self.server, self.store = server, server.store
        self.start = time.monotonic()

    # -- followers

    async def serve(self, reader: asyncio.StreamReader, writer: asyncio.StreamWriter, ask: Message) -> None:
        """Serves a follower until it leaves or its connection ends."""
        shard = self.store.shards.get(ask["shard"])
        stream = await self.begin(shard, writer, ask) if shard is not None else None
        if stream is None:
            following = shard.following if shard is not None else None
            writer.write(line_of({"nothere": {"hint": following.hint if following is not None else None}, **self.server.hearsay.told()}))
            return
        try:
            while (message := await read_message(reader)) is not None:
                if "leave" in message:
                    await self.leave(shard, stream.name)
                elif "hold" in message:
                    stream.holds = True
                    self.count(shard)
                    shard.wake()
                elif "ack" in message:
                    stream.acked, stream.view = max(stream.acked, message["ack"]), message["view"]
                    self.count(shard)
                    if not stream.has_joined and stream.acked >= stream.start:
                        await self.join(shard, stream)
                    shard.wake()
        finally:
            if shard.streams.get(stream.name) is stream:
                del shard.streams[stream.name]
                shard.seen[stream.name] = time.monotonic()
            shard.wake()

    async def begin(self, shard: Shard, writer: asyncio.StreamWriter, ask: Message) -> Stream | None:
        """Sends a follower what it lacks, and from now on each write; None if it is to look elsewhere."""
        async with shard.lock:
            if not self.store.base.known or not (shard.is_source or (ask["beside"] and shard.slot.cell == Cell.SECONDARY)):
                return None
            name, party = ask["from"], self.server.party(shard)
            if shard.slot.cell == Cell.FORWARDING and name != party:
                writer.write(line_of({"moved": {"to": party}}))
                return None
            if ask["position"] > shard.position:
                shard.lacking = (ask["position"] - shard.position, name, time.monotonic())
            is_beginning = shard.resumes(ToldCopy(ask["view"], ask["position"]))
            tail = await self.store.tail_after(shard, ask["position"], ask["chain"]) if is_beginning else None
            if tail is None and time.monotonic() < shard.too_large[1]:
                writer.write(line_of(self.too_large(shard)))
                return None
            stream = Stream(writer, shard.position, ask)
            if tail is None:
                stream.copied_at = time.monotonic()
                stream.send({"copy": {"position": shard.position, "tail": await self.store.last_writes(shard.name)}, **self.server.hearsay.told()})
            else:
                stream.send({"tail": [it.text() for it in tail], "views": shard.views, **self.server.hearsay.told()})
            before = shard.streams.get(name)
            if before is not None:
                before.close()
            shard.streams[name] = stream
            if shard.slot.cell == Cell.FORWARDING:
                stream.send(self.seal(shard))
            if tail is None:
                self.server.begin(self.send_copy(shard, stream))
        return stream

    async def send_copy(self, shard: Shard, stream: Stream) -> None:
        """Sends a shard piece by piece while it is used: writes go out between the pieces."""
        try:
            async for piece in self.pieces(shard):
                if shard.streams.get(stream.name) is not stream:
                    return
                await self.send_piece(shard, stream, line_of({"piece": piece}))
        except TooLarge as error:
            shard.too_large = (error.size, time.monotonic() + limits.TOO_LARGE_FOR)
            self.store.note("value-too-large", shard=shard.name, bytes=error.size)
            stream.send(self.too_large(shard))
            return
        except EOFError:
            stream.close()
            return
        async with shard.lock:
            if shard.streams.get(stream.name) is stream:
                # (all writes up to this position were sent: no piece has a later one)
                stream.send({"copied": {"position": shard.position, "chain": shard.chain, "views": shard.views, "members": sorted(shard.members)}})
                stream.copied_at = None

    def pieces(self, shard: Shard) -> AsyncIterator[dict]:
        """A shard's data piece by piece."""
        return self.store.pieces(shard.name)

    async def send_piece(self, shard: Shard, stream: Stream, line: bytes) -> None:
        """Sends a piece once there is room for it, and then rests as long as that took: requests go on. Raises EOFError if nobody follows."""
        begun = time.monotonic()
        try:
            stream.writer.write(line)
            await stream.writer.drain()
        except OSError as error:
            raise EOFError from error
        stream.copied_at = time.monotonic()
        await asyncio.sleep(min(time.monotonic() - begun, limits.RESTING))

    @staticmethod
    def too_large(shard: Shard) -> Message:
        """Says that a value is too large."""
        return {"toolarge": {"bytes": shard.too_large[0], "most": limits.LARGEST_VALUE}}

    async def join(self, shard: Shard, stream: Stream) -> None:
        """The follower has what there was when it came, and is told so; from now on each write waits for it, unless
        it is a new owner."""
        async with shard.lock:
            if shard.streams.get(stream.name) is not stream or not shard.is_source:
                return
            stream.has_joined = True
            if stream.name not in shard.members and not stream.takes_over:
                await self.set_members(shard, shard.members | {stream.name})
            self.store.note("joined", shard=shard.name, follower=stream.name)
            stream.send({"joined": {"members": sorted(shard.members)}})

    async def leave(self, shard: Shard, name: str) -> None:
        """The follower has nothing of the shard any more."""
        async with shard.lock:
            if name == shard.old_owner:
                await self.store.save([("HDEL", "old_owner", shard.name)])
                shard.old_owner = None
            if name in shard.members:
                await self.set_members(shard, shard.members - {name})
        shard.wake()

    async def set_members(self, shard: Shard, members: set[str]) -> None:
        """Stores who has to have the shard's writes, and tells the followers. The shard's lock is held."""
        await self.store.save(self.store.member_commands(shard.name, members))
        shard.members = members
        for stream in shard.streams.values():
            stream.send({"members": sorted(members)})

    def tell_views(self, shard: Shard) -> None:
        """Tells those who follow the views of its list, behind all that was sent. The shard's lock is held."""
        for stream in shard.streams.values():
            stream.send({"views": shard.views})

    # -- writes

    def send(self, shard: Shard, entry: Entry) -> None:
        """Sends a write that was executed to all who follow. The shard's lock is held."""
        message = {"write": entry.text()}
        for stream in shard.streams.values():
            stream.send(message)

    def seal(self, shard: Shard) -> Message:
        """The end of the stream to the new owner."""
        return {"seal": {"handover": shard.slot.handover, "cut": shard.slot.cut, "away": shard.away}}

    def end(self, shard: Shard) -> None:
        """The shard is handed over: the new owner gets the cut, and the others are told where to go."""
        party, shard.away = self.server.party(shard), self.away(shard)
        for stream in list(shard.streams.values()):
            if stream.name == party:
                stream.send(self.seal(shard))
            else:
                stream.send({"moved": {"to": party}})

    def retire(self, shard: Shard) -> None:
        """The primary becomes a secondary: who follows, and may be the next one, is told who is away."""
        away = {"away": self.away(shard)}
        for stream in shard.streams.values():
            stream.send(away)
        self.close(shard)

    def close(self, shard: Shard) -> None:
        """It is the source of the shard no longer."""
        for stream in list(shard.streams.values()):
            stream.close()
        shard.streams.clear()

    def lacking(self, shard: Shard, position: int) -> list[str]:
        """Who is alive, as far as it is known, and has not acknowledged the writes up to a position."""
        now, lacking = time.monotonic(), []
        for name in shard.members - {self.server.name}:
            stream = shard.streams.get(name)
            if stream is not None and stream.acked >= position:
                continue
            is_firm = name == shard.old_owner or (stream is not None and stream.has_joined)
            if is_firm or now - shard.seen.get(name, self.start) < self.dead_after:
                lacking.append(name)
        return lacking

    def away(self, shard: Shard) -> dict[str, float]:
        """For how many seconds each member that is not connected has not been."""
        now = time.monotonic()
        return {it: now - shard.seen.get(it, self.start) for it in shard.members - {self.server.name} if it not in shard.streams}

    def without(self, shard: Shard, position: int) -> dict[str, float]:
        """Who ought to have the writes up to a position, and has not acknowledged them, alive or not, and for how many seconds each has been away."""
        now, streams = time.monotonic(), shard.streams
        missing = sorted(it for it in shard.members - {self.server.name} if it not in streams or streams[it].acked < position)
        return {it: now - shard.seen.get(it, self.start) for it in missing}

    def counts(self, shard: Shard, stream: Stream) -> bool:
        """Whether what a follower says on this connection counts: its copy's order is done, it was settled at the last reopening when it connected, and it has not
        asked for leave by then, nor got it since."""
        journal, opened = stream.opened
        is_settled = journal == self.store.base.journal and opened >= self.store.opened
        return stream.holds and is_settled and not stream.question and stream.number > shard.left.get(stream.name, 0)

    def told(self, shard: Shard, without: str = "") -> list[ToldCopy]:
        """The copies of followers that count. One that leaves does not."""
        return [ToldCopy(it.view, it.acked) for it in shard.streams.values() if it.name != without and self.counts(shard, it)]

    def count(self, shard: Shard) -> None:
        """Notes up to where enough servers have all, this one among them: each write was there at one moment."""
        copies, told = self.server.cluster.copies, self.told(shard)
        position = agent.acknowledged(copies, shard.copy, told) if copies > 1 else -1
        if agent.copied(copies, shard.copy, told, position):  # (there may be nobody else, even for nothing)
            shard.lead.enough = max(shard.lead.enough, position)

    def count_anew(self, shard: Shard) -> None:
        """One that counted has got leave: what is not acknowledged yet is to be elsewhere."""
        shard.lead.enough = -1
        self.count(shard)

    def have(self, shard: Shard, position: int, without: str) -> bool:
        """Whether enough servers have the writes up to a position now, without one that leaves."""
        return agent.copied(self.server.cluster.copies, shard.copy, self.told(shard, without), position)

    def may_acknowledge(self, shard: Shard, position: int) -> bool:
        """Whether enough servers have the writes up to a position."""
        return self.server.cluster.copies < 2 or position <= shard.lead.enough

    async def replicated(self, shard: Shard, position: int, term: int) -> None:
        """Waits until all who are alive, and enough servers, have the writes up to a position, or the term has ended. A request that waits for too long is not
        acknowledged: clients ask again in the meantime, and those that nobody hears any more would become ever more."""
        begun = time.monotonic()
        silent_at = begun + limits.SILENT_AFTER
        while shard.term == term and not (self.may_acknowledge(shard, position) and not self.lacking(shard, position)):
            if time.monotonic() > begun + limits.ACKNOWLEDGING:
                self.store.note("unacknowledged", shard=shard.name, position=position, lacking=self.lacking(shard, position))
                raise ErrorReply(f"LOST {shard.name}")
            if time.monotonic() > silent_at:
                self.give_up(shard, self.lacking(shard, position))
                silent_at += limits.SILENT_AFTER
            await shard.look_again(time.monotonic() + 1)
        if shard.term == term:
            shard.lead.acknowledged = max(shard.lead.acknowledged, position)
        await self.tell_alone(shard, position, term)

    async def tell_alone(self, shard: Shard, position: int, term: int) -> None:
        """Stores who lacks writes that are acknowledged next: a reopening may make one of them the primary, and then these are gone."""
        missing = self.without(shard, position)
        if missing and shard.term == term:
            await self.store.save([], "alone", shard=shard.name, position=position, without=missing)

    def give_up(self, shard: Shard, names: list[str]) -> None:
        """These are silent for too long: they have to come again. (An old owner is waited for all the same.)"""
        for name in names:
            if name in shard.streams and (shard.streams[name].is_copying or time.monotonic() - shard.streams[name].begun < limits.SILENT_AFTER):
                continue
            stream = shard.streams.pop(name, None)
            if stream is not None:
                stream.close()
            shard.seen[name] = time.monotonic() - limits.DEAD_AFTER

    # -- followers that are gone

    async def probe(self) -> None:
        """Asks members that are gone for long whether they still have the shard; who has nothing of it is no member."""
        while True:
            await asyncio.sleep(limits.PROBING)
            for shard in list(self.store.shards.values()):
                if shard.is_source and shard.slot.cell != Cell.FORWARDING:
                    gone = [it for it in shard.members - {self.server.name} if it not in shard.streams]
                    await asyncio.gather(*(self.probe_member(shard, it) for it in gone))

    async def probe_member(self, shard: Shard, name: str) -> None:
        """Asks one."""
        reply = await self.server.ask_peer(name, 1.0, probe={"shard": shard.name})
        if reply is not None and reply["has"] is False and name not in shard.streams:
            await self.leave(shard, name)
