"""The side of a server that follows a shard's writes: a secondary, a new owner up to the cut, and an old owner
behind it."""
from __future__ import annotations

import asyncio
import random
import time
from typing import TYPE_CHECKING

from smplan.agent import Cell, ViewStart

from ..wire import Message, line_of, open_lines, read_message
from . import limits
from .shard import Entry, Shard
from .store import Command, Copying, views_of

if TYPE_CHECKING:
    from .server import Server


class Elsewhere(Exception):
    """The server asked is not the source; `hint` may be."""

    def __init__(self, hint: str | None = None) -> None:
        super().__init__(hint)
        self.hint = hint


class Refused(Exception):
    """The source sends no copy, and says why."""


class BrokenOff(EOFError):
    """A copy was asked for, and did not come."""


class Following:
    """Follows one shard until it is stopped. `joined` is set once it has what there was when it came; unless it is a
    new owner, each write waits for it from then on."""

    def __init__(self, server: "Server", shard: Shard, hint: str | None, is_fresh: bool) -> None:
        self.server, self.store, self.shard = server, server.store, shard
        self.hint, self.is_fresh = hint, is_fresh
        # (the secondary that it follows, if it is to become primary, and nobody is it)
        self.beside = ""
        self.joined = asyncio.Event()
        self.writer: asyncio.StreamWriter | None = None
        self.tries = 0
        # The copy that is on its way, and when something of it came last.
        self.copying: Copying | None = None
        self.copied_at = time.monotonic()
        self.task = asyncio.create_task(self.run())

    def stop(self, leaves: bool = False) -> None:
        """Ends the following; `leaves` tells the source that nothing of the shard is left here."""
        if self.shard.following is self:
            self.shard.following = None
        if self.writer is not None and not self.writer.is_closing():
            if leaves:
                self.writer.write(line_of({"leave": {}}))
            self.writer.close()
        self.task.cancel()

    def takes_over(self) -> bool:
        """It is a new owner, or is to be one: no write waits for it before the cut."""
        work = self.shard.work
        return self.shard.slot.cell == Cell.PREPARED or (work is not None and work.told["call"] == "prepare_add")

    def holds(self) -> bool:
        """The order is done that brought the copy: from then on it counts."""
        return self.shard.slot.cell in (Cell.PREPARED, Cell.SECONDARY, Cell.FORWARDING)

    def tell_hold(self) -> None:
        """Tells the source that the order is done."""
        if self.writer is not None and not self.writer.is_closing():
            self.writer.write(line_of({"hold": {}}))

    def is_done(self) -> bool:
        """A new owner that has all writes up to the cut executes itself: the old one follows from then on."""
        return self.shard.slot.cell == Cell.PREPARED and self.shard.has_reached_cut

    def source(self) -> str:
        """Whom to ask next: the other party of a handover, the server that is said to be the primary, or the others
        in turn."""
        cell = self.shard.slot.cell
        if cell in (Cell.PREPARED, Cell.FORWARDING):
            return self.server.party(self.shard)
        if self.beside:
            return self.beside
        names, turn = sorted(it for it in self.server.cluster.servers if it != self.server.name), self.tries
        if self.hint in names:
            turn, is_others = divmod(self.tries, 2)
            if not is_others:
                return self.hint
        return names[turn % len(names)]

    async def run(self) -> None:
        """Follows one source after the other."""
        pause = 0.02
        while not self.is_done():
            source = self.source()
            try:
                await self.follow(source)
            except Elsewhere as elsewhere:
                self.hint = elsewhere.hint or self.hint
            except Refused as why:
                self.shard.copy_failed(str(why))
                self.shard.wake()
            except BrokenOff:
                self.shard.copy_failed()
            except (OSError, EOFError, TimeoutError):
                if self.copying is not None:
                    self.shard.copy_failed()
            self.copying = None
            self.tries += 1
            if self.joined.is_set():
                pause, self.tries, self.hint = 0.02, 0, source
                self.shard.copy_came()
            self.joined.clear()
            await asyncio.sleep(max(pause, self.shard.rest_before_copy))
            pause = min(pause * 1.5, 0.4)
        if self.shard.following is self:
            self.shard.following = None

    async def follow(self, source: str) -> None:
        """Follows a source until the connection ends."""
        await self.lag()
        reader, self.writer = await asyncio.wait_for(open_lines(self.server.cluster.servers[source].peers), limits.STEP)
        try:
            position, chain = (-1, "") if self.is_fresh else (self.shard.position, self.shard.chain)
            ask = {"shard": self.shard.name, "from": self.server.name, "position": position, "chain": chain, "view": self.shard.copy.view,
                   "takes_over": self.takes_over(), "number": self.server.leaves.number(), "question": self.shard.question, "holds": self.holds(),
                   "beside": bool(self.beside)}
            self.writer.write(line_of({"follow": ask, **self.server.hearsay.told()}))
            first = await self.first_message(reader)
            await self.take_all([first or {"nothere": {}}], source)
            queue: asyncio.Queue[Message | None] = asyncio.Queue()
            reading = asyncio.create_task(self.read(reader, queue))
            try:
                await self.take_queue(queue, source)
            finally:
                reading.cancel()
        finally:
            self.writer.close()

    async def first_message(self, reader: asyncio.StreamReader) -> Message | None:
        """What a source says first, none if the connection ended."""
        try:
            message = await asyncio.wait_for(read_message(reader), limits.COPYING)
        except TimeoutError as error:
            raise BrokenOff from error
        if message is None and self.is_fresh:
            raise BrokenOff
        return message

    async def read(self, reader: asyncio.StreamReader, queue: "asyncio.Queue[Message | None]") -> None:
        """Reads ahead, so that writes that came together are stored together."""
        while True:
            message = await read_message(reader)
            queue.put_nowait(message)
            if message is None:
                return

    async def take_queue(self, queue: "asyncio.Queue[Message | None]", source: str) -> None:
        """Takes what has come, again and again."""
        while True:
            batch = [await queue.get()]
            await self.lag()
            while not queue.empty() and "piece" not in (batch[-1] or {}):
                batch.append(queue.get_nowait())
            await self.take_all([it for it in batch if it is not None], source)
            if None in batch:
                raise EOFError

    async def lag(self) -> None:
        """Is late, if the server is to be."""
        longest = self.server.lag(self.shard)
        if longest:
            await asyncio.sleep(random.random() * longest)

    async def take_all(self, batch: list[Message], source: str) -> None:
        """Takes messages of the source in their order, and acknowledges the writes among them."""
        async with self.shard.lock:
            if self.shard.following is not self:
                raise asyncio.CancelledError
            if self.is_done():
                raise EOFError
            writes: list[Entry] = []
            for message in batch:
                self.server.hearsay.take(message)
                if "write" in message:
                    (writes if self.copying is None else self.copying.writes).append(Entry.of(message["write"]))
                elif "tail" in message:
                    self.shard.away = {}
                    await self.apply([*writes, *map(Entry.of, message["tail"])], views_of(message["views"]))
                    writes = []
                else:
                    await self.apply(writes)
                    writes = []
                    await self.take(message, source)
            await self.apply(writes)
            is_done = self.is_done()
        if self.copying is None:
            self.writer.write(line_of({"ack": self.shard.position, "view": self.shard.copy.view}))
        self.shard.wake()
        if is_done:
            raise EOFError

    async def take(self, message: Message, source: str) -> None:
        """Takes a message that is no write."""
        shard = self.shard
        if "copy" in message:
            await self.store.save(await self.store.forget_copy_commands(shard.name))
            self.copying, self.copied_at = Copying(**message["copy"]), time.monotonic()
        elif "piece" in message and self.copying is not None:
            await self.store.keep_piece(shard.name, message["piece"], self.copying)
            self.copied_at = time.monotonic()
        elif "copied" in message and self.copying is not None:
            await self.take_copy(message["copied"], self.copying, source)
        elif "joined" in message or "members" in message:
            members = message["joined"]["members"] if "joined" in message else message["members"]
            if set(members) != shard.members:
                await self.store.save(self.store.member_commands(shard.name, set(members)))
                shard.members = set(members)
            if "joined" in message:
                self.joined.set()
        elif "views" in message:
            if self.copying is None:
                await self.apply([], views_of(message["views"]))
        elif "away" in message:
            shard.away = message["away"]
        elif "seal" in message:
            await self.server.seal(shard, **message["seal"])
        elif "moved" in message:
            raise Elsewhere(message["moved"]["to"])
        elif "toolarge" in message:
            told = message["toolarge"]
            raise Refused(f"a value of {shard.name} has {told['bytes']} bytes, and one of at most {told['most']} can be sent")
        else:
            raise Elsewhere(message.get("nothere", {}).get("hint"))

    async def take_copy(self, told: Message, copying: Copying, source: str) -> None:
        """Puts the source's copy, with the writes that came meanwhile, in place of what is here."""
        shard, store = self.shard, self.store
        position, chain, members = told["position"], told["chain"], set(told["members"])
        commands = await store.copied_commands(shard.name, copying)
        if shard.slot.cell == Cell.PREPARED and shard.old_owner:  # (the cut came meanwhile)
            members.add(shard.old_owner)
            commands.append(("HSET", "old_owner", shard.name, shard.old_owner))
        for entry in self.meanwhile(copying):
            commands += self.commands_of(entry, self.has(entry, copying))
        views = views_of(told["views"])
        commands += store.member_commands(shard.name, members) + store.mark_commands(shard.name, position, chain) + store.view_commands(shard.name, views)
        await store.save(commands, "copy", shard=shard.name, source=source, position=position, bytes=copying.bytes, meanwhile=len(copying.writes))
        shard.position, shard.chain, shard.is_marked, shard.views, shard.members, shard.away = position, chain, True, views, members, {}
        self.copying, self.is_fresh = None, False
        shard.copy_came()

    def meanwhile(self, copying: Copying) -> list[Entry]:
        """The writes that came while a copy was on its way."""
        return copying.writes

    def has(self, entry: Entry, copying: Copying) -> bool:
        """Whether a copy has a write: its value was read behind it."""
        return entry.position <= copying.positions.get(entry.command[1], -1)

    def commands_of(self, entry: Entry, is_there: bool = False) -> list[Command]:
        """Executes a write of the source, whose data may be there."""
        return self.store.entry_commands(self.shard.name, entry, is_there)

    async def apply(self, entries: list[Entry], views: tuple[ViewStart, ...] | None = None) -> None:
        """Executes writes of the source, all in one transaction, with the views of its list if they come up to where it ends."""
        shard, store = self.shard, self.store
        entries = [it for it in entries if it.position > shard.position]
        views = shard.views if views is None else views
        if not entries and views == shard.views:
            return
        if entries and entries[0].position != shard.position + 1:
            raise EOFError
        commands = []
        for entry in entries:
            commands += self.commands_of(entry)
        position, chain = (entries[-1].position, entries[-1].chain) if entries else (shard.position, shard.chain)
        commands += store.mark_commands(shard.name, position, chain) + store.trim_commands(shard.name, position)
        if views != shard.views:
            commands += store.view_commands(shard.name, views)
        await store.save(commands, "applied" if self.server.cluster.copies > 1 else None, shard=shard.name, position=position)
        shard.position, shard.chain, shard.is_marked, shard.views = position, chain, True, views
