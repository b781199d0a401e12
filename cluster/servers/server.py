"""The server as a whole: its messages, its peers, and how it begins and ends."""
from __future__ import annotations

import asyncio
import os
import random
import sys
import time
from typing import Any

from smplan.agent import Base, Cell, Request, Slot

from ..wire import Channel, Cluster, Failed, Message, read_message, line_of
from . import agent, limits
from .copied import Copied
from .following import Following
from .leaves import Leaves
from .peers import Hearsay, Lease
from .reopenings import Reopenings
from .requests import Requests
from .shard import AllLocks, Shard, hexadecimal, nonce
from .sources import Sources
from .store import Store
from .work import Orders


class Server:
    """One server of the cluster."""

    # What it is made of. (A planted bug is another class in place of one of these: planted.py.)
    following_type, sources_type, orders_type, requests_type, reopenings_type = Following, Sources, Orders, Requests, Reopenings
    leaves_type, copied_type = Leaves, Copied

    def __init__(self, name: str, cluster: Cluster, store: Store, think: float = 0, lag: float = 0) -> None:
        self.name, self.cluster, self.store = name, cluster, store
        store.fail = self.fail
        self.longest_think, self.longest_lag = think, lag
        self.changing = asyncio.Lock()
        self.peers: dict[str, Channel] = {}
        self.sources, self.orders, self.requests = self.sources_type(self), self.orders_type(self), self.requests_type(self)
        self.reopenings, self.hearsay, self.lease = self.reopenings_type(self), Hearsay(self), Lease(self, cluster.lease)
        self.leaves, self.copied = self.leaves_type(self), self.copied_type(self)
        self.tasks: set[asyncio.Task[Any]] = set()
        self.asking: asyncio.Task[None] | None = None

    # -- beginning and ending

    async def start(self, loses_slots: bool) -> None:
        """Begins without work, and as Unknown if it has lost its slots or never had any: then under a new nonce, so that no restore finds it
        that was under way when a reopening gave it up."""
        commands = []
        if loses_slots:
            commands += [("DEL", "base", "slots", "old_owner")]
            self.store.base = Base()
            for shard in self.store.shards.values():
                shard.slot, shard.old_owner = Slot(), None
        if not self.store.base.known:
            self.store.base = agent.forget(nonce())
            commands += self.store.base_commands(self.store.base)
        at_work = [it for it in self.store.shards.values() if it.slot.at_work]
        for shard in at_work:
            shard.slot = agent.abandon(shard.slot)
            commands += self.store.slot_commands(shard.name, shard.slot)
        await self.store.save(commands, "start", server=self.name, loses_slots=loses_slots, known=bool(self.store.base.known),
                              at_work=len(at_work), library=bool(agent.LIBRARY), nonce=hexadecimal(self.store.base.nonce),
                              copies=[it.name for it in self.store.shards.values() if it.has_copy])
        for shard in self.store.shards.values():
            shard.begin_to_lead(max(shard.position, shard.slot.cut))
        self.begin(self.sources.probe())
        self.begin(self.hearsay.ask_around())
        self.begin(self.lease.keep())
        self.begin(self.copied.tell())
        self.begin(self.keep_notes())
        self.resume()

    def begin(self, coroutine) -> None:
        """Begins a task of the server's own; if it fails, so does the server."""
        task = asyncio.create_task(coroutine)
        self.tasks.add(task)
        task.add_done_callback(self.end)

    def end(self, task: "asyncio.Task[Any]") -> None:
        """Looks at how a task ended."""
        self.tasks.discard(task)
        if not task.cancelled() and task.exception() is not None:
            self.fail(task.exception())

    def fail(self, error: BaseException) -> None:
        """Ends the process: the store is gone."""
        print(f"{self.name}: {error!r}", file=sys.stderr, flush=True)
        os._exit(1)

    async def keep_notes(self) -> None:
        """Stores what was noted, every now and then."""
        while True:
            await asyncio.sleep(0.5)
            await self.store.save_notes()

    def resume(self) -> None:
        """Follows whom it has to follow, or asks for its slots."""
        for shard in self.store.shards.values():
            if shard.slot.cell in (Cell.PREPARED, Cell.SECONDARY, Cell.FORWARDING):
                self.start_following(shard)
        if not self.store.base.known and (self.asking is None or self.asking.done()):
            self.asking = asyncio.create_task(self.ask_for_slots())

    # -- peers

    def party(self, shard: Shard) -> str:
        """The other server of the shard's handover."""
        return self.cluster.name_of(shard.slot.party)

    def peer(self, name: str) -> Channel:
        """The connection for requests to another server."""
        if name not in self.peers:
            self.peers[name] = Channel(self.cluster.servers[name].peers, self.hearsay.take)
        return self.peers[name]

    async def ask_peer(self, name: str, seconds: float, **request: Any) -> Message | None:
        """Asks another server; None if it does not answer."""
        try:
            return await self.peer(name).ask(seconds, **request, **self.hearsay.told())
        except Failed:
            return None

    def following(self, shard: Shard, hint: str | None, is_fresh: bool) -> Following:
        """Begins to follow a shard's writes."""
        return self.following_type(self, shard, hint, is_fresh)

    def start_following(self, shard: Shard) -> None:
        """Follows the shard's writes."""
        if shard.following is None:
            shard.following = self.following(shard, None, is_fresh=False)

    def follow_beside(self, shard: Shard, name: str) -> None:
        """Follows a secondary that has more, if nobody leads the shard, and this server is to. The shard's lock is held."""
        if shard.following is None or shard.following.beside != name:
            self.stop_following(shard)
            shard.following = self.following(shard, name, is_fresh=False)
            shard.following.beside = name

    def stop_following(self, shard: Shard, leaves: bool = False) -> None:
        """Follows the shard's writes no longer."""
        if shard.following is not None:
            shard.following.stop(leaves)

    async def seal(self, shard: Shard, handover: int, cut: int, away: dict[str, float]) -> None:
        """Takes the old owner's cut, from its stream of writes, which also tells who is away, or with a request that it
        passes on. From then on the old owner is to have all that is executed here, and so are the other members, who
        have yet to come. The shard's lock is held."""
        after = agent.seal(shard.slot, handover, cut)
        if after == shard.slot:
            return
        old_owner = self.waited_for(shard)
        members = (shard.members | {old_owner}) - {self.name, ""}
        commands = self.store.slot_commands(shard.name, after) + self.store.member_commands(shard.name, members)
        commands.append(("HSET", "old_owner", shard.name, old_owner))
        await self.store.save(commands, "seal", shard=shard.name, handover=handover, cut=cut, position=shard.position)
        shard.slot, shard.members, shard.old_owner, shard.away = after, members, old_owner, away
        shard.begin_to_lead(max(shard.position, cut))
        shard.expect(members)

    def waited_for(self, shard: Shard) -> str:
        """Who has to have all that a new owner executes: the old one."""
        return self.party(shard)

    async def serve_peer(self, reader: asyncio.StreamReader, writer: asyncio.StreamWriter) -> None:
        """Serves another server: a connection for one stream of writes, or for requests."""
        try:
            while (message := await read_message(reader)) is not None:
                await self.hearsay.hear(message)
                if "follow" in message:
                    await self.sources.serve(reader, writer, {**message["follow"], "heard": message.get("heard")})
                    return
                self.begin(self.answer_peer(message, writer))
        except asyncio.CancelledError:
            pass
        finally:
            writer.close()

    async def answer_peer(self, message: Message, writer: asyncio.StreamWriter) -> None:
        """Answers a request of another server."""
        try:
            if "pass" in message:
                reply = await self.requests.take_passed(message["pass"])
            elif "leave" in message:
                reply = await self.leaves.give(message["leave"], message.get("heard"))
            elif "compare" in message:
                reply = self.compared(message["compare"]["shard"], message.get("heard"))
            elif "hello" in message:
                reply = {"hello": {}}
            else:
                reply = {"has": self.has(message["probe"]["shard"])}
        except Failed as failed:
            reply = failed.message()
        if not writer.is_closing():
            writer.write(line_of({"id": message["id"], **reply, **self.hearsay.told()}))

    def compared(self, name: str, heard: Message | None) -> Message:
        """What it has of a shard, for one that is to become its primary; raises Failed if it has lost its copy, or knows of another reopening."""
        shard = self.store.shards.get(name)
        if not self.store.base.known or heard != self.hearsay.told()["heard"]:
            raise Failed("Later", "it knows of another reopening")
        if shard is None or not shard.has_copy:
            raise Failed("Later", f"it has lost its copy of {name}: give it up as lost")
        return {"copy": shard.copy}

    def has(self, name: str) -> bool | None:
        """Whether it has anything of a shard, None if it does not know."""
        shard = self.store.shards.get(name)
        if not self.store.base.known:
            return None
        return shard is not None and (shard.slot.cell != Cell.ABSENT or shard.slot.at_work != 0)

    def think(self, shard: Shard, how: Request) -> float:
        """How long a request runs before it changes anything."""
        return random.random() * self.longest_think if self.longest_think else 0

    def lag(self, shard: Shard) -> float:
        """How late it is, at most, with the writes that it follows."""
        return self.longest_lag

    # -- messages of the controller

    async def control(self, message: Message) -> Message:
        """Answers a message of the controller."""
        handlers = {"order": self.orders.take, "fence": self.reopenings.fence, "settle": self.reopenings.settle,
                    "restore": self.reopenings.restore,
                    "notice": self.notice, "audit": self.audit, "status": self.status}
        for kind, handler in handlers.items():
            if kind in message:
                return await handler(message[kind])
        raise Failed("Unknown", "no such message")

    async def heed(self, journal: int, number: int) -> None:
        """Looks at the last reopening that a controller names: a server that was not settled at it turns Unknown."""
        async with self.changing:
            await self.heed_last(journal, number, "a controller")

    async def heed_last(self, journal: int, number: int, teller: str) -> None:
        """Looks at the last reopening that somebody names. No slot changes meanwhile."""
        if self.store.base.known and not agent.heed(self.store.base, journal, number, 1).known:
            await self.forget(teller)

    async def notice(self, told: Message) -> Message:
        """Takes a word about the last reopening: a server that was left behind it turns Unknown."""
        await self.heed(int(told["journal"], 16), told["fence"])
        return {"noticed": {"known": bool(self.store.base.known)}}

    async def forget(self, teller: str) -> None:
        """Turns Unknown, as somebody told: slots are deleted, data is kept."""
        async with AllLocks(self.store.shards.values()):
            base = agent.forget(nonce())
            commands = [("DEL", "slots", "old_owner"), *self.store.base_commands(base)]
            await self.store.save(commands, "forget", before=self.store.base.number, nonce=hexadecimal(base.nonce), told_by=teller)
            self.store.base = base
            for shard in self.store.shards.values():
                self.end_term(shard, "it has turned Unknown")
                shard.slot, shard.old_owner = Slot(), None
                self.stop_following(shard)
                self.sources.close(shard)
        self.resume()

    def end_term(self, shard: Shard, why: str) -> None:
        """Work and running requests of the shard come to nothing."""
        self.orders.drop_work(shard, why)
        shard.term += 1
        shard.away = {}
        shard.wake()

    async def audit(self, _: Message) -> Message:
        """Tells its base and slots."""
        base, slots = self.store.base, []
        for shard in self.store.shards.values():
            if base.known and (shard.slot.cell != Cell.ABSENT or shard.slot.last > base.number):
                slots.append(self.reopenings.slot_told(shard) | {"last": shard.slot.last, "chain": shard.chain} | self.lacking(shard))
        return {"audit": {"server": self.name, "journal": hexadecimal(base.journal), "base": base.number, "known": bool(base.known),
                          "fenced": bool(base.fenced), "slots": slots}}

    @staticmethod
    def lacking(shard: Shard) -> Message:
        """How many writes more another server had that came to follow it a moment ago, if it had more."""
        count, name, at = shard.lacking
        return {"lacks": count, "of": name} if count and time.monotonic() - at < limits.TELLING else {}

    async def status(self, _: Message) -> Message:
        """Tells what is going on."""
        shards = self.store.shards.values()
        return {"status": {"server": self.name, "load": self.store.used(), "running": sum(it.running for it in shards),
                           "writes": sum(it.position for it in shards if it.slot.cell == Cell.PRIMARY),
                           "work": sum(it.work is not None for it in shards)}}

    # -- asking for slots

    async def ask_for_slots(self) -> None:
        """While it is Unknown it asks one controller after the other, also if it is fenced: a late fence of the opening in force is followed by no
        settle."""
        turn = random.randrange(1 << 16)
        controllers = {name: Channel(address) for name, address in self.cluster.controllers.items()}
        names = sorted(controllers)
        while not self.store.base.known and names:
            name = names[turn % len(names)]
            turn += 1
            asked = {"server": self.name, "nonce": hexadecimal(self.store.base.nonce), "lost": self.reopenings.lost}
            try:
                reply = await controllers[name].ask(limits.STEP, restore=asked)
                if isinstance(reply.get("restore"), dict) and "slots" in reply["restore"]:
                    await self.reopenings.restore(reply["restore"])
            except Failed:
                pass
            await asyncio.sleep(limits.ASKING)
        for channel in controllers.values():
            channel.close()
