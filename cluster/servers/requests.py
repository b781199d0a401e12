"""Requests of clients: routed and executed in one act, under the shard's lock; acknowledged when all who are alive
have them."""
from __future__ import annotations

import asyncio
import re
import time
from typing import TYPE_CHECKING

from smplan.agent import Answer, Cell, Request

from ..resp import ErrorReply, Parser, Reply, encode_reply
from ..wire import Failed, Message
from . import agent, limits
from .shard import Entry, Shard, chained, shortened
from .store import data_key

if TYPE_CHECKING:
    from .server import Server

# For each write the command that tells what its reply will be, and how many words it has at least.
WRITES = {"SET": None, "INCR": "GET", "APPEND": "STRLEN", "RPUSH": "LLEN", "CAS": "GET"}
READS = ("GET", "LRANGE")
# What INCR takes: below the largest number of 64 bits.
INTEGER, LARGEST = re.compile(rb"0|-?[1-9][0-9]{0,17}"), 10**18
LENGTHS = {"SET": (3, 3), "INCR": (2, 2), "APPEND": (3, 3), "RPUSH": (3, 1 << 20), "CAS": (4, 4), "GET": (2, 2), "LRANGE": (4, 4)}


def answered(reply: Reply) -> Reply:
    """A reply of the store; an error is raised."""
    if isinstance(reply, ErrorReply):
        raise reply
    return reply


def foreseen(command: tuple[str, ...], before: Reply) -> Reply:
    """What a write will reply, by what the store says before it. Raises if it will fail, so that nothing of it is stored."""
    word, _, *rest = command
    if word == "INCR":
        if not INTEGER.fullmatch(before or b"0") or int(before or 0) >= LARGEST:
            raise ErrorReply("ERR value is not an integer or out of range")
        return int(before or 0) + 1
    return before + (len(rest[0]) if word == "APPEND" else len(rest))


class Requests:
    """The clients' side of a server."""

    def __init__(self, server: "Server") -> None:
        self.server, self.store, self.engine = server, server.store, server.store.engine

    # -- connections

    async def serve(self, reader: asyncio.StreamReader, writer: asyncio.StreamWriter) -> None:
        """Serves a client, one command behind the other."""
        parser = Parser()
        try:
            while data := await reader.read(1 << 16):
                for parts in parser.feed(data):
                    if not isinstance(parts, list) or not all(isinstance(it, bytes) for it in parts) or not parts:
                        return
                    try:
                        writer.write(await self.command([it.decode("latin-1") for it in parts]))
                    except ErrorReply as error:
                        writer.write(encode_reply(error))
                await writer.drain()
        except (OSError, ValueError):
            pass
        finally:
            writer.close()

    async def command(self, parts: list[str]) -> bytes:
        """Answers one command."""
        word, identity = parts[0].upper(), None
        if word == "DO" and len(parts) > 2:
            identity, parts = parts[1], parts[2:]
            word = parts[0].upper()
        if word in LENGTHS:
            low, high = LENGTHS[word]
            if not low <= len(parts) <= high:
                raise ErrorReply(f"ERR wrong number of arguments for '{word}'")
            shard, colon, key = parts[1].partition(":")
            if not colon:
                raise ErrorReply("ERR a key is SHARD:key")
            return await self.request(shard, identity, (word, key, *parts[2:]))
        return encode_reply(self.small_talk(word, parts))

    def small_talk(self, word: str, parts: list[str]) -> Reply:
        """What redis-cli and redis-benchmark ask beside."""
        if word == "PING":
            return "PONG"
        if word in ("CONFIG", "COMMAND"):
            return []
        return ErrorReply(f"ERR unknown command '{parts[0]}'")

    # -- requests

    async def request(self, name: str, identity: str | None, command: tuple[str, ...], how: Request = Request()) -> bytes:
        """Answers a client's request, or one that was passed on: its reply, or an error that says what to do."""
        shard = self.store.shards.get(name)
        if shard is None:
            raise ErrorReply(f"NOTHERE {name}")
        deadline = time.monotonic() + limits.WAITING
        while True:
            async with shard.lock:
                self.refuse_late(shard, deadline)
                if how.is_passed:
                    await self.heed_cut(shard, how)
                answer, onward = self.route(shard, how)
                if answer == Answer.EXECUTE:
                    shard.running += 1
            if answer == Answer.EXECUTE:
                return await self.run(shard, identity, command, how, deadline)
            if answer == Answer.PASS_ON:
                return await self.pass_on(shard, identity, command, onward)
            if answer == Answer.NOT_HERE:
                raise ErrorReply(f"NOTHERE {name}")
            if not await shard.look_again(deadline):
                raise ErrorReply(f"TRYAGAIN {name}")

    def refuse_late(self, shard: Shard, deadline: float) -> None:
        """Refuses a request that has waited too long for the shard's lock: its client has asked again by now, or is about to, and a server with more of
        them than it can execute would execute none that anybody waits for."""
        if time.monotonic() > deadline:
            raise ErrorReply(f"TRYAGAIN {shard.name}")

    async def run(self, shard: Shard, identity: str | None, command: tuple[str, ...], how: Request, deadline: float) -> bytes:
        """Executes a request that counts as running, and returns its reply once all who are alive have the shard's
        writes."""
        term = shard.term
        try:
            if thinking := self.server.think(shard, how):
                await asyncio.sleep(thinking)
            async with shard.lock:
                self.refuse_late(shard, deadline)
                if shard.term != term or self.may_not_serve():
                    raise ErrorReply(f"TRYAGAIN {shard.name}")
                reply = await self.execute(shard, identity, command, how)
            await self.server.sources.replicated(shard, shard.position, term)
            if shard.term != term or self.may_not_serve():
                raise ErrorReply(f"LOST {shard.name}")
            return reply
        except ConnectionError as error:
            self.server.fail(error)
            raise ErrorReply(f"LOST {shard.name}") from error
        finally:
            shard.running -= 1
            shard.wake()

    def may_not_serve(self) -> bool:
        """Whether it may serve nobody now, as no controller has answered it for long."""
        return self.server.lease.is_over

    async def heed_cut(self, shard: Shard, how: Request) -> None:
        """A request that is passed on tells the cut, which may not have come with the old owner's writes yet. Who
        executes behind it must not follow the old owner any more."""
        slot = shard.slot
        if slot.cell == Cell.PREPARED and (slot.party, slot.handover) == (how.party, how.handover) and not slot.has_cut:
            await self.server.seal(shard, how.handover, how.cut, {})

    def route(self, shard: Shard, how: Request) -> tuple[Answer, Request]:
        """Where a request is executed."""
        slot = shard.slot
        if (shard.is_held and shard.is_in_handover) or (slot.cell in (Cell.PREPARED, Cell.PRIMARY) and self.may_not_serve()):
            return Answer.NOT_YET, Request()
        return agent.route(self.store.base, slot, shard.position, how)

    # -- execution

    async def execute(self, shard: Shard, identity: str | None, command: tuple[str, ...], how: Request) -> bytes:
        """Executes a request once. The shard's lock is held."""
        if command[0] in READS:
            return await self.read(shard, command, how)
        known = self.engine.send("HGET", f"done:{shard.name}", identity) if identity is not None else None
        before = None if command[0] == "SET" else self.engine.send(WRITES[command[0]], data_key(shard.name, command[1]))
        done = None if known is None else answered(await known)
        if done is not None:
            return done
        found = None if before is None else answered(await before)
        if command[0] == "CAS":
            _, key, old, value = command
            if (found or b"").decode("latin-1") != old:
                return encode_reply(found)
            return await self.write(shard, identity, ("SET", key, value) if value else ("DEL", key), how, encode_reply(found))
        reply = "OK" if before is None else foreseen(command, found)
        return await self.write(shard, identity, command, how, encode_reply(reply))

    async def write(self, shard: Shard, identity: str | None, command: tuple[str, ...], how: Request, reply: bytes) -> bytes:
        """Executes a write with all that belongs to it in one transaction, and sends it to all who follow. Its lease may have ended since it came."""
        if self.may_not_serve():
            raise ErrorReply(f"TRYAGAIN {shard.name}")
        position = shard.position + 1
        entry = Entry(position, self.kept(identity), command, reply.decode("latin-1"), chained(shard.chain, identity, command))
        commands = self.store.entry_commands(shard.name, entry) + self.store.trim_commands(shard.name, position)
        commands += self.store.mark_commands(shard.name, position, entry.chain)
        await self.store.save(
            commands, "execute", shard=shard.name, position=position, identity=identity, command=[shortened(it) for it in command],
            passed=self.server.cluster.name_of(how.party) if how.is_passed else None)
        shard.position, shard.chain = position, entry.chain
        self.server.sources.send(shard, entry)
        return reply

    def kept(self, identity: str | None) -> str | None:
        """The identity that is stored with a write."""
        return identity

    async def read(self, shard: Shard, command: tuple[str, ...], how: Request) -> bytes:
        """Executes a read; history has it with the next change."""
        word, key, *rest = command
        self.store.note("read", shard=shard.name, position=shard.position, command=command, passed=bool(how.is_passed))
        return encode_reply(await self.engine.call(word, data_key(shard.name, key), *rest))

    # -- passing on

    async def pass_on(self, shard: Shard, identity: str | None, command: tuple[str, ...], onward: Request) -> bytes:
        """Sends a request to the new owner, and gives its reply back."""
        to = self.server.cluster.name_of(onward.party)
        passed = {"shard": shard.name, "identity": identity, "command": command, "handover": onward.handover, "cut": onward.cut,
                  "from": self.server.name}
        try:
            reply = await self.server.peer(to).ask(limits.PASSING, **{"pass": passed}, **self.server.hearsay.told())
        except Failed as failed:
            raise ErrorReply(f"{'LOST' if failed.kind in ('Lost', 'Late') else failed.kind} {shard.name}") from failed
        return reply["reply"].encode("latin-1")

    async def take_passed(self, passed: Message) -> Message:
        """Answers a request that the old owner passes on."""
        party = self.server.cluster.servers[passed["from"]].number
        how = Request(passed["handover"], passed["cut"], party, 1)
        try:
            reply = await self.request(passed["shard"], passed["identity"], tuple(passed["command"]), how)
        except ErrorReply as error:
            if error.kind == "NOTHERE":
                self.store.note("passed-late", shard=passed["shard"], handover=passed["handover"])
            raise Failed(error.kind, str(error)) from error
        return {"reply": reply.decode("latin-1")}
