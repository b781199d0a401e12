"""What a server keeps in its store (engines.py). All that belongs together changes in one transaction, with a line of history.

    base          the base, as JSON            slots, mark, views, members, old_owner    by shard
    opened        the number of the reopening by which it has its slots
    keys:S        the keys of shard S          d:S:key                 their values
    done:S        by identity, the reply       tail:S                  the last writes, which who follows may lack
    copied:S, new:S:key, answered:S            a copy that is on its way: its keys, their values, and the replies by identity
    aside:S:view:position, ..:key              a copy that was taken away: its keys, and their values, until an operator deletes them
    history       what happened, as JSON lines
"""
from __future__ import annotations

import asyncio
import base64
import json
import time
from dataclasses import astuple, dataclass, field
from typing import AsyncIterator, Callable, Iterable

from smplan.agent import Base, Slot, ViewStart

from ..resp import ErrorReply, Part
from ..wire import text_of
from . import agent, limits
from .engines import Engine
from .shard import Entry, Event, Shard

Command = tuple[Part, ...]
# How many of a shard's writes are kept for servers that follow it; who lacks more copies the shard.
LONGEST_TAIL = 2000


def data_key(shard: str, key: str) -> bytes:
    """Where a shard's key is stored."""
    return f"d:{shard}:{key}".encode("latin-1")


def new_key(shard: str, key: str) -> bytes:
    """Where a copy of a shard's key is stored until the copy is whole."""
    return f"new:{shard}:{key}".encode("latin-1")


def views_of(told: Iterable[Iterable[int]]) -> tuple[ViewStart, ...]:
    """The views of a list, as they are stored and sent."""
    return tuple(ViewStart(*it) for it in told)


@dataclass
class Copying:
    """A copy that comes in pieces, each as it was at some position, and the writes behind the first of these positions."""

    position: int
    tail: list[str]
    # By key the position at which it was copied.
    positions: dict[str, int] = field(default_factory=dict)
    writes: list[Entry] = field(default_factory=list)
    # The keys that have values, and how many bytes these have; whether identities have come.
    keys: list[str] = field(default_factory=list)
    bytes: int = 0
    has_identities: bool = False


class TooLarge(Exception):
    """A value is too large to be copied."""

    def __init__(self, size: int) -> None:
        super().__init__(size)
        self.size = size


class Store:
    """The stored state, and a copy of it in memory that is changed when it is stored."""

    def __init__(self, engine: Engine) -> None:
        self.engine = engine
        self.base = Base()
        # The number of the reopening by which it has its slots.
        self.opened = 0
        self.shards: dict[str, Shard] = {}
        self.unwritten: list[Event] = []
        # (what memory says would be wrong from then on: the process has to end)
        self.fail: Callable[[BaseException], None] = lambda error: None

    async def load(self) -> None:
        """Reads what is stored."""
        base = await self.engine.call("GET", "base")
        self.base = Base(*json.loads(base)) if base else Base()
        self.opened = int(await self.engine.call("GET", "opened") or 0)
        for name, text in await self.hash("slots"):
            self.shard(name).slot = Slot(*json.loads(text))
        for name, text in await self.hash("mark"):
            shard = self.shard(name)
            (shard.position, shard.chain), shard.is_marked = json.loads(text), True
        for name, text in await self.hash("views"):
            self.shard(name).views = views_of(json.loads(text))
        for name, text in await self.hash("members"):
            self.shard(name).members = set(json.loads(text))
        for name, text in await self.hash("old_owner"):
            self.shard(name).old_owner = text.decode()

    async def hash(self, key: str) -> list[tuple[str, bytes]]:
        """The pairs of a hash."""
        flat = await self.engine.call("HGETALL", key)
        return [(flat[it].decode("latin-1"), flat[it + 1]) for it in range(0, len(flat), 2)]

    def shard(self, name: str) -> Shard:
        """Returns a shard. It is vacant if the server has never had anything of it."""
        if name not in self.shards:
            self.shards[name] = Shard(name, agent.VACANT if self.base.known else Slot())
        return self.shards[name]

    def used(self) -> int:
        """The load of all that it has."""
        return sum(it.slot.load for it in self.shards.values())

    def note(self, kind: str, **more: object) -> None:
        """Remembers what happened; it is stored with the next change."""
        self.unwritten.append({"t": time.monotonic_ns(), "kind": kind, **more})

    async def save(self, commands: Iterable[Command], kind: str | None = None, **more: object) -> None:
        """Stores changes in one transaction, with a line of history for them and those that were noted."""
        if kind is not None:
            self.note(kind, **more)
        noted, self.unwritten = self.unwritten, []
        lines = [text_of(it) for it in noted]
        history = [("RPUSH", "history", *lines)] if lines else []
        try:
            await self.engine.transaction([*commands, *history])
        except (OSError, ErrorReply) as error:
            self.fail(error)
            raise

    async def save_notes(self) -> None:
        """Stores what was noted."""
        if self.unwritten:
            await self.save([])

    # -- what changes are made of

    @staticmethod
    def base_commands(base: Base) -> list[Command]:
        """Stores a base."""
        return [("SET", "base", json.dumps(astuple(base)))]

    @staticmethod
    def slot_commands(shard: str, slot: Slot) -> list[Command]:
        """Stores a slot."""
        return [("HSET", "slots", shard, json.dumps([int(it) for it in astuple(slot)]))]

    @staticmethod
    def mark_commands(shard: str, position: int, chain: str) -> list[Command]:
        """Stores how many of a shard's writes are there, and their sum."""
        return [("HSET", "mark", shard, json.dumps([position, chain]))]

    @staticmethod
    def view_commands(shard: str, views: tuple[ViewStart, ...]) -> list[Command]:
        """Stores the views of a shard's list."""
        return [("HSET", "views", shard, json.dumps(views))]

    @staticmethod
    def member_commands(shard: str, members: set[str]) -> list[Command]:
        """Stores who has to have the shard's writes."""
        return [("HSET", "members", shard, json.dumps(sorted(members)))]

    @staticmethod
    def entry_commands(shard: str, entry: Entry, is_there: bool = False) -> list[Command]:
        """Executes a write: its data, unless that is there, its identity, and its place among the last writes."""
        word, key, *rest = entry.command
        commands: list[Command] = [("RPUSH", f"tail:{shard}", entry.text())]
        if not is_there:
            commands.append((word, data_key(shard, key), *(it.encode("latin-1") for it in rest)))
            commands.append(("SREM" if word == "DEL" else "SADD", f"keys:{shard}", key.encode("latin-1")))
        if entry.identity is not None:
            commands.append(("HSET", f"done:{shard}", entry.identity, entry.reply.encode("latin-1")))
        return commands

    @staticmethod
    def trim_commands(shard: str, position: int) -> list[Command]:
        """Deletes old writes from the tail, now and then."""
        return [("LTRIM", f"tail:{shard}", -LONGEST_TAIL, -1)] if position % 50 == 0 else []

    async def data_keys(self, shard: str) -> list[str]:
        """The keys of a shard."""
        return [it.decode("latin-1") for it in await self.engine.call("SMEMBERS", f"keys:{shard}")]

    async def delete_commands(self, shard: str) -> list[Command]:
        """Deletes a shard's data; the slot stays."""
        keys = [data_key(shard, it) for it in await self.data_keys(shard)]
        own = [f"{it}:{shard}" for it in ("keys", "done", "tail")]
        return [("UNLINK", *own, *keys), *(("HDEL", it, shard) for it in ("mark", "views", "members", "old_owner"))]

    async def aside_commands(self, shard: Shard) -> list[Command]:
        """Takes a shard's copy away. Others may not have all of its writes, so its values are set aside under its view and position."""
        keys, place = await self.data_keys(shard.name), f"aside:{shard.name}:{shard.copy.view}:{shard.position}"
        commands = [("RENAME", data_key(shard.name, it), f"{place}:{it}".encode("latin-1")) for it in keys]
        commands += [("RENAME", f"keys:{shard.name}", place)] if keys else []
        return commands + await self.delete_commands(shard.name)

    # -- copies: at the source

    async def last_writes(self, shard: str) -> list[str]:
        """Some of the last writes, which go with a copy: who follows the copy's owner later may lack them."""
        texts = [it.decode() for it in await self.engine.call("LRANGE", f"tail:{shard}", -limits.KEPT, -1)]
        size, first = 0, len(texts)
        while first and (size := size + len(texts[first - 1])) <= limits.KEPT_BYTES:
            first -= 1
        return texts[first:]

    async def pieces(self, shard: str) -> AsyncIterator[dict]:
        """A shard's data piece by piece, while it is written to: each value with the position at which it was read, and then identities with their
        replies. Raises EOFError if the shard is deleted meanwhile, and TooLarge if a value is."""
        piece, size = {}, 0
        for key in await self.data_keys(shard):
            used = await self.engine.call("MEMORY", "USAGE", data_key(shard, key))
            if (used or 0) > limits.LARGEST_VALUE:
                raise TooLarge(used)
            mark, dump = await self.engine.transaction([("HGET", "mark", shard), ("DUMP", data_key(shard, key))])
            if mark is None:
                raise EOFError
            piece[key] = [json.loads(mark)[0], None if dump is None else base64.b64encode(dump).decode()]
            size += len(dump or b"")
            if size >= limits.PIECE:
                yield {"keys": piece}
                piece, size = {}, 0
        yield {"keys": piece}
        cursor: bytes | None = None
        while cursor != b"0":
            cursor, flat = await self.engine.call("HSCAN", f"done:{shard}", cursor or 0, "COUNT", 1000)
            yield {"done": {flat[it].decode("latin-1"): flat[it + 1].decode("latin-1") for it in range(0, len(flat), 2)}}

    # -- copies: at the follower

    async def forget_copy_commands(self, shard: str) -> list[Command]:
        """Deletes what has come of a copy."""
        keys = [it.decode("latin-1") for it in await self.engine.call("SMEMBERS", f"copied:{shard}")]
        return [("UNLINK", f"copied:{shard}", f"answered:{shard}", *(new_key(shard, it) for it in keys))]

    async def keep_piece(self, shard: str, piece: dict, copying: Copying) -> None:
        """Stores a piece of a copy."""
        commands: list[Command] = []
        for key, (position, text) in piece.get("keys", {}).items():
            copying.positions[key] = position
            if text is not None:
                dump = base64.b64decode(text)
                copying.keys.append(key)
                copying.bytes += len(dump)
                commands += [("RESTORE", new_key(shard, key), 0, dump, "REPLACE"), ("SADD", f"copied:{shard}", key.encode("latin-1"))]
        done = piece.get("done", {})
        if done:
            copying.has_identities = True
            commands.append(("HSET", f"answered:{shard}", *(it for identity, reply in done.items() for it in (identity, reply.encode("latin-1")))))
        if commands:
            await self.save(commands)

    async def copied_commands(self, shard: str, copying: Copying) -> list[Command]:
        """Puts a copy that is whole in place of what there is. Its last writes stand, and those that came meanwhile are yet to be executed."""
        commands = await self.delete_commands(shard)
        commands += [("RENAME", new_key(shard, key), data_key(shard, key)) for key in copying.keys]
        commands += [("RENAME", f"copied:{shard}", f"keys:{shard}")] if copying.keys else []
        commands += [("RENAME", f"answered:{shard}", f"done:{shard}")] if copying.has_identities else []
        return commands + ([("RPUSH", f"tail:{shard}", *copying.tail)] if copying.tail else [])

    async def tail_after(self, shard: Shard, position: int, chain: str) -> list[Entry] | None:
        """The writes behind a position, None if they are not all kept, or if the other one's writes up to there were
        others, or if it has none (-1)."""
        if position < 0:
            return None
        if position >= shard.position:
            return [] if (position, chain) == (shard.position, shard.chain) else None
        texts = await self.engine.call("LRANGE", f"tail:{shard.name}", -(shard.position - position) - 1, -1)
        entries = [Entry.of(it.decode()) for it in texts]
        if not entries or entries[-1].position != shard.position:
            return None
        if entries[0].position == position:
            return entries[1:] if entries[0].chain == chain else None
        return entries if position == 0 and entries[0].position == 1 else None
