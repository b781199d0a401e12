"""A load generator. Each key is a list, to which clients push values that are never used twice, and which they read. Some
clients never rest, and use the shards that are being moved, as a file names them; some ask at times of their own,
answered or not. Each shard has a register, which two clients compare and set, also to nothing. With `largest` each shard
has texts as well, which one client writes anew now and then, and reads.

`python3 -m cluster.clients --cluster FILE --shards s0,s1 --history FILE --seconds 20` writes one JSON line for each
request: `{"client","op","shard","key","old"?,"value"?,"start","end","reply"?,"unclear"?,"final"?}`, with times of
time.monotonic_ns(). `op` is `push` or `read` of a list, `set` or `get` of a text, `cas` or `look` of a register. Without
`reply` there was none in time, or it is `unclear` of what it tells: a write may have been done all the same, once, later
or not at all. The value of a set is its number, with which the text begins, and so is the reply of a get. A `cas` makes
`value` of `old`, where "" is nothing, and its reply is what was there before.
"""
from __future__ import annotations

import asyncio
import json
import random
import time
from collections import defaultdict
from dataclasses import asdict, dataclass
from pathlib import Path
from typing import TextIO

from ..resp import ErrorReply, Reply
from ..wire import Cluster, text_of
from .map import PublishedMap
from .router import Figures, Router


# How many bytes a text has at least and at most, and for how many seconds the client that writes texts rests at most.
LEAST_TEXT, LONGEST_TEXT, RARELY = 500, 200_000, 1.0
# How many requests a client that does not wait for replies has under way at most.
MOST_UNANSWERED = 200
# How often a register is set to nothing.
DELETES = 0.3


def told_of(line: dict, reply: Reply, tries: int) -> object:
    """A reply as history has it: of a text its number alone, 0 if there is none. None if it is unclear: a request that was tried more than once may
    have been done before."""
    if line["op"] == "get":
        return int(reply.partition(b":")[0]) if isinstance(reply, bytes) else 0
    if line["op"] in ("cas", "look"):
        found = reply.decode() if isinstance(reply, bytes) else ""
        if found and found == line.get("value"):
            return line["old"]
        return found if line["op"] == "look" or found == line["old"] or line["identity"] or tries == 1 else None
    if isinstance(reply, list):
        return [it.decode() for it in reply]
    return reply.decode() if isinstance(reply, bytes) else reply


def text_sizes(shards: tuple[str, ...], largest: int, dice: random.Random) -> dict[str, list[int]]:
    """The sizes of each shard's texts: the first shard has `largest` bytes, each next one a third of that, as long as this is more than one text; the
    others have one of any size."""
    sizes, left = {}, largest
    for shard in shards:
        if left > LONGEST_TEXT:
            sizes[shard] = [LONGEST_TEXT] * (left // LONGEST_TEXT)
            left //= 3
        else:
            sizes[shard] = [int(LEAST_TEXT * (min(largest, LONGEST_TEXT) / LEAST_TEXT) ** dice.random())]
    return sizes


@dataclass(frozen=True)
class Load:
    """How much is asked for."""

    shards: tuple[str, ...]
    clients: int = 16
    keys: int = 2
    reads: float = 0.3
    stray: float = 0.02
    pause: float = 0.0
    # (who reads anything anywhere all the time, and mostly hears that it is not there)
    scouts: int = 2
    # (how many clients never rest, and the file that names the shards which they use, each in a line)
    hot_clients: int = 0
    moving: str = ""
    # (how many clients ask at times of their own, and how often each does in a second)
    open_clients: int = 0
    rate: float = 20.0
    # (how many clients compare and set registers)
    comparers: int = 2
    # (how many bytes of text a shard has at most; 0: there are no texts)
    largest: int = 0
    # (how long a client waits for one server's reply before it asks again)
    attempt: float = 3.0
    seed: int = 1
    # (so that values and identities of several generators, or of several runs, differ)
    name: str = "c"


class Generator:
    """Clients that run until they are stopped."""

    def __init__(self, cluster: Cluster, load: Load, history: TextIO) -> None:
        self.cluster, self.load, self.history = cluster, load, history
        self.published = PublishedMap(cluster)
        self.is_stopped = False
        self.requests = self.failures = self.scouted = 0
        self.slowest = 0.0
        self.waits: list[float] = []
        self.routers: list[Router] = []
        # The shards that are being moved.
        self.moving: tuple[str, ...] = ()

    async def run(self, seconds: float) -> None:
        """Runs all clients for so long, and reads every list at the end."""
        await self.run_until(asyncio.Event(), seconds)

    async def run_until(self, stopping: asyncio.Event, seconds: float = 0) -> None:
        """Runs all clients until the event is set or the time is over, if it is not 0, and reads every list at the
        end."""
        watching = asyncio.create_task(self.published.watch())
        load = self.load
        following = asyncio.create_task(self.follow_moves())
        clients = [asyncio.create_task(self.client(it, load.pause)) for it in range(load.clients)]
        clients += [asyncio.create_task(self.client(load.clients + it, 0.0, is_hot=True)) for it in range(load.hot_clients)]
        clients += [asyncio.create_task(self.open_client(it)) for it in range(load.open_clients)]
        clients += [asyncio.create_task(self.scout(it)) for it in range(load.scouts)]
        clients += [asyncio.create_task(self.comparer(it)) for it in range(load.comparers)]
        clients += [asyncio.create_task(self.writer())] if load.largest else []
        try:
            await asyncio.wait_for(stopping.wait(), seconds or None)
        except TimeoutError:
            pass
        self.is_stopped = True
        await asyncio.gather(*clients)
        await self.read_all()
        watching.cancel()
        following.cancel()

    def router(self, dice: random.Random) -> Router:
        """A client's router."""
        self.routers.append(Router(self.cluster, self.published, dice, self.load.stray))
        return self.routers[-1]

    async def follow_moves(self) -> None:
        """Reads again and again which shards are being moved."""
        while self.load.moving:
            try:
                self.moving = tuple(Path(self.load.moving).read_text().split())
            except OSError:
                pass
            await asyncio.sleep(0.1)

    async def client(self, number: int, pause: float, is_hot: bool = False) -> None:
        """One client: one request after the other, if it is hot for shards that are being moved."""
        dice = random.Random(f"{self.load.seed} {number}")
        router, name, count = self.router(dice), f"{self.load.name}{number}", 0
        while not self.is_stopped:
            count += 1
            await self.ask_once(router, dice, name, count, is_hot)
            if pause:
                await asyncio.sleep(dice.random() * 2 * pause)
        router.close()

    async def ask_once(self, router: Router, dice: random.Random, name: str, count: int, is_hot: bool) -> None:
        """Pushes to a list, or reads one, if the client is hot of a shard that is being moved."""
        shard = dice.choice(self.moving if is_hot and self.moving else self.load.shards)
        key = f"{shard}:k{dice.randrange(self.load.keys)}"
        if dice.random() < self.load.reads:
            await self.ask(router, name, shard, {"op": "read", "shard": shard, "key": key}, None, "LRANGE", key, "0", "-1")
        else:
            await self.push(router, name, shard, key, f"{name}-{count}")

    async def open_client(self, number: int) -> None:
        """A client that asks for shards that are being moved, at times of its own, whether or not it got replies."""
        dice, name = random.Random(f"{self.load.seed} open {number}"), f"{self.load.name}-open{number}"
        router, count = self.router(dice), 0
        asking: set[asyncio.Task[None]] = set()
        while not self.is_stopped:
            await asyncio.sleep(dice.expovariate(self.load.rate))
            if len(asking) < MOST_UNANSWERED:
                count += 1
                task = asyncio.create_task(self.ask_once(router, dice, name, count, True))
                asking.add(task)
                task.add_done_callback(asking.discard)
        await asyncio.gather(*asking)
        router.close()

    async def comparer(self, number: int) -> None:
        """One of the clients that compare and set the same register for a second, each with values of its own. Every other request has no identity: if it
        came twice, the second time would change nothing."""
        dice, name = random.Random(f"{self.load.seed} compare {number}"), f"{self.load.name}-compare{number}"
        router, count, known = self.router(dice), 0, dict.fromkeys(self.load.shards, "")
        while not self.is_stopped:
            shards, count = self.moving or self.load.shards, count + 1
            shard = shards[int(time.monotonic()) % len(shards)]
            old, value = known[shard], f"{name}-{count}"
            if old and dice.random() < DELETES:
                value = ""
            identity = f"{name}-{count}" if count % 2 or not value else None
            line = {"op": "cas", "shard": shard, "key": f"{shard}:r", "old": old, "value": value, "identity": identity}
            found = await self.ask(router, name, shard, line, identity, "CAS", f"{shard}:r", old, value)
            known[shard] = value if found == old else str(found if found is not None else await self.look(router, name, shard) or "")
            await asyncio.sleep(dice.random() * 2 * max(0.02, self.load.pause))
        router.close()

    async def look(self, router: Router, name: str, shard: str, **more: bool) -> object:
        """What a register has; None if there is no reply."""
        line = {"op": "look", "shard": shard, "key": f"{shard}:r", **more}
        return await self.ask(router, name, shard, line, None, "GET", f"{shard}:r", seconds=30 if more else 10)

    async def writer(self) -> None:
        """The client that writes the shards' texts: all of them once, and then one anew now and then, and reads one."""
        dice, name = random.Random(f"{self.load.seed} texts"), f"{self.load.name}-writer"
        sizes = self.text_keys()
        router, numbers = self.router(dice), dict.fromkeys(sizes, 0)
        waiting = list(sizes)
        while not self.is_stopped:
            key = waiting.pop() if waiting else dice.choice(list(sizes))
            numbers[key] += 1
            await self.set_text(router, name, key, numbers[key], sizes[key], dice)
            if not waiting:
                await asyncio.sleep(dice.random() * RARELY)
                await self.get_text(router, name, dice.choice(list(sizes)))
        router.close()

    def text_keys(self) -> dict[str, int]:
        """The keys of all texts, with their sizes."""
        sizes = text_sizes(self.load.shards, self.load.largest, random.Random(f"{self.load.seed} sizes")) if self.load.largest else {}
        return {f"{shard}:text{number}": size for shard, its in sizes.items() for number, size in enumerate(its)}

    async def set_text(self, router: Router, name: str, key: str, number: int, size: int, dice: random.Random) -> None:
        """Writes a text."""
        shard = key.partition(":")[0]
        line = {"op": "set", "shard": shard, "key": key, "value": number, "bytes": size}
        await self.ask(router, name, shard, line, f"{name}-{key}-{number}", "SET", key, f"{number}:{dice.randbytes(size // 2).hex()}", seconds=30)

    async def get_text(self, router: Router, name: str, key: str, **more: bool) -> object:
        """Reads a text; returns its number, None if there is no reply."""
        shard = key.partition(":")[0]
        return await self.ask(router, name, shard, {"op": "get", "shard": shard, "key": key, **more}, None, "GET", key, seconds=30)

    async def scout(self, number: int) -> None:
        """Reads any shard at any server. Who answers has to have the right to, and to have all that was
        acknowledged."""
        dice, name = random.Random(f"{self.load.seed} scout {number}"), f"{self.load.name}-scout{number}"
        router, servers = self.router(dice), sorted(self.cluster.servers)
        while not self.is_stopped:
            shard, server = dice.choice(self.load.shards), dice.choice(servers)
            key = f"{shard}:k{dice.randrange(self.load.keys)}"
            line = {"client": name, "op": "read", "shard": shard, "key": key, "start": time.monotonic_ns()}
            try:
                async with asyncio.timeout(1.0):
                    reply = await router.call(server, ("LRANGE", key, "0", "-1"))
                self.tell(line | {"reply": [it.decode() for it in reply]})
                self.scouted += 1
            except (OSError, TimeoutError, ErrorReply):
                pass
            await asyncio.sleep(dice.random() * 2 * max(0.02, self.load.pause))
        router.close()

    async def push(self, router: Router, name: str, shard: str, key: str, value: str) -> None:
        """Pushes a value, which is the request's identity as well."""
        await self.ask(router, name, shard, {"op": "push", "shard": shard, "key": key, "value": value}, value, "RPUSH", key, value)

    async def ask(self, router: Router, name: str, shard: str, line: dict, identity: str | None, *command: str, seconds: float = 10) -> object:
        """One request, and its line of history; returns the reply as history has it, None if there is none, or it is unclear."""
        start = time.monotonic_ns()
        line = {"client": name, **line, "start": start}
        self.requests += 1
        sent = router.figures.sent
        try:
            reply = await router.request(shard, identity, *command, seconds=seconds, attempt=self.load.attempt)
            told = told_of(line, reply, router.figures.sent - sent)
            line |= {"unclear": True} if told is None else {"reply": told}
        except TimeoutError:
            self.failures += 1
        except ErrorReply as error:
            self.failures += 1
            line["error"] = str(error)
        wait = (self.tell(line) - start) / 1e9
        self.waits.append(wait)
        self.slowest = max(self.slowest, wait)
        return line.get("reply")

    def tell(self, line: dict) -> int:
        """Writes a line of history, and returns its end."""
        line["end"] = time.monotonic_ns()
        self.history.write(text_of(line) + "\n")
        return line["end"]

    async def read_all(self) -> None:
        """Reads everything, for the checkers."""
        router = self.router(random.Random(0))
        router.stray = 0
        texts = defaultdict(list)
        for key in self.text_keys():
            texts[key.partition(":")[0]].append(key)
        await asyncio.gather(*(self.read_shard(router, it, texts[it]) for it in self.load.shards))
        router.close()
        self.history.flush()

    async def read_shard(self, router: Router, shard: str, texts: list[str]) -> None:
        """Reads all of a shard, up to the first request that has no reply in time: one that nobody serves does not hold the end up for longer than
        one request may take."""
        replies = await asyncio.gather(*(self.read_key(router, shard, number) for number in range(self.load.keys)))
        if None not in replies and self.load.comparers:
            replies.append(await self.look(router, "end", shard, final=True))
        for key in texts:
            if None not in replies:
                replies.append(await self.get_text(router, "end", key, final=True))

    async def read_key(self, router: Router, shard: str, number: int) -> object:
        """Reads one list of a shard."""
        key = f"{shard}:k{number}"
        line = {"op": "read", "shard": shard, "key": key, "final": True}
        return await self.ask(router, "end", shard, line, None, "LRANGE", key, "0", "-1", seconds=30)

    def figures(self) -> dict:
        """What there was."""
        total = Figures()
        for router in self.routers:
            for name, value in asdict(router.figures).items():
                setattr(total, name, getattr(total, name) + value)
        waits = sorted(self.waits) or [0.0]
        return {"requests": self.requests, "failures": self.failures, "scouted": self.scouted, "slowest": round(self.slowest, 3),
                "median": round(waits[len(waits) // 2], 4), "p99": round(waits[len(waits) * 99 // 100], 4), **asdict(total)}
