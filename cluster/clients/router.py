"""Sends requests to the servers that the published map names, and again, with the same identity, until there is a
reply."""
from __future__ import annotations

import asyncio
import random
import time
from collections import defaultdict
from dataclasses import dataclass

from ..resp import ErrorReply, Redis, Reply
from ..wire import Cluster
from .map import PublishedMap

# What is to be tried again: elsewhere, here after a moment, or anywhere, since nobody knows whether it was done.
AGAIN = ("NOTHERE", "TRYAGAIN", "LOST", "NotHere", "NotYet")


@dataclass
class Figures:
    """What the router has met."""

    sent: int = 0
    not_here: int = 0
    try_again: int = 0
    lost: int = 0
    strays: int = 0


class Router:
    """A client's way to the servers. `stray` is how often a request goes to any server first, map or not."""

    def __init__(self, cluster: Cluster, published: PublishedMap, dice: random.Random, stray: float = 0.0) -> None:
        self.cluster, self.published, self.dice, self.stray = cluster, published, dice, stray
        # The connections at rest: each carries one request at a time, and is closed if that has no reply.
        self.idle: dict[str, list[Redis]] = defaultdict(list)
        self.figures = Figures()

    async def request(self, shard: str, identity: str | None, *command: str, seconds: float = 10.0, attempt: float = 3.0) -> Reply:
        """A request's reply; raises TimeoutError if there is none in time."""
        deadline, pause = time.monotonic() + seconds, 0.01
        names = sorted(self.cluster.servers)
        while (left := deadline - time.monotonic()) > 0:
            server = self.published.entries.get(shard)
            if server is None or self.dice.random() < self.stray:
                server = self.dice.choice(names)
                self.figures.strays += 1
            asked_at = time.monotonic()
            self.figures.sent += 1
            try:
                parts = command if identity is None else ("DO", identity, *command)
                async with asyncio.timeout(min(left, attempt)):
                    return await self.call(server, parts)
            except (OSError, TimeoutError):
                self.figures.lost += 1
            except ErrorReply as error:
                if error.kind not in AGAIN:
                    raise
                self.count(error.kind)
                if error.kind == "NOTHERE":
                    await self.published.look(asked_at)
            await asyncio.sleep(self.dice.random() * pause)
            pause = min(pause * 2, 0.4)
        raise TimeoutError(f"no reply in {seconds} seconds")

    def count(self, kind: str) -> None:
        """Counts what was met."""
        self.figures.not_here += kind == "NOTHERE"
        self.figures.try_again += kind == "TRYAGAIN"
        self.figures.lost += kind == "LOST"

    async def call(self, server: str, parts: tuple[str, ...]) -> Reply:
        """One attempt at one server."""
        connection = await self.connection_to(server)
        try:
            reply = await connection.call(*parts)
        except ErrorReply:
            self.idle[server].append(connection)
            raise
        except BaseException:
            connection.close()
            raise
        self.idle[server].append(connection)
        return reply

    async def connection_to(self, server: str) -> Redis:
        """A connection to a server that carries nothing now."""
        idle, address = self.idle[server], self.cluster.servers[server].clients
        while idle:
            connection = idle.pop()
            if not connection.is_closed:
                return connection
        return await Redis.open_port(address.host, address.port)

    def close(self) -> None:
        """Ends all connections at rest."""
        for connection in (it for idle in self.idle.values() for it in idle):
            connection.close()
