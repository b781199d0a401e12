"""Whether a server was given up: what servers tell one another of the last reopening, and for how long one serves without a controller's answer."""
from __future__ import annotations

import asyncio
import time
from typing import TYPE_CHECKING

from ..wire import Channel, Failed, Message
from . import limits
from .shard import hexadecimal

if TYPE_CHECKING:
    from .server import Server


class Hearsay:
    """What a server tells with all that it says to others, and hears from them: its journal, and the reopening by which it has its slots."""

    def __init__(self, server: "Server") -> None:
        self.server, self.store = server, server.store

    def told(self) -> Message:
        """What it tells; nothing if it is Unknown."""
        store = self.store
        return {"heard": {"journal": hexadecimal(store.base.journal), "base": store.opened}} if store.base.known else {}

    def take(self, message: Message) -> None:
        """Hears what a message tells, as soon as no shard's lock is in the way."""
        if self.is_news(message):
            self.server.begin(self.hear(message))

    def is_news(self, message: Message) -> bool:
        """Whether a message names a later reopening of its journal than the one that it was fenced or settled at last. (One at which it is fenced
        will bring it its slots.)"""
        told, base = message.get("heard"), self.store.base
        return bool(told) and bool(base.known) and base.journal == int(told["journal"], 16) and base.number < told["base"]

    async def hear(self, message: Message) -> None:
        """Turns Unknown if it was left behind at a reopening that others were settled at."""
        if not self.is_news(message):
            return
        async with self.server.changing:
            if self.is_news(message):
                told = message["heard"]
                await self.server.heed_last(int(told["journal"], 16), told["base"], "a peer")

    async def ask_around(self) -> None:
        """Asks one other server after the other: one that was given up may have nobody left who follows it."""
        turn = 0
        while True:
            await asyncio.sleep(limits.PROBING)
            names = sorted(it for it in self.server.cluster.servers if it != self.server.name)
            if names and self.store.base.known:
                turn += 1
                await self.server.ask_peer(names[turn % len(names)], 1.0, hello={})


class Lease:
    """For how long a server serves without a controller's answer; for ever if it has no time. It counts from when it asked, so that who leads may
    give it up once this time is over, and somewhat more as clocks differ, since the last time when a controller answered it."""

    def __init__(self, server: "Server", seconds: float) -> None:
        self.server, self.seconds = server, seconds
        self.until = 0.0

    @property
    def is_over(self) -> bool:
        """Whether it may serve nobody now."""
        return self.seconds > 0 and time.monotonic() >= self.until

    async def keep(self) -> None:
        """Asks all controllers, again and again, and notes when the lease begins and when it is over."""
        was_over = True
        for address in self.server.cluster.controllers.values() if self.seconds else ():
            self.server.begin(self.ask_again(Channel(address)))
        while self.seconds:
            await asyncio.sleep(self.seconds / 20)
            if self.is_over != was_over:
                was_over = self.is_over
                self.server.store.note("lease-over" if was_over else "lease")

    async def ask_again(self, channel: Channel) -> None:
        """Asks one controller again and again: an answer or two may be lost."""
        while True:
            await self.ask(channel)
            await asyncio.sleep(self.seconds / 12)

    async def ask(self, channel: Channel) -> None:
        """Asks one controller whether the server may serve."""
        begun = time.monotonic()
        try:
            reply = await channel.ask(self.seconds / 6, serve={"server": self.server.name})
        except Failed:
            return
        if "serves" in reply:
            self.until = max(self.until, begun + self.seconds)
            self.server.hearsay.take(reply)
