"""What all parts of a run's story use: who leads, what is recorded, and what befalls messages on links between processes."""
from __future__ import annotations

import asyncio
import random
import time
from collections import Counter
from collections.abc import AsyncIterator, Callable
from contextlib import asynccontextmanager

from cluster.launch.cluster import LocalCluster
from cluster.launch.moving import Mover
from cluster.launch.operator import Operator
from cluster.launch.shape import document_of
from cluster.launch.shown import Shown
from cluster.wire import Address, Channel, Failed

from smplan.control import Line


# For how many seconds an alarm is waited for.
TELLING = 10.0


class Story:
    """Does harm to a cluster, by a seed, and what an operator does afterwards. The mover moves replicas meanwhile, and is told what to leave
    alone."""

    def __init__(self, cluster: LocalCluster, operator: Operator, mover: Mover, seed: int, tell: Callable[[str], None]) -> None:
        self.cluster, self.operator, self.mover, self.tell = cluster, operator, mover, tell
        self.dice = random.Random(f"story {seed}")
        self.counts: Counter[str] = Counter()
        self.failovers: list[float] = []
        # When leaders were killed.
        self.deaths: list[int] = []
        self.lost: set[str] = set()
        # Those of them that were killed: the operator knows that they are off.
        self.off: set[str] = set()
        # The shards that a server had, or was to take, which was lost, and since when.
        self.forsaken: dict[str, int] = {}
        # When servers went down under a permit, came up or were given up, for the checkers.
        self.permits: list[Line] = []
        # The servers that were to forget their slots.
        self.forgetful: set[str] = set()
        # Who takes servers away holds the first, who reopens the second; who gives a server up holds both, in this order.
        self.restarting = asyncio.Lock()
        self.reopening = asyncio.Lock()
        # Who kills or stops controllers holds it: one that is started again would lead while what it writes is held.
        self.stopping = asyncio.Lock()
        self.names = 0
        # What the map had shown when etcd's history was compacted last, and at which revision that was.
        self.shown: Shown = {}
        self.compacted_at = 0
        # Why the last reopening was refused.
        self.refusal: Line | None = None
        self.document = document_of(cluster.shape)

    @property
    def alive(self) -> list[str]:
        """The servers that are not given up."""
        return [it for it in self.cluster.shape.server_names if it not in self.lost]

    def name(self, what: str) -> str:
        """A new name for a command."""
        self.names += 1
        return f"{what}-{self.names}"

    # What is recorded, and what a server tells.

    async def leader(self) -> str | None:
        """Who leads now."""
        return await self.operator.find_leader()

    async def state(self) -> Line:
        """What is recorded, nothing if no epoch is in force."""
        state = (await self.operator.ask({"do": "state"})).get("state", {})
        return state if state.get("is") == "open" else {}

    async def tell_server(self, name: str, **message: Line) -> Line:
        """Sends a server a message without proxies; returns nothing if there is no answer."""
        channel = Channel(Address("127.0.0.1", self.cluster.ports[name].control))
        try:
            return await channel.ask(5.0, **message)
        except Failed:
            return {}
        finally:
            channel.close()

    async def wait_until_told(self, what: str, about: set[str], seconds: float = TELLING) -> bool:
        """Waits until some controller's page gives an alarm about one of these; tells which one, and after how long, and whether one does in time."""
        begun = time.monotonic()
        while time.monotonic() - begun < seconds:
            for name in self.operator.pages:
                page = await self.operator.post(name, "/state", None) or {}
                for alarm in page.get("alarms", []):
                    if alarm["about"] in about:
                        self.tell(f"{what}: told after {time.monotonic() - begun:.1f} s, by {name}: {alarm['about']} {alarm['what']}: {alarm['text']}")
                        return True
            await asyncio.sleep(0.1)
        self.tell(f"{what}: nobody told in {seconds:.0f} s")
        return False

    # Links between processes.

    @asynccontextmanager
    async def slowed(self, *links: str, longest: float = 0.5, **more: float) -> AsyncIterator[None]:
        """Has every message of links of one kind come late, and what more is told befall them, while something is done."""
        usual = {"delay": 0.0, "longest": 0.3, "drop": 0.0, "shortest": 0.0, **self.cluster.proxies.rates.get(links[0].partition(" ")[0], {})}
        await self.cluster.tell_proxies(links=links, rates={"delay": 1.0, "longest": longest, **more})
        try:
            yield
        finally:
            await self.cluster.tell_proxies(links=links, rates=usual)

    @asynccontextmanager
    async def cut(self, *links: str) -> AsyncIterator[None]:
        """Lets nothing through links while something is done."""
        await self.cluster.tell_proxies(links=links, cut=True)
        try:
            yield
        finally:
            await self.cluster.tell_proxies(links=links, cut=False)

    @asynccontextmanager
    async def muted(self, *links: str) -> AsyncIterator[None]:
        """Lets nothing back through links while something is done: what is asked arrives, and the answer is lost."""
        await self.cluster.tell_proxies(links=links, mute=True)
        try:
            yield
        finally:
            await self.cluster.tell_proxies(links=links, mute=False)

    @asynccontextmanager
    async def holed(self, *links: str) -> AsyncIterator[None]:
        """Lets nothing through links either way while something is done; their connections stand."""
        await self.cluster.tell_proxies(links=links, hole=True)
        try:
            yield
        finally:
            await self.cluster.tell_proxies(links=links, hole=False)

    @asynccontextmanager
    async def held(self, texts: list[str], *links: str) -> AsyncIterator[None]:
        """Holds messages that have these texts on links while something is done."""
        await self.cluster.tell_proxies(links=links, hold=texts)
        try:
            yield
        finally:
            await self.cluster.tell_proxies(links=links, hold=[])

    @asynccontextmanager
    async def orders_again(self) -> AsyncIterator[None]:
        """Has all orders that are sent while something is done come once more behind it."""
        links = self.orders_to(*self.cluster.shape.server_names)
        await self.cluster.tell_proxies(links=links, orders=True)
        try:
            yield
        finally:
            await self.cluster.tell_proxies(links=links, orders=False)

    async def proxies_count(self, what: str) -> int:
        """How often the proxies have done this."""
        return (await self.cluster.tell_proxies(counts=True))["counts"].get(what, 0)

    def orders_to(self, *servers: str) -> list[str]:
        """The links on which controllers speak to servers."""
        return [f"order {it} {server}" for server in servers for it in self.cluster.shape.controller_names]
