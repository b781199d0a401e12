"""Controllers that are killed or stopped, and reopenings before what they have written arrives."""
from __future__ import annotations

import asyncio
import signal
import time

from cluster.controllers.etcd import encoded
from cluster.launch.operator import NoLeader

from .members import MemberStory
from .reopenings import ReopeningStory, without

# More bytes than a transaction of etcd may have.
TOO_MUCH = 2_000_000
# What a transaction has that writes an entry of the map: its path, and `/map/` as the gateway of etcd wants it.
ENTRY_WRITTEN = ["/v3/kv/txn", encoded("/map/s")[:7]]


class LeaderStory(MemberStory, ReopeningStory):
    """What happens to controllers, and to what they write."""

    # Kills.

    async def kill_leader(self) -> None:
        """Kills the leading controller, each second time in a write of the map, and starts it again."""
        async with self.stopping:
            leader = await self.leader()
            if leader is None:
                return
            if self.dice.random() < 0.5:
                await self.kill_at_once()
                return
            async with self.slowed(f"etcd {leader} "):
                await self.wait_for_publication()
                await self.kill_at_once()

    async def kill_at_once(self) -> None:
        """Kills the leading controller as it is, and starts it again."""
        state = await self.operator.state()
        leader = state.get("name")
        if leader is None:
            return
        self.tell(f"kill -9 {leader}, which leads")
        self.counts["leaders killed with orders outstanding"] += bool(state.get("orders"))
        self.counts["leaders killed in a write of the map"] += any(it["what"].startswith("publish") for it in state.get("orders", []))
        # (its own counts end with it)
        self.counts.update({what: count for what, count in state["counts"].items() if " " in what})
        await self.cluster.processes[leader].kill()
        self.deaths.append(time.monotonic_ns())
        self.counts["leaders killed"] += 1
        try:
            self.failovers.append(await self.wait_for_leader(leader))
            self.counts["failovers"] += 1
            self.tell(f"{await self.leader()} leads after {self.failovers[-1]:.1f} s")
        finally:
            await self.cluster.processes[leader].start()

    async def wait_for_leader(self, other_than: str) -> float:
        """Waits until another one leads, and returns how many seconds that took. Raises NoLeader if nobody comes to."""
        begun = time.monotonic()
        while (await self.leader()) in (None, other_than):
            if time.monotonic() - begun > self.operator.patience:
                raise NoLeader(f"no other controller leads {self.operator.patience:g} s after {other_than} was killed")
            await asyncio.sleep(0.1)
        return time.monotonic() - begun

    async def wait_for_publication(self, seconds: float = 4.0) -> None:
        """Waits until the leader has a write of the map under way, for some seconds at most."""
        until = time.monotonic() + seconds
        while time.monotonic() < until:
            if any(it["what"].startswith("publish") for it in (await self.operator.state()).get("orders", [])):
                break
            await asyncio.sleep(0.04)

    async def kill_controllers(self) -> None:
        """Kills all controllers at once, and starts them again."""
        names = self.cluster.shape.controller_names
        async with self.stopping:
            self.tell("kill -9 all controllers at once")
            self.deaths.append(time.monotonic_ns())
            await asyncio.gather(*(self.cluster.processes[it].kill() for it in names))
            self.counts["crashes of all controllers at once"] += 1
            await self.cluster.processes.start(*names)

    async def lose_answers_of_etcd(self) -> None:
        """Loses what etcd answers to the leading controller, which does not know whether its lines are stored."""
        leader = await self.leader()
        if leader is None:
            return
        self.tell(f"answers of etcd to {leader}, which leads, are lost")
        async with self.muted(f"etcd {leader} "):
            await asyncio.sleep(self.dice.uniform(0.5, 2.0) * self.cluster.leading)
        self.counts["leaders without etcd's answers"] += 1

    async def ask_too_much(self) -> None:
        """Sends the leading controller a line that is larger than etcd takes, once."""
        leader = await self.leader()
        if leader is None:
            return
        begun = time.monotonic()
        line = {"do": "begin", "plan": {"budget": 1, "streams": []}, "name": "x" * TOO_MUCH}
        reply = await self.operator.post(leader, "/do", line, 20.0)
        self.tell(f"a line of {TOO_MUCH} bytes to {leader}: {str(reply)[:80]} after {time.monotonic() - begun:.1f} s")
        self.counts["lines that were too large"] += 1

    # Writes of the map that come late.

    async def freeze_leader(self, reopens: bool = False) -> None:
        """Stops the leading controller, while it writes the map, until it is deposed; then lets it go on. Its write is held on its way until another one leads,
        and it hears late that its lease has ended. If it `reopens`, the next leader does, before the write arrives and that one goes on."""
        async with self.stopping:
            leader = await self.leader()
            if leader is not None:
                await self.freeze(leader, 2.0 * self.cluster.leading, reopens)

    async def freeze(self, leader: str, seconds: float, reopens: bool) -> None:
        """Stops a controller while it writes the map, and lets it go on."""
        try:
            async with self.held(ENTRY_WRITTEN, f"etcd {leader} "):
                await self.wait_for_held_write()
                self.tell(f"stop {leader}, which leads")
                self.cluster.processes[leader].signal(signal.SIGSTOP)
                await asyncio.sleep(seconds)
                if reopens:
                    await self.reopen(without(await self.state(), self.document, self.lost), [], f"{leader} does not answer", replaces=True)
                arrived, is_deposed = await self.writes_that_arrived(), await self.leader() not in (None, leader)
            await asyncio.sleep(0.5)
            self.counts["map writes that a deposed leader had sent"] += is_deposed * (await self.writes_that_arrived() - arrived)
        finally:
            async with self.held(["/v3/lease/"], f"etcd {leader} "):
                self.cluster.processes[leader].signal(signal.SIGCONT)
                await asyncio.sleep(1.5)
        self.counts["leaders stopped"] += 1

    async def wait_for_held_write(self, seconds: float = 8.0) -> None:
        """Waits until one more write of the map is held, for some seconds at most."""
        held, until = await self.proxies_count("etcd held"), time.monotonic() + seconds
        while await self.proxies_count("etcd held") == held and time.monotonic() < until:
            await asyncio.sleep(0.05)

    async def writes_that_arrived(self) -> int:
        """How many writes of the map have arrived that were held."""
        return await self.proxies_count("etcd held and then done") + await self.proxies_count("etcd held and then refused")

    async def reopen_behind_leader(self) -> None:
        """Stops the leading controller while it writes the map, and reopens before it goes on: what it writes then is of an epoch before."""
        async with self.reopening:
            await self.freeze_leader(reopens=True)

    async def reopen_before_write(self) -> None:
        """Holds writes of the map on their way to etcd, and reopens before they arrive: they come late, behind the fence of the map."""
        async with self.reopening:
            refused = await self.proxies_count("etcd held and then refused")
            document = without(await self.state(), self.document, self.lost)
            async with self.held(ENTRY_WRITTEN, "etcd k"):
                await self.wait_for_held_write()
                reopening = asyncio.create_task(self.reopen(document, [], "writes of the map do not arrive"))
                await self.wait_until_fenced(None)
            await reopening
            self.counts["writes of the map refused behind a fence"] += await self.proxies_count("etcd held and then refused") - refused
