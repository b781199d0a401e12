"""Servers that are given up for good, also while others lag, and what the operator does then."""
from __future__ import annotations

import asyncio
import time
from collections import Counter
from collections.abc import Iterator
from contextlib import contextmanager

from smplan.control import Line

from cluster.launch.shape import fewest

from .reopenings import ReopeningStory, without

# For how many seconds a secondary does not hear its primary, so that writes go on without it.
ABSENT = 4.5
# Within how many seconds a server that is killed is to be up again, so that writes do not go on without it, and how often this is tried.
IN_TIME, RESTARTS = 2.0, 3
# A shard that a server has, its state and its last write.
Replica = tuple[str, str, int]


def has_all(replicas: list[Replica], written: list[Replica]) -> bool:
    """Tells whether some replicas have what some others of their shards have. (One that was the primary until now counts, too.)"""
    roles, positions = ("primary", "secondary"), Counter[str]()
    for shard, state, position in written:
        positions[shard] = max(positions[shard], position if state in roles else 0)
    return all(position >= positions[shard] for shard, state, position in replicas if state in roles)


class LossStory(ReopeningStory):
    """Servers that are lost."""

    async def wait_until_caught_up(self, seconds: float = 20.0) -> bool:
        """Waits, twice, until all replicas have what was written before, and tells whether they do. From then on writes wait for all of them."""
        until = time.monotonic() + seconds
        for _ in range(2):
            written = await self.replicas(self.alive)
            while written is None or not await self.have(written):
                if time.monotonic() > until:
                    return False
                await asyncio.sleep(0.2)
                written = written or await self.replicas(self.alive)
        return True

    async def have(self, written: list[Replica]) -> bool:
        """Whether all replicas have what was written."""
        replicas = await self.replicas(self.alive)
        return replicas is not None and has_all(replicas, written)

    async def wait_for_replicas(self, servers: list[str], seconds: float = 20.0) -> bool:
        """Waits until all replicas have what these servers have, and tells whether they do. Writes did not wait for a server that was away for long:
        if another one were lost now, acknowledged writes would be, too."""
        until = time.monotonic() + seconds
        while time.monotonic() < until:
            written, replicas = await self.replicas(servers), await self.replicas(self.alive)
            if written is not None and replicas is not None and has_all(replicas, written):
                return True
            await asyncio.sleep(0.2)
        return False

    async def replicas(self, servers: list[str]) -> list[Replica] | None:
        """The replicas as these servers have them, or None if one of them does not answer."""
        audits = [(await self.tell_server(name, audit={})).get("audit") for name in servers]
        if not all(audits):
            return None
        return [(it["shard"], it["state"], it["position"]) for audit in audits for it in audit.get("slots", [])]

    async def may_lose(self) -> bool:
        """Waits until a server may be given up: each shard has all its replicas, and, unless each write is at two servers anyway, all of them have all writes. Whether it
        may."""
        seconds = max(20.0, self.operator.patience / 4)
        is_whole = await self.wait_until_whole(seconds)
        if is_whole and (fewest(self.cluster.shape) > 1 or await self.wait_until_caught_up(seconds)):
            return True
        self.tell(f"no server is given up: {'a replica lacks writes' if is_whole else 'some shard lacks a replica'}")
        self.counts["losses left out"] += 1
        return False

    async def kill_at_rest(self, server: str, seconds: float = 4.0) -> bool:
        """Kills a server once nobody else lacks a write that it executed, and lets it acknowledge none meanwhile: a secondary that it has ceased to
        wait for would not have it. The result is whether this happened."""
        async with self.cut(f"client clients {server}"):
            if not await self.wait_for_replicas([server], seconds):
                return False
            await self.cluster.processes[server].kill()
            return True

    async def kill_for_good(self, server: str, seconds: float = 4.0) -> bool:
        """Kills a server at rest, and notes that it is given up."""
        if not await self.kill_at_rest(server, seconds):
            return False
        self.off.add(server)
        self.note_lost(server)
        return True

    def note_lost(self, server: str) -> None:
        """Notes for the checkers that a server is given up now."""
        self.permits.append({"server": server, "t": time.monotonic_ns(), "kind": "lost"})

    def give_up(self, server: str, state: Line) -> None:
        """Gives a server up: nothing is moved to it, and requests of what it has may fail from now on."""
        self.lost.add(server)
        self.mover.avoided.add(server)
        self.forsake(server, state)

    def forsake(self, server: str, state: Line) -> None:
        """Requests of the shards that a server has may fail from now on."""
        now = time.monotonic_ns()
        for shard in state.get("shards", []):
            if any(cell["server"] == server for cell in shard["cells"]):
                self.forsaken.setdefault(shard["shard"], now)

    async def lose_lagging(self) -> None:
        """Gives a server up for good, under load, while all who follow it are late: what it has acknowledged they have all the same."""
        async with self.restarting, self.reopening:
            if not await self.may_lose():
                return
            state = await self.state()
            server = self.most_primaries(state)
            if server is None:
                return
            with self.left_alone(server, state):
                await self.lose_while_late(server)
            self.counts["primaries lost while replicas lag"] += 1
            await self.reopen(without(await self.state(), self.document, self.lost), [server], f"{server} died")

    async def lose_while_late(self, server: str) -> None:
        """Kills a server for good while all who follow it are late, though not for so long that writes go on without them."""
        async with self.slowed(*(f"peer {it} {server}" for it in self.alive if it != server), shortest=0.6, longest=0.2, drop=0.0):
            await asyncio.sleep(1.5)
            await self.lose(server, "which others follow late")

    @contextmanager
    def left_alone(self, server: str, state: Line, are_used: bool = True) -> Iterator[None]:
        """Has the shards whose primary a server has stay there while something is done. Clients use them as if they were moved, unless they are not to."""
        shards = {it["shard"] for it in self.primaries(state, server)} - self.mover.busy
        self.mover.busy |= shards
        self.mover.passed |= set() if are_used else shards
        try:
            yield
        finally:
            self.mover.busy -= shards
            self.mover.passed -= shards

    @contextmanager
    def avoided(self, server: str) -> Iterator[None]:
        """Has nothing moved to a server while something is done."""
        self.mover.avoided.add(server)
        try:
            yield
        finally:
            self.mover.avoided.discard(server)

    async def lose_beside_restart(self) -> None:
        """Gives a server up for good, under load, while a secondary of its shards that was restarted a moment ago has yet to catch up."""
        async with self.restarting, self.reopening:
            if not await self.may_lose():
                return
            state = await self.state()
            server = self.most_primaries(state)
            follower = self.first_follower(state, server)
            if server is None or follower is None:
                return
            with self.left_alone(server, state):
                async with self.slowed(f"peer {follower} {server}", shortest=0.6, longest=0.2, drop=0.0):
                    if not await self.restart_in_time(follower):
                        self.counts["losses left out"] += 1
                        return
                    await self.lose(server, f"while {follower}, which was restarted, catches up")
            self.counts["primaries lost while a restarted replica catches up"] += 1
            await self.reopen(without(await self.state(), self.document, self.lost), [server], f"{server} died")

    async def restart_in_time(self, name: str) -> bool:
        """Kills a server, and starts it again within two seconds, for which a busy machine may need some tries; tells whether it did. (Writes go on
        without a secondary that has been away for three seconds: the loss of the primary would take them along.)"""
        for _ in range(RESTARTS):
            await self.cluster.processes[name].kill()
            begun = time.monotonic()
            await self.cluster.processes[name].start()
            if time.monotonic() - begun <= IN_TIME:
                return True
            if not await self.wait_until_caught_up():
                return False
        return False

    async def lose_beside_absent(self) -> None:
        """Gives a secondary up for good, under load, while writes go on without another one of the shard."""
        await self.lose_while_absent(False)

    async def lose_primary_beside_absent(self) -> None:
        """Gives a primary up for good, under load, while writes go on without one of its two secondaries: the other one has all."""
        await self.lose_while_absent(True)

    async def lose_while_absent(self, is_primary: bool) -> None:
        """Gives a server up while a secondary has been away for so long that writes go on without it, and reopens. That one hears of other servers a second later."""
        async with self.restarting, self.reopening:
            if not await self.may_lose():
                return
            state = await self.state()
            server = self.most_primaries(state)
            followers = self.followers(state, server)
            if server is None or len(followers) < 2:
                return
            absent, lost = followers[0], server if is_primary else followers[1]
            with self.left_alone(server, state, are_used=False), self.avoided(absent):
                async with self.cut(f"peer {absent} "):
                    await asyncio.sleep(ABSENT)
                    await self.lose(lost, f"while {absent} hears no server")
                    await self.reopen(without(await self.state(), self.document, self.lost), [lost], f"{lost} died")
                    await asyncio.sleep(1.0)
            self.counts["servers lost while another replica was away"] += 1

    async def lose(self, server: str, how: str) -> None:
        """Kills a server for good as it is."""
        self.tell(f"kill -9 {server} for good, {how}")
        self.give_up(server, await self.state())
        self.note_lost(server)
        await self.cluster.processes[server].kill()
        self.off.add(server)
        self.counts["servers lost under load"] += 1

    def most_primaries(self, state: Line) -> str | None:
        """The server that has most primaries, none if no epoch is in force."""
        counts = Counter(cell["server"] for shard in state.get("shards", []) for cell in shard["cells"] if cell["state"] == "primary")
        return max(sorted(set(counts) - self.lost), key=lambda it: counts[it], default=None)

    def primaries(self, state: Line, server: str) -> list[Line]:
        """The shards whose primary a server has."""
        return [it for it in state.get("shards", []) if any(cell["server"] == server and cell["state"] == "primary" for cell in it["cells"])]

    def first_follower(self, state: Line, server: str | None) -> str | None:
        """A server that has a secondary of a shard whose primary a server has."""
        return next(iter(self.followers(state, server)), None)

    def followers(self, state: Line, server: str | None) -> list[str]:
        """The servers that have secondaries of the first shard whose primary a server has."""
        rows = [{cell["server"]: cell["state"] for cell in shard["cells"]} for shard in state.get("shards", [])]
        found = [[name for name, word in row.items() if word == "secondary"] for row in rows if row.get(server) == "primary"]
        return next((it for it in found if it), [])
