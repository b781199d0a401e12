"""Servers that are away for a while, all at once, in part or under a permit amid a reopening, and servers whose disk is full or replaced."""
from __future__ import annotations

import asyncio
import os
import signal
import subprocess
import time
from collections.abc import AsyncIterator
from contextlib import asynccontextmanager

from smplan.control import Line

from cluster.launch.plans import plan_of, swap_stream
from cluster.launch.syncs import cut_back

from .losses import LossStory
from .reopenings import without
from .servers import ServerStory

# How long a server or its store is stopped, in seconds: shorter and longer than others wait for it.
STOPS = (1.0, 2.5, 4.5)
# For how many seconds a slow store runs between two stops.
RUNS = 0.3
# How many bytes a file may still grow when a disk is full.
LAST_BYTES = 3000
# How often the operator reopens so that a server with a new disk has nothing, if it does not tell in time that it has no slots.
TRIES = 3


class AbsenceStory(ServerStory, LossStory):
    """Servers that are away and come back."""

    # Several at once.

    async def crash_two(self) -> None:
        """Kills two servers at once, and starts them again with their slots."""
        await self.crash_together(2)

    async def crash_all(self) -> None:
        """Kills all servers at once, and starts them again with their slots."""
        await self.crash_together(len(self.alive))

    async def crash_together(self, count: int) -> None:
        """Kills some servers at once, and starts them again."""
        async with self.restarting:
            names = self.dice.sample(self.alive, min(count, len(self.alive)))
            self.tell(f"kill -9 {', '.join(sorted(names))} at once")
            await asyncio.gather(*(self.cluster.processes[it].kill() for it in names))
            self.counts["servers killed without leave"] += len(names)
            self.counts["crashes of all servers at once" if len(names) == len(self.alive) else "crashes of two servers at once"] += 1
            await asyncio.sleep(self.dice.uniform(0.2, 0.8))
            await self.cluster.processes.start(*names)

    # Stopped, or cut off in part.

    async def stop_server(self) -> None:
        """Stops a server with its store for a while: its connections stand, and nobody answers."""
        async with self.restarting:
            name, seconds = self.dice.choice(self.alive), self.dice.choice(STOPS)
            self.tell(f"stop {name} for {seconds:g} s")
            self.cluster.processes[name].signal_group(signal.SIGSTOP)
            try:
                await asyncio.sleep(seconds)
            finally:
                self.cluster.processes[name].signal_group(signal.SIGCONT)
            self.counts["servers stopped"] += 1

    async def stop_store(self) -> None:
        """Stops the store of a server three times, as a disk does that is slow now and then. The server itself runs on, and its primaries change roles
        with secondaries, while they are used."""
        async with self.restarting:
            name, state = self.dice.choice(self.alive), await self.state()
            self.tell(f"the disk of {name} is slow")
            with self.left_alone(name, state):
                for turn in range(3):
                    for shard in self.primaries(state, name)[turn:turn + 1]:
                        await self.take_primary(shard, name)
                    await self.stop_store_once(name, self.dice.uniform(0.3, 1.5))
            self.counts["stores stopped"] += 1

    async def stop_store_once(self, name: str, seconds: float) -> None:
        """Stops the store of a server for a moment, and lets it run for another one."""
        self.signal_store(name, signal.SIGSTOP)
        try:
            await asyncio.sleep(seconds)
        finally:
            self.signal_store(name, signal.SIGCONT)
        await asyncio.sleep(RUNS)

    @asynccontextmanager
    async def stopped_store(self, name: str) -> AsyncIterator[None]:
        """Stops the store of a server for a moment, in which something is begun: requests are at work by then."""
        stopping = asyncio.create_task(self.stop_store_once(name, self.dice.uniform(0.8, 1.2)))
        await asyncio.sleep(RUNS)
        try:
            yield
        finally:
            await stopping

    async def stop_two(self) -> None:
        """Stops two servers for longer than others wait for them, both secondaries of one shard if there is one."""
        async with self.restarting:
            rows = [[cell["server"] for cell in it["cells"] if cell["state"] == "secondary"] for it in (await self.state()).get("shards", [])]
            pairs = sorted({tuple(it[:2]) for it in rows if len(it) > 1 and not self.lost & set(it)})
            names = self.dice.choice(pairs) if pairs else self.dice.sample(self.alive, min(2, len(self.alive)))
            self.tell(f"stop {' and '.join(sorted(names))} for {STOPS[-1]:g} s")
            for name in names:
                self.cluster.processes[name].signal_group(signal.SIGSTOP)
            try:
                await asyncio.sleep(STOPS[-1])
            finally:
                for name in names:
                    self.cluster.processes[name].signal_group(signal.SIGCONT)
            self.counts["stops of two servers at once"] += 1

    def signal_store(self, name: str, number: int) -> None:
        """Sends a signal to a server's store alone."""
        for pid in self.stores(name):
            os.kill(pid, number)

    def stores(self, name: str) -> list[int]:
        """The process ids of a server's store: SQLite is in its own process."""
        running = self.cluster.processes[name].running
        if running is None or self.cluster.store == "sqlite":
            return [] if running is None else [running.pid]
        listed = subprocess.run(["ps", "-o", "pid=", "--ppid", str(running.pid)], stdout=subprocess.PIPE, text=True, check=False)
        return [int(it) for it in listed.stdout.split()]

    async def lose_answers(self) -> None:
        """Loses the answers to what a server asks of its peers, and to what controllers tell it: all of that arrives, and nobody hears so."""
        async with self.restarting:
            name = self.dice.choice(self.alive)
            self.tell(f"answers to {name}, and its answers to controllers, are lost")
            async with self.muted(f"peer {name} ", *self.orders_to(name)):
                await asyncio.sleep(self.dice.uniform(2.0, 5.0))
            self.counts["servers whose answers were lost"] += 1

    async def isolate_server(self) -> None:
        """Cuts a server off from servers and controllers, and not from clients."""
        async with self.restarting:
            name = self.dice.choice(self.alive)
            self.tell(f"{name} is cut off from all but clients")
            async with self.cut(f"peer {name} ", f"ask {name} ", *self.orders_to(name), *(f"peer {it} {name}" for it in self.alive if it != name)):
                await asyncio.sleep(self.dice.uniform(2.0, 5.0))
            self.counts["servers cut off from all but clients"] += 1

    async def black_hole(self) -> None:
        """Lets nothing through between a server and all but clients, while its connections stand: nobody hears that it is gone."""
        async with self.restarting:
            name = self.dice.choice(self.alive)
            self.tell(f"{name} is in a black hole")
            async with self.holed(f"peer {name} ", f"ask {name} ", *self.orders_to(name), *(f"peer {it} {name}" for it in self.alive if it != name)):
                await asyncio.sleep(self.dice.uniform(2.0, 5.0))
            self.counts["servers in a black hole"] += 1

    # Disks.

    async def fill_disk(self) -> None:
        """Lets the files of a server's store grow no more. The store ends, and the server with it; then it starts again with what it has."""
        async with self.restarting:
            name = self.dice.choice(self.alive)
            largest = max(it.stat().st_size for it in (self.cluster.directory / name).rglob("*"))
            self.tell(f"the disk of {name} is full")
            for pid in self.stores(name):
                subprocess.run(["prlimit", "--pid", str(pid), f"--fsize={largest + LAST_BYTES}:"], check=False)
            process, until = self.cluster.processes[name], time.monotonic() + 5
            while process.is_running and time.monotonic() < until:
                await asyncio.sleep(0.1)
            self.counts["servers whose disk was full"] += not process.is_running
            await process.kill()
            await process.start()

    async def cut_to_last_sync(self) -> None:
        """Kills a server and its store as they are, and cuts the store's log to what was synced last, as a disk does that loses power. Then it starts
        again."""
        if not self.cluster.notes_syncs:
            self.counts["logs that nobody cut, without a compiler or over SQLite"] += 1
            return
        async with self.restarting:
            name = self.most_primaries(await self.state()) or self.dice.choice(self.alive)
            await self.cluster.processes[name].kill()
            lost = cut_back(self.cluster.directory / name)
            self.tell(f"{name} loses power, and {lost} bytes of its log with it")
            self.counts["logs cut to their last sync"] += 1
            self.counts["bytes of logs that were not synced"] += lost
            await self.cluster.processes[name].start()

    async def replace_disk(self) -> None:
        """A server's disk is replaced, with slots and data: it is killed once others have all that it has, starts with nothing, and a reopening gives
        its replicas up."""
        async with self.restarting, self.reopening:
            if not await self.may_lose():
                return
            name = self.dice.choice(self.alive)
            state = await self.state()
            if not state or not await self.kill_at_rest(name):
                return
            self.tell(f"the disk of {name} is replaced")
            self.counts["disks replaced"] += 1
            self.note_lost(name)
            self.forsake(name, state)
            self.keep_old(name)
            await self.cluster.processes[name].start()
            await self.reopen_emptied(name, state)

    async def replace_disk_under_permit(self) -> None:
        """The disk of a server is replaced while it is down under a permit: it has no data of what it is to serve, takes no slots, and says so; then
        a reopening gives its replicas up."""
        async with self.restarting, self.reopening:
            name = self.most_primaries(await self.state()) if await self.may_lose() else None
            permit = None if name is None else await self.approved(name, self.name("rollout"))
            if name is None or permit is None:
                return
            state = await self.state()
            self.note_permit(name, True)
            if not await self.kill_at_rest(name):
                if await self.is_up(name, permit):
                    self.note_permit(name, False)
                return
            self.note_lost(name)
            self.forsake(name, state)
            self.keep_old(name)
            await self.cluster.processes[name].start()
            self.counts["disks replaced under a permit"] += 1
            what = f"the disk of {name} is replaced while it is down under permit {permit}"
            if not await self.wait_until_told(what, {name}, self.operator.patience / 4):
                self.counts["disks that nobody told"] += 1
            await self.reopen_emptied(name, state)
            if await self.is_up(name, permit):
                self.note_permit(name, False)

    async def reopen_emptied(self, name: str, state: Line) -> None:
        """Reopens with a document in which a server has nothing: it has lost its data. One that is down under its permit, and tells too late that it has no
        slots, stays as it is recorded, and says again that it has no data of what it is to serve: then this is done once more."""
        for _ in range(TRIES):
            await self.reopen(without(state, self.document, self.lost, frozenset({name})), [], f"the disk of {name} was replaced")
            state = await self.state()
            if not any(it["server"] == name and it["carried"] for it in state.get("servers", [])):
                return
            self.tell(f"{name} is left as it is recorded, and has no data of that")
            self.counts["disks that a reopening left as they are recorded"] += 1

    def keep_old(self, name: str) -> None:
        """Puts a server's folder aside, where the checkers read what it did."""
        folder = self.cluster.directory / name
        count = len(list(self.cluster.directory.glob(f"{name}.*")))
        folder.rename(folder.with_name(f"{name}.{count + 1}"))
        folder.mkdir()

    # Down under a permit while the service is reopened.

    async def reopen_while_down(self) -> None:
        """Reopens while a server is down under its permit, which is carried over; then it comes up, with or without its slots, and hears that it was
        left behind."""
        async with self.restarting, self.reopening:
            name = self.dice.choice(self.alive)
            self.mover.avoided.add(name)
            try:
                if await self.take_primaries(name):
                    await self.reopen_without_waiting(name)
            finally:
                self.mover.avoided.discard(name)

    async def reopen_without_waiting(self, name: str) -> None:
        """Has a server go down under a permit, reopens, and has it come up."""
        permit = await self.approved(name, self.name("rollout"))
        if permit is None:
            return
        self.tell(f"{name} is down under permit {permit}, and a reopening does not wait for it")
        self.note_permit(name, True)
        await self.cluster.processes[name].kill()
        await asyncio.sleep(0.3)
        await self.reopen(without(await self.state(), self.document, self.lost), [], f"a look at all slots while {name} is down")
        state = await self.state()
        self.counts["servers carried over a reopening"] += any(it["server"] == name and it["carried"] for it in state.get("servers", []))
        await self.cluster.processes[name].start(*(["--lose-slots"] if self.dice.random() < 0.3 else []))
        if await self.is_up(name, permit):
            self.note_permit(name, False)
            self.counts["restarts"] += 1

    async def take_primaries(self, name: str, seconds: float = 10.0) -> bool:
        """Has others take the primaries of a server, which keeps secondaries alone; tells whether they did."""
        until = time.monotonic() + seconds
        while time.monotonic() < until:
            state = await self.state()
            left = [it for it in state.get("shards", []) if any(cell["server"] == name and cell["state"] != "secondary" for cell in it["cells"])]
            if state and not left:
                return True
            for shard in left:
                await self.take_primary(shard, name)
            await asyncio.sleep(0.3)
        return False

    async def take_primary(self, shard: Line, name: str) -> None:
        """Has a secondary of a shard change roles with its primary, if nothing else is done with it."""
        states = {it["server"]: it["state"] for it in shard["cells"]}
        others = [it for it, word in states.items() if word == "secondary"]
        if others and states.get(name) == "primary" and set(states.values()) <= {"primary", "secondary"}:
            plan = plan_of([swap_stream(shard, name, others[0])])
            await self.operator.do({"do": "begin", "plan": plan, "name": self.name("swap")})
