"""What the rules do not survive: a given-up server that goes on, a server or the journal that is rolled back. The story tells who gives the alarm,
and after how long; the checkers count what was lost."""
from __future__ import annotations

import asyncio
import shutil
import signal
import time

from cluster.controllers.etcd import Etcd, EtcdFault, end_of
from cluster.controllers.journal import PREFIX

from .absences import AbsenceStory
from .leaders import LeaderStory
from .reopenings import without

# How many lines of the journal are lost at least.
LINES = 6


class OutsideStory(LeaderStory, AbsenceStory):
    """What happens outside the premises."""

    async def look_for_alarm(self, what: str, about: set[str]) -> None:
        """Waits until a page tells what was done."""
        self.counts["faults outside the rules"] += 1
        self.counts["faults that a page told"] += await self.wait_until_told(what, about)

    async def return_given_up(self) -> None:
        """Stops a server, gives it up, reopens without it, and lets it go on, as it was: it does not know."""
        async with self.restarting, self.reopening:
            if not await self.may_lose():
                return
            state = await self.state()
            name = self.most_primaries(state)
            if name is None:
                return
            self.tell(f"stop {name}, and give it up")
            self.give_up(name, state)
            self.note_lost(name)
            self.cluster.processes[name].signal_group(signal.SIGSTOP)
            await asyncio.sleep(1.0)
            await self.reopen(without(state, self.document, self.lost), [name], f"{name} does not answer")
            self.cluster.processes[name].signal_group(signal.SIGCONT)
            self.tell(f"{name}, which was given up, goes on")
            self.counts["given-up servers that went on"] += 1
            await self.look_for_alarm(f"{name} was given up, and goes on", {name})
            await self.cluster.processes[name].kill()

    async def give_up_isolated(self, seconds: float = 4.0) -> None:
        """Cuts a server off from all but clients, gives it up, reopens without it, and then lets it speak with the others again."""
        async with self.restarting, self.reopening:
            if not await self.may_lose():
                return
            state = await self.state()
            name = self.most_primaries(state)
            if name is None:
                return
            self.tell(f"{name} is cut off from all but clients, and given up")
            self.give_up(name, state)
            self.note_lost(name)
            async with self.cut(f"peer {name} ", f"ask {name} ", *self.orders_to(name), *(f"peer {it} {name}" for it in self.alive)):
                await self.reopen(without(state, self.document, self.lost), [name], f"{name} does not answer")
                await asyncio.sleep(seconds)
            self.tell(f"{name}, which was given up, is in reach again")
            self.counts["given-up servers that went on"] += 1
            await self.look_for_alarm(f"{name} was given up, and is in reach again", {name})
            await self.cluster.processes[name].kill()

    async def roll_back(self, seconds: float = 4.0) -> None:
        """Puts an older copy of a server's disk in place of what it has."""
        async with self.restarting:
            name = self.most_primaries(await self.state()) or self.dice.choice(self.alive)
            folder = self.cluster.directory / name
            copy = self.cluster.directory / "copies" / name
            self.cluster.processes[name].signal_group(signal.SIGSTOP)
            shutil.copytree(folder, copy, ignore=shutil.ignore_patterns("*.sock"))
            self.cluster.processes[name].signal_group(signal.SIGCONT)
            await asyncio.sleep(seconds)
            await self.cluster.processes[name].kill()
            self.keep_old(name)
            folder.rmdir()
            copy.rename(folder)
            self.tell(f"{name} is rolled back by {seconds:g} s")
            await self.cluster.processes[name].start()
            self.counts["servers rolled back"] += 1
            await self.look_for_alarm(f"{name} is rolled back", {name})

    # The journal.

    async def restore_etcd(self) -> None:
        """Puts a backup of etcd in place of what it has, while controllers run."""
        lines = await self.roll_back_etcd()
        await self.look_for_alarm(f"{lines} lines of the journal are lost", {"the journal", *self.alive})

    async def restore_etcd_alone(self) -> None:
        """Puts a backup of etcd in place of what it has, and starts all controllers anew: none knows the lines that are lost."""
        names = self.cluster.shape.controller_names
        lines = await self.roll_back_etcd(tuple(names))
        await self.look_for_alarm(f"{lines} lines of the journal are lost, which no controller knows", {"the journal", *self.alive})

    async def roll_back_etcd(self, controllers: tuple[str, ...] = ()) -> int:
        """Makes a backup of etcd, and puts it back once there are some lines more, while these controllers are down; how many lines of the journal
        are lost."""
        members = [name for name, _ in self.cluster.members]
        backups = self.cluster.directory / "backups"
        await self.stop_etcd(members)
        for name in members:
            shutil.copytree(self.cluster.directory / name, backups / name)
        await self.cluster.processes.start(*members)
        first, until = await self.count_lines(), time.monotonic() + self.operator.patience
        while (before := await self.count_lines()) < first + LINES and time.monotonic() < until:
            await asyncio.sleep(0.2)
        await asyncio.gather(*(self.cluster.processes[it].kill() for it in controllers))
        await self.stop_etcd(members)
        for name in members:
            shutil.rmtree(self.cluster.directory / name)
            (backups / name).rename(self.cluster.directory / name)
        await self.cluster.processes.start(*members)
        lines = before - await self.count_lines()
        self.tell(f"a backup of etcd is put back: {lines} lines of the journal are lost")
        await self.cluster.processes.start(*controllers)
        self.counts["backups of etcd put back"] += 1
        self.counts["lines of the journal lost"] += lines
        return lines

    async def stop_etcd(self, members: list[str]) -> None:
        """Ends all members of etcd."""
        await asyncio.gather(*(self.cluster.processes[it].kill() for it in members))

    async def count_lines(self) -> int:
        """How many lines the journal has in etcd, once etcd answers."""
        until = time.monotonic() + self.operator.patience
        while True:
            etcd = Etcd([("127.0.0.1", port) for _, port in self.cluster.members], timeout=3.0)
            try:
                count, after = 0, PREFIX
                while found := await etcd.range(after, end_of(PREFIX), limit=500):
                    count, after = count + len(found), found[-1].key + "0"
                return count
            except EtcdFault:
                if time.monotonic() > until:
                    raise
                await asyncio.sleep(0.2)
            finally:
                await etcd.close()
