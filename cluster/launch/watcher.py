"""Watches the journal while a run goes on, and notes when it saw each line: the line was written before."""
from __future__ import annotations

import asyncio
import time

from cluster.controllers.etcd import Etcd, EtcdFault, end_of
from cluster.controllers.journal import PREFIX

# How many seconds it rests between two looks, and how many lines it reads at once.
REST, MOST = 0.1, 500


class Watcher:
    """Reads new lines of the journal from etcd, without proxies."""

    def __init__(self, members: list[tuple[str, int]]) -> None:
        self.members = members
        # By the key of each line the moment when it was seen first.
        self.seen: dict[str, int] = {}
        self.last = PREFIX
        self.task: asyncio.Task[None] | None = None

    def start(self) -> None:
        """Begins to watch."""
        self.task = asyncio.create_task(self.watch())

    async def watch(self) -> None:
        """Looks again and again."""
        etcd = Etcd([("127.0.0.1", port) for _, port in self.members], timeout=2.0)
        while True:
            try:
                await self.look(etcd)
            except EtcdFault:
                pass
            await asyncio.sleep(REST)

    async def look(self, etcd: Etcd) -> None:
        """Notes the lines that are new."""
        while found := await etcd.range(self.last + "\0", end_of(PREFIX), limit=MOST, may_lag=True):
            now = time.monotonic_ns()
            for entry in found:
                self.seen.setdefault(entry.key, now)
            self.last = found[-1].key

    def end(self) -> None:
        """Watches no longer."""
        if self.task is not None:
            self.task.cancel()
