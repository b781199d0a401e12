"""The published map as clients see it: which server each shard is said to be at."""
from __future__ import annotations

import asyncio
import json
import time
from pathlib import Path

from ..controllers.etcd import Etcd, end_of, members_of
from ..wire import Cluster


class PublishedMap:
    """Reads the map again and again, and at once when somebody was not where it says."""

    def __init__(self, cluster: Cluster, pause: float = 0.25) -> None:
        self.cluster, self.pause = cluster, pause
        self.entries: dict[str, str | None] = {}
        self.etcd = Etcd(members_of(cluster.etcd), timeout=2.0) if cluster.etcd else None
        # The place in etcd's history up to which the entries are known.
        self.revision = 0
        self.read_at = 0.0
        self.reading = asyncio.Lock()

    async def watch(self) -> None:
        """Reads the map for ever."""
        while True:
            await self.look()
            await asyncio.sleep(self.pause)

    async def look(self, newer_than: float | None = None) -> None:
        """Reads the map, unless it was read since then. What cannot be read stays as it was."""
        async with self.reading:
            if newer_than is not None and self.read_at > newer_than:
                return
            try:
                now = time.monotonic()
                self.entries = self.read_file() if self.etcd is None else {**self.entries, **await self.read_changes(self.etcd)}
                self.read_at = now
            except (OSError, ValueError):
                pass

    def read_file(self) -> dict[str, str | None]:
        """The map in a file."""
        return json.loads(Path(self.cluster.map_file).read_text())

    async def read_changes(self, etcd: Etcd) -> dict[str, str | None]:
        """The entries of the map in etcd that have changed. None is ever deleted; a member that is behind tells nothing new."""
        prefix = self.cluster.map_prefix
        found, revision = await etcd.changes(prefix, end_of(prefix), self.revision)
        self.revision = max(self.revision, revision)
        return {it.key.removeprefix(prefix): json.loads(it.value)["to"] for it in found}
