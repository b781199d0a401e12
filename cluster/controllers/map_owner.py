"""The published map in etcd, which is that of `smplan-control run`, with bugs that can be planted."""
from __future__ import annotations

import json
from collections.abc import Callable, Sequence
from typing import Any

from smplan.control import DONE, Line
from smplan.control_etcd_map import EtcdMap, text_of_entry

from .etcd import Etcd, decoded, put

BASE = "smplan/map-base"


class MapOwner(EtcdMap):
    """Publishes entries, and counts what it does while it does not lead."""

    def __init__(self, etcd: Etcd, prefix: str = "/map/", bugs: frozenset[str] = frozenset()) -> None:
        super().__init__(etcd, BASE, prefix)
        self.bugs = bugs
        self.leads: Callable[[], bool] = lambda: True
        self.publications = 0

    async def write(self, guards: Sequence[dict[str, Any]], writes: list[dict[str, Any]]) -> bool:
        """Writes if nothing has changed meanwhile."""
        is_entry = decoded(writes[0]["request_put"]["key"]) != BASE
        self.counts["map writes of one that does not lead"] += is_entry and not self.leads()
        return await super().write(guards, writes)

    async def publish(self, publication: Line) -> str:
        """Shows an entry. A planted bug: it is written without any comparison."""
        self.counts["publications of one that does not lead"] += not self.leads()
        self.publications += 1
        if "map-write-left-out" in self.bugs and self.publications % 3 == 0:
            return DONE
        if "map-write-without-compare" in self.bugs:
            await self.etcd.transact([], [put(self.prefix + publication["shard"], text_of_entry(publication))])
            return DONE
        return await super().publish(publication)

    async def fence(self, fence: Line) -> Line | None:
        """Takes a fence. A planted bug: it only says so."""
        return {} if "map-not-fenced" in self.bugs else await super().fence(fence)

    async def settle(self, settle: Line) -> str:
        """Takes all entries. A planted bug: it only says so."""
        if "map-settled-without-entries" in self.bugs:
            settle = {**settle, "entries": []}
        return DONE if "map-not-fenced" in self.bugs else await super().settle(settle)

    async def name_prepared(self, order: Line) -> None:
        """A planted bug: shows a new owner before it is the primary, until the next entry of the shard is written."""
        if "map-names-prepared" in self.bugs and order["call"] == "prepare_add":
            key = self.prefix + order["shard"]
            shown = await self.etcd.get(key)
            version = json.loads(shown.value)["version"] if shown else 0
            await self.etcd.transact([], [put(key, text_of_entry({"to": order["server"], "version": version}))])
