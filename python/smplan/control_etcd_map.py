"""The published map in etcd: every write is a transaction that compares the map's base and the entry, so it does not matter which controller writes."""
from __future__ import annotations

import json
from collections import Counter
from typing import Any, Dict, List, Optional, Sequence

from . import agent
from .agent import Answer, Base
from .control import DONE, Line
from .control_etcd import Entry, Etcd, EtcdFault, end_of, is_unchanged, put


def base_in(entry: Optional[Entry]) -> Base:
    """Reads the base of the map's owner. It is never Unknown: a new one belongs to no journal."""
    told = json.loads(entry.value) if entry else {"journal": "0", "number": 0, "fenced": 0}
    return Base(int(told["journal"], 16), told["number"], known=1, fenced=told["fenced"])


def text_of_base(base: Base) -> str:
    """Writes the base."""
    return json.dumps({"journal": f"{base.journal:016x}", "number": base.number, "fenced": base.fenced})


def revision_of(entry: Optional[Entry]) -> int:
    """The revision that a guard names."""
    return entry.revision if entry else 0


def text_of_entry(told: Line) -> str:
    """Writes an entry."""
    return json.dumps({"to": told["to"], "version": told["version"]})


class EtcdMap:
    """Publishes entries, and is fenced and settled like a server."""

    def __init__(self, etcd: Etcd, base_key: str = "smplan/map-base", prefix: str = "smplan/map/") -> None:
        self.etcd, self.base_key, self.prefix = etcd, base_key, prefix
        self.counts: Counter[str] = Counter()

    async def write(self, guards: Sequence[Dict[str, Any]], writes: List[Dict[str, Any]]) -> bool:
        """Writes if nothing has changed meanwhile, and tells whether it did."""
        return await self.etcd.transact(guards, writes)

    async def publish(self, publication: Line) -> str:
        """Shows an entry if it is newer. Answers one that is shown, or that was overtaken."""
        try:
            # (what lags is found out by the comparison)
            base, shown = await self.etcd.get(self.base_key, may_lag=True), await self.etcd.get(self.prefix + publication["shard"], may_lag=True)
            version = json.loads(shown.value)["version"] if shown else 0
            verdict = agent.publish(base_in(base), version, int(publication["journal"], 16), publication.get("fence", 0), publication["version"])
            if verdict == Answer.AGAIN:
                self.counts["publications answered again"] += 1
                return DONE
            if verdict != Answer.BEGIN:
                self.counts[f"publications {verdict.name.lower()}"] += 1
                return verdict.name.lower()
            key = self.prefix + publication["shard"]
            guards = [is_unchanged(self.base_key, revision_of(base)), is_unchanged(key, revision_of(shown))]
            return DONE if await self.write(guards, [put(key, text_of_entry(publication))]) else "the map has changed"
        except EtcdFault as why:
            return str(why)

    async def fence(self, fence: Line) -> Optional[Line]:
        """Takes a fence."""
        try:
            entry = await self.etcd.get(self.base_key)
            answer, base = agent.fence(base_in(entry), int(fence["journal"], 16), fence["base"], 0)
            if answer == Answer.IGNORED:
                return None
            if answer == Answer.TAKEN and not await self.write([is_unchanged(self.base_key, revision_of(entry))], [put(self.base_key, text_of_base(base))]):
                return None
            return {}
        except EtcdFault:
            return None

    async def settle(self, settle: Line) -> str:
        """Takes all entries once, while fenced at this base."""
        try:
            entry = await self.etcd.get(self.base_key)
            answer, base, _ = agent.take(base_in(entry), agent.Settlement(int(settle["journal"], 16), settle["base"]), {}, {})
            if answer == Answer.AGAIN:
                return DONE
            if answer != Answer.TAKEN:
                return answer.name.lower()
            return DONE if await self.write_all(entry, base, settle["entries"]) else "the map has changed"
        except EtcdFault as why:
            return str(why)

    async def write_all(self, entry: Optional[Entry], base: Base, told: Sequence[Line]) -> bool:
        """Writes the base and all entries, if nothing has changed since the base was read."""
        shown = {it.key: it for it in await self.etcd.range(self.prefix, end_of(self.prefix))}
        guards = [is_unchanged(self.base_key, revision_of(entry)), *(is_unchanged(key, it.revision) for key, it in shown.items())]
        return await self.write(guards, [put(self.base_key, text_of_base(base)), *(put(self.prefix + it["shard"], text_of_entry(it)) for it in told)])

    async def adopt(self, published: Line, state: Line) -> None:
        """Begins with what a journal was opened by: its base, and the entries that it has recorded."""
        entry = await self.etcd.get(self.base_key)
        if base_in(entry).journal != int(state["journal"], 16):
            told = [it for it in published.get("map") or []]
            await self.write_all(entry, Base(int(state["journal"], 16), state["fence"], known=1), told)
