"""Copies that are set aside: they were replaced or taken away, and have writes that others may not have. An operator looks at them, and deletes
them."""
from __future__ import annotations

import json
import sys
from dataclasses import asdict, astuple
from typing import TYPE_CHECKING, Any, Dict

from . import agent
from .server_offers import views_of
from .server_records import Mark, Records, now

if TYPE_CHECKING:
    from .server import Server

Line = Dict[str, Any]

PREFIX = "frame/aside/"


class Aside:
    """What is set aside, by names: shard, view, position and when (ms)."""

    def __init__(self, server: "Server") -> None:
        self.server = server

    def keep(self, it: Records, shard: str) -> None:
        """Sets the copy of a shard aside, if it has writes."""
        mark = it.mark(shard)
        if mark.position == 0:
            return
        key = it.place("aside", shard, str(mark.view), str(mark.position), str(now()))
        it.tx.put(key, json.dumps({"shard": shard, "mark": astuple(mark), "views": it.views(shard), "before": astuple(it.ledger(shard).before),
                                   "writes": [asdict(write) for write in it.kept(shard)], "data": self.server.service.copy(it.tx, shard)}))
        print(f"{self.server.name}: a copy of {shard} is set aside: {key[len(PREFIX):]}", file=sys.stderr, flush=True)

    def keep_before(self, it: Records, shard: str, offer: Line) -> None:
        """Sets the copy of a shard aside, unless it is a beginning of one that is offered in its place."""
        mark, source, writes = it.mark(shard), Mark(*offer["mark"]), offer["copy"]["writes"]
        differs = any(write["position"] == mark.position and write["stamp"] != mark.stamp for write in writes)
        if differs or not agent.resumes(mark.copy, views_of(offer), source.position):
            self.keep(it, shard)

    def answer(self, line: Line) -> Line:
        """Tells the names; or of a name the copy, or deletes it."""
        with self.server.storage.transaction() as tx:
            if not line:
                return {"aside": [key[len(PREFIX):] for key, _ in tx.list(PREFIX)]}
            text = tx.get(PREFIX + line["name"])
            if text is None:
                raise LookupError(f"nothing is set aside as {line['name']}")
            if line.get("delete"):
                tx.delete(PREFIX + line["name"])
                return {"done": True}
            return json.loads(text)
