"""Prints what a server did: `python3 -m cluster.servers.history DIR..`, once the server has ended (it opens the store
of the folder).

Each line of history gets the `server`; the last lines, `data`, tell what the server has of each shard in the end. A
folder `a.1` is that of a disk of server a that was replaced: it tells what a did until then.
"""
from __future__ import annotations

import asyncio
import json
import sys
from pathlib import Path
from typing import Iterator

from .engines import REDIS, Engine, kind_of, open_redis, start_redis
from .shard import STATES, shortened
from .sqlite import Sqlite
from .store import Store, data_key


async def value_of(engine: Engine, key: bytes) -> object:
    """A key's value, as a text or a list of texts."""
    if await engine.call("TYPE", key) == b"list":
        return [it.decode("latin-1") for it in await engine.call("LRANGE", key, 0, -1)]
    return shortened((await engine.call("GET", key)).decode("latin-1"))


async def data_of(store: Store, name: str) -> dict:
    """What the server has of a shard."""
    shard = store.shards[name]
    keys = await store.data_keys(name)
    values = {it: await value_of(store.engine, data_key(name, it)) for it in keys}
    return {"kind": "data", "shard": name, "state": STATES[shard.slot.cell], "position": shard.position, "chain": shard.chain,
            "known": bool(store.base.known), "base": store.base.number, "last": shard.slot.last, "load": shard.slot.load, "values": values}


async def history_of(folder: Path) -> list[dict]:
    """All that a server did, and what it has."""
    child = start_redis(folder) if kind_of(folder) == REDIS else None
    store = Store(Sqlite(folder) if child is None else await open_redis(folder))
    try:
        await store.load()
        lines = [json.loads(it) for it in await store.engine.call("LRANGE", "history", 0, -1)]
        name, dot, _ = folder.name.partition(".")
        lines += [await data_of(store, it) for it in sorted(store.shards)] if not dot else []
        return [{"server": name, **it} for it in lines]
    finally:
        store.engine.close()
        if child is not None:
            child.kill()
            child.wait()


def histories(folders: list[Path]) -> Iterator[dict]:
    """The histories of several servers."""
    for folder in folders:
        yield from asyncio.run(history_of(folder))


if __name__ == "__main__":
    # (a server that was rolled back tells the same twice, up to the older copy)
    printed: set[str] = set()
    for line in histories([Path(it) for it in sys.argv[1:]]):
        text = json.dumps(line, separators=(",", ":"))
        if text not in printed:
            printed.add(text)
            print(text)
