"""Runs a server: `python3 -m cluster.servers --name a --cluster FILE --dir DIR`."""
from __future__ import annotations

import argparse
import asyncio
from pathlib import Path

from ..wire import LONGEST_LINE, Cluster, listen
from .bugs import BUGS
from .engines import REDIS, SQLITE, open_store
from .planted import kind_of_server
from .store import Store


def arguments() -> argparse.Namespace:
    """Reads the command line."""
    parser = argparse.ArgumentParser(prog="cluster.servers", description="A server of the cluster.")
    parser.add_argument("--name", required=True)
    parser.add_argument("--cluster", required=True, help="where everybody is")
    parser.add_argument("--dir", required=True, type=Path, help="where its store keeps its data")
    parser.add_argument("--store", choices=(REDIS, SQLITE), default=REDIS, help="a redis-server of its own (the default), or SQLite")
    for port in ("control", "clients", "peers"):
        parser.add_argument(f"--listen-{port}", type=int, help="a port instead of that of the cluster's file")
    parser.add_argument("--lose-slots", action="store_true", help="begin as Unknown, with the data")
    parser.add_argument("--think", type=float, default=0, help="seconds that a request runs at most before it changes anything")
    parser.add_argument("--lag", type=float, default=0, help="seconds by which it is late, at most, with the writes that it follows")
    parser.add_argument("--bug", choices=sorted(BUGS), help="plant a bug")
    parser.add_argument("--slow", action="store_true", help="have what the bug is about take longer")
    return parser.parse_args()


async def main() -> None:
    """Starts the server and serves until the process is ended."""
    told = arguments()
    told.dir.mkdir(parents=True, exist_ok=True)
    engine, end = await open_store(told.store, told.dir, "no" if told.bug == "not-synced" else "always")
    store = Store(engine)
    await store.load()
    cluster = Cluster.read(told.cluster)
    server = kind_of_server(told.bug, told.slow)(told.name, cluster, store, told.think, told.lag)
    await server.start(told.lose_slots)
    entry = cluster.servers[told.name]
    ports = {it: getattr(told, f"listen_{it}") or getattr(entry, it).port for it in ("control", "clients", "peers")}
    host = entry.control.host
    await listen(type(entry.control)(host, ports["control"]), server.control)
    await asyncio.start_server(server.requests.serve, host, ports["clients"], limit=1 << 26)
    await asyncio.start_server(server.serve_peer, host, ports["peers"], limit=LONGEST_LINE)
    print("ready", flush=True)
    server.fail(ConnectionError(await end))


if __name__ == "__main__":
    try:
        asyncio.run(main())
    except KeyboardInterrupt:
        pass
