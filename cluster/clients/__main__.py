"""Runs the load generator until its time is over, or a line comes on standard input or its end (with `--seconds 0`)."""
from __future__ import annotations

import argparse
import asyncio
import json
import sys

from ..wire import Cluster
from .load import Generator, Load


def load_of(words: list[str] | None = None) -> tuple[argparse.Namespace, Load]:
    """Reads the command line, and returns how much it asks for, too."""
    parser = argparse.ArgumentParser(prog="cluster.clients", description="Pushes and reads lists all the time.")
    parser.add_argument("--cluster", required=True)
    parser.add_argument("--shards", required=True, help="names, with commas between")
    parser.add_argument("--history", required=True, help="where each request gets a line")
    parser.add_argument("--seconds", type=float, default=20, help="0: until a line comes on standard input")
    parser.add_argument("--clients", type=int, default=16)
    parser.add_argument("--keys", type=int, default=2, help="lists in each shard")
    parser.add_argument("--reads", type=float, default=0.3, help="how many requests are reads")
    parser.add_argument("--stray", type=float, default=0.02, help="how many attempts go to any server")
    parser.add_argument("--pause", type=float, default=0, help="seconds between a client's requests")
    parser.add_argument("--hot-clients", type=int, default=0, help="how many clients never rest, and use shards that are being moved")
    parser.add_argument("--moving", default="", metavar="FILE", help="which these are, each in a line")
    parser.add_argument("--open-clients", type=int, default=0, help="how many clients ask for these at times of their own, answered or not")
    parser.add_argument("--rate", type=float, default=20, help="how often each of them does in a second")
    parser.add_argument("--comparers", type=int, default=2, help="how many clients compare and set registers")
    parser.add_argument("--largest", type=int, default=0, help="how many bytes of text a shard has at most")
    parser.add_argument("--seed", type=int, default=1)
    told = parser.parse_args(words)
    names = ("clients", "keys", "reads", "stray", "pause", "seed", "hot_clients", "moving", "open_clients", "rate", "comparers", "largest")
    return told, Load(tuple(told.shards.split(",")), **{it: getattr(told, it) for it in names})


async def main() -> None:
    """Runs the clients, and prints the figures."""
    told, load = load_of()
    with open(told.history, "w", encoding="utf-8") as history:
        generator = Generator(Cluster.read(told.cluster), load, history)
        stopping, loop = asyncio.Event(), asyncio.get_running_loop()

        def stop() -> None:
            """Ends the load. (An input that has ended may be read again and again.)"""
            loop.remove_reader(sys.stdin)
            stopping.set()

        if not told.seconds:
            loop.add_reader(sys.stdin, stop)
        await generator.run_until(stopping, told.seconds)
    print(json.dumps(generator.figures()), flush=True)


if __name__ == "__main__":
    asyncio.run(main())
