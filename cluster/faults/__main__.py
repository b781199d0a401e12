"""`python3 -m cluster.faults`: all proxies of a run in one process, told what to do by lines over TCP."""
from __future__ import annotations

import argparse
import asyncio
import json
import time
from collections import Counter
from dataclasses import replace
from pathlib import Path

from cluster.processor import waited_for_processor
from cluster.wire import Address, Failed, Message, listen

from .dice import Dice, Rates
from .proxies import Link, open_proxy, send_by_itself


# The copies that are on their way.
sending: set[asyncio.Task[None]] = set()


def release(link: Link) -> None:
    """Has the copies that a link kept come now, and keeps no more."""
    send_again(link, link.copies)
    link.copies = None


def release_orders(link: Link) -> None:
    """Has the orders that a link kept come now, and keeps no more."""
    send_again(link, link.orders)
    link.orders = None


def send_again(link: Link, lines: list[bytes] | None) -> None:
    """Sends lines to the far end of a link once more."""
    for line in lines or []:
        link.count("copied")
        task = asyncio.create_task(send_by_itself(line, link))
        sending.add(task)
        task.add_done_callback(sending.discard)


# How long the proxies rest between two looks, and by how much longer this is if other work on the machine keeps them from running, in seconds.
REST, LATE = 0.1, 0.5


async def count_standstill(kept: Counter[int]) -> None:
    """Counts for each second for how many milliseconds the proxies could not run: nothing got through then, by no fault of the cluster."""
    waited = waited_for_processor()
    while True:
        begun, before = time.monotonic(), waited
        await asyncio.sleep(REST)
        late, waited = time.monotonic() - begun - REST, waited_for_processor()
        kept[int(begun)] += int(1000 * max(waited - before, late if late > LATE else 0.0))


async def run(told: dict) -> None:
    """Opens the proxies, and waits for orders."""
    counts: Counter[str] = Counter()
    kept: Counter[int] = Counter()
    counting = asyncio.create_task(count_standstill(kept))
    links = []
    for it in told["links"]:
        rates = Rates(**told["rates"].get(it["name"].partition(" ")[0], {}))
        link = Link(it["name"], Dice(told["seed"], it["name"], rates, counts), "127.0.0.1", it["to"])
        links.append(link)
        await open_proxy(it["at"], it["relay"], link)

    async def obey(message: Message) -> Message:
        if "counts" in message:
            return {"counts": dict(counts), "kept": sorted(kept.items())}
        for link in links:
            if link.name.startswith(tuple(message.get("links", [""]))):
                if "cut" in message:
                    link.is_cut = bool(message["cut"])
                elif "mute" in message:
                    link.is_mute = bool(message["mute"])
                elif "hole" in message:
                    link.is_hole = bool(message["hole"])
                elif "hold" in message:
                    link.held = tuple(it.encode() for it in message["hold"])
                elif message.get("copies"):
                    link.copies = link.copies or []
                elif "copies" in message:
                    release(link)
                elif message.get("orders"):
                    link.orders = link.orders or []
                elif "orders" in message:
                    release_orders(link)
                elif "rates" in message:
                    link.dice.rates = replace(link.dice.rates, **message["rates"])
                else:
                    raise Failed("Unknown")
        return {"done": True}

    await listen(Address("127.0.0.1", told["control"]), obey)
    print("ready", flush=True)
    await counting


if __name__ == "__main__":
    parser = argparse.ArgumentParser(prog="cluster.faults", description="Proxies that lose, repeat, delay and reorder.")
    parser.add_argument("file", type=Path, help="the links, their rates and the seed")
    asyncio.run(run(json.loads(parser.parse_args().file.read_text())))
