"""Plays of real servers under load. Without a bug both checkers find nothing; with the bug that a play is named after at
least one finds something.

By hand: `PYTHONPATH=.:python python3 tests/cluster/plays.py [--sound] [--runs N] [NAME..]`; a name is that of a bug (cluster/servers/bugs.py).
"""
from __future__ import annotations

import argparse
import asyncio
import random
import sys
import time
from dataclasses import dataclass
from typing import Awaitable, Callable

from scripted import JOURNAL, PATIENCE, PLAYING, Scripted, until

from cluster.checkers.clients import check as check_clients
from cluster.checkers.servers import Checker
from cluster.clients.load import Generator, Load
from cluster.resp import Redis
from cluster.servers.history import history_of
from cluster.wire import Failed

# How often a play is played until a bug does harm in it: some need that one of two things comes first.
TRIES = 3
CELLS = {"s": {"a": "primary", "c": "secondary"}, "t": {"b": "primary", "a": "secondary"}}
LOAD = Load(("s", "t"), clients=6)


@dataclass(frozen=True)
class Play:
    """What happens, under which load, and with how slow servers."""

    act: Callable[[Scripted], Awaitable[None]]
    load: Load = LOAD
    think: float = 0.0
    lag: float = 0.0


async def to_and_fro(it: Scripted, moves: int = 2, repeats: int = 0, pause: float = 0.2) -> None:
    """The shard goes to b and back."""
    for number in range(moves):
        old, new = ("a", "b") if number % 2 == 0 else ("b", "a")
        await it.move("s", old, new, [old, "c"], repeats)
        await asyncio.sleep(pause)


async def late_to_and_fro(it: Scripted) -> None:
    """The shard goes to b and back, once it has some texts."""
    await asyncio.sleep(2)
    await to_and_fro(it)


async def late_orders(it: Scripted) -> None:
    """The orders of a handover come again when all is over."""
    first = it.handover("s", "a", "b", ["a", "c"])
    for place, order in enumerate(first):
        await it.send(order)
        if place == 2:
            it.publish({"s": "b"})
    await it.move("s", "b", "a", ["b", "c"])
    for order in first:
        await it.repeat(order)
    await asyncio.sleep(0.3)


async def slow_handover(it: Scripted) -> None:
    """The new owner is prepared for a while, and clients come to it all the same."""
    orders = it.handover("s", "a", "b", ["a", "c"])
    await it.send(orders[0])
    await asyncio.sleep(1.5)
    for order in orders[1:3]:
        await it.send(order)
    it.publish({"s": "b"})
    await it.send(orders[3])


async def late_restore(it: Scripted) -> None:
    """A server loses its slots twice, and the answer to its first question comes when it has asked again."""
    slots = it.slots("c", CELLS)
    nonces = []
    for _ in range(2):
        it.kill("c")
        it.asked.clear()
        await it.start("c", loses_slots=True)
        await until(lambda: "c" in it.asked)
        nonces.append(it.asked["c"])
    for nonce in nonces:
        restore = {"server": "c", "nonce": nonce, "journal": JOURNAL, "fence": it.base, "base": it.number, "slots": slots}
        try:
            await it.channels["c"].ask(PATIENCE, restore=restore)
        except Failed:
            pass
    await asyncio.sleep(0.3)


async def reopened(it: Scripted, cells: dict[str, dict[str, str]]) -> list[dict]:
    """All servers are fenced and settled; the settles."""
    fenced = await it.fence()
    settles = it.settles(fenced, cells)
    await it.settle(fenced, cells)
    return settles


async def fence_at_work(it: Scripted) -> None:
    """A fence comes while the old owner waits for requests that run."""
    orders = it.handover("s", "a", "b", ["a", "c"])
    await it.send(orders[0])
    sending = asyncio.create_task(it.repeat(orders[1]))
    await asyncio.sleep(0.1)
    await it.fence()
    await asyncio.sleep(1)
    await sending
    await reopened(it, CELLS)


async def late_settle(it: Scripted) -> None:
    """A settle comes again when the shard has moved on."""
    settles = await reopened(it, CELLS)
    await it.move("s", "a", "b", ["a", "c"])
    for settle in settles:
        await it.channels[settle["server"]].ask(PATIENCE, settle=settle)
    await asyncio.sleep(0.5)


async def fence_amid_passing(it: Scripted) -> None:
    """A fence comes while requests are passed on to the new owner; the old one gets the shard back."""
    orders = it.handover("s", "a", "b", ["a", "c"])
    await it.send(orders[0])
    await it.send(orders[1])
    await asyncio.sleep(0.5)
    fenced = await it.fence()
    await asyncio.sleep(1)
    await it.settle(fenced, CELLS)
    await asyncio.sleep(0.5)


async def early_add(it: Scripted) -> None:
    """The new owner was away for a while, and is to take over as soon as it is back."""
    orders = it.handover("s", "a", "b", ["a", "c"])
    await it.send(orders[0])
    it.kill("b")
    await asyncio.sleep(3)
    await it.start("b")
    for order in orders[1:3]:
        await it.send(order)
    it.publish({"s": "b"})
    await it.send(orders[3])


async def late_seal(it: Scripted) -> None:
    """The old owner is killed, and hands over as soon as it is back, before the new one follows it again: the cut
    comes with a request. Then the new owner is lost."""
    orders = it.handover("s", "a", "b", ["a", "c"])
    await push(it, "one")
    await it.send(orders[0])
    await push(it, "two")
    it.kill("a")
    await it.start("a")
    await it.send(orders[1])
    await push(it, "three")
    it.kill("b")
    await it.settle(await it.fence("a", "c"), {"s": {"a": "primary", "c": "secondary"}, "t": {"a": "primary"}})
    await push(it, "four")


async def push(it: Scripted, value: str) -> None:
    """One push, as if a client of the load did it."""
    await it.generator.push(it.generator.router(random.Random(value)), "play", "s", "s:k0", value)


async def change(it: Scripted) -> None:
    """The primary becomes a secondary, and the secondary the primary, and back."""
    for old, new in (("a", "c"), ("c", "a")):
        roles = {"primary": old, "replicas": ["a", "c"]}
        await it.send(it.order(old, "change", "s", **{"from": "primary"}, to="secondary", **roles))
        await it.send(it.order(new, "change", "s", **{"from": "secondary"}, to="primary", **roles))
        it.publish({"s": new})
        await asyncio.sleep(0.5)


async def crash_secondary(it: Scripted) -> None:
    """The secondary is killed, and starts again."""
    it.kill("c")
    await asyncio.sleep(1)
    await it.start("c")
    await asyncio.sleep(1)


async def lose_primary(it: Scripted) -> None:
    """The primary is killed for good a second after its secondary was, which starts again and takes its place."""
    it.kill("c")
    await asyncio.sleep(1)
    it.kill("a")
    await it.start("c")
    await it.settle(await it.fence("b", "c"), {"s": {"c": "primary"}, "t": {"b": "primary"}})
    await asyncio.sleep(1)


async def ask_again(it: Scripted) -> None:
    """A request whose reply was lost is made again when the shard has moved on."""
    line = {"client": "play", "op": "push", "shard": "s", "key": "s:k0", "value": "again", "start": time.monotonic_ns()}
    redis = await Redis.open_port("127.0.0.1", it.cluster.servers["a"].clients.port)
    await redis.call("DO", "again", "RPUSH", "s:k0", "again")
    redis.close()
    await it.move("s", "a", "b", ["a", "c"])
    reply = await it.generator.router(random.Random(1)).request("s", "again", "RPUSH", "s:k0", "again")
    it.generator.tell(line | {"reply": reply})


PLAYS = {
    "acknowledge-alone": Play(lose_primary),
    "newcomers-not-waited-for": Play(lose_primary),
    "dead-at-once": Play(crash_secondary),
    "who-ends-leaves": Play(lose_primary),
    "copy-without-identities": Play(ask_again),
    "copy-counts-twice": Play(late_to_and_fro, Load(("s", "t"), clients=6, largest=2_000_000)),
    "copy-without-meanwhile": Play(to_and_fro),
    "copy-without-values": Play(to_and_fro),
    "joined-at-once": Play(to_and_fro),
    "no-numbers": Play(late_orders),
    "execute-prepared": Play(slow_handover, Load(("s", "t"), clients=6, stray=0.4)),
    "slot-deleted": Play(late_orders),
    "commit-before-copy": Play(to_and_fro),
    "drop-while-writing": Play(to_and_fro, think=0.1),
    "tail-not-copied": Play(to_and_fro, lag=0.2),
    "no-identities": Play(to_and_fro, Load(("s", "t"), clients=6, attempt=0.03)),
    "restore-without-nonce": Play(late_restore),
    "commit-after-fence": Play(fence_at_work, think=0.6),
    "settle-twice": Play(late_settle),
    "add-without-cut": Play(early_add, lag=1.0),
    "fence-while-passed": Play(fence_amid_passing, Load(("s", "t"), clients=16), think=0.7),
    "cut-unheeded": Play(late_seal, Load(("s", "t"), clients=0, comparers=0), lag=3.0),
    "change-while-writing": Play(change, think=0.1),
}


async def played(name: str, bug: str | None) -> tuple[list[str], list[str], dict]:
    """Plays it; what the checkers of the servers and of the clients find, and the clients' figures with how the play
    ended."""
    play = PLAYS[name]
    scripted = Scripted("abc", bug, play.think, play.lag)
    path = scripted.dir / "clients.jsonl"
    try:
        await scripted.start()
        await scripted.open(CELLS)
        with open(path, "w", encoding="utf-8") as history:
            generator = scripted.generator = Generator(scripted.cluster, play.load, history)
            stopping = asyncio.Event()
            running = asyncio.create_task(generator.run_until(stopping))
            await asyncio.sleep(0.7)
            told = None
            try:
                await asyncio.wait_for(play.act(scripted), PLAYING)
            except (Failed, TimeoutError, AssertionError) as error:
                told = repr(error)
            stopping.set()
            await running
        # (who follows late may connect late, too, before it takes what it lacks)
        await asyncio.sleep(0.6 + 2.5 * play.lag)
        for server in list(scripted.processes):
            scripted.kill(server)
        return await server_faults(scripted, {"s": 2, "t": 2}), check_clients([str(path)])[0], {**generator.figures(), "end": told}
    finally:
        scripted.close()


async def server_faults(scripted: Scripted, floors: dict[str, int]) -> list[str]:
    """What the servers' histories tell."""
    lines = [line for name in scripted.names for line in await history_of(scripted.dir / name)]
    checker = Checker(floors)
    checker.walk(lines)
    checker.look_at_data(it for it in lines if it["kind"] == "data")
    return checker.faults


def tried(name: str, bug: str | None) -> tuple[list[str], list[str], dict]:
    """Plays it; with a bug once more if it did no harm, as often as TRIES says."""
    servers, clients, figures = asyncio.run(played(name, bug))
    for _ in range(TRIES - 1 if bug else 0):
        if not servers and not clients:
            servers, clients, figures = asyncio.run(played(name, bug))
    return servers, clients, figures


def main() -> int:
    """The command line."""
    parser = argparse.ArgumentParser(description="Plays of real servers, with and without planted bugs.")
    parser.add_argument("names", nargs="*", metavar="NAME")
    parser.add_argument("--sound", action="store_true", help="without bugs only")
    parser.add_argument("--runs", type=int, default=1)
    told = parser.parse_args()
    wrong = 0
    for name in told.names or PLAYS:
        for bug in [None] * told.runs + ([] if told.sound else [name] * told.runs):
            began = time.monotonic()
            servers, clients, figures = tried(name, bug)
            is_wrong = not (servers or clients) if bug else bool(servers or clients or figures["end"] or figures["failures"])
            wrong += is_wrong
            how, end = "with the bug" if bug else "sound", "   WRONG" if is_wrong else ""
            print(f"{name:24} {how:13} servers {len(servers):4} clients {len(clients):4}  {figures['requests']} requests, "
                  f"{figures['failures']} failed, {time.monotonic() - began:.0f} s{end}", flush=True)
            for fault in [*servers[:2], *clients[:2], *filter(None, [figures["end"]])] if bug or is_wrong else ():
                print(f"    {fault}")
    return 1 if wrong else 0


if __name__ == "__main__":
    sys.exit(main())
