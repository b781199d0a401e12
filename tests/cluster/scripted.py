"""Servers in processes of their own, driven by a script that stands in for a controller: it settles them, sends orders
of its own and keeps the
published map in a file."""
from __future__ import annotations

import asyncio
import functools
import json
import os
import shutil
import signal
import subprocess
import sys
import tempfile
import unittest
from collections.abc import Awaitable, Callable
from pathlib import Path

from cluster.clients.load import Generator
from cluster.launch.processes import Ports, die_with_parent
from cluster.wire import Address, Channel, Cluster, Failed, listen

ROOT = Path(__file__).resolve().parents[2]

JOURNAL = "00000000000000a7"
LOADS, ROOM = 1, 1000
# How many seconds is waited for a server's answer or anything else that is to come, for a server that begins, and for a whole play: far more than any takes,
# since other work on the machine makes all of them slow.
PATIENCE, BEGINNING, PLAYING = 60, 90, 600


async def until(is_so: Callable[[], object], seconds: float = PATIENCE) -> None:
    """Waits until something is so; raises TimeoutError if it does not come to that."""
    async with asyncio.timeout(seconds):
        while not is_so():
            await asyncio.sleep(0.01)


async def until_at_rest(seconds: float = PATIENCE) -> None:
    """Waits until nothing else runs here: then all connections that servers and proxies of this process carried have ended."""
    async with asyncio.timeout(seconds):
        while others := asyncio.all_tasks() - {asyncio.current_task()}:
            await asyncio.wait(others)
    await asyncio.sleep(0)


class Scripted:
    """Some servers, and who tells them what to do."""

    def __init__(self, names: str, bug: str | None = None, think: float = 0.0, lag: float = 0.0, store: str = "redis",
                 times: float = 1.0, copies: int = 1) -> None:
        self.names, self.bug, self.think, self.lag, self.store = list(names), bug, think, lag, store
        # How many times as long servers wait for one that is gone or silent.
        self.times = times
        self.dir = Path(tempfile.mkdtemp(prefix="cluster-"))
        self.ports = Ports()
        ports = iter(self.ports.take(3 * len(self.names) + 1))
        servers = {
            name: {"number": number, **{it: f"127.0.0.1:{next(ports)}" for it in ("control", "clients", "peers")}}
            for number, name in enumerate(self.names)
        }
        self.desk = Address("127.0.0.1", next(ports))
        self.map_file, self.file = self.dir / "map.json", self.dir / "cluster.json"
        self.file.write_text(json.dumps(
            {"servers": servers, "controllers": {"k": f"{self.desk.host}:{self.desk.port}"}, "map_file": str(self.map_file), "copies": copies}))
        self.map: dict[str, str | None] = {}
        self.publish({})
        self.cluster = Cluster.read(self.file)
        self.processes: dict[str, subprocess.Popen] = {}
        self.channels = {name: Channel(it.control) for name, it in self.cluster.servers.items()}
        self.number, self.base, self.handovers = 0, 0, 0
        self.answered: list[dict] = []
        self.asked: dict[str, str] = {}
        self.copied: list[dict] = []
        self.listener: asyncio.Server | None = None
        self.generator: Generator | None = None

    def publish(self, entries: dict[str, str | None]) -> None:
        """Changes the published map."""
        self.map |= entries
        part = self.map_file.with_suffix(".part")
        part.write_text(json.dumps(self.map))
        os.replace(part, self.map_file)

    # -- processes

    async def start(self, *names: str, loses_slots: bool = False) -> None:
        """Starts servers, all if none is named."""
        if self.listener is None:
            self.listener = await listen(self.desk, self.hear)
        for name in names or self.names:
            run = ["-m", "cluster.servers"] if self.times == 1.0 else [str(ROOT / "tests/cluster/patient.py"), str(self.times)]
            command = [sys.executable, *run, "--name", name, "--cluster", str(self.file), "--dir", str(self.dir / name)]
            command += ["--bug", self.bug, "--slow"] if self.bug else []
            command += ["--store", self.store, *(["--think", str(self.think)] if self.think else [])]
            command += ["--lag", str(self.lag)] if self.lag else []
            command += ["--lose-slots"] if loses_slots else []
            environment = os.environ | {"PYTHONPATH": f"{ROOT / 'python'}:{ROOT}"}
            with self.told_by(name).open("wb") as told:
                self.processes[name] = subprocess.Popen(
                    command, cwd=ROOT, env=environment, stdout=told, preexec_fn=functools.partial(die_with_parent, os.getpid()))
        for name in names or self.names:
            await until(functools.partial(self.is_ready, name), BEGINNING)

    def told_by(self, name: str) -> Path:
        """The file of what a server prints."""
        return self.dir / f"{name}.told"

    def is_ready(self, name: str) -> bool:
        """Whether a server says that it is ready; raises AssertionError if it has ended."""
        if self.processes[name].poll() is not None:
            raise AssertionError(f"{name} did not start")
        return self.told_by(name).read_bytes() == b"ready\n"

    async def hear(self, message: dict) -> dict:
        """A server asks for its slots, or tells of copies."""
        if "copied" in message:
            self.copied.append(message["copied"])
            return {"copied": message["copied"]}
        self.asked[message["restore"]["server"]] = message["restore"]["nonce"]
        raise Failed("Refused", "not now")

    def kill(self, name: str) -> None:
        """Ends a server at once."""
        process = self.processes.pop(name)
        process.send_signal(signal.SIGKILL)
        process.wait()

    def close(self, keeps: bool = False) -> None:
        """Ends all, and deletes their data."""
        for name in list(self.processes):
            self.kill(name)
        for channel in self.channels.values():
            channel.close()
        if self.listener is not None:
            self.listener.close()
        self.ports.end()
        if not keeps:
            shutil.rmtree(self.dir, ignore_errors=True)

    # -- messages

    async def fence(self, *names: str) -> dict[str, dict]:
        """Fences servers for a next epoch, and returns what they answer."""
        self.base += 1 << 21
        self.number = self.base
        asks = [self.channels[it].ask(PATIENCE, fence={"server": it, "base": self.base, "journal": JOURNAL}) for it in names or self.names]
        return {it["fenced"]["server"]: it["fenced"] for it in await asyncio.gather(*asks)}

    def settles(self, fenced: dict[str, dict], cells: dict[str, dict[str, str]]) -> list[dict]:
        """The settles of servers that were fenced: for each shard, server and state."""
        return [{"server": name, "base": self.base, "journal": JOURNAL, "nonce": answer.get("unknown"), "slots": self.slots(name, cells)}
                for name, answer in fenced.items()]

    def slots(self, name: str, cells: dict[str, dict[str, str]]) -> list[dict]:
        """What a server is to have."""
        return [{"shard": shard, "state": row[name], "load": LOADS} for shard, row in cells.items() if name in row]

    async def settle(self, fenced: dict[str, dict], cells: dict[str, dict[str, str]]) -> None:
        """Settles servers that were fenced."""
        for settle in self.settles(fenced, cells):
            await self.channels[settle["server"]].ask(PATIENCE, settle=settle)
        self.publish({shard: next((it for it, state in row.items() if state == "primary"), None) for shard, row in cells.items()})

    async def open(self, cells: dict[str, dict[str, str]]) -> None:
        """Fences and settles all servers."""
        await self.settle(await self.fence(), cells)

    def order(self, server: str, call: str, shard: str, **more) -> dict:
        """A next order."""
        self.number += 1
        return {"journal": JOURNAL, "epoch": self.base >> 21, "fence": self.base, "plan": 0, "stream": 0, "number": self.number, "server": server,
                "call": call, "shard": shard, "load": LOADS, "room": ROOM, **more}

    async def send(self, order: dict, seconds: float = PATIENCE) -> None:
        """Sends an order again and again until it is answered."""
        loop = asyncio.get_running_loop()
        deadline = loop.time() + seconds
        while True:
            try:
                reply = await self.channels[order["server"]].ask(5, order=order)
                self.answered.append(reply["answered"])
                return
            except Failed as failed:
                if failed.kind not in ("Lost", "Late", "GivenUp", "NotReady") or loop.time() > deadline:
                    raise
            await asyncio.sleep(0.05)

    def handover(self, shard: str, old: str, new: str, replicas: list[str]) -> list[dict]:
        """The calls that hand a primary over; between the third and the fourth the map is changed."""
        self.handovers += 1
        number = self.base + self.handovers
        more = {"primary": old, "replicas": replicas}
        return [
            self.order(new, "prepare_add", shard, **{"from": old}, handover=number, **more),
            self.order(old, "prepare_drop", shard, to=new, handover=number, **more),
            self.order(new, "add", shard, role="primary", **more),
            self.order(old, "drop", shard, primary=new, replicas=[*replicas, new]),
        ]

    async def move(self, shard: str, old: str, new: str, replicas: list[str], repeats: int = 0) -> None:
        """Moves a shard's primary by the five orders."""
        orders = self.handover(shard, old, new, replicas)
        for place, order in enumerate(orders):
            await self.send(order)
            for earlier in orders[:place + 1][-repeats:] if repeats else ():
                await self.repeat(earlier)
            if place == 2:
                self.publish({shard: new})

    async def repeat(self, order: dict) -> str:
        """Sends an order once more, and returns what the server said."""
        try:
            await self.channels[order["server"]].ask(5, order=order)
            return "answered"
        except Failed as failed:
            return failed.kind


class ServersTest(unittest.TestCase):
    """A test of real servers, which need Redis."""

    @classmethod
    def setUpClass(cls) -> None:
        if not shutil.which("redis-server"):
            raise unittest.SkipTest("there is no redis-server")

    def finds(self, play: Callable[[], Awaitable[dict[str, bool]]], again: Callable[[], Awaitable[dict[str, bool]]] | None = None) -> None:
        """Wants all that a play finds to be so. A machine with other work may be late once: then it is played again, or another one is that takes more time."""
        found = self.found(play)
        if not all(found.values()):
            found = self.found(again or play)
        for what, is_so in found.items():
            with self.subTest(what):
                self.assertTrue(is_so)

    def found(self, play: Callable[[], Awaitable[dict[str, bool]]]) -> dict[str, bool]:
        """What a play finds; nothing is so if it does not come to its end."""
        try:
            return asyncio.run(asyncio.wait_for(play(), PLAYING))
        except TimeoutError:
            return {"it comes to its end": False}
