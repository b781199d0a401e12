"""A cluster on this machine: etcd, servers, controllers, and proxies between all of them."""
from __future__ import annotations

import json
import shlex
import sys
from dataclasses import dataclass, field
from pathlib import Path

from cluster.servers.bugs import BUGS as SERVER_BUGS
from cluster.wire import Address, Channel, Failed, Message

from .etcd import add_etcd
from .processes import Nursery, Ports, Processes
from .shape import Shape
from .syncs import VARIABLE, library

ROOT = Path(__file__).resolve().parents[2]
# (compiled once for all processes of all runs; they need the standard library alone)
ENVIRONMENT = {"PYTHONPATH": f"{ROOT / 'python'}:{ROOT}", "PYTHONDONTWRITEBYTECODE": "", "PYTHONPYCACHEPREFIX": str(ROOT / "build" / "pycache")}
PYTHON = (sys.executable, "-S", "-m")
# For how many seconds a controller leads without word of etcd, at rest and on a busy machine.
LEADING, LEADING_IF_BUSY = 2, 5
# What befalls messages, by the kind of link; see cluster.faults.
CALM: dict[str, dict[str, float]] = {}
ROUGH = {
    "order": {"drop": 0.03, "repeat": 0.05, "delay": 0.2, "longest": 0.5, "rare": 0.4},
    "ask": {"drop": 0.03, "repeat": 0.05, "delay": 0.2, "longest": 0.5, "rare": 0.4},
    "etcd": {"drop": 0.004, "repeat": 0.01, "delay": 0.05, "longest": 0.2},
    "client": {"drop": 0.002, "delay": 0.02, "longest": 0.1},
    "peer": {"drop": 0.0005, "delay": 0.05, "longest": 0.1},
}


@dataclass
class Proxies:
    """The links of a run, to which each process adds those that it uses."""

    seed: int
    rates: dict[str, dict[str, float]]
    control: int
    free: Ports
    links: list[dict] = field(default_factory=list)

    def link(self, name: str, relay: str, to: int) -> str:
        """Adds a link, and returns where it is entered."""
        (at,) = self.free.take(1)
        self.links.append({"name": name, "relay": relay, "at": at, "to": to})
        return f"127.0.0.1:{at}"

    def text(self) -> str:
        """The file of the proxies' process."""
        return json.dumps({"seed": self.seed, "control": self.control, "rates": self.rates, "links": self.links})


@dataclass(frozen=True)
class ServerPorts:
    """Where a server listens."""

    control: int
    clients: int
    peers: int


class LocalCluster:
    """All processes of a cluster but the clients, by their names: servers `a`, `b`, .., controllers `k0`, .., members `etcd-0`, ..."""

    def __init__(self, directory: Path, shape: Shape, program: str, rates: dict = CALM, bugs: tuple[str, ...] = (),
                 servers: str = "cluster.servers", pause: float = 0.01, lease: float = 0.0, store: str = "redis", is_slow: bool = False, notes_syncs: bool = False,
                 copies: int = 1, is_busy: bool = False) -> None:
        self.store, self.is_slow, self.copies = store, is_slow, copies
        # For how many seconds a controller leads without word of etcd.
        self.leading = LEADING_IF_BUSY if is_busy else LEADING
        # Whether it is noted how much of a log is synced.
        syncs = library(ROOT / "build") if notes_syncs and store == "redis" else None
        self.notes_syncs = syncs is not None
        self.directory, self.shape, self.program, self.bugs, self.server_module, self.pause, self.lease = directory, shape, program, bugs, servers, pause, lease
        # The file that names the shards that are being moved.
        self.moving = directory / "moving"
        self.processes = Processes(directory / "logs", Nursery([*PYTHON, "cluster.launch.nursery"], ENVIRONMENT | ({VARIABLE: str(syncs)} if syncs is not None else {})))
        self.free = Ports()
        self.members = add_etcd(self.processes, self.free, directory, is_busy=is_busy)
        self.proxies = Proxies(shape.seed, rates, self.free.take(1)[0], self.free)
        self.ports = {name: ServerPorts(*self.free.take(3)) for name in shape.server_names}
        self.numbers = {name: it for it, name in enumerate(shape.server_names)}
        self.asks = dict(zip(shape.controller_names, self.free.take(shape.controllers)))
        self.pages = dict(zip(shape.controller_names, self.free.take(shape.controllers)))
        self.faults = Channel(Address("127.0.0.1", self.proxies.control))
        for name in shape.server_names:
            self.add_server(name)
        for name in shape.controller_names:
            self.add_controller(name)
        self.add_clients()
        file = directory / "links.json"
        file.write_text(self.proxies.text())
        self.processes.add("proxies", [*PYTHON, "cluster.faults", str(file)], **ENVIRONMENT)

    def cluster_file(self, who: str, direct: bool = False) -> Path:
        """Writes where everybody is for one process, which sees the others through proxies of its own."""
        link = self.proxies.link
        servers = {}
        for name, ports in self.ports.items():
            near = {it: f"127.0.0.1:{port}" for it, port in vars(ports).items()}
            if not direct and name != who:
                near = {"control": link(f"order {who} {name}", "lines", ports.control), "clients": link(f"client {who} {name}", "bytes", ports.clients),
                        "peers": link(f"peer {who} {name}", "bytes", ports.peers)}
            servers[name] = {"number": self.numbers[name], **near}
        asks = {name: f"127.0.0.1:{port}" if direct else link(f"ask {who} {name}", "lines", port) for name, port in self.asks.items()}
        etcd = [f"http://127.0.0.1:{port}" if direct else "http://" + link(f"etcd {who} {name}", "http", port) for name, port in self.members]
        file = self.directory / f"cluster-{who}.json"
        file.write_text(json.dumps({"servers": servers, "controllers": asks, "etcd": etcd, "map_prefix": "/map/", "map_file": None, "lease": self.lease,
                                    "copies": self.copies}, indent=1))
        return file

    def add_server(self, name: str) -> None:
        """Adds a server."""
        ports = self.ports[name]
        self.processes.add_copy(
            name, self.server_module, "--name", name, "--cluster", str(self.cluster_file(name)), "--dir", str(self.directory / name), "--store", self.store,
            "--listen-control", str(ports.control), "--listen-clients", str(ports.clients), "--listen-peers", str(ports.peers),
            *(it for bug in self.bugs if bug in SERVER_BUGS for it in ("--bug", bug, *(("--slow",) if self.is_slow else ()))),
        )

    def add_controller(self, name: str) -> None:
        """Adds a controller."""
        self.processes.add_copy(
            name, "cluster.controllers", "--name", name, "--cluster", str(self.cluster_file(name)), "--program", self.program,
            "--listen", f"127.0.0.1:{self.asks[name]}", "--http", f"127.0.0.1:{self.pages[name]}", "--confirm", "--lease", str(self.leading),
            *(it for bug in self.bugs if bug not in SERVER_BUGS for it in ("--bug", bug)),
        )

    def add_clients(self, name: str = "clients") -> None:
        """Adds the clients, all of them in one process, which run until their input ends."""
        self.processes.add(name, [
            *PYTHON, "cluster.clients", "--cluster", str(self.cluster_file(name)), "--shards", ",".join(self.shape.shard_names),
            "--history", str(self.directory / f"{name}.jsonl"), "--seconds", "0", "--clients", str(self.shape.clients), "--seed", str(self.shape.seed),
            "--pause", str(self.pause), "--hot-clients", str(self.shape.hot_clients), "--open-clients", str(self.shape.open_clients),
            "--moving", str(self.moving), "--largest", str(self.shape.largest),
        ], says_ready=False, has_input=True, **ENVIRONMENT)

    async def start(self) -> None:
        """Starts everything but the clients."""
        await self.processes.start("proxies", *(name for name, _ in self.members))
        await self.processes.start(*self.shape.controller_names, *self.shape.server_names)

    async def end(self) -> None:
        """Ends everything."""
        self.faults.close()
        await self.processes.end()
        self.free.end()

    async def tell_proxies(self, **message: object) -> Message:
        """Changes what befalls messages, or asks for the counts. What is told twice does the same."""
        for left in (2, 1, 0):
            try:
                return await self.faults.ask(30.0, **message)
            except Failed:
                if not left:
                    raise
        raise AssertionError("there is a last try")


def program_of(text: str) -> str:
    """Returns the session's command line, with the paths of this repository made absolute."""
    words = [str(ROOT / it) if (ROOT / it).exists() else it for it in shlex.split(text)]
    return shlex.join(words)
