"""`smplan-control run` with servers of examples/kv_http.py and ports/go/examples/kv, under load, while everything is killed: nothing acknowledged is
lost or doubled, no order has its effect twice, each server ends with what is recorded, and drains end by themselves.

    python3 tests/python/control_storm.py 'build/smpland' [--kills 200] [--servers 5] [--go 2] [--shards 6] [--seed 1] [--etcd 3] [--lease 3] [--keep FOLDER]

Clients append words under identities until each is acknowledged. Meanwhile servers are drained in turn, old orders come again, and at random moments a
controller, a server, with --etcd (three controllers over so many members of it) also the controller that leads, a member of etcd or its leader, is killed (-9)
and started anew. With --bug NAME servers have a bug, which has to be found: they `forget` the number of each last order whenever they are killed, or those in
Python answer orders too `early`.
"""
import argparse
import json
import os
import random
import shutil
import signal
import re
import socket
import subprocess
import sys
import tempfile
import threading
import time
from collections import Counter
from pathlib import Path
from urllib.request import urlopen

from storm_effects import HAS_GO, GoServer, PythonServer

ROOT = Path(__file__).resolve().parents[2]
ENVIRONMENT = {**os.environ, "PYTHONPATH": str(ROOT / "python"), "PYTHONDONTWRITEBYTECODE": "1"}


def ask(url, line=None, timeout=6.0):
    with urlopen(url, None if line is None else json.dumps(line).encode(), timeout=timeout) as answer:
        return json.load(answer)


def free_ports(count):
    sockets = [socket.create_server(("127.0.0.1", 0)) for _ in range(count)]
    ports = [it.getsockname()[1] for it in sockets]
    for it in sockets:
        it.close()
    return ports


class Fleet:
    """The processes."""

    def __init__(self, folder, session, servers, in_go, shards, members, lease=3, bug=""):
        self.folder, self.session, self.lease, self.bug, self.running = folder, session, str(lease), bug, {}
        names = [f"v{it}" for it in range(servers)]
        self.servers = {name: GoServer(folder, name) if at % 2 and at < 2 * in_go else PythonServer(folder, name, bug == "early") for at, name in enumerate(names)}
        ports = free_ports(servers + 3 + 2 * members)
        self.urls = {name: f"http://127.0.0.1:{ports.pop()}" for name in names}
        self.controllers = {f"k{it}": f"http://127.0.0.1:{ports.pop()}" for it in range(3 if members else 1)}
        self.members = {f"e{it}": (f"http://127.0.0.1:{ports.pop()}", f"http://127.0.0.1:{ports.pop()}") for it in range(members)}
        for it in self.controllers:
            (folder / it).mkdir(exist_ok=True)
        self.shards = [f"s{it}" for it in range(shards)]
        cells = {it: (names[at % servers], names[(at + 1) % servers]) for at, it in enumerate(self.shards)}
        (folder / "fleet.json").write_text(json.dumps({
            "servers": {name: {"number": at + 1, "url": url} for at, (name, url) in enumerate(self.urls.items())}, "map": {"file": "map.json"}}))
        (folder / "service.json").write_text(json.dumps({
            "limit": 1, "servers": [{"name": it, "region": "r", "room": 4 * shards} for it in names],
            "shards": [{"name": it, "load": 1, "want": 2, "cap": 1, "spread": 1, "listed": one, "cells": [
                {"server": one, "state": "primary"}, {"server": two, "state": "secondary"}]} for it, (one, two) in cells.items()]}))

    def start(self, name):
        words = self.servers[name].words(",".join(self.controllers.values())) if name in self.servers else []
        at = self.folder
        if name in self.members:
            clients, peers = self.members[name]
            cluster = ",".join(f"{it}={peer}" for it, (_, peer) in self.members.items())
            words = ["etcd", "--name", name, "--data-dir", self.folder / name, "--listen-client-urls", clients, "--advertise-client-urls", clients,
                     "--listen-peer-urls", peers, "--initial-advertise-peer-urls", peers, "--initial-cluster", cluster, "--log-level", "error",
                     "--heartbeat-interval", "300", "--election-timeout", "3000"]
        if name in self.controllers:
            at, journal = self.folder / name, "-" if self.members else self.folder / "journal"
            words = [sys.executable, "-m", "smplan.control_commands", "run", "../fleet.json", "--session", f"{self.session} {journal}",
                     "--http", self.controllers[name].removeprefix("http://"), "--open", "../service.json"]
            words += [word for urls in self.members.values() for word in ("--etcd", urls[0])] + (["--name", name, "--lease", self.lease] if self.members else [])
        with open(self.folder / f"{name}.log", "a", encoding="utf-8") as log:
            self.running[name] = subprocess.Popen(words, stdout=log, stderr=log, cwd=at, env=ENVIRONMENT)

    def kill(self, name):
        self.running[name].send_signal(signal.SIGKILL)
        self.running[name].wait()

    def end(self):
        for name in self.running:
            self.kill(name)
        for it in self.servers.values():
            it.close()

    def guard(self):
        """Starts again what has ended by itself, as systemd does, and returns its names. (On a very busy machine a session may not answer for a minute.)"""
        ended = [name for name, process in self.running.items() if process.poll() is not None]
        for name in ended:
            self.start(name)
        return ended

    def wait(self, name, seconds=600):
        url = self.members[name][0] + "/health" if name in self.members else f"{self.controllers[name]}/healthz" if name in self.controllers else f"{self.urls[name]}/base"
        until = time.monotonic() + seconds
        while time.monotonic() < until:
            try:
                return ask(url)
            except (OSError, ValueError):
                self.guard()
                time.sleep(0.1)
        raise SystemExit(f"{name} does not answer: see {self.folder}/{name}.log")

    def control(self, *words):
        """Begins a command of an operator."""
        return subprocess.Popen([sys.executable, "-m", "smplan.control_commands", *words], stdout=subprocess.PIPE, stderr=subprocess.STDOUT, text=True,
                                env={**ENVIRONMENT, "SMPLAN_CONTROLLER": ",".join(self.controllers.values())})

    def leading(self):
        """The controller that leads, none if nobody says so."""
        for name, url in self.controllers.items():
            try:
                if ask(f"{url}/healthz")["leads"]:
                    return name
            except (OSError, ValueError):
                pass
        return None

    def leader(self, seconds=600):
        """The address of the controller that leads."""
        until = time.monotonic() + seconds
        while time.monotonic() < until:
            name = self.leading()
            if name is not None:
                return self.controllers[name]
            self.guard()
            time.sleep(0.1)
        raise SystemExit("nobody leads")

    def leading_member(self):
        """The member of etcd that leads, none if nobody says so."""
        for name, (url, _) in self.members.items():
            try:
                told = ask(f"{url}/v3/maintenance/status", {})
                if told.get("leader") == told["header"]["member_id"]:
                    return name
            except (OSError, ValueError, KeyError):
                pass
        return None


class Client(threading.Thread):
    """Appends words to a key of its own in each shard, each until it is acknowledged."""

    def __init__(self, fleet, number, seed):
        super().__init__(daemon=True)
        self.fleet, self.number, self.dice, self.is_over = fleet, number, random.Random(seed), False
        self.acknowledged, self.longest, self.fault = [], 0.0, None

    def run(self):
        place = 0
        while not self.is_over:
            time.sleep(self.dice.uniform(0.0, 0.1))
            shard, place = self.dice.choice(self.fleet.shards), place + 1
            word, begun = f"<{self.number}.{place}>", time.monotonic()
            self.append(shard, word)
            self.longest = max(self.longest, time.monotonic() - begun)

    def append(self, shard, word):
        while True:
            reply = self.request(shard, f"c{word}", ["append", f"k{self.number}", word])
            if reply is not None:
                self.acknowledged.append((shard, word))
                if reply.count(word) != 1:
                    self.fault = f"{word} stands {reply.count(word)} times in the reply {reply[-200:]}"
                return
            if self.is_over:
                return
            time.sleep(0.02)

    def request(self, shard, identity, command):
        try:
            shown = self.fleet.folder / self.dice.choice(list(self.fleet.controllers)) / "map.json"
            server = json.loads(shown.read_text())["entries"][shard]["to"]
            return ask(f"{self.fleet.urls[server]}/request", {"shard": shard, "request": identity, "command": command}).get("reply")
        except (OSError, ValueError, KeyError):
            return None


class Repeater(threading.Thread):
    """Sends old orders again, as a network or an old process may. It hears of them as a controller tells what is outstanding."""

    def __init__(self, fleet, seed):
        super().__init__(daemon=True)
        self.fleet, self.dice, self.is_over, self.sent, self.heard = fleet, random.Random(seed), False, 0, {}

    def run(self):
        while not self.is_over:
            time.sleep(self.dice.uniform(0.0, 0.2))
            try:
                for it in ask(self.dice.choice(list(self.fleet.controllers.values())) + "/outgoing"):
                    if it["kind"] == "order" and it["message"]["server"] in self.fleet.urls:
                        self.heard[json.dumps(it["message"], sort_keys=True)] = it["message"]
                for line in self.dice.sample(list(self.heard.values()), min(2, len(self.heard))):
                    ask(f"{self.fleet.urls[line['server']]}/order", line, timeout=3.0)
                    self.sent += 1
            except (OSError, ValueError):
                pass


class Mover(threading.Thread):
    """Drains one server after the other. Each drain has to end by itself, however often what it asks is killed."""

    def __init__(self, fleet, seed):
        super().__init__(daemon=True)
        self.fleet, self.dice, self.is_over, self.drains, self.moved, self.faults = fleet, random.Random(seed), False, 0, Counter(), []
        self.drain = None

    def run(self):
        while not self.is_over:
            server = self.dice.choice(list(self.fleet.urls))
            self.drain = self.fleet.control("drain", server, "--batch", "3", "--pause", "0.1")
            text, _ = self.drain.communicate()
            kinds = {name: it.kind for name, it in self.fleet.servers.items()}
            self.moved.update(f"{kinds[server]} to {kinds[target]}" for target in re.findall(r"\bto (v\d+)\b", text))
            if self.drain.returncode == 3 and "waits for" not in text:
                continue  # (it has begun nothing, as nobody was there to ask)
            if self.drain.returncode != 0 or f"{server} is empty" not in text:
                self.faults.append(f"drain {server} ended with {self.drain.returncode}: {text[-500:]}")
                time.sleep(1.0)
            self.drains += 1

    def end(self, seconds):
        """Lets the drain under way end by itself."""
        self.is_over = True
        self.join(seconds)
        if self.is_alive():
            self.faults.append(f"a drain has not ended within {seconds:g} s of the last kill")
            self.drain.kill()


def harm(fleet, dice, kills, most_seconds, only):
    """Kills at random moments, and starts anew. Returns how often what was killed. A busy machine may need a while until somebody leads again: it waits
    for that once nobody has led for 15 s, so that commands, which wait for a minute, are not at their end."""
    kinds = {"a server": lambda: dice.choice(list(fleet.urls)), "a controller": lambda: dice.choice(list(fleet.controllers)), "the leader": fleet.leading}
    if len(fleet.members) > 2:
        kinds.update({"a member of etcd": lambda: dice.choice(list(fleet.members)), "etcd's leader": fleet.leading_member})
    kinds = {kind: it for kind, it in kinds.items() if only in kind}
    counts, until, led = Counter(), time.monotonic() + most_seconds, time.monotonic()
    while sum(counts[it] for it in kinds) < kills and time.monotonic() < until:
        time.sleep(dice.uniform(0.0, 2.0))
        if fleet.leading() is not None or (time.monotonic() > led + 15.0 and fleet.leader()):
            led = time.monotonic()
        kind = dice.choice(list(kinds))
        name = kinds[kind]()
        counts["ended by itself"] += len(fleet.guard())
        if name is None:
            continue
        fleet.kill(name)
        time.sleep(dice.choice([0.0, 0.1, 1.0]))
        if fleet.bug == "forget" and name in fleet.servers:
            fleet.servers[name].forget()
        fleet.start(name)
        counts[kind] += 1
        if dice.random() < 0.5:
            fleet.wait(name)
    for name in fleet.running:
        fleet.wait(name)
    return dict(counts)


def wait_for_rest(fleet, seconds):
    """Waits until no message is outstanding, and no plan runs."""
    until, outgoing = time.monotonic() + seconds, []
    while time.monotonic() < until:
        leader = fleet.leader()
        try:
            state, outgoing = ask(f"{leader}/ask", {"do": "state"})["state"], ask(f"{leader}/outgoing")
            if not outgoing and all(it["is"] != "running" for it in state["plans"]):
                return []
        except OSError:
            pass
        time.sleep(0.3)
    return [f"no rest: {outgoing}"]


def audit(fleet):
    """Compares what each server has with what is recorded."""
    leader, faults = fleet.leader(), []
    place = ask(f"{leader}/ask", {"do": "hello"})["hello"]["place"]
    for name, url in fleet.urls.items():
        slots = [{key: it for key, it in slot.items() if key not in ("position", "reached")} for slot in ask(f"{url}/slots")["slots"]]
        told = ask(f"{leader}/ask", {"do": "audit", "server": name, "place": place, "slots": slots})
        if told.get("audit", {}).get("is") != "agrees":
            faults.append(f"{name}: {told}")
    return faults


def value_of(fleet, client, shard, seconds=30.0):
    """What is stored for a client in a shard, none if nobody answers in time."""
    until, value = time.monotonic() + seconds, None
    while value is None and time.monotonic() < until:
        value = client.request(shard, None, ["get", f"k{client.number}"])
        time.sleep(0.0 if value is not None else 0.1)
    return value


def lost_words(fleet, clients):
    """Compares what was acknowledged with what is there."""
    faults = [it.fault for it in clients if it.fault]
    for shard in fleet.shards:
        for client in clients:
            value = value_of(fleet, client, shard)
            if value is None:
                faults.append(f"{shard}: nobody answers")
                break
            words = [word for at, word in client.acknowledged if at == shard]
            faults += [f"{shard}: {word} stands {value.count(word)} times" for word in words if value.count(word) != 1]
    return faults


def repeated_orders(fleet):
    """Each order that had its effect twice, or behind a later one of its shard, and how many orders had one. The servers are down."""
    faults, count = [], 0
    for name, server in fleet.servers.items():
        last = {}
        for shard, number in server.effects():
            count += 1
            if number <= last.get(shard, 0):
                faults.append(f"{name}: order {number} of {shard} has its effect behind {last[shard]}")
            last[shard] = number
    return faults, count


def arguments():
    """What the command line says."""
    parser = argparse.ArgumentParser(description=__doc__, formatter_class=argparse.RawDescriptionHelpFormatter)
    parser.add_argument("session", help="smpland, without its journal")
    for name, value in (("--kills", 200), ("--seconds", 3600.0), ("--servers", 5), ("--go", 2), ("--shards", 6), ("--clients", 3), ("--seed", 1), ("--etcd", 0),
                        ("--lease", 3), ("--patience", 240.0)):
        parser.add_argument(name, type=type(value), default=value)
    parser.add_argument("--only", default="", metavar="TEXT", help="kill only what is told with this text, as 'server'")
    parser.add_argument("--bug", default="", choices=["", "forget", "early"])
    parser.add_argument("--keep", type=Path)
    return parser.parse_args()


def storm(told, fleet):
    """Starts everything, kills, lets it come to rest, and looks. Returns the faults, and what has happened in words."""
    begun, dice = time.monotonic(), random.Random(told.seed)
    for name in [*fleet.members, *fleet.controllers, *fleet.urls]:
        fleet.start(name)
    for name in fleet.urls:
        fleet.wait(name)
    fleet.leader()
    clients = [Client(fleet, it, told.seed * 100 + it) for it in range(told.clients)]
    mover, repeater = Mover(fleet, told.seed + 1), Repeater(fleet, told.seed + 2)
    for it in [*clients, mover, repeater]:
        it.start()
    counts = harm(fleet, dice, told.kills, told.seconds, told.only)
    mover.end(told.patience)
    for it in [*clients, repeater]:
        it.is_over = True
    for it in [*clients, repeater]:
        it.join(60)
    faults = [*mover.faults, *wait_for_rest(fleet, told.patience), *audit(fleet), *lost_words(fleet, clients)]
    fleet.end()
    orders, effects = repeated_orders(fleet)
    words = sum(len(it.acknowledged) for it in clients)
    return faults + orders + ([] if words else ["no word was acknowledged"]), (
        f"{sum(value for kind, value in counts.items() if kind != 'ended by itself')} kills in {time.monotonic() - begun:.0f} s: {counts}\n{words} words acknowledged, the longest wait "
        f"{max(it.longest for it in clients):.1f} s; {effects} orders, {len(repeater.heard)} heard of, {repeater.sent} times sent again; "
        f"moves in {mover.drains} drains: {dict(mover.moved)}")


def main():
    told = arguments()
    folder = told.keep or Path(tempfile.mkdtemp(prefix="control-storm-"))
    folder.mkdir(parents=True, exist_ok=True)
    in_go = told.go if HAS_GO else 0
    if in_go < told.go:
        print("there is no go: all servers are in Python")
    if in_go:
        GoServer.build(folder)
    fleet = Fleet(folder, told.session, told.servers, in_go, told.shards, told.etcd, told.lease, told.bug)
    try:
        faults, text = storm(told, fleet)
    finally:
        fleet.end()
    print(f"{text}: {len(faults)} faults")
    for it in faults[:20]:
        print(f"  {it}")
    if not faults and told.keep is None:
        shutil.rmtree(folder)
    return 1 if faults else 0


if __name__ == "__main__":
    sys.exit(main())
