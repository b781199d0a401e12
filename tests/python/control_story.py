"""A controller that runs, and commands that are said to it. Its session is the reference, which keeps no journal."""
import contextlib
import json
import os
import pathlib
import subprocess
import sys
import tempfile
import time
import unittest
from urllib.request import urlopen

from scripted_server import ScriptedServer
from server_fleet import free_ports

ROOT = pathlib.Path(__file__).resolve().parents[2]
ENVIRONMENT = {**os.environ, "PYTHONPATH": str(ROOT / "python")}


class Story(unittest.TestCase):
    """Servers a, b and c, of a room of 10 each, and a shard s of load 4 with its primary at a and a secondary at b."""

    def begin_with(self, urls):
        """Starts the controller for servers at these ports."""
        self.folder = tempfile.TemporaryDirectory()
        self.addCleanup(self.folder.cleanup)
        self.path, self.running, self.urls = pathlib.Path(self.folder.name), {}, urls
        self.addCleanup(self.end)
        self.port, = free_ports(1)
        self.controller = f"http://127.0.0.1:{self.port}"
        (self.path / "fleet.json").write_text(json.dumps({
            "servers": {it: {"number": at + 1, "url": f"http://127.0.0.1:{self.urls[it]}"} for at, it in enumerate("abc")}, "map": {"file": "map.json"}}))
        (self.path / "service.json").write_text(json.dumps({
            "limit": 1, "servers": [{"name": it, "region": "r", "room": 10} for it in "abc"],
            "shards": [{"name": "s", "load": 4, "want": 2, "cap": 1, "spread": 1, "listed": "a", "cells": [
                {"server": "a", "state": "primary"}, {"server": "b", "state": "secondary"}]}]}))
        self.run_controller("--open", "service.json")

    def run_controller(self, *more):
        """Starts a controller, whose journal is new."""
        session = f"{sys.executable} {ROOT}/tools/smpland_model.py -"
        self.start("run", "-m", "smplan.control_commands", "run", "fleet.json", "--session", session, "--http", f"127.0.0.1:{self.port}", *more)
        self.until(lambda: self.ask("/healthz")["leads"])

    def start(self, name, *words):
        with open(self.path / f"{name}.log", "a", encoding="utf-8") as log:
            self.running[name] = subprocess.Popen([sys.executable, *words], stdout=log, stderr=log, cwd=self.path, env=ENVIRONMENT)

    def end(self):
        for it in self.running.values():
            it.kill()
            it.wait()

    def ask(self, path):
        with urlopen(self.controller + path, timeout=10) as answer:
            return json.load(answer)

    def base(self, name):
        with urlopen(f"http://127.0.0.1:{self.urls[name]}/base", timeout=10) as answer:
            return json.load(answer)["base"]

    def until(self, condition, seconds=60):
        until = time.monotonic() + seconds
        while True:
            with contextlib.suppress(OSError):
                if condition():
                    return
            self.assertLess(time.monotonic(), until, (self.path / "run.log").read_text())
            time.sleep(0.1)

    def request(self, server, number):
        line = {"shard": "s", "request": f"r{number}", "command": ["append", "k", str(number)]}
        with urlopen(f"http://127.0.0.1:{self.urls[server]}/request", json.dumps(line).encode(), timeout=10) as answer:
            return json.load(answer)

    def control(self, *words):
        told = subprocess.run([sys.executable, "-m", "smplan.control_commands", *words], capture_output=True, text=True, check=False, cwd=self.path, stdin=subprocess.DEVNULL,
                              env={**ENVIRONMENT, "SMPLAN_CONTROLLER": self.controller})
        return told.returncode, told.stdout + told.stderr

    def listed(self):
        return json.loads((self.path / "map.json").read_text())["entries"]["s"]["to"]

    def check(self, words, status, text):
        found = self.control(*words)
        self.assertEqual((found[0], text in found[1]), (status, True), (words, found))


class ScriptedStory(Story):
    """Servers of scripted_server.py."""

    def setUp(self):
        self.servers = {it: ScriptedServer() for it in "abc"}
        for it in self.servers.values():
            self.addCleanup(it.close)
        self.begin_with({it: server.port for it, server in self.servers.items()})
        self.until(lambda: self.ask("/document"))
        for it in "abc":
            line = {"server": it, "nonce": "1f"}
            urlopen(f"{self.controller}/restore", json.dumps(line).encode(), timeout=10).close()
        self.until(lambda: all(it.base is not None for it in self.servers.values()))

    def recorded(self, name):
        """A shard as it is recorded: its cells, want, cap and load; nothing if it is not there."""
        it = next((it for it in self.ask("/document")["shards"] if it["name"] == name), None)
        return it and ({cell["server"]: cell["state"] for cell in it["cells"]}, it["want"], it["cap"], it["load"])

    def epoch(self):
        return json.loads(self.control("state", "--json")[1])["epoch"]


def shard(name, load, cells, want=2, cap=1):
    """A shard, of cells such as "a*bc": * is behind the primary."""
    servers = [it for it in cells if it != "*"]
    primary = cells[cells.index("*") - 1] if "*" in cells else None
    return {"name": name, "load": load, "want": want, "cap": cap, "spread": 1, "listed": primary,
            "cells": [{"server": it, "state": "primary" if it == primary else "secondary"} for it in servers]}


DOCUMENT = {"limit": 1, "log": 65536, "servers": [{"name": it, "region": "r", "room": 10} for it in "abcs"],
            "shards": [shard("s", 4, "a*b"), shard("t", 5, "b*c"), shard("u", 1, "c", want=3, cap=2)]}
STATE = {
    "servers": [{"server": it["name"], "room": it["room"], "held": 2 if it["name"] == "c" else 0, "permit": None} for it in DOCUMENT["servers"]],
    "shards": [{"shard": it["name"], "live": len(it["cells"]), "cells": it["cells"]} for it in DOCUMENT["shards"]], "plans": []}
