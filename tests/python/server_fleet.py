"""Servers of the frame as processes, a controller that drives them, and clients whose acknowledged writes are kept."""
import json
import os
import pathlib
import random
import shutil
import signal
import socket
import ssl
import subprocess
import sys
import threading
import time
from urllib.request import Request as Page, urlopen

ROOT = pathlib.Path(__file__).resolve().parents[2]
ENVIRONMENT = {**os.environ, "PYTHONPATH": str(ROOT / "python"), "PYTHONDONTWRITEBYTECODE": "1"}
if LIBRARY := os.environ.get("SM_AGENT"):
    ENVIRONMENT["SM_AGENT"] = str(pathlib.Path(LIBRARY).resolve())
SMPLAND = pathlib.Path(os.environ.get("SMPLAND") or ROOT / "build/smpland")
HAS_GO = shutil.which("go") is not None


def go(*words):
    """Runs go in its module."""
    (ROOT / "build").mkdir(exist_ok=True)
    done = subprocess.run(["go", *words], cwd=ROOT / "ports/go", capture_output=True, text=True, check=False,
                          env={**os.environ, "GOCACHE": str(ROOT / "build/go-cache"), "GOPROXY": "off"})
    if done.returncode:
        raise AssertionError(done.stdout + done.stderr)


def free_ports(count):
    """As many ports that nobody listens at."""
    sockets = [socket.create_server(("127.0.0.1", 0)) for _ in range(count)]
    ports = [it.getsockname()[1] for it in sockets]
    for it in sockets:
        it.close()
    return ports


def handover(shard, load, old, new):
    """A plan that hands a shard from its primary to a server that has nothing of it."""
    calls = [("prepare_add", new, {"other": old}), ("prepare_drop", old, {"other": new}), ("add", new, {"role": "primary"}), ("publish", None, {}),
             ("drop", old, {})]
    code = [{"do": word, "shard": shard, **({"server": server} if server else {}), **rest} for word, server, rest in calls]
    holds = {"cells": [{"server": new, "shard": shard, "state": "absent"}], "crowns": [{"lead": "at", "listed": old, "server": old, "shard": shard}],
             "room": [{"amount": load, "server": new}], "spare": []}
    return {"budget": 4, "format": 1, "signals": [], "streams": [{"budget": 4, "code": code, "holds": holds}]}


def swap(shard, old, new):
    """A plan that changes the roles of a primary and a secondary."""
    calls = [("unlist", {}), ("change", {"server": old, "to": "secondary"}), ("change", {"server": new, "to": "primary"}), ("publish", {})]
    holds = {"cells": [{"server": new, "shard": shard, "state": "secondary"}],
             "crowns": [{"lead": "at", "listed": old, "server": old, "shard": shard}], "room": [], "spare": []}
    code = [{"do": word, "shard": shard, **rest} for word, rest in calls]
    return {"budget": 2, "format": 1, "signals": [], "streams": [{"budget": 2, "code": code, "holds": holds}]}


def primary_of(proposal):
    """Whom a proposal makes primary."""
    return next((it["server"] for shard in proposal["cells"] for it in shard["cells"] if it["state"] == "primary"), None)


class Client(threading.Thread):
    """Appends words to a key of its own, each under an identity until it is acknowledged."""

    def __init__(self, fleet, number, pause=0.0):
        super().__init__(daemon=True)
        self.fleet, self.key, self.pause, self.words, self.times, self.fault, self.is_over = fleet, f"k{number}", pause, [], [], None, False

    def run(self):
        place = 0
        while not self.is_over:
            time.sleep(self.pause)
            place += 1
            word = f"<{place}>"
            reply = None
            while reply is None and not self.is_over:
                reply = self.fleet.request(f"{self.key}-{place}", ["append", self.key, word])
            if reply is not None:
                self.words.append(word)
                self.times.append(time.monotonic())
                if reply != "".join(self.words):
                    self.fault = self.fault or f"{self.key}: the reply to {word} is {reply[-60:]}"


class Fleet:
    """A controller, and servers, which are processes and acknowledge only what `copies` of them have. Each is of a
    kind: "python" is examples/kv_http.py, "go" ports/go/examples/kv, and "native" the former with the proved agent;
    some have a bug of planted_server.py. Shard s has its primary at a, and secondaries at b and c. With a secret they
    have a token and TLS."""

    def __init__(self, folder, kinds, copies, has_secret=False, bugs=()):
        self.folder, self.running, self.kinds, self.copies, self.bugs = pathlib.Path(folder), {}, kinds, copies, dict(bugs)
        self.dice, self.environment = random.Random(7), ENVIRONMENT
        self.token, self.words, self.context, self.go_words = None, (), None, ()
        if has_secret:
            self.make_secret()
        if "go" in kinds.values():
            go("build", "-o", f"{folder}/kv", "./examples/kv")
        port, *ports = free_ports(1 + len(kinds))
        scheme = "https" if has_secret else "http"
        self.controller, self.urls = f"{scheme}://127.0.0.1:{port}", {it: f"{scheme}://127.0.0.1:{at}" for it, at in zip(kinds, ports)}
        self.controllers = dict.fromkeys(kinds, self.controller)
        for it in kinds:
            (self.folder / it).mkdir()
        (self.folder / "fleet.json").write_text(json.dumps({
            "servers": {it: {"number": at + 1, "url": url} for at, (it, url) in enumerate(self.urls.items())}, "map": {"file": "map.json"}}))
        cells = [{"server": "a", "state": "primary"}, {"server": "b", "state": "secondary"}, {"server": "c", "state": "secondary"}]
        (self.folder / "service.json").write_text(json.dumps({
            "limit": 1, "servers": [{"name": it, "region": "r", "room": 10} for it in self.urls],
            "shards": [{"name": "s", "load": 4, "want": 3, "cap": 2, "spread": 1, "listed": "a", "cells": cells}]}))

    def make_secret(self):
        """Makes a token and a certificate."""
        token, cert, key = (self.folder / it for it in ("token", "cert", "key"))
        token.write_text("0123456789abcdef")
        subprocess.run(["openssl", "req", "-x509", "-newkey", "ec", "-pkeyopt", "ec_paramgen_curve:prime256v1", "-nodes", "-keyout", key, "-out", cert, "-subj", "/CN=kv",
                        "-addext", "subjectAltName=IP:127.0.0.1", "-days", "1"], check=True, capture_output=True)
        self.token, self.context = token.read_text(), ssl.create_default_context(cafile=str(cert))
        self.words, self.go_words = ("--token", token, "--tls", cert, key), ("-token", token, "-cert", cert, "-key", key)
        self.environment = {**ENVIRONMENT, "SSL_CERT_FILE": str(cert)}

    def ask(self, url, line=None, token=""):
        headers = {"Authorization": f"Bearer {self.token if token == '' else token}"} if self.token else {}
        request = Page(url, None if line is None else json.dumps(line).encode(), headers)
        with urlopen(request, timeout=10.0, context=self.context) as answer:
            return json.load(answer)

    # -- processes

    def start(self, name, *words):
        with open(self.folder / f"{name}.log", "a", encoding="utf-8") as log:
            self.running[name] = subprocess.Popen([str(it) for it in words], stdout=log, stderr=log, cwd=self.folder, env=self.environment)

    def log(self, name):
        """What a process has printed."""
        return (self.folder / f"{name}.log").read_text()

    def start_controller(self):
        """Starts the controller, and waits until it leads."""
        session = f"{SMPLAND} journal" if SMPLAND.exists() else f"{sys.executable} {ROOT}/tools/smpland_model.py -"
        self.start("run", sys.executable, "-m", "smplan.control_commands", "run", "fleet.json", "--session", session,
                   "--http", self.controller.split("//")[1], "--open", "service.json", *self.words)
        self.until(lambda: self.ask(f"{self.controller}/healthz")["leads"], "the controller")

    def start_server(self, name, *words):
        """Starts a server; `words` are new or forget."""
        place = (name, self.controllers[name], f"{name}/store")
        if self.kinds[name] == "go":
            self.start(name, self.folder / "kv", *(f"-{it}" for it in words), *self.go_words, "-copies", self.copies, *place)
            return
        bug = self.bugs.get(name, "none" if self.kinds[name] == "native" else None)
        program = [ROOT / "tests/python/planted_server.py", bug, *(["--native"] if self.kinds[name] == "native" else [])] if bug else [ROOT / "examples/kv_http.py"]
        self.start(name, sys.executable, *program, *(f"--{it}" for it in words), *self.words, "--copies", self.copies, *place)

    def start_servers(self):
        """Starts the servers of a new service, and waits until they have their slots, and so many copies are noted."""
        for it in self.kinds:
            self.start_server(it, "new")
        for it in self.kinds:
            self.until(lambda it=it: self.is_up(it), it)
        self.until(lambda: self.noted() == self.copies, f"{self.copies} copies")

    def kill(self, name):
        self.running[name].send_signal(signal.SIGKILL)
        self.running[name].wait()

    def end(self):
        for it in self.running.values():
            it.kill()
            it.wait()

    # -- disks of servers that are down

    def replace_disk(self, name):
        """A server gets a new disk, with nothing on it."""
        shutil.rmtree(self.folder / name)
        (self.folder / name).mkdir()

    def copy_disk(self, name):
        """Keeps a copy of what a server has on its disk."""
        shutil.copytree(self.folder / name, self.folder / f"{name}.copy")

    def put_copy_back(self, name):
        """The copy takes the place of what the server has on its disk."""
        shutil.rmtree(self.folder / name)
        shutil.move(self.folder / f"{name}.copy", self.folder / name)

    # -- what is there

    def until(self, condition, what, seconds=60):
        until = time.monotonic() + seconds
        while True:
            try:
                if condition():
                    return
            except OSError:
                pass
            if time.monotonic() > until:
                raise AssertionError(f"{what}: " + "".join(f"\n-- {it}\n{self.log(it)[-1500:]}" for it in self.running))
            time.sleep(0.05)

    def is_up(self, name):
        return self.ask(f"{self.urls[name]}/base")["base"] is not None

    def listed(self):
        return json.loads((self.folder / "map.json").read_text())["entries"]["s"]["to"]

    def request(self, identity, command):
        """Sends a request to the server that the map shows, if it shows one, and to any if that says nothing."""
        for server in filter(None, [self.listed(), self.dice.choice([*self.urls])]):
            try:
                told = self.ask(f"{self.urls[server]}/request", {"shard": "s", "request": identity, "command": command})
                if "reply" in told:
                    return told["reply"]
            except OSError:
                pass
        time.sleep(0.02)
        return None

    def value(self, key):
        """What is read of a key."""
        found = []
        self.until(lambda: found.append(self.request(None, ["get", key])) or found[-1] is not None, f"{key} is read")
        return found[-1]

    def is_at_rest(self):
        state = self.ask(f"{self.controller}/ask", {"do": "state"})["state"]
        return not self.ask(f"{self.controller}/outgoing") and all(it["is"] != "running" for it in state["plans"])

    def slots(self, name):
        """What a server has."""
        return self.ask(f"{self.urls[name]}/slots")["slots"]

    def marks(self):
        """How many writes each server has of the shard, by its cell."""
        return {name: {it["shard"]: (it["cell"], it["position"]) for it in self.slots(name)} for name in self.urls}

    def views(self):
        """The views of all copies."""
        return {it["view"] for name in self.urls for it in self.slots(name)}

    def noted(self):
        """How many copies of the shard are noted."""
        return self.ask(f"{self.controller}/ask", {"do": "state", "shard": "s"})["state"]["shard"]["copies"]

    # -- what an operator does

    def do(self, **line):
        """The reply to a line."""
        return self.ask(f"{self.controller}/do", line)

    def begin(self, name, plan):
        told = self.do(do="begin", plan=plan, name=name)
        if "begun" not in told:
            raise AssertionError(told)

    def move(self, name, old, new, plan=None):
        self.begin(name, plan or handover("s", 4, old, new))
        self.until(lambda: self.is_at_rest() and self.listed() == new, name)

    def reopen(self, *words):
        """Gives servers up by a command."""
        return subprocess.run([sys.executable, "-m", "smplan.control_commands", "reopen", *words, "--controller", self.controller], capture_output=True, text=True, check=False, cwd=self.folder, env=self.environment, timeout=120)
