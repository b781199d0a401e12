"""PostgreSQL servers, their smplan-pg, and a controller, as processes on loopback. Whoever imports this ends them with itself, also if it is told to end."""
import atexit
import contextlib
import itertools
import json
import os
import pathlib
import random
import shutil
import signal
import socket
import subprocess
import sys
import time

import clock
import psycopg
import proxies

ROOT = pathlib.Path(__file__).resolve().parents[2]
sys.path[:0] = [str(ROOT / "python"), str(ROOT / "ports/postgresql")]
BIN = pathlib.Path("/usr/lib/postgresql/15/bin")
SETTINGS = {"shared_buffers": "64MB", "max_connections": "120", "max_wal_size": "2GB", "listen_addresses": "127.0.0.1", "log_min_messages": "warning",
            "dynamic_shared_memory_type": "mmap",  # (it goes with the folder; posix leaves a file in /dev/shm for each server that is killed for good)
            "fsync": os.environ.get("PG_FSYNC", "on"), "wal_retrieve_retry_interval": os.environ.get("PG_RETRY", "20ms")}
TEMPLATES = sorted(pathlib.Path(os.environ["PG_TEMPLATES"]).iterdir()) if "PG_TEMPLATES" in os.environ else []


# All processes that were started, and what holds the ports that were chosen: of those below what connections get by themselves, and beside what cluster/ takes.
STARTED, HELD, PORTS = set(), [], range(10_000, 20_000)


@atexit.register
def end_all():
    """Kills what still runs, and gives the ports back."""
    for it in STARTED:
        it.kill()
    for it in HELD:
        it.close()


signal.signal(signal.SIGTERM, signal.default_int_handler)


def hold(port):
    """Whether a port is this process's from now on: no other one has chosen it, and nobody listens there."""
    it = socket.socket(socket.AF_UNIX)
    try:
        it.bind(f"\0smplan-port-{port}")  # (a name of no file: it ends with this process, however that ends)
        socket.create_server(("127.0.0.1", port)).close()
    except OSError:
        it.close()
        return False
    HELD.append(it)
    return True


def free_ports(count):
    """Ports that nobody has, nor gets by this until this process ends."""
    chosen = list(itertools.islice(filter(hold, random.SystemRandom().sample(PORTS, len(PORTS))), count))
    if len(chosen) < count:
        raise SystemExit(f"there are no {count} free ports")
    return chosen


def processes_in(folder):
    """The numbers of the processes that work in a folder."""
    its, found = os.path.realpath(folder), []
    for path in pathlib.Path("/proc").iterdir():
        with contextlib.suppress(OSError):
            if path.name.isdigit() and os.readlink(path / "cwd").removesuffix(" (deleted)") == its:
                found.append(int(path.name))
    return found


def signal_all(pids, what):
    """Sends a signal to all processes of some that are there."""
    for it in pids:
        with contextlib.suppress(ProcessLookupError):
            os.kill(it, what)


def as_postgres():
    """How a process is started that may not be root's."""
    return {"user": "postgres", "group": "postgres", "extra_groups": []} if os.geteuid() == 0 else {}


class Process:
    """A process that is started, killed and started again."""

    def __init__(self, name, words, log, **rest):
        self.name, self.words, self.log, self.rest, self.process, self.may_start = name, words, log, rest, None, True

    def start(self):
        if not self.may_start:
            raise RuntimeError(f"{self.name} starts no more")
        with self.log.open("a") as log:
            self.process = subprocess.Popen(self.words, stdout=log, stderr=log, start_new_session=True, **self.rest)
        STARTED.add(self)

    def is_up(self):
        return self.process is not None and self.process.poll() is None

    def stop(self, how=signal.SIGTERM, seconds=20):
        if self.is_up():
            os.kill(self.process.pid, how)
            try:
                self.process.wait(seconds)
            except subprocess.TimeoutExpired:
                self.kill()

    def kill(self):
        if self.is_up():
            self.process.kill()
            self.process.wait()


class Postgres(Process):
    """A PostgreSQL server."""

    def __init__(self, folder, name, port, shards, servers):
        from smplan_pg.status import settings
        self.port, self.data = port, folder / f"pg-{name}"
        lines = dict(it.split("#")[0].strip().split(" = ") for it in settings(shards, servers).splitlines())
        words = [str(BIN / "postgres"), "-D", str(self.data), "-p", str(port)]
        for key, it in {**lines, **SETTINGS, "unix_socket_directories": str(folder)}.items():
            words += ["-c", f"{key}={it}"]
        super().__init__(name, words, folder / f"pg-{name}.log", cwd=str(folder), **as_postgres())
        self.reach = f"host=127.0.0.1 port={port} dbname=postgres user=postgres"

    def make(self):
        """Begins to make an empty cluster, by initdb or from what $PG_TEMPLATES has: folders 0, 1, .. that initdb has made before, each for one cluster, as
        two must not have one system identifier."""
        if TEMPLATES:
            return subprocess.Popen(["cp", "-a", str(TEMPLATES.pop(0)), str(self.data)])
        return subprocess.Popen([str(BIN / "initdb"), "-D", str(self.data), "-A", "trust", "-U", "postgres", "-E", "UTF8", "--locale=C.UTF-8", "-N"],
                                stdout=subprocess.DEVNULL, cwd=str(self.data.parent), **as_postgres())

    def processes(self):
        """All its processes that are there: the first one, and what that has started."""
        return processes_in(self.data)

    def kill(self):
        """Kills all its processes, as if its machine went down. (A backend may outlive the first one, and nothing starts before it has ended: who makes a
        stream waits for log that nobody writes any more.)"""
        is_there = self.is_up()
        super().kill()
        while its := self.processes():
            signal_all(its, signal.SIGKILL)
            time.sleep(0.002)
        if is_there:
            self.forget_memory()

    def forget_memory(self):
        """Deletes the segment of memory by which a next start would know of its processes: else it stays for ever if there is none."""
        with contextlib.suppress(OSError, LookupError):
            segment = (self.data / "postmaster.pid").read_text().splitlines()[6].split()[1]
            subprocess.run(["ipcrm", "-m", segment], stderr=subprocess.DEVNULL, check=False)

    def wait(self, seconds=120):
        """Waits until it answers."""
        until = clock.now() + seconds
        while True:
            try:
                return psycopg.connect(self.reach, connect_timeout=30).close()
            except psycopg.Error:
                if clock.now() > until:
                    raise TimeoutError(f"not within {seconds:g} s: {self.name} comes up (see {self.log})") from None
                if not self.is_up():
                    self.start()
                time.sleep(0.1)

    @contextlib.contextmanager
    def still(self):
        """All its processes stand still."""
        stopped = [self.process.pid]
        try:
            signal_all(stopped, signal.SIGSTOP)  # (first: it starts no more then)
            stopped += [it for it in self.processes() if it not in stopped]
            signal_all(stopped, signal.SIGSTOP)
            yield
        finally:
            signal_all(reversed(stopped), signal.SIGCONT)

    def query(self, statement, values=()):
        """All rows of a statement."""
        with psycopg.connect(self.reach, autocommit=True, connect_timeout=30) as c:
            cursor = c.execute(statement, values or None)
            return cursor.fetchall() if cursor.description else []


class Part:
    """A database of a PostgreSQL server, as a server of its own."""

    query = Postgres.query

    def __init__(self, post, name):
        self.post, self.name, self.port, self.reach = post, name, post.port, post.reach.replace("dbname=postgres", f"dbname={name}")
        self.is_up = post.is_up

    def make(self):
        """Makes the empty database."""
        self.post.query(f"CREATE DATABASE {self.name}")


class Fleet:
    """Servers a, b, .. with a controller, or with several over etcd. With `parts` above 0 each is so many databases, a0, a1, .., which are the servers."""

    def __init__(self, folder, names, shards=12, program=None, options=(), harm=0.0, seed=0, bug="", controllers=1, parts=0):
        machines, names = list(names), [f"{it}{n}" for it in names for n in range(parts)] if parts else list(names)
        self.folder, self.names, self.shards, self.room, self.patience = pathlib.Path(folder), names, [], 1000, 60.0
        shutil.rmtree(self.folder, ignore_errors=True)
        self.folder.mkdir(parents=True)
        os.chmod(self.folder, 0o777)
        self.program = program or smpland()
        free = free_ports(3 * len(names) + controllers + 2)
        self.pages = [f"http://127.0.0.1:{free.pop()}" for _ in range(controllers)]
        self.machines = {name: Postgres(self.folder, name, free.pop(), shards, len(machines)) for name in machines}
        self.posts = {name: Part(self.machines[name[0]], name) for name in names} if parts else self.machines
        for it in self.machines.values() if parts else ():
            it.words += ["-c", "max_connections=600"]
        self.urls = {name: f"http://127.0.0.1:{free.pop()}" for name in names}
        program = [str(ROOT / "ports/postgresql/smplan-pg")] if not bug else ["/usr/bin/python3", str(ROOT / "tests/postgresql/wrong.py"), bug]
        environment = {**os.environ, "PATH": f"{BIN}:{os.environ['PATH']}"}
        told = [word for it in self.pages for word in ("--controller", it)]
        self.agents = {name: Process(name, [*program, "serve", "--dsn", it.reach, "--name", name, "--http", self.urls[name], *told, *options],
                                     self.folder / f"serve-{name}.log", env=environment) for name, it in self.posts.items()}
        shown = {name: f"http://127.0.0.1:{free.pop()}" for name in names} if harm else self.urls
        self.proxied = {name: proxies.start(self.urls[name], int(url.rsplit(":", 1)[1]), harm, f"{seed} {name}") for name, url in shown.items()} if harm else {}
        self.map_files = [self.folder / f"map-{it}.json" for it in range(controllers)]
        for n, it in enumerate(self.map_files):
            fleet = {"servers": {name: {"number": 1 + n, "url": shown[name]} for n, name in enumerate(names)}, "map": {"file": str(it)}}
            (self.folder / f"fleet-{n}.json").write_text(json.dumps(fleet))
        self.store = self.make_store(*free[:2]) if controllers > 1 else None
        self.controllers = [self.make_controller(n, it) for n, it in enumerate(self.pages)]

    def make_store(self, client, peer):
        """Several controllers' etcd, of one member."""
        urls = [f"http://127.0.0.1:{it}" for it in (client, peer)]
        words = ["etcd", "--name", "e", "--data-dir", str(self.folder / "etcd"), "--listen-client-urls", urls[0], "--advertise-client-urls", urls[0],
                 "--listen-peer-urls", urls[1], "--initial-advertise-peer-urls", urls[1], "--initial-cluster", f"e={urls[1]}", "--log-level", "error",
                 "--heartbeat-interval", "300", "--election-timeout", "3000"]
        it = Process("etcd", words, self.folder / "etcd.log")
        it.url = urls[0]
        return it

    def make_controller(self, number, page):
        """One controller. It has a folder of its own, as its session's files do."""
        words = [str(ROOT / "scripts/smplan-control"), "run", str(self.folder / f"fleet-{number}.json"), "--http", page.removeprefix("http://"),
                 "--open", str(self.folder / "service.json")]
        if self.store:
            words += ["--session", f"{self.program} -", "--etcd", self.store.url, "--name", f"k{number}", "--lease", "3"]
        else:
            words += ["--session", f"{self.program} {self.folder}/journal"]
        return Process(f"controller {number}", words, self.folder / f"controller-{number}.log")

    def make(self):
        """Makes and starts the clusters."""
        made = [it.make() for it in self.machines.values()]
        if any(it.wait() for it in made):
            raise SystemExit("initdb failed")
        for it in self.machines.values():
            it.start()
        for it in self.machines.values():
            it.wait()
        for it in self.posts.values():
            if isinstance(it, Part):
                it.make()

    def open(self, document):
        """Starts the controller and all servers' sides."""
        (self.folder / "service.json").write_text(json.dumps(document))
        if self.store:
            self.store.start()
        for it in [*self.controllers, *self.agents.values()]:
            it.start()

    def leader(self):
        """Which controller leads; the first if nobody says so."""
        from smplan.control_http import fetch
        for n, it in enumerate(self.pages if self.store else []):
            try:
                if fetch(f"{it}/healthz", timeout=2).get("leads"):
                    return n
            except Exception:  # pylint: disable=broad-exception-caught
                continue
        return 0

    def kill_controller(self, number):
        """Kills a controller with its session."""
        it = self.controllers[number]
        told = subprocess.run(["ps", "--ppid", str(it.process.pid), "-o", "pid="], capture_output=True, text=True, check=False)
        it.kill()
        for pid in told.stdout.split():
            os.kill(int(pid), signal.SIGKILL)

    def remake(self, name):
        """Starts a server with an empty disk."""
        shutil.rmtree(self.posts[name].data)
        if self.posts[name].make().wait():
            raise SystemExit("initdb failed")
        self.posts[name].start()
        self.posts[name].wait()

    def answers(self, name):
        """Whether a server's side answers."""
        from smplan.control_http import fetch
        return "base" in fetch(f"{self.urls[name]}/base", timeout=2)

    def command(self, *words, **rest):
        """Begins a command of an operator."""
        told = [word for it in self.pages for word in ("--controller", it)]
        words = [str(ROOT / "scripts/smplan-control"), words[0], *told, *words[1:]]
        with (self.folder / "commands.log").open("a") as log:
            return subprocess.Popen(words, stdout=log, stderr=log, **rest)

    def ask(self, line):
        """Asks the controller that leads."""
        from smplan.control_http import fetch
        return fetch(f"{self.pages[self.leader()]}/ask", line)

    def state(self):
        """The service's state; it waits for a controller that leads."""
        told = []
        self.wait_for("a controller tells the service's state", lambda: told.append(self.ask({"do": "state"})["state"]) or told)
        return told[0]

    def wait_for(self, what, condition, seconds=None):
        """Waits for something; ends the run if it does not come."""
        from smplan.failure import Failure
        seconds = seconds or self.patience
        until = clock.now() + seconds
        while clock.now() < until:
            try:
                if condition():
                    return
            except (psycopg.Error, OSError, LookupError, ValueError, Failure):
                pass
            time.sleep(0.2)
        raise TimeoutError(f"not within {seconds:g} s: {what}")

    def told_stuck(self):
        """What is not answered, and what servers say of it."""
        from smplan.control_http import fetch
        try:
            return [{it: row[it] for it in ("message", "tries", "said")} for row in fetch(f"{self.pages[self.leader()]}/outgoing")][:4]
        except Exception as why:  # pylint: disable=broad-exception-caught
            return str(why)

    def close(self):
        """Kills all, and lets nothing start any more, as harm may that goes on."""
        its = [*self.controllers, *self.agents.values(), *self.machines.values(), *([self.store] if self.store else [])]
        for it in its:
            it.may_start = False
        for it in its:
            it.kill()


def smpland():
    """The program: what $SMPLAND names, else what is built."""
    choices = [os.environ.get("SMPLAND", ""), f"{ROOT}/build/smpland", f"{ROOT}/build/smpland-unproved"]
    found = next((it for it in choices if it and os.access(it, os.X_OK)), None)
    return found or f"{sys.executable} {ROOT}/tools/smpland_model.py"
