"""The processes of a run: each with its log, killed and stopped by its own id, and never left behind."""
from __future__ import annotations

import asyncio
import ctypes
import json
import os
import secrets
import signal
import socket
from dataclasses import dataclass, field
from functools import partial
from pathlib import Path


LIBC = ctypes.CDLL(None)
PR_SET_PDEATHSIG = 1


def die_with_parent(parent: int) -> None:
    """Has the kernel end this process with the one that started it, however that ends, and ends it now if that has ended by now."""
    LIBC.prctl(PR_SET_PDEATHSIG, signal.SIGKILL)
    if os.getppid() != parent:
        os._exit(1)


class NotReady(Exception):
    """A process did not say that it is ready."""


class Copy:
    """A process that the nursery has begun."""

    stdin = None

    def __init__(self, pid: int) -> None:
        self.pid = pid
        self.returncode: int | None = None
        self.ended = asyncio.Event()
        try:
            self.handle = os.pidfd_open(pid)
            asyncio.get_running_loop().add_reader(self.handle, self.end)
        except ProcessLookupError:
            self.returncode = 1
            self.ended.set()

    def end(self) -> None:
        """Notes that it has ended."""
        asyncio.get_running_loop().remove_reader(self.handle)
        os.close(self.handle)
        self.returncode = 1
        self.ended.set()

    def send_signal(self, number: int) -> None:
        """Sends it a signal, if it runs."""
        if self.returncode is None:
            signal.pidfd_send_signal(self.handle, number)

    async def wait(self) -> None:
        """Waits until it has ended."""
        await self.ended.wait()


class Nursery:
    """The process that begins servers and controllers (nursery.py)."""

    def __init__(self, command: list[str], environment: dict[str, str]) -> None:
        self.command, self.environment = command, environment
        self.running: asyncio.subprocess.Process | None = None
        self.asking = asyncio.Lock()

    async def begin(self, log: Path, words: list[str]) -> Copy:
        """Has it run a module with words."""
        async with self.asking:
            if self.running is None:
                pipe = asyncio.subprocess.PIPE
                self.running = await asyncio.create_subprocess_exec(
                    *self.command, stdin=pipe, stdout=pipe, env={**os.environ, **self.environment}, start_new_session=True,
                    preexec_fn=partial(die_with_parent, os.getpid()))
            assert self.running.stdin is not None and self.running.stdout is not None
            self.running.stdin.write(json.dumps([str(log), *words]).encode() + b"\n")
            told = await self.running.stdout.readline()
        if not told:
            raise NotReady("the nursery has ended")
        return Copy(int(told))

    async def end(self) -> None:
        """Ends it, and with it all that it has begun."""
        if self.running is not None and self.running.returncode is None:
            self.running.kill()
            await self.running.wait()


@dataclass
class Process:
    """One process, by its command, or by the words that the nursery runs; it may be started again."""

    name: str
    command: list[str]
    directory: Path
    says_ready: bool = True
    environment: dict[str, str] = field(default_factory=dict)
    has_input: bool = False
    nursery: Nursery | None = None
    running: asyncio.subprocess.Process | Copy | None = None
    starts: int = 0
    starting: asyncio.Lock = field(default_factory=asyncio.Lock)

    @property
    def log(self) -> Path:
        """Where its output goes."""
        return self.directory / f"{self.name}.log"

    @property
    def is_running(self) -> bool:
        """Whether it was started and has not ended."""
        return self.running is not None and self.running.returncode is None

    async def start(self, *more: str, timeout: float = 30.0) -> None:
        """Starts it, unless somebody else has meanwhile, and waits until it says `ready`."""
        async with self.starting:
            if not self.is_running:
                await self.begin(*more, timeout=timeout)

    async def begin(self, *more: str, timeout: float) -> None:
        """Begins it, and waits until it says `ready`."""
        self.starts += 1
        with self.log.open("ab") as log:
            begin = log.tell()
            if self.nursery is not None:
                self.running = await self.nursery.begin(self.log, [*self.command, *more])
            else:
                self.running = await asyncio.create_subprocess_exec(
                    *self.command, *more, stdin=asyncio.subprocess.PIPE if self.has_input else asyncio.subprocess.DEVNULL, stdout=log, stderr=log,
                    env={**os.environ, **self.environment}, start_new_session=True, preexec_fn=partial(die_with_parent, os.getpid()),
                )
        if self.says_ready:
            await self.wait_ready(begin, timeout)

    async def wait_ready(self, begin: int, timeout: float) -> None:
        """Waits until a line `ready` stands in the log behind a place."""
        for _ in range(int(timeout / 0.05)):
            with self.log.open("rb") as log:
                log.seek(begin)
                if b"ready\n" in log.read():
                    return
            if not self.is_running:
                break
            await asyncio.sleep(0.05)
        raise NotReady(f"{self.name} did not get ready: see {self.log}")

    def signal(self, number: int) -> None:
        """Sends it a signal, if it runs."""
        if self.is_running:
            assert self.running is not None
            self.running.send_signal(number)

    def signal_group(self, number: int) -> None:
        """Sends a signal to it and to what it has started, if it runs."""
        if self.is_running:
            assert self.running is not None
            os.killpg(self.running.pid, number)

    async def end_input(self, timeout: float = 60.0) -> None:
        """Ends its input, and waits until it has ended by itself."""
        if self.running is not None and self.running.stdin is not None:
            self.running.stdin.close()
            await asyncio.wait_for(self.running.wait(), timeout)

    async def kill(self) -> None:
        """Ends it at once, with what it has started, which stands in its own process group."""
        if self.is_running:
            assert self.running is not None
            os.killpg(self.running.pid, signal.SIGKILL)
            await self.running.wait()


class Processes:
    """All processes of a run."""

    def __init__(self, directory: Path, nursery: Nursery) -> None:
        self.directory, self.nursery = directory, nursery
        self.by_name: dict[str, Process] = {}
        directory.mkdir(parents=True, exist_ok=True)

    def add(self, name: str, command: list[str], says_ready: bool = True, has_input: bool = False, **environment: str) -> Process:
        """Adds a process, which is started by `start`."""
        self.by_name[name] = Process(name, command, self.directory, says_ready, environment, has_input)
        return self.by_name[name]

    def add_copy(self, name: str, *words: str) -> None:
        """Adds a process that the nursery begins, by its module and words."""
        self.by_name[name] = Process(name, list(words), self.directory, nursery=self.nursery)

    def __getitem__(self, name: str) -> Process:
        return self.by_name[name]

    async def start(self, *names: str) -> None:
        """Starts processes side by side."""
        await asyncio.gather(*(self.by_name[it].start() for it in names))

    async def end(self) -> None:
        """Ends all of them."""
        for process in self.by_name.values():
            if process.is_running:
                process.signal_group(signal.SIGCONT)
        await asyncio.gather(*(it.kill() for it in self.by_name.values()))
        await self.nursery.end()


# Ports are given out in blocks, below those that connections get, so that nobody takes one before its process listens.
FIRST_PORT, LAST_PORT, BLOCK = 20_000, 32_000, 500


def bound(port: int) -> socket.socket | None:
    """Returns a socket that is bound to a port, none if somebody has it."""
    it = socket.socket()
    try:
        it.bind(("127.0.0.1", port))
    except OSError:
        it.close()
        return None
    return it


class Ports:
    """Ports of one run, from blocks that no other run has: it is bound to the first port of each until its end."""

    def __init__(self) -> None:
        self.guards: list[socket.socket] = []
        self.left: list[int] = []

    def take_block(self) -> None:
        """Takes one more block."""
        firsts = list(range(FIRST_PORT, LAST_PORT, BLOCK))
        secrets.SystemRandom().shuffle(firsts)
        for first in firsts:
            guard = bound(first)
            if guard is not None:
                self.guards.append(guard)
                self.left += range(first + 1, first + BLOCK)
                return
        raise NotReady("no ports are left")

    def take(self, count: int) -> list[int]:
        """Returns ports at which nobody listens, and that were not given out before."""
        found: list[int] = []
        while len(found) < count:
            if not self.left:
                self.take_block()
            port = self.left.pop()
            socket_there = bound(port)
            if socket_there is not None:
                socket_there.close()
                found.append(port)
        return found

    def end(self) -> None:
        """Gives all blocks back."""
        for guard in self.guards:
            guard.close()
        self.guards, self.left = [], []
