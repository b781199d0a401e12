"""The stores that a server may have: a redis-server of its own, or SQLite in its own process. Both take the commands of Redis."""
from __future__ import annotations

import asyncio
import ctypes
import fcntl
import os
import signal
import subprocess
import time
from collections.abc import Awaitable
from functools import partial
from pathlib import Path

from ..resp import ErrorReply, Redis
from .sqlite import FILE, Sqlite

Engine = Redis | Sqlite
REDIS, SQLITE = "redis", "sqlite"


async def open_store(kind: str, folder: Path, syncs: str = "always") -> tuple[Engine, Awaitable[str]]:
    """Opens the store of a folder; with it comes why it has ended, once it has. A redis-server syncs its log always, unless a bug is planted."""
    if kind == SQLITE:
        return Sqlite(folder), asyncio.get_running_loop().create_future()
    child = start_redis(folder, syncs)

    async def end() -> str:
        return f"redis-server ended: {await asyncio.to_thread(child.wait)}"

    return await open_redis(folder), end()


def kind_of(folder: Path) -> str:
    """Which store a folder has."""
    return SQLITE if (folder / FILE).exists() else REDIS


def die_with_parent(parent: int) -> None:
    """In the child: ends it when its parent ends (PR_SET_PDEATHSIG), and now if that has ended by now."""
    ctypes.CDLL(None).prctl(1, signal.SIGKILL)
    if os.getppid() != parent:
        os._exit(1)


def cut_torn(folder: Path) -> None:
    """Cuts a folder's log behind its last whole transaction. A redis-server (7.0) that finds a torn command cuts off that alone, and leaves the
    MULTI before it open: the commands behind it are carried out after all, with the next transaction, at the next start."""
    manifest = folder / "appendonlydir" / "appendonly.aof.manifest"
    if manifest.exists():
        subprocess.run(["redis-check-aof", "--fix", manifest.name], cwd=manifest.parent, input=b"y\n", stdout=subprocess.DEVNULL)


def start_redis(folder: Path, syncs: str = "always") -> "subprocess.Popen[bytes]":
    """Starts the redis-server of a folder, once nobody else has it. It ends with this process, however this process
    ends."""
    lock = os.open(folder / "lock", os.O_RDWR | os.O_CREAT)
    fcntl.flock(lock, fcntl.LOCK_EX)
    (folder / "redis.sock").unlink(missing_ok=True)
    cut_torn(folder)
    command = ["redis-server", "--port", "0", "--unixsocket", "redis.sock", "--appendonly", "yes", "--appendfsync", syncs,
               "--save", "", "--auto-aof-rewrite-percentage", "0", "--logfile", "redis.log"]
    environment = {**os.environ, "LD_PRELOAD": os.environ["SM_SYNCS"]} if os.environ.get("SM_SYNCS") else None
    # (the child keeps the lock: who starts next waits until it has ended)
    die = partial(die_with_parent, os.getpid())
    child = subprocess.Popen(command, cwd=folder, env=environment, preexec_fn=die, stdout=subprocess.DEVNULL, pass_fds=(lock,))
    os.close(lock)
    return child


async def open_redis(folder: Path, seconds: float = 20) -> Redis:
    """Connects to the redis-server of a folder once it has read its data."""
    deadline = time.monotonic() + seconds
    # (a unix socket's path is short, and a folder's may not be)
    path = os.path.relpath(folder / "redis.sock")
    while True:
        redis = None
        try:
            redis = await Redis.open(path)
            await redis.call("PING")
            return redis
        except (OSError, ErrorReply):  # (refused, or the data is being read)
            if redis is not None:
                redis.close()
            if time.monotonic() > deadline:
                raise
            await asyncio.sleep(0.05)
