"""Silence of a server's database: it is waited for, with rests; what begins and ends is told; and time stands still."""
from __future__ import annotations

import sys
import threading
import time
from typing import Callable, Optional, TypeVar

import psycopg

from .database import Database

It = TypeVar("It")

# A database that has answered nothing for so long is silent, in seconds.
SILENT = 3.0

# For how long a server's side that starts waits for its database, and how it rests between tries, in seconds.
STARTING, RESTING = 30.0, 1.0


def say(name: str, *words: object) -> None:
    """Tells what happens to a server, in the log."""
    print(f"{time.time():.3f}", name, *words, file=sys.stderr, flush=True)


class Silence:
    """Whether a server's database answers. Who asks it again and again tells of each answer here."""

    def __init__(self, name: str) -> None:
        self.name, self.lock = name, threading.Lock()
        self.heard: Optional[float] = None
        self.since: Optional[float] = None
        self.lost = 0.0

    def now(self) -> float:
        """The time, in seconds. It stands still in a silence: nobody has seen then what others did."""
        with self.lock:
            clock = time.monotonic()
            return (clock if self.heard is None else min(clock, self.heard + SILENT)) - self.lost

    def look(self) -> None:
        """Tells of a silence as soon as it is one."""
        with self.lock:
            is_silent = self.heard is not None and time.monotonic() - self.heard > SILENT
            begins = is_silent and self.since is None
            self.since = self.heard if begins else self.since
        if begins:
            say(self.name, "waits for its database, which says nothing")

    def begin(self, why: object) -> None:
        """The database is away."""
        with self.lock:
            begins, self.since = self.since is None, self.since or self.heard or time.monotonic()
        if begins:
            say(self.name, "waits for its database:", " ".join(str(why).split()))

    def end(self) -> None:
        """The database has answered."""
        with self.lock:
            clock = time.monotonic()
            if self.heard is not None:
                self.lost += max(0.0, clock - self.heard - SILENT)
            self.heard, since, self.since = clock, self.since, None
        if since is not None:
            say(self.name, f"goes on: its database answers, after {clock - since:.1f} s")


def patiently(silence: Silence, database: Database, work: Callable[[], It]) -> It:
    """What work gives that may be tried again: for a while, if the database says nothing, starts or ends. A database
    that answers twice and yet refuses is the wrong one."""
    until, answers = time.monotonic() + STARTING, 0
    while True:
        try:
            done = work()
            silence.end()
            return done
        except psycopg.OperationalError as why:
            answers = answers + 1 if database.is_up() else 0
            if answers > 1 or time.monotonic() > until:
                raise
            if not answers:
                silence.begin(why)
        time.sleep(RESTING)
