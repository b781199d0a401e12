"""What a service says of its shards, and what a server has of one in memory."""
from __future__ import annotations

import threading
from dataclasses import dataclass, field
from typing import Any, Dict, Optional, Protocol

from .server_records import Mark
from .server_storage import Transaction


class Service(Protocol):
    """A service's own work. Commands, replies and copies are values of JSON, the same at each server. A ValueError refuses a command."""

    def is_read(self, command: Any) -> bool:
        """Whether a command changes nothing."""

    def read(self, tx: Transaction, shard: str, command: Any) -> Any:
        """Returns the reply of a command that changes nothing."""

    def apply(self, tx: Transaction, shard: str, command: Any) -> Any:
        """Executes a command, and returns its reply. It does the same at each server that has executed the same commands before."""

    def copy(self, tx: Transaction, shard: str) -> Any:
        """Returns all data of a shard."""

    def load(self, tx: Transaction, shard: str, copy: Any) -> None:
        """Stores all data of a shard, which has none."""

    def drop(self, tx: Transaction, shard: str) -> None:
        """Deletes all data of a shard."""


@dataclass
class Link:
    """What a source of writes knows of another server: whether it has to be asked, by which question it got leave to drop the shard, up to which
    position it has this list, at which reopening it was settled as it said so, where its own list is said to end, and until when it is taken for
    dead."""

    lock: threading.Lock = field(default_factory=threading.Lock)
    is_asked: bool = True
    left: str = ""
    joined: int = 0
    has: int = -1
    settled: int = -1
    mark: Optional[Mark] = None
    failures: int = 0
    dead_until: float = 0.0

    @property
    def counts(self) -> bool:
        """Whether the other server may follow the shard, and has not left it."""
        return self.is_asked and not self.left

    def ask_anew(self) -> None:
        """Forgets what the other server has; what it was asked before counts no more."""
        self.joined, self.is_asked, self.left, self.has, self.dead_until = self.joined + 1, True, "", -1, 0.0


@dataclass
class Live:
    """A shard in memory. Requests that run belong to a term; if it ends, they are not acknowledged. Writes up to `acknowledged` are at all who are
    alive. Up to the place `noted` goes all that was here when it began to lead; `told` is the last reopening since which a controller knows that
    enough servers have that. No order that holds requests back begins before `rest_until`. Who is `leaving` asks for leave under this number; `leave` is
    that of the question that was answered. `copying` is held while a copy is asked for in place of one that was lost."""

    running: int = 0
    term: int = 0
    is_held: bool = False
    worker: int = 0
    caught_up: int = 0
    leaving: str = ""
    leave: str = ""
    said: str = ""
    rest_until: float = 0.0
    acknowledged: int = 0
    noted: Optional[int] = None
    told: Optional[int] = None
    links: Dict[int, Link] = field(default_factory=dict)
    copying: threading.Lock = field(default_factory=threading.Lock)

    def begin_anew(self) -> None:
        """Forgets what other servers have, since who executes is another one, or may be."""
        self.acknowledged, self.noted, self.told, self.links = 0, None, None, {}
        self.stay()

    def stay(self) -> None:
        """Ends the question for leave, and the leave."""
        self.leaving = self.leave = ""
