"""The controller's commands. Those that changed something, in their order, are its journal."""
from __future__ import annotations

from dataclasses import dataclass, field

from .cells import Cell
from .messages import Found, LONGEST_LOG
from .plans import Plan

Cells = tuple[tuple[Cell, ...], ...]


@dataclass(frozen=True, slots=True)
class Document:
    """Servers and shards by their numbers, and the cells by shard, then by server. `servers` are those there are."""

    servers: frozenset[int]
    rooms: tuple[int, ...]
    loads: tuple[int, ...]
    wants: tuple[int, ...]
    caps: tuple[int, ...]
    limit: int
    cells: Cells
    down: frozenset[int] = field(default=frozenset())
    log: int = LONGEST_LOG

    def floor(self, shard: int) -> int:
        """How few live replicas the shard may have."""
        return self.wants[shard] - self.caps[shard]


@dataclass(frozen=True, slots=True)
class Open:
    """Opens a settled placement under a journal's name."""

    document: Document
    journal: int
    epoch: int


@dataclass(frozen=True, slots=True)
class Begin:
    """Begins a checked plan; the same name begins it once."""

    name: str
    plan: Plan


@dataclass(frozen=True, slots=True)
class Answered:
    """An order was answered, by its server or by the map's owner."""

    plan: int
    stream: int
    number: int


@dataclass(frozen=True, slots=True)
class Approve:
    """Asks for leave to restart a server; the same `by` gets the same permit."""

    server: int
    by: str


@dataclass(frozen=True, slots=True)
class Restarted:
    """The restart with this permit has ended. The server has this base, or is Unknown."""

    permit: int
    base: int | None


@dataclass(frozen=True, slots=True)
class RestoreServer:
    """A server without slots asks for them, with a nonce."""

    server: int
    nonce: int


@dataclass(frozen=True, slots=True)
class NewEpoch:
    """Opens the next epoch at rest."""


@dataclass(frozen=True, slots=True)
class Reopen:
    """Begins a reopening, or replaces the one under way. The first command of a journal names it, and an epoch."""

    document: Document
    lost: frozenset[int]
    journal: int | None = None
    epoch: int | None = None
    why: str = ""


@dataclass(frozen=True, slots=True)
class Fenced:
    """A server, or the map's owner, has answered the fence with this base."""

    server: int
    base: int
    found: Found


@dataclass(frozen=True, slots=True)
class Confirm:
    """Accepts the proposal of this reopening, or settles these cells instead."""

    base: int
    cells: Cells | None = None


@dataclass(frozen=True, slots=True)
class Settled:
    """A server, or the map's owner, has taken its settle of this reopening."""

    server: int
    base: int


Command = (
    Open | Begin | Answered | Approve | Restarted | RestoreServer | NewEpoch | Reopen | Fenced | Confirm | Settled
)
