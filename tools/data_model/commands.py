"""The controller's commands beside, or over, those of `driving_model`."""
from __future__ import annotations

from dataclasses import dataclass

from driving_model import commands as driving


@dataclass(frozen=True, slots=True)
class Document(driving.Document):
    """A document, with how many copies each shard asks for; where there is none, the floor, and at least one."""

    copies: tuple[int | None, ...] = ()

    def wanted(self, shard: int) -> int:
        """How many copies are asked for."""
        chosen = self.copies[shard] if shard < len(self.copies) else None
        return chosen or max(1, self.floor(shard))

    def chosen(self, shard: int) -> int:
        """How many copies the operator of the small form has asked for; 1 if that was left out."""
        return (self.copies[shard] if shard < len(self.copies) else None) or 1


@dataclass(frozen=True, slots=True)
class RestoreServer(driving.RestoreServer):
    """A server without slots asks for them. `data` are the shards of which it has a whole copy."""

    data: frozenset[int] = frozenset()


@dataclass(frozen=True, slots=True)
class Confirm(driving.Confirm):
    """Accepts the proposal, or settles other cells. It repeats each shard that may be incomplete, waits for nobody for
    one that it names, and may ask for fewer copies of a shard than are proposed."""

    lost: frozenset[int] = frozenset()
    copies: tuple[int | None, ...] = ()


@dataclass(frozen=True, slots=True)
class Copied:
    """The primary asks for all copies again, and has them. It names nonce and base of its last slots, and what lowered
    the number last."""

    server: int
    nonce: int
    base: int
    shard: int
    lowered: int


@dataclass(frozen=True, slots=True)
class CopiedAt:
    """In the small form: of a shard that this server serves as the primary as many replicas as are wanted have all that
    it had when it began to, in this journal, settled last at this reopening. In the built form it names as many."""

    server: int
    journal: int
    fence: int
    shard: int
    copies: int = 0
