"""Sizes that change without a reopening: documents with shards that come and go, the commands, and the rules.

At rest `NewEpoch` with a document opens the next epoch over the placement as it stands, with other loads, rooms, wants,
caps and limits, with servers and shards that are added without cells, or taken away without any. Beside running plans
`Resize` changes loads and rooms that no unfinished stream names. Nobody is fenced, and nobody waits.

Servers learn new sizes by orders, which bring the load and the room that they are about, and the number since which
sizes are as they are. What was brought before is old, and counts no more. There is no other message: a server that is
added is recorded as down, and comes up by the permit of its restart, once it has slots.
"""
from __future__ import annotations

from dataclasses import dataclass, field, fields, replace

from . import commands, messages
from .commands import Document
from .rules import Rules, rule


@dataclass(frozen=True, slots=True)
class SizedDocument(Document):
    """A document over more servers and shards than it has: `left_out` are the shards that it has not."""

    left_out: frozenset[int] = field(default=frozenset())

    def floor(self, shard: int) -> int:
        """How few live replicas the shard may have; none if the document has it not."""
        return 0 if shard in self.left_out else self.wants[shard] - self.caps[shard]


@dataclass(frozen=True, slots=True)
class NewEpoch(commands.NewEpoch):
    """Opens the next epoch at rest, over the placement as it stands, with the sizes of a document."""

    document: SizedDocument


@dataclass(frozen=True, slots=True)
class Resize:
    """Changes these loads, by shard, and these rooms, by server."""

    loads: tuple[tuple[int, int], ...] = ()
    rooms: tuple[tuple[int, int], ...] = ()


@dataclass(frozen=True, slots=True)
class Resized:
    """A reply: sizes are as they are since this number."""

    since: int


@dataclass(frozen=True, slots=True)
class Order(messages.Order):
    """An order. `sized` is the number since which sizes are as they are: loads that were brought below it are old."""

    sized: int


@dataclass(frozen=True)
class SizedRules(Rules):
    """Which rules are in force, those on sizes among them."""

    # At servers.
    old_loads_left: bool = rule(
        "An order names since when sizes are as they are, and a load that was brought before does not count against it."
    )
    own_base_told: bool = rule("A server tells its base, at the end of a restart, to its own journal's controller alone.")
    # A new epoch with a document.
    cells_stay: bool = rule("A new epoch's cells are those recorded, whatever its document has.")
    loads_fit: bool = rule("It leaves the load of each server within its room.")
    floors_live: bool = rule("It raises no floor above the shard's live replicas.")
    limit_down: bool = rule(
        "Its limit is not below the number of those down, with whom it adds. One that a reopening has lifted stays so."
    )
    log_down: bool = rule("Its log has a place for each server that is down.")
    leaver_is_bare: bool = rule("A server that it takes away has nothing of any shard.")
    shard_is_bare: bool = rule("A shard that it takes away has nothing at any server.")
    newcomer_down: bool = rule("A server that it adds is down under a permit, so no plan names it before it has slots.")
    newcomer_told: bool = rule(
        "A server that it adds is told of the last reopening, so one that left before that turns Unknown, and asks."
    )
    # Beside running plans. (At rest each order has had its effect, so a late one is old before its loads count.)
    sizes_heeded: bool = rule("A server keeps the latest such number of its orders, and holds earlier orders to it.")
    named_loads_stay: bool = rule("The load of a shard that an unfinished stream names stays.")
    named_rooms_stay: bool = rule("The room of a server that an unfinished stream names stays.")
    held_rooms_fit: bool = rule("Loads and what plans hold are within room after a change of sizes, too.")

    def without(self, *names: str) -> "SizedRules":
        """The same rules without these."""
        unknown = set(names) - {it.name for it in fields(self)}
        if unknown:
            raise ValueError(f"no such rules: {', '.join(sorted(unknown))}")
        return replace(self, **{name: False for name in names})


SOUND = SizedRules()


def sized_rule_names() -> list[str]:
    """The names of the rules on sizes."""
    return [it.name for it in fields(SizedRules) if it.name not in {other.name for other in fields(Rules)}]


def sentence_of(name: str) -> str:
    """What a rule says."""
    return next(it.metadata["sentence"] for it in fields(SizedRules) if it.name == name)
