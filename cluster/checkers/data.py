"""The writes of a shard in the order in which they stand, and what they make. Histories have of a long text its length and sum alone."""
from __future__ import annotations

from dataclasses import dataclass, field

Value = str | list[str]


def executed(before: Value | None, word: str, rest: tuple[str, ...]) -> Value | None:
    """A key's value once a write was executed, none if it was deleted."""
    if word == "DEL":
        return None
    if word == "RPUSH":
        return [*(before or []), *rest]
    if word == "APPEND":
        return (before or "") + rest[0]
    return str(int(before or "0") + 1) if word == "INCR" else rest[0]


@dataclass
class Data:
    """The writes that stand."""

    writes: list[tuple[str | None, tuple[str, ...]]] = field(default_factory=list)
    identities: dict[str, int] = field(default_factory=dict)
    discarded: int = 0

    @property
    def length(self) -> int:
        """How many there are."""
        return len(self.writes)

    def cut_back(self, length: int) -> None:
        """Writes behind a place are gone with all who had them."""
        for identity, _ in self.writes[length:]:
            self.identities.pop(identity, None)
        self.discarded += len(self.writes[length:])
        del self.writes[length:]

    def add(self, position: int, identity: str | None, command: tuple[str, ...]) -> str | None:
        """One more write; what is wrong with it, if anything is."""
        if position != len(self.writes) + 1:
            return f"write {position} is executed behind write {len(self.writes)}"
        known = self.identities.get(identity) if identity is not None else None
        self.writes.append((identity, command))
        if identity is not None:
            self.identities[identity] = position
        return f"request {identity} is executed as write {position}, and was write {known}" if known is not None else None

    def values(self, position: int) -> dict[str, Value]:
        """What the first writes make."""
        made: dict[str, Value | None] = {}
        for _, (word, key, *rest) in self.writes[:position]:
            made[key] = executed(made.get(key), word, tuple(rest))
        return {key: value for key, value in made.items() if value is not None}

    def difference(self, position: int, values: dict[str, Value]) -> str | None:
        """Where values are not what the first writes make."""
        if position > len(self.writes):
            return f"it has {position} writes of {len(self.writes)}"
        made = self.values(position)
        wrong = sorted(key for key in set(made) | set(values) if made.get(key) != values.get(key))
        return f"{wrong[0]} is not what the first {position} writes make" if wrong else None
