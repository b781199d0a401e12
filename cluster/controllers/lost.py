"""Servers that a reopening gives up. With a lease who leads lets each server serve, again and again, but for those; and it confirms nothing before
they have ceased to serve, or an operator has said that they are off."""
from __future__ import annotations

import time
from dataclasses import dataclass, field

from smplan.control import Line

# The greatest ratio of the speeds of two clocks. A controller waits for the lease of a server times this ratio, and a moment
# longer.
CLOCKS, MOMENT = 1.1, 0.2


@dataclass
class GivenUp:
    """Whom the reopening under way gives up: all that are recorded, and that it does not fence."""

    # For how many seconds a server serves without an answer; 0: for ever.
    lease: float
    fenced: set[str] | None = None
    # When this process heard of the reopening.
    since: float = 0.0
    # The servers that an operator has called off.
    off: set[str] = field(default_factory=set)

    def heed(self, reply: Line) -> None:
        """Takes the reply to a line of the journal."""
        if reply.get("fence"):
            self.fenced, self.since = {it["server"] for it in reply["fence"]}, time.monotonic()
            self.off.clear()
        elif "opened" in reply:
            self.fenced = None

    def names(self, state: Line) -> set[str]:
        """The servers that are given up, of those that are recorded."""
        recorded = {it["server"] for it in state.get("servers", [])}
        return set() if self.fenced is None else recorded - self.fenced

    def may_serve(self, server: str, state: Line) -> bool:
        """Whether a server is recorded, and not given up."""
        return any(it["server"] == server for it in state.get("servers", [])) and server not in self.names(state)

    def may_still_serve(self, state: Line, led_since: float) -> tuple[set[str], float]:
        """Which of those that are given up may serve yet, and for how many seconds. Somebody else may have let them until this process led."""
        names = self.names(state) - self.off if self.lease else set()
        left = max(self.since, led_since) + CLOCKS * self.lease + MOMENT - time.monotonic()
        return (names, left) if names and left > 0 else (set(), 0.0)
