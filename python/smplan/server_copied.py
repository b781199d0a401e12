"""What a server tells the controllers of the copies of its shards: a reopening counts by it, and names fewer shards as lost."""
from __future__ import annotations

import argparse
import sys
import time
from typing import TYPE_CHECKING, Any, Callable, Dict, List, Optional, Protocol

from .agent import Cell
from .server_records import Records

if TYPE_CHECKING:
    from .server import Server

Line = Dict[str, Any]

# What is said where a write would be at fewer servers.
TOO_FEW = "--copies: a write is at one server at least"

# For how long a controller may be silent, in seconds.
PATIENCE = 30.0

# For how long it rests while a controller does not take all, in seconds: twice as long each time.
SHORTEST, LONGEST = 0.5, 30.0

# It rests so many times as long as the controller needed to say what it knows, too: 4,096 shards are a MB.
SPARING = 100


def copies_of(text: str) -> int:
    """How many servers are to have each write, as a command line says."""
    if not text.isascii() or not text.isdigit() or int(text) < 1:
        raise argparse.ArgumentTypeError(f"{text}: {TOO_FEW.partition(': ')[2]}")
    return int(text)


class Teller(Protocol):
    """A server that tells its controllers something."""

    name: str
    controllers: List[str]
    call: Callable[[str, Optional[Line], float], Any]


class Recorded:
    """What the controllers have recorded of copies. One line asks for it, of however many shards, and one more tells of each shard of which they know
    of fewer. Who answered last is asked first: one that is silent holds up all behind it."""

    def __init__(self, server: Teller) -> None:
        self.server, self.when, self.rest, self.until = server, (0, 0), 0.0, 0.0
        self.first, self.took = "", 0.0

    def take(self, journal: int, fence: int, copies: Dict[str, int]) -> List[str]:
        """Tells of shards, each with its number of copies, under the last reopening at which the server was settled. Returns those of which there is
        nothing more to be said under it. While others remain, as during a reopening, it rests ever longer."""
        begun = time.monotonic()
        if self.when != (journal, fence):
            self.when, self.rest, self.until = (journal, fence), 0.0, 0.0
        if not copies or begun < self.until:
            return []
        known = self.known(journal, fence)
        done = [] if known is None else self.tell(journal, fence, copies, known)
        self.rest = 0.0 if len(done) == len(copies) else min(max(2 * self.rest, SHORTEST), LONGEST)
        self.until = time.monotonic() + max(self.rest, SPARING * self.took)
        return done

    def in_turn(self) -> List[str]:
        """The controllers, and first who answered last."""
        return sorted(self.server.controllers, key=lambda it: it != self.first)

    def ask(self, controller: str, route: str, line: Line) -> Line:
        """What a controller answers, which is asked first from then on."""
        told: Line = self.server.call(f"{controller}/{route}", line, PATIENCE)
        self.first = controller
        return told

    def known(self, journal: int, fence: int) -> Optional[Dict[str, int]]:
        """By shard how many copies a controller knows of since this reopening; none if nobody answers where it is the last one, and has ended."""
        self.took = 0.0
        for controller in self.in_turn():
            begun = time.monotonic()
            try:
                state = self.ask(controller, "ask", {"do": "state"})["state"]
                self.took = time.monotonic() - begun  # (who is silent needs nothing)
                if state["is"] == "open" and (int(state["journal"], 16), state["fence"]) == (journal, fence):
                    return {it["shard"]: it["copies"] for it in state["shards"]}
            except (OSError, ValueError, LookupError, TypeError):
                continue  # (it is not there)
        return None

    def tell(self, journal: int, fence: int, copies: Dict[str, int], known: Dict[str, int]) -> List[str]:
        """Tells of those shards of which fewer copies are known. Which are known then, or refused. (The reopening decides that, too.)"""
        done = []
        for shard, number in copies.items():
            said: Optional[Line] = {"copied": {}}
            if known.get(shard, number) < number:
                said = self.say({"do": "copied", "journal": f"{journal:x}", "fence": fence, "shard": shard, "copies": number})
            if said is None:
                break
            if "refused" in said:
                print(f"{self.server.name}: {number} copies of {shard} are not counted: {said['refused']}", file=sys.stderr, flush=True)
            if {"copied", "refused"} & set(said):
                done.append(shard)
        return done

    def say(self, line: Line) -> Optional[Line]:
        """What the controller replies that leads; none if nobody does."""
        for controller in self.in_turn():
            try:
                said = self.ask(controller, "do", line)
            except (OSError, ValueError):
                continue  # (it is not there, or does not lead)
            if {"copied", "ignored", "refused"} & set(said):
                return said
        return None


class Copied:
    """How many servers have each acknowledged write of the shards that this one leads, told until a controller knows it: anew behind each reopening, and
    once it leads anew."""

    def __init__(self, server: "Server") -> None:
        self.server, self.recorded = server, Recorded(server)

    def tell(self) -> None:
        """Tells of each shard that it leads, as soon as enough servers have all that was here when it began to."""
        with self.server.storage.transaction() as tx:
            it = Records(tx)
            base, (settled, copies) = it.base(), it.counting()
            led = {shard: it.mark(shard).position for shard, slot in it.slots().items() if slot.cell == Cell.PRIMARY}
            if copies < 2 or not base.known or base.fenced:
                return
            with self.server.changed:
                terms = {shard: self.server.live(shard).term for shard, place in led.items() if self.has_enough(shard, place, (settled, copies))}
        for shard in self.recorded.take(base.journal, settled, {it: copies for it in terms}):
            with self.server.changed:
                live = self.server.live(shard)
                if live.term == terms[shard]:
                    live.told = settled

    def has_enough(self, shard: str, place: int, counting: Any) -> bool:
        """Whether enough servers have a shard up to the place where its list ended when it was looked at first, and no controller is known to know.
        `changed` is held."""
        live = self.server.live(shard)
        live.noted = place if live.noted is None else live.noted
        return live.told != counting[0] and self.server.streams.are_enough(live, live.noted, counting)
