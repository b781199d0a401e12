"""The times in which no server that is up serves a shard, as the histories of servers tell them."""
from __future__ import annotations

from collections import defaultdict
from collections.abc import Iterable
from dataclasses import dataclass, field

# The numbers of the orders of one epoch.
STEP = 1 << 21
SERVING = frozenset(["primary", "forwarding"])


@dataclass(frozen=True)
class Gap:
    """A time in which nobody served a shard: between the two calls of a change of roles, or for another reason, as that its server was down."""

    shard: str
    begin: int
    end: int
    is_change: bool

    @property
    def seconds(self) -> float:
        return (self.end - self.begin) / 1e9


@dataclass
class Served:
    """Which servers have each shard's primary, or forward for it, and which servers are down."""

    servers: dict[str, set[str]] = field(default_factory=lambda: defaultdict(set))
    down: set[str] = field(default_factory=set)
    # Since when nobody serves a shard, and the stream whose call made it so.
    since: dict[str, tuple[int, tuple | None]] = field(default_factory=dict)
    gaps: list[Gap] = field(default_factory=list)

    def take(self, event: dict) -> None:
        """Takes the next event, in the order of time."""
        server, kind = event["server"], event["kind"]
        if kind == "permit":
            (self.down.add if event["down"] else self.down.discard)(server)
        elif kind == "commit":
            self.put(event["shard"], server, event["state"])
        elif kind in ("settle", "restore"):
            for shard in {*self.servers, *event["slots"]}:
                self.put(shard, server, event["slots"].get(shard, ["absent"])[0])
        call = (event["number"] // STEP, event["plan"], event["stream"]) if kind == "commit" and event["call"] == "change" else None
        for shard in list(self.servers):
            self.look(shard, event["t"], call)

    def put(self, shard: str, server: str, state: str) -> None:
        """A server has this of a shard from now on."""
        (self.servers[shard].add if state in SERVING else self.servers[shard].discard)(server)

    def look(self, shard: str, now: int, call: tuple | None) -> None:
        """Notes when a shard is served no longer, and when it is again."""
        is_served = bool(self.servers[shard] - self.down)
        if not is_served:
            self.since.setdefault(shard, (now, call))
        elif shard in self.since:
            begin, first = self.since.pop(shard)
            self.gaps.append(Gap(shard, begin, now, first is not None and first == call))


def gaps_of(events: Iterable[dict]) -> list[Gap]:
    """All times in which nobody served a shard, by the histories and by when servers were down under a permit."""
    served = Served()
    for event in sorted((it for it in events if "t" in it), key=lambda it: it["t"]):
        served.take(event)
    return served.gaps
