"""Whether lines of the journal were true when they were written: all laws are about journals whose lines were. Each comes with the moment when somebody saw it in the
journal, which is behind the one in which it was written: what it says has to be so by then."""
from __future__ import annotations

from collections import Counter, defaultdict
from collections.abc import Iterable
from dataclasses import dataclass, field

NEVER = 1 << 63
Order = tuple[int, int, int]


@dataclass
class Span:
    """A time in which a server had its slots and was not fenced, and the number of its base."""

    begin: int
    base: int
    end: int = NEVER


@dataclass
class Past:
    """What servers did, and when: orders that were done, fences and settles that were taken, nonces that were made, and bases that were in force."""

    commits: dict[Order, dict] = field(default_factory=dict)
    fences: dict[tuple[str, int], dict] = field(default_factory=dict)
    settles: dict[tuple[str, int], int] = field(default_factory=dict)
    nonces: dict[tuple[str, str], int] = field(default_factory=dict)
    spans: dict[str, list[Span]] = field(default_factory=lambda: defaultdict(list))

    @staticmethod
    def of(events: Iterable[dict]) -> "Past":
        """Reads histories."""
        past = Past()
        for event in sorted((it for it in events if "t" in it), key=lambda it: it["t"]):
            past.add(event)
        return past

    def add(self, event: dict) -> None:
        """One event more."""
        server, kind, time = event["server"], event["kind"], event["t"]
        if kind == "commit":
            self.commits.setdefault((event["plan"], event["stream"], event["number"]), event)
        elif kind == "fence":
            self.fences.setdefault((server, event["base"]), event)
            self.end_span(server, time)
        elif kind in ("settle", "restore"):
            self.settles.setdefault((server, event["base"]), time)
            self.end_span(server, time)
            self.spans[server].append(Span(time, event["base"]))
        elif kind == "forget" or (kind == "start" and not event["known"]):
            self.end_span(server, time)
        if event.get("nonce") and kind in ("start", "forget", "fence"):
            self.nonces.setdefault((server, event["nonce"]), time)

    def end_span(self, server: str, time: int) -> None:
        """A server's base is in force no longer."""
        if self.spans[server]:
            self.spans[server][-1].end = min(self.spans[server][-1].end, time)


# For how long a base may be in force no more when the line that names it is seen: it was asked for before the line was written.
LATE = 10 * 10**9


class Truth:
    """Looks at lines one by one."""

    def __init__(self, past: Past, orders: Iterable[dict]) -> None:
        self.past = past
        self.calls: dict[Order, dict] = {(it["plan"], it["stream"], it["number"]): it for it in orders if it["call"] != "publish"}
        self.faults: list[str] = []
        self.counts: Counter[str] = Counter()
        self.permits: dict[int, str] = {}

    def look(self, line: dict, reply: dict, time: int) -> None:
        """Looks at a line that was seen in the journal at a moment, and got a reply."""
        if "approved" in reply:
            self.permits[reply["approved"]["permit"]] = reply["approved"]["server"]
        look = {"answered": self.answered, "fenced": self.fenced, "settled": self.settled, "restarted": self.restarted, "restore": self.restore}.get(line["do"])
        text = look(line, reply, time) if look is not None else None
        if text is not None:
            self.faults.append(f"the line {line['do']} {line.get('id', '')} was not true when it was written: {text}")
        self.counts["lines that were true" if look is not None and text is None else "lines that say nothing of servers"] += 1

    def answered(self, line: dict, reply: dict, time: int) -> str | None:
        """The order has had its effect."""
        key = (line["plan"], line["stream"], line["number"])
        order, event = self.calls.get(key), self.past.commits.get(key)
        if order is None:
            return None
        if event is None or (event["server"], event["shard"], event["call"]) != (order["server"], order["shard"], order["call"]):
            return f"{order['server']} has not done {order['call']} {order['shard']}"
        return f"{order['server']} did {order['call']} {order['shard']} {(event['t'] - time) / 1e6:.0f} ms later" if event["t"] > time else None

    def fenced(self, line: dict, reply: dict, time: int) -> str | None:
        """The server took the fence, and had these slots, or none and this nonce."""
        if line["server"] is None:
            return None
        event = self.past.fences.get((line["server"], line["base"]))
        if event is None or event["t"] > time:
            return f"{line['server']} was not fenced by then"
        if "unknown" in line:
            return None if self.past.nonces.get((line["server"], line["unknown"]), NEVER) <= time else f"{line['server']} had no such nonce"
        told = {it["shard"]: it["cell"] for it in line["slots"] if it["cell"] != "absent"}
        had = {shard: slot[0] for shard, slot in event["slots"].items()}
        wrong = sorted(it for it in {*told, *had} if told.get(it) != had.get(it))
        return f"{line['server']} had {had.get(wrong[0], 'nothing')} of {wrong[0]}, and not {told.get(wrong[0], 'nothing')}" if wrong else None

    def settled(self, line: dict, reply: dict, time: int) -> str | None:
        """The server took the settle."""
        if line["server"] is None or self.past.settles.get((line["server"], line["base"]), NEVER) <= time:
            return None
        return f"{line['server']} had not taken the settle"

    def restarted(self, line: dict, reply: dict, time: int) -> str | None:
        """The server had this base, and its slots."""
        server = self.permits.get(line["permit"])
        if "up" not in reply or server is None:
            return None
        spans = [it for it in self.past.spans[server] if it.base == line["base"] and it.begin <= time and it.end > time - LATE]
        return None if spans else f"{server} had not the base {line['base']}"

    def restore(self, line: dict, reply: dict, time: int) -> str | None:
        """The server had made this nonce."""
        return None if self.past.nonces.get((line["server"], line["nonce"]), NEVER) <= time else f"{line['server']} had made no such nonce"
