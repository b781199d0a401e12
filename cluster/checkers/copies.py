"""Whether as many replicas as the servers are to have had each write when its client heard that it was done, and when a line `copied` says so; and whether nobody
dropped a shard before that many others had all of it.

`python3 -m cluster.checkers.copies --copies N --history FILE --clients FILE --written FILE --permits FILE` reads what the servers' and the clients' checkers read. A
server that is lost counts until the next reopening. Exit status 1 if anything is wrong.
"""
from __future__ import annotations

import argparse
import json
import sys
from collections import Counter, defaultdict
from collections.abc import Iterable, Iterator

from .clients import is_look, name_of
from .servers import lines_of


# What is counted, by what is looked at.
LOOKS = {"acknowledged": "acknowledgements", "told": "lines of copies", "commit": "drops"}


def acknowledgements(lines: Iterable[dict]) -> Iterator[dict]:
    """The writes that clients heard to be done, each with its identity and when that was."""
    for line in lines:
        if "reply" in line and not is_look(line):
            yield {"t": line["end"], "kind": "acknowledged", "identity": name_of(line)}


def told(lines: Iterable[dict]) -> Iterator[dict]:
    """The `copied` lines, each with a moment at which it was in the journal."""
    for it in lines:
        if it["line"]["do"] == "copied" and "copied" in it["reply"]:
            yield {"t": it["t"], "kind": "told", "shard": it["line"]["shard"], "copies": it["line"]["copies"]}


class Copies:
    """Walks through what servers did and clients heard, in the order of time."""

    def __init__(self, copies: int) -> None:
        self.copies = copies
        # By shard the last write that each server has, the last one that was acknowledged, and by identity a write's place.
        self.has: dict[str, dict[str, int]] = defaultdict(dict)
        self.acknowledged: dict[str, int] = defaultdict(int)
        self.places: dict[str, tuple[str, int]] = {}
        self.lost: set[str] = set()
        self.faults: list[str] = []
        self.counts: Counter[str] = Counter()

    def walk(self, events: Iterable[dict]) -> None:
        """Looks at all events."""
        for event in sorted((it for it in events if "t" in it), key=lambda it: it["t"]):
            handler = getattr(self, f"on_{event['kind']}", None)
            if handler is not None:
                handler(event)

    def need(self, event: dict, shard: str, copies: int, place: int, what: str) -> None:
        """Notes a fault unless enough servers have a shard's writes up to a place."""
        having = sorted(name for name, position in self.has[shard].items() if position >= place)
        self.counts[LOOKS[event["kind"]]] += 1
        if len(having) < copies:
            self.faults.append(f"{shard} at {event['t']}: {what}, and write {place} is at {', '.join(having) or 'nobody'} alone")

    # -- what clients and the journal tell

    def on_acknowledged(self, event: dict) -> None:
        """A client hears that a write is done."""
        shard, place = self.places.get(event["identity"] or "", ("", 0))
        if shard:
            self.acknowledged[shard] = max(self.acknowledged[shard], place)
            self.need(event, shard, self.copies, place, "a write is acknowledged")

    def on_told(self, event: dict) -> None:
        """A line tells how many replicas have each acknowledged write."""
        self.need(event, event["shard"], event["copies"], self.acknowledged[event["shard"]], "copies are told")

    # -- what servers have

    def on_execute(self, event: dict) -> None:
        """A write is executed."""
        self.has[event["shard"]][event["server"]] = event["position"]
        if event["identity"] is not None:
            self.places[event["identity"]] = (event["shard"], event["position"])

    def on_applied(self, event: dict) -> None:
        """A follower has writes, or a copy: that of an order counts once this is done."""
        if event["server"] in self.has[event["shard"]]:
            self.has[event["shard"]][event["server"]] = event["position"]

    on_copy = on_applied

    def on_commit(self, event: dict) -> None:
        """An order is done. A server that drops a shard leaves enough others that have all, unless the order named nobody else."""
        shard, server = event["shard"], event["server"]
        if event["state"] != "absent":
            self.has[shard][server] = event["position"]
            return
        self.has[shard].pop(server, None)
        if set(event["replicas"] or ()) - {server}:
            self.need(event, shard, self.copies, self.acknowledged[shard], f"{server} drops it")

    def on_lost(self, event: dict) -> None:
        """A server is lost."""
        self.lost.add(event["server"])

    def on_settle(self, event: dict) -> None:
        """A server's slots are set, and who was lost is given up. What a primary lacks is gone."""
        for name in self.lost:
            for row in self.has.values():
                row.pop(name, None)
        self.lost.clear()
        self.on_restore(event)
        for shard, (state, position) in event["slots"].items():
            if state == "primary":
                self.has[shard] = {name: min(it, position) for name, it in self.has[shard].items()}
                self.acknowledged[shard] = min(self.acknowledged[shard], position)

    def on_restore(self, event: dict) -> None:
        """A server's slots are set."""
        for shard in {*self.has, *event["slots"]}:
            self.has[shard].pop(event["server"], None)
            if shard in event["slots"]:
                self.has[shard][event["server"]] = event["slots"][shard][1]

    def on_start(self, event: dict) -> None:
        """A server starts: with a new disk it has nothing."""
        for shard, row in self.has.items():
            if event["server"] in row and shard not in event["copies"]:
                del row[event["server"]]


def main() -> int:
    """The command line."""
    parser = argparse.ArgumentParser(prog="cluster.checkers.copies", description="Checks how many replicas had what was acknowledged.")
    parser.add_argument("--copies", type=int, required=True)
    parser.add_argument("--history", required=True)
    parser.add_argument("--clients", required=True)
    parser.add_argument("--written", required=True)
    parser.add_argument("--permits", required=True)
    words = parser.parse_args()
    checker = Copies(words.copies)
    histories = lines_of([words.history, words.permits])
    checker.walk([*histories, *acknowledgements(lines_of([words.clients])), *told(lines_of([words.written]))])
    for fault in checker.faults:
        print(fault)
    print(json.dumps({"violations": len(checker.faults), **checker.counts}))
    return 1 if checker.faults else 0


if __name__ == "__main__":
    sys.exit(main())
