"""What the clients saw, and nothing else: each key is a list of values that were pushed, in one order that fits what
every client saw and when; a text that one client sets again and again, of which each read has the last, or the one that
is being set; or a register that clients compare and set.

`python3 -m cluster.checkers.clients HISTORY.. [--gone FILE]` reads the load generator's lines. Gone has the writes that a
reopening gave up by name, as the servers' checker writes them: they may be gone although they were acknowledged. Exit
status 1 if anything is wrong.
"""
from __future__ import annotations

import argparse
import json
import sys
from collections import Counter, defaultdict
from dataclasses import dataclass, field
from typing import Iterable

from .registers import faults_of_register
from .texts import NEVER, faults_of_text

# What is counted of requests that had a reply.
ANSWERED = {"push": "pushes acknowledged", "read": "reads", "set": "sets acknowledged", "get": "reads of texts", "cas": "comparisons acknowledged",
            "look": "reads of registers"}
# What looks at requests that are not about lists.
LOOKS = {"set": faults_of_text, "get": faults_of_text, "cas": faults_of_register, "look": faults_of_register}


@dataclass(frozen=True)
class Asked:
    """A request of a client. `end` is NEVER if there was no reply: a push may then have been done at any time since,
    or not at all."""

    client: str
    is_push: bool
    value: str | None
    start: int
    end: int
    reply: int | tuple[str, ...] | None
    is_final: bool

    @staticmethod
    def of(line: dict) -> "Asked":
        """Reads a line of history."""
        reply = line.get("reply")
        return Asked(line["client"], line["op"] == "push", line.get("value"), line["start"], NEVER if reply is None else line["end"],
                     tuple(reply) if isinstance(reply, list) else reply, line.get("final", False))


def read(paths: Iterable[str]) -> dict[str, list[dict]]:
    """All lines of requests, by key."""
    by_key: dict[str, list[dict]] = defaultdict(list)
    for path in paths:
        with open(path, encoding="utf-8") as lines:
            for line in map(json.loads, lines):
                by_key[line["key"]].append(line)
    return by_key


@dataclass
class Gone:
    """The writes of a key that a reopening gave up by name: their identities, or their values, and since when they are gone."""

    since: int = 0
    names: set[str] = field(default_factory=set)

    @staticmethod
    def of(paths: Iterable[str]) -> "dict[str, Gone]":
        """Reads them, by key."""
        by_key: dict[str, Gone] = defaultdict(Gone)
        for path in paths:
            with open(path, encoding="utf-8") as lines:
                for line in map(json.loads, lines):
                    by_key[f"{line['shard']}:{line['key']}"].add(line)
        return by_key

    def add(self, line: dict) -> None:
        """One more."""
        self.since = max(self.since, line["t"])
        self.names |= {line["identity"] or line["value"]}

    def without(self, lines: list[dict]) -> list[dict]:
        """The lines of the key's requests, as if those that are gone had no reply, and nobody had looked before."""
        left = [it for it in lines if it["start"] >= self.since or not is_look(it)]
        return [without_reply(it) if it["start"] < self.since and name_of(it) in self.names else it for it in left]


def is_look(line: dict) -> bool:
    """Whether a request has changed nothing: a read, or a comparison that found something else."""
    return line["op"] in ("read", "get", "look") or (line["op"] == "cas" and "reply" in line and line["reply"] != line["old"])


def name_of(line: dict) -> str:
    """The identity of a write; its value if it has none."""
    if line["op"] == "set":
        return f"{line['client']}-{line['key']}-{line['value']}"
    return line.get("identity") or line["value"]


def without_reply(line: dict) -> dict:
    """A request as if it had no reply."""
    return {what: it for what, it in line.items() if what != "reply"}


def faults_of(key: str, asked: list[Asked]) -> list[str]:
    """What is wrong with a key's requests."""
    finals = [it.reply for it in asked if it.is_final and it.reply is not None]
    if not finals:
        return [f"{key}: nobody could read it at the end"]
    final = max(finals, key=len)
    places = {value: place for place, value in enumerate(final)}
    pushes = {it.value: it for it in asked if it.is_push}
    reads = [it for it in asked if not it.is_push and it.reply is not None]
    found = [f"{value} is there more than once" for value in sorted(it for it in places if final.count(it) > 1)] if len(places) < len(final) else []
    found += [f"{value} was pushed by nobody" for value in final if value not in pushes]
    found += lost(pushes.values(), final, places)
    found += [f"{it.client} read what is no beginning of the final list" for it in reads if final[:len(it.reply)] != it.reply]
    if not found:
        found = out_of_time(final, pushes, reads)
    return [f"{key}: {it}" for it in found]


def lost(pushes: Iterable[Asked], final: tuple[str, ...], places: dict[str, int]) -> list[str]:
    """Pushes that were acknowledged, and are not there, or not where the reply said."""
    found = []
    for push in pushes:
        if push.reply is None:
            continue
        if push.value not in places:
            found.append(f"{push.value} was acknowledged and is lost")
        elif final[push.reply - 1:push.reply] != (push.value,):
            found.append(f"{push.value} was acknowledged as number {push.reply} and is number {places[push.value] + 1}")
    return found


def out_of_time(final: tuple[str, ...], pushes: dict[str, Asked], reads: list[Asked]) -> list[str]:
    """Returns what is out of the order of time: a request ended before another one began, and the list has them the other way round."""
    found, earliest_end = [], NEVER
    for value in reversed(final):
        push = pushes[value]
        if earliest_end < push.start:
            found.append(f"{value} stands before a value whose push had ended when its own began")
        earliest_end = min(earliest_end, push.end)
    # (a list of n values has been there from the last start of its pushes, and one longer from the first end of the
    # others)
    ends = sorted([(push.end, places + 1) for places, push in enumerate(map(pushes.get, final))] + [(it.end, len(it.reply)) for it in reads])
    longest, turn = 0, 0
    for it in sorted(reads, key=lambda it: it.start):
        while turn < len(ends) and ends[turn][0] < it.start:
            longest = max(longest, ends[turn][1])
            turn += 1
        if len(it.reply) < longest:
            found.append(f"{it.client} read {len(it.reply)} values, and {longest} had been acknowledged or read before")
        if it.reply and max(pushes[value].start for value in it.reply) > it.end:
            found.append(f"{it.client} read a value before its push began")
    return found


def check(paths: Iterable[str], gone: Iterable[str] = ()) -> tuple[list[str], dict[str, int]]:
    """All that is wrong, and how much was looked at. Files of `gone` have the writes that reopenings gave up by name."""
    given_up = Gone.of(gone)
    kept = {key: given_up[key].without(lines) if key in given_up else lines for key, lines in read(paths).items()}
    found, counts = [], Counter({"keys": len(kept)})
    for key, lines in sorted(kept.items()):
        look = LOOKS.get(lines[0]["op"])
        found += look(key, lines) if look is not None else faults_of(key, [Asked.of(it) for it in lines])
        counts["requests"] += len(lines)
        for line in lines:
            counts[ANSWERED[line["op"]] if "reply" in line else "without reply"] += 1
    return found, dict(counts)


def main() -> int:
    """The command line."""
    parser = argparse.ArgumentParser(prog="cluster.checkers.clients", description="Checks what clients saw.")
    parser.add_argument("history", nargs="+")
    parser.add_argument("--gone", action="append", default=[], help="writes that reopenings gave up by name")
    told = parser.parse_args()
    found, figures = check(told.history, told.gone)
    for fault in found:
        print(fault)
    print(json.dumps({"violations": len(found), **figures}))
    return 1 if found else 0


if __name__ == "__main__":
    sys.exit(main())
