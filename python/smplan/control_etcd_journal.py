"""The journal in etcd: one line a key, and each append one transaction that nobody else's append can come between."""
from __future__ import annotations

import asyncio
import json
from collections import Counter
from dataclasses import dataclass, replace
from typing import Any, Dict, List, Sequence

from .control import StoreLost, StoreRefused
from .control_etcd import Entry, Etcd, EtcdFault, EtcdRefused, end_of, has_value, is_absent, put

# The bytes of all lines of an append: below the 1.5 MiB that etcd takes in a request, keys included.
MOST_BYTES = 1 << 20

# What tries of an append that etcd did not answer are counted as.
UNANSWERED = "appends without an answer"


class JournalLost(StoreLost):
    """Lines that were stored are not there any longer, as after a restore of an etcd from a backup."""


class JournalEnded(StoreLost):
    """The journal has ended, and another one goes on in its place, below other keys."""

    def __init__(self, text: str) -> None:
        super().__init__("this journal has ended, and another one goes on")
        self.folder = str(json.loads(text)["folder"])


@dataclass(frozen=True)
class Keys:
    """The keys of one service in etcd. Each journal has a folder, the first one and each that goes on from another."""

    prefix: str = "smplan/"
    folder: str = "journal/"

    @property
    def journal(self) -> str:
        """What the keys of all lines begin with."""
        return f"{self.prefix}{self.folder}"

    @property
    def end(self) -> str:
        """The key behind all lines of a journal that has ended. It says where another one goes on. (Who does not know of it finds a line that is none.)"""
        return f"{self.journal}~"

    @property
    def origins(self) -> str:
        """What the keys begin with that say what a journal goes on from, each by its number."""
        return f"{self.prefix}origin/"

    @property
    def leader(self) -> str:
        """The key under which the leader's name stands."""
        return f"{self.prefix}leader"

    def line(self, place: int) -> str:
        """The key of a line, whose places begin at 1."""
        return f"{self.journal}{place:012d}"


class EtcdJournal:
    """A reader and writer of the journal. `place` is that of the last line which it has handed on, `last` this line, and `bytes` the size of all."""

    def __init__(self, etcd: Etcd, leader: str, tries: int = 12, keys: Keys = Keys()) -> None:
        self.etcd, self.leader, self.tries, self.keys = etcd, leader, tries, keys
        self.place, self.last, self.bytes = 0, "", 0
        self.counts: Counter[str] = Counter()

    async def lines_after(self, may_lag: bool = False) -> List[str]:
        """Reads the lines behind what was handed on; if it may lag, perhaps without the last ones."""
        lines: List[str] = []
        while True:
            place = self.place + len(lines)
            found = await self.etcd.range(self.keys.line(place or 1), end_of(self.keys.journal), limit=500, may_lag=may_lag)
            new = self.behind(found, place, lines[-1] if lines else self.last, may_lag)
            lines += new
            if len(found) < 500:
                return lines

    def behind(self, found: List[Entry], place: int, last: str, may_lag: bool) -> List[str]:
        """Returns the lines behind a place, of what was read from it on. That line has to be as it was, and there is no gap. Fails if the journal has ended."""
        if found and found[-1].key == self.keys.end:
            raise JournalEnded(found[-1].value)
        if place and not found and may_lag:
            return []
        if place and (not found or (found[0].key, found[0].value) != (self.keys.line(place), last)):
            raise JournalLost(f"line {place} of the journal is not there any longer, or is another one")
        new = found[1:] if place else found
        for at, it in enumerate(new, place + 1):
            if it.key != self.keys.line(at):
                raise JournalLost(f"line {at} of the journal is not there, and {it.key} is")
        return [it.value for it in new]

    def hand_on(self, lines: List[str]) -> List[str]:
        """Counts lines as handed on."""
        if lines:
            self.place, self.last = self.place + len(lines), lines[-1]
            self.bytes += sum(map(len, lines))
        return lines

    async def read(self, may_lag: bool = False) -> List[str]:
        """Reads and hands on the lines that are new."""
        return self.hand_on(await self.lines_after(may_lag))

    async def append(self, lines: Sequence[str]) -> List[str]:
        """Stores lines behind all others. Returns those of others that came between, then these. If it fails nothing is handed on; if etcd refuses
        them they are not stored."""
        ahead: List[str] = []
        for _ in range(self.tries):
            refusal = None
            try:
                if await self.attempt(ahead, lines):
                    return self.hand_on([*ahead, *lines])
            except EtcdRefused as why:
                refusal = why
            try:
                ahead = await self.lines_after()
            except EtcdFault:
                continue
            if lines[0] in ahead:
                self.counts["appends that went through unanswered"] += 1
                return self.hand_on(ahead)
            if refusal:
                raise StoreRefused(str(refusal))
            await self.need_leadership()
        raise StoreLost("the journal is out of reach")

    async def attempt(self, ahead: Sequence[str], lines: Sequence[str]) -> bool:
        """Tries one transaction; whether it is known to have gone through. The line before has to be there."""
        place, last = self.place + len(ahead), ahead[-1] if ahead else self.last
        try:
            return await self.etcd.transact(self.guards(place, last), [put(self.keys.line(place + 1 + it), line) for it, line in enumerate(lines)])
        except EtcdRefused:
            raise
        except EtcdFault:
            self.counts[UNANSWERED] += 1
            await asyncio.sleep(0.02)
            return False

    def guards(self, place: int, last: str) -> List[Dict[str, Any]]:
        """What has to be so when something is stored behind a line: it is the last one of a journal that has not ended, and this one leads."""
        guards = [is_absent(self.keys.line(place + 1)), is_absent(self.keys.end), has_value(self.keys.leader, self.leader)]
        return guards + ([has_value(self.keys.line(place), last)] if place else [])

    async def end(self, keys: Keys, first: str) -> bool:
        """Ends the journal, and makes another one begin with a line, by one transaction. Whether it went through; a fault leaves that open."""
        text = json.dumps({"folder": keys.folder})
        return await self.etcd.transact([*self.guards(self.place, self.last), is_absent(keys.line(1))], [put(self.keys.end, text), put(keys.line(1), first)])

    def go_on(self, folder: str) -> None:
        """Begins anew, with the journal that goes on from this one."""
        self.keys = replace(self.keys, folder=folder)
        self.place, self.last, self.bytes = 0, "", 0

    async def need_leadership(self) -> None:
        """Fails if another one leads."""
        try:
            leader = await self.etcd.get(self.keys.leader)
        except EtcdFault:
            return
        if leader is None or leader.value != self.leader:
            raise StoreLost("another controller leads")
