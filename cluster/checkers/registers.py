"""Registers that clients compare and set, to values that are used once, or to nothing. Each value follows the one that it was compared with: from
nothing they make a chain, up to nothing again. A chain stands as a whole before or behind another one, and before or behind each read that found
nothing."""
from __future__ import annotations

from collections import defaultdict
from collections.abc import Iterable
from dataclasses import dataclass, field
from itertools import combinations

NEVER = 1 << 63


@dataclass
class Zone:
    """Requests that stand together: the first end and the last start among them. They stand behind all that ended before that start, and before all
    that began behind that end."""

    first_end: int = NEVER
    last_start: int = 0

    def add(self, start: int, end: int) -> None:
        """One request more."""
        self.first_end, self.last_start = min(self.first_end, end), max(self.last_start, start)

    def fits_before(self, other: "Zone") -> bool:
        """Whether it may stand before another one."""
        return other.first_end >= self.last_start


def whole(zones: Iterable[Zone]) -> Zone:
    """The requests of several zones."""
    made = Zone()
    for it in zones:
        made.add(it.last_start, it.first_end)
    return made


@dataclass
class Register:
    """The requests of one register."""

    # Each value with the comparison that set it, what it followed, and all requests that found it.
    setters: dict[str, dict] = field(default_factory=dict)
    found: dict[str, Zone] = field(default_factory=lambda: defaultdict(Zone))
    # The reads that found nothing.
    nothing: list[Zone] = field(default_factory=list)
    # By the value that was compared, when it was set to nothing: known to be done, or perhaps.
    deleted: dict[str, Zone] = field(default_factory=dict)
    unclear: dict[str, Zone] = field(default_factory=dict)
    faults: list[str] = field(default_factory=list)

    def take(self, line: dict) -> None:
        """Takes a request."""
        start, end, reply = line["start"], line["end"], line.get("reply")
        is_done = line["op"] == "cas" and reply == line["old"]
        if line["op"] == "cas" and line["value"]:
            # (a comparison that found another value has set nothing)
            if is_done or reply is None:
                self.setters[line["value"]] = {**line, "end": end if is_done else NEVER}
        elif is_done and line["old"]:
            if line["old"] in self.deleted:
                self.faults.append(f"{line['old']} was deleted twice")
            self.deleted[line["old"]] = Zone(end, start)
        elif line["op"] == "cas" and reply is None:
            self.unclear.setdefault(line["old"], Zone()).add(start, NEVER)
        if reply is not None and not is_done:
            if reply:
                self.found[reply].add(start, end)
            else:
                self.nothing.append(Zone(end, start))

    def done(self) -> dict[str, list[str]]:
        """By the value that was compared, those that were set: they were acknowledged, or somebody found or compared them."""
        known = {value for value, line in self.setters.items() if line["end"] != NEVER}
        seen = {*self.found, *self.deleted, *(line["old"] for value, line in self.setters.items() if value in known and line["old"])}
        while new := {self.setters[it]["old"] for it in seen if it in self.setters and self.setters[it]["old"]} - seen:
            seen |= new
        self.faults += [f"{it} was set by nobody" for it in sorted(seen - set(self.setters))]
        followers: dict[str, list[str]] = defaultdict(list)
        for value in sorted(known | (seen & set(self.setters))):
            followers[self.setters[value]["old"]].append(value)
        return followers

    def chain(self, value: str, followers: dict[str, list[str]]) -> list[Zone]:
        """The zones of a value and of all that follow it, up to nothing."""
        zones = []
        while True:
            line = self.setters[value]
            zone = Zone()
            zone.add(line["start"], line["end"])
            found = self.found.get(value)
            if found is not None:
                if found.first_end < line["start"]:
                    self.faults.append(f"{value} was read before it was set")
                zone.add(found.last_start, found.first_end)
            zones.append(zone)
            after = followers.get(value, [])
            if len(after) > 1 or (after and value in self.deleted):
                self.faults.append(f"{value} was replaced twice")
            if not after:
                # (what nobody deleted stands for ever)
                zones.append(self.deleted.get(value) or self.unclear.get(value) or Zone(NEVER, NEVER))
                return zones
            value = after[0]

    def look(self) -> list[str]:
        """What is wrong."""
        followers = self.done()
        chains = [self.chain(first, followers) for first in followers.get("", [])]
        if sum(len(it) - 1 for it in chains) < sum(map(len, followers.values())) and not self.faults:
            self.faults.append("values follow one another in a circle")
        for chain in chains:
            if any(not before.fits_before(after) for before, after in combinations(chain, 2)):
                self.faults.append("a value was found or set when the next one had been found")
        wholes = [whole(it) for it in chains]
        for one, other in combinations(wholes, 2):
            if not one.fits_before(other) and not other.fits_before(one):
                self.faults.append("two values were set to follow nothing, and neither was deleted before the other one was found")
        for read in self.nothing:
            if any(not read.fits_before(it) and not it.fits_before(read) for it in wholes):
                self.faults.append("nothing was found while there was a value")
        return self.faults


def faults_of_register(key: str, lines: list[dict]) -> list[str]:
    """What is wrong with a register's requests."""
    register = Register()
    for line in lines:
        register.take(line)
    found = [] if any(it.get("final") and "reply" in it for it in lines) else ["nobody could read it at the end"]
    return [f"{key}: {it}" for it in (*found, *register.look())]
