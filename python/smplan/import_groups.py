"""Documents of other systems: machines, and groups of members of which some have to live. The importers (import_*.py) read what those systems print."""
from __future__ import annotations

import argparse
import hashlib
import json
import re
from dataclasses import dataclass, field
from typing import Any, Dict, List, Sequence, Tuple

from .failure import Failure
from .files import name_of, read_bytes
from .limits import NAME_BYTES
from .model import Json

# The region of a machine of which none is told.
NO_REGION = "default"
MARK_DIGITS = 8


@dataclass(frozen=True)
class Machine:
    """What goes down as a whole; in a document a server."""

    name: str
    region: str = NO_REGION
    is_down: bool = False


@dataclass(frozen=True)
class Member:
    """A member of a group that lives now, and its machine."""

    machine: str
    role: str = "secondary"


@dataclass(frozen=True)
class Group:
    """What has members on machines: how many it should have, how many have to live, and those that do."""

    name: str
    want: int
    floor: int
    members: Tuple[Member, ...]


@dataclass(frozen=True)
class Imported:
    """What an importer has read."""

    machines: Tuple[Machine, ...]
    groups: Tuple[Group, ...]


@dataclass(frozen=True)
class Names:
    """The names that machines have here, by those that other systems give them."""

    of: Dict[str, str] = field(default_factory=dict)

    def machine(self, name: str) -> str:
        return short_name(self.of.get(name, name))


def short_name(name: str) -> str:
    """Returns a name as a document takes it: the same, or, if it is too long or has other characters, its beginning with a mark of the whole."""
    clean = re.sub(r"[^A-Za-z0-9._-]", "-", name)
    if clean == name and 0 < len(name) <= NAME_BYTES:
        return name
    mark = hashlib.sha256(name.encode()).hexdigest()[:MARK_DIGITS]
    return f"{clean[:NAME_BYTES - MARK_DIGITS - 1]}-{mark}"


def read_names(path: str) -> Names:
    """Reads a file of names: one JSON object from another system's name to the one here."""
    value = read_values(path)
    if len(value) != 1 or not isinstance(value[0], dict) or not all(isinstance(it, str) for it in value[0].values()):
        raise Failure(f'{path}: names stand in one JSON object, such as {{"10.0.0.1": "n1"}}')
    return Names(value[0])


def values_in(text: str, path: str) -> List[Any]:
    """Returns the JSON values of a text, which stand one behind the other."""
    values, at, reader = [], 0, json.JSONDecoder()
    text = text.strip()
    while at < len(text):
        try:
            value, end = reader.raw_decode(text, at)
        except (ValueError, RecursionError) as why:
            raise Failure(f"{path}: no JSON: {why}") from None
        values.append(value)
        at = end + len(text[end:]) - len(text[end:].lstrip())
    if not values:
        raise Failure(f"{path} is empty")
    return values


def read_values(path: str) -> List[Any]:
    """Reads the JSON values of a file, or of standard input."""
    return values_in(read_bytes(path).decode(errors="replace"), name_of(path))


# ---- shards of groups

def shard(name: str, want: int, floor: int, members: Sequence[Member]) -> Json:
    """Returns a shard with these members, each on a machine of its own."""
    owner = next((it.machine for it in members if it.role == "primary"), None)
    cells = [{"server": it.machine, "state": "primary" if it.machine == owner else "secondary"} for it in members]
    return {"name": name, "load": 0, "want": want, "cap": want - min(floor, want), "spread": 0, "listed": owner, "cells": cells}


def machines_of(group: Group) -> Dict[str, List[Member]]:
    """Returns a group's members by machine."""
    found: Dict[str, List[Member]] = {}
    for it in group.members:
        found.setdefault(it.machine, []).append(it)
    return found


def least_machines(counts: List[int], needed: int) -> int:
    """Returns how many machines have together the members that are needed, whichever they are."""
    total = number = 0
    for count in sorted(counts):
        if total >= needed:
            break
        total, number = total + count, number + 1
    return number


def shards_of(group: Group) -> List[Json]:
    """Returns the shards that say of a group which machines may go.

    A shard counts one replica for a machine. So if a machine has several members, the machines that the group cannot lose are a shard of their own that
    can lose none; the others are one with as many as have to stay for the floor to be kept, whichever stay.
    """
    machines = machines_of(group)
    if all(len(it) == 1 for it in machines.values()):
        return [shard(group.name, group.want, group.floor, group.members)]
    live = len(group.members)
    floor = min(group.floor, live)
    first = {name: min(its, key=lambda it: it.role) for name, its in machines.items()}
    needed = {name for name, its in machines.items() if live - len(its) < floor}
    others = [name for name in machines if name not in needed]
    rest = floor - sum(len(machines[it]) for it in needed)
    kept = least_machines([len(machines[it]) for it in others], rest)
    found = [shard(group.name, len(others), kept, [first[it] for it in others])] if others else []
    name = short_name(f"{group.name}.needed") if others else group.name
    return found + ([shard(name, len(needed), len(needed), [first[it] for it in machines if it in needed])] if needed else [])


def document_of(imported: Imported, limit: int, names: Names = Names()) -> Json:
    """Returns the document of what was imported. It has the replicas that live, each without a load."""
    machines: Dict[str, Json] = {}
    for it in imported.machines:
        name = names.machine(it.name)
        known = machines.setdefault(name, {"name": name, "region": short_name(it.region), "room": 0})
        if it.is_down:
            known["down"] = True
    groups = [
        Group(short_name(it.name), it.want, it.floor, tuple(Member(names.machine(one.machine), one.role) for one in it.members)) for it in imported.groups
    ]
    return {"limit": limit, "servers": list(machines.values()), "shards": [one for it in groups for one in shards_of(it)]}


# ---- options that several importers have

@dataclass(frozen=True)
class Counts:
    """A number for each name, and perhaps one for all others."""

    by_name: Dict[str, int]

    def of(self, name: str) -> int:
        """Returns the number of a name, or fails."""
        found = self.by_name.get(name, self.by_name.get(""))
        if found is None:
            raise Failure(f"how many members should {name} have? Say --want N, or --want {name}=N: one that is gone is not in this list")
        return found


def count_of(text: str) -> Tuple[str, int]:
    """Reads `N`, or `NAME=N`."""
    name, _, number = text.rpartition("=")
    if not number.isdecimal():
        raise argparse.ArgumentTypeError(f"'{text}' is neither N nor NAME=N")
    return name, int(number)


def floor_of(want: int, cap: int) -> int:
    """Returns how many members have to live, if `cap` may be unavailable. One that is alone is not let go unless `cap` says so."""
    return max(0, want - cap)


def add_cap(parser: argparse.ArgumentParser) -> None:
    """Adds the option that says how many members may be unavailable."""
    parser.add_argument("--cap", type=int, metavar="N", help="how many members of a group may be unavailable at once (1; of a group of one 0)")


def cap_for(given: Any, want: int) -> int:
    """Returns how many members of a group may be unavailable."""
    return int(given) if given is not None else min(1, max(0, want - 1))
