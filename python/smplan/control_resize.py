"""`resize`: other loads, rooms and numbers of replicas for a service that is there, by a reopening. Nothing is moved by it."""
from __future__ import annotations

import argparse
from decimal import Decimal, InvalidOperation
from itertools import chain
from typing import Any, Dict, List

from .control_document import Line, Place, number_at, with_numbers, without_servers
from .control_leader import Controllers, controllers_of
from .control_numbers import PLACES, SINGLE, Told, numbers_of, told_by_file, told_by_words
from .control_operate import printed, tell
from .control_reopen import add_agreement, reopen_by, state_in_force
from .failure import Failure
from .files import document_from
from .planning import named
from .words import counted

# How many changes, and how many servers that would be too full, are told in a line each.
MOST_LINES = 20

BY_REOPENING = "It takes a reopening: every server is asked what it has, and serves meanwhile; nothing is moved. "


def told_of(arguments: argparse.Namespace, document: Line) -> Dict[Place, int]:
    """The numbers that the command line and its file tell of a document. Those of the command line come first."""
    words = [told_by_words(it, getattr(arguments, it)) for it in PLACES]
    single = [Told("", "", it, getattr(arguments, it), f"--{it}") for it in SINGLE if getattr(arguments, it) is not None]
    by_line = numbers_of(chain(*words, single), document, Decimal(1))
    return {**numbers_of(told_by_file(arguments.file, document), document, arguments.unit), **by_line} if arguments.file else by_line


# ---- what changes

def changes_of(document: Line, numbers: Dict[Place, int]) -> Dict[Place, int]:
    """The numbers that a document has not yet."""
    return {place: it for place, it in numbers.items() if number_at(document, place) != it}


def lines_of(document: Line, changes: Dict[Place, int]) -> List[str]:
    """What changes, the greatest changes first."""
    def size(place: Place) -> int:
        return -abs(changes[place] - (number_at(document, place) or 0))

    lines = [f"{member} of {name}: {number_at(document, (table, name, member))} -> {changes[table, name, member]}" if table
             else f"{member}: {number_at(document, (table, name, member))} -> {changes[table, name, member]}"
             for table, name, member in sorted(changes, key=size)[:MOST_LINES]]
    more = len(changes) - MOST_LINES
    return lines + ([f"and {counted(more, 'smaller change')} more"] if more > 0 else [])


# What servers have of shards, with the load of each.
Loads = Dict[str, Dict[str, int]]


def loads_at(document: Line, state: Line) -> Loads:
    """The loads at each server by a document, of all that is recorded there; in a handover both have the shard."""
    load = {it["name"]: it["load"] for it in document["shards"]}
    found: Loads = {it["name"]: {} for it in document["servers"]}
    for shard in state["shards"]:
        for cell in shard["cells"]:
            found[cell["server"]][shard["shard"]] = load[shard["shard"]]
    return found


def fullest(document: Line, state: Line) -> str:
    """The server with the least room left for its load, in words."""
    room, loads = {it["name"]: it["room"] for it in document["servers"]}, loads_at(document, state)
    name = max(room, key=lambda it: sum(loads[it].values()) / max(1, room[it]))
    return f"{name} {sum(loads[name].values())} of {room[name]}"


# ---- what `confirm` would refuse, or change

def too_full(document: Line, state: Line) -> List[str]:
    """The servers that would be over their rooms, and what helps."""
    room, loads = {it["name"]: it["room"] for it in document["servers"]}, loads_at(document, state)
    over = sorted((it for it in room if sum(loads[it].values()) > room[it]), key=lambda it: room[it] - sum(loads[it].values()))
    lines = []
    for name in over[:MOST_LINES]:
        load, shards = sum(loads[name].values()), sorted(loads[name], key=lambda it: -loads[name][it])
        lines.append(f"{name} would have load {load} ({named(f'{it} {loads[name][it]}' for it in shards)}) and room {room[name]}: {load - room[name]} too much")
    if over:
        lines.append(f"move something away first: `smplan-control drain {over[0]}`, or `balance` (they know the loads that are recorded); "
                     f"or say which room it has: --room {over[0]}={sum(loads[over[0]].values())}")
    return lines


def too_few(document: Line, state: Line, changes: Dict[Place, int]) -> List[str]:
    """The shards that would have fewer live replicas than the floor that they are given: their floor would stay lower."""
    live = {it["shard"]: it["live"] for it in state["shards"]}
    lines = []
    for it in document["shards"]:
        name, floor = it["name"], it["want"] - it["cap"]
        if it["cap"] > it["want"]:
            lines.append(f"{name} would want {counted(it['want'], 'replica')}, of which {it['cap']} may be away: give it a --cap {name}=N of {it['want']} at most, too")
        elif live.get(name, 0) < floor and any(("shards", name, member) in changes for member in ("want", "cap")):
            lines.append(f"{name} has {counted(live.get(name, 0), 'live replica')}, and {floor} would have to be live (want {it['want']}, cap {it['cap']}): "
                         f"`smplan-control scale {name}={floor}` first, or --cap {name}={it['want'] - live.get(name, 0)}")
    return lines


def brought(document: Line, state: Line) -> List[str]:
    """The servers to which running plans bring more than there would be room for: who gets it may have it when it is asked."""
    room, loads = {it["name"]: it["room"] for it in document["servers"]}, loads_at(document, state)
    return [it["server"] for it in state["servers"] if it["held"] and sum(loads[it["server"]].values()) + it["held"] > room[it["server"]]]


def refuse(document: Line, state: Line, changes: Dict[Place, int]) -> None:
    """Fails if a document is none that a reopening opens with all its numbers."""
    lines = too_few(document, state, changes) or too_full(document, state)
    if lines:
        raise Failure("\n  ".join(["nothing is changed:", *lines]), 1)
    document_from(document, "the document with these numbers")
    if brought(document, state):
        raise Failure(f"nothing is changed: running plans bring {named(brought(document, state))} more than it would have room for; wait for their end", 1)


def left_to_do(document: Line) -> List[str]:
    """What an operator does next: shards that want another number of replicas than they have."""
    less = [it["name"] for it in document["shards"] if len(it["cells"]) < it["want"]]
    more = [f"{it['name']}={it['want']}" for it in document["shards"] if len(it["cells"]) > it["want"]]
    return ([f"{named(less)} {'want' if len(less) > 1 else 'wants'} more replicas: `smplan-control repair`"] if less else []) + (
        [f"some have more replicas than they want: `smplan-control scale {' '.join(more[:6])}`"] if more else [])


# ---- the command

def resize(arguments: argparse.Namespace) -> int:
    """Runs the command."""
    controllers = controllers_of(arguments)
    state = state_in_force(controllers, arguments)
    recorded = controllers.post("/document")
    numbers = told_of(arguments, recorded)
    if not numbers:
        raise Failure("which numbers are to change? Name a FILE, or say --load S=N, --room V=N, --want S=N, --cap S=N, --spread S=N, --limit N or --log N")
    changes = changes_of(recorded, numbers)
    if not changes:
        printed(arguments, {"changed": 0}, "nothing is left to change: all these numbers are recorded")
        return 0
    document = with_numbers(recorded, changes)
    tell(arguments, lines_of(recorded, changes))
    refuse(document, state, changes)
    if any(member in ("load", "room") for _, _, member in changes):
        tell(arguments, [f"the fullest server: {fullest(recorded, state)} -> {fullest(document, state)}"])
    return change(controllers, arguments, document, changes)


def change(controllers: Controllers, arguments: argparse.Namespace, document: Line, changes: Dict[Place, int]) -> int:
    """Reopens with other numbers, and looks whether they are recorded then."""
    status = reopen_by(controllers, arguments, without_servers(document, []), BY_REOPENING, f"resize: {counted(len(changes), 'number')}")
    if status or arguments.dry_run:
        return status
    recorded = controllers.post("/document")
    missing = changes_of(recorded, changes)
    if missing:
        raise Failure(f"the {named(f'{member} of {name}' if name else member for _, name, member in missing)} is recorded otherwise: another reopening took the place of this one. "
                      "Say this again", 1)
    tell(arguments, [f"{counted(len(changes), 'number')} changed; nothing was moved", *left_to_do(recorded)])
    return 0


def unit(text: str) -> Decimal:
    """Reads a unit."""
    try:
        value = Decimal(text)
    except InvalidOperation:
        value = Decimal(0)
    if not value.is_finite() or value <= 0:
        raise argparse.ArgumentTypeError(f"{text} is no number above 0")
    return value


EXAMPLE = """example:
  smplan-control resize --load orders=52 --room berlin-1=120
  smplan-control resize loads.csv --unit 1048576 --yes

loads.csv has lines `orders,54525952`, each a shard's load or a server's room; or such behind a line
`shard,load` (or more columns: want, cap, spread; `value` is the load) or `server,room`. As JSON:
  {"loads":{"orders":52},"rooms":{"berlin-1":120},"wants":{"orders":3},"limit":2}
"""


def add_parser(subparsers: Any) -> None:
    """Adds the command."""
    parser = subparsers.add_parser(
        "resize", help="records other loads, rooms and numbers of replicas", epilog=EXAMPLE, formatter_class=argparse.RawDescriptionHelpFormatter,
        description="Records other numbers for shards and servers that are there, by a reopening, once what it proposes is agreed to. It ends all plans, moves nothing,\n"
        "and is not begun if a server would be over its room, or does not answer. A reopening that is under way ends first, so after an\n"
        "interruption the same command goes on. Exit status 0: the service is open with these numbers. 1: refused, not agreed to, or a server\n"
        "does not answer; if the service is closed to moves then, it says so. 2: bad input. 3: no controller leads.",
    )
    parser.add_argument("file", nargs="?", metavar="FILE", help="measured numbers, as CSV or JSON; - is standard input (then say --yes)")
    parser.add_argument("--unit", type=unit, default=Decimal(1), metavar="N", help="what a load or room of 1 is in FILE (1); loads are rounded up, rooms down")
    for word, noun, what in (("load", "S", "a shard's load"), ("room", "V", "a server's room"), ("want", "S", "how many replicas a shard should have"),
                             ("cap", "S", "how many of them may be unavailable at once"), ("spread", "S", "in how many regions they should be")):
        parser.add_argument(f"--{word}", action="append", default=[], metavar=f"{noun}=N", help=f"{what}; may be given again")
    parser.add_argument("--limit", metavar="N", help="how many servers may be down at once")
    parser.add_argument("--log", metavar="N", help="places of the log")
    add_agreement(parser)
    parser.set_defaults(run=resize)
