"""Lines of every command that are not as they should be in one member, or at random in several."""
from __future__ import annotations

import random
from collections.abc import Iterator
from typing import Any

from smpland_model.lines import BadLine, Known, read, read_inside
from smpland_model.session import names_of
from smplan.model import document_of

from random_lines import as_bytes, spoilt

Json = dict[str, Any]

# The base of the first reopening of a journal that begins with epoch 0.
BASE = 2_097_152

# The members of each command, which may have one of several forms. A member with a question mark may be missing.
MEMBERS = {
    "open": "document journal epoch", "begin": "plan name", "answered": "plan_number stream number",
    "approve": "server by", "restarted": "permit base", "restore": "server nonce",
    "copied": "own_journal heard shard copies", "reopen": "document lost? why? journal? fence?",
    "fenced": "party base slots | party base unknown | party base slots? unknown?",
    "confirm": "base choices lost?", "settled": "party base", "hello": "", "orders": "", "map": "", "document": "",
    "state": "shard? plan_number?", "moves": "moves", "drain": "server", "check": "plan", "since": "place",
    "audit": "server place slots", "failed": "plan_number stream number answer",
}
# Those of entries of lists.
SLOT = "entry_shard cell entry_party? handover? last? load? cut? position? view? reached?"
CHOICE, CHOSEN = "shard chosen", "server role"
MOVE = "shard from to"
# How members are written that stand here under names of their own, since they are something else elsewhere.
WRITTEN = {
    "plan_number": "plan", "party": "server", "choices": "cells", "fence": "epoch", "entry_shard": "shard",
    "entry_party": "party", "chosen": "cells", "role": "state", "own_journal": "journal", "heard": "fence",
}
EXACT = [7, 0, 2**53 - 1, 2**53, -1, 2**64, 1.0, True, "7", None]
SMALL = [0, 1, 2**32 - 1, 2**32, -1, 0.0, False, [], None]
BITS = ["9f2c", "ffffffffffffffff", "00000000000000001", "0", "F", "", 5, None]
LABELS = ["r-7", "x" * 64, "x" * 65, "", "a b", "ä", 7, None]
SERVERS = ["v0", "v1", "zz", "s0", "x" * 32, "x" * 33, "", "a b", 7, None]
SHARDS = ["s0", "s1", "zz", "v0", "x" * 32, "x" * 33, "", 7, None]
CELLS = ["prepared", "absent", "secondary", "primary", "forwarding", "Absent", [], {}, None]
# What may stand in members, what is right first.
VALUES: dict[str, list[Any]] = {
    "journal": BITS, "nonce": BITS, "unknown": BITS, "epoch": SMALL, "fence": [1, *SMALL], "plan_number": SMALL,
    "stream": SMALL, "number": EXACT, "permit": EXACT, "base": [BASE, *EXACT], "place": EXACT,
    "plan": [{}, [], 7, None], "document": [{}, [], 7, None], "name": LABELS, "by": LABELS,
    "server": SERVERS, "party": SERVERS, "shard": SHARDS, "from": SERVERS, "to": ["v1", *SERVERS],
    "why": ["disk", "é" * 2_048, "é" * 2_049, 7, None], "answer": ["old", "not_ready", "Old", "", 7, None],
    "entry_shard": SHARDS, "cell": CELLS, "entry_party": SERVERS, "handover": EXACT, "last": EXACT, "load": SMALL,
    "cut": EXACT, "position": EXACT, "view": EXACT, "reached": [True, False, 0, None],
    "role": ["primary", "secondary", "absent", 7], "own_journal": ["1", *BITS], "heard": [0, *EXACT], "copies": [2, *SMALL],
}


def right(members: str) -> Json:
    """Returns an object whose members are right, with all that it may have."""
    names = (it.removesuffix("?") for it in members.split())
    return {WRITTEN.get(it, it): values_of(it)[0] for it in names}


def odd(members: str) -> Iterator[Any]:
    """Yields an object with one member that is missing, or that has another value, with one more, and what is none."""
    whole = right(members)
    for name in (it.removesuffix("?") for it in members.split()):
        written = WRITTEN.get(name, name)
        yield {it: value for it, value in whole.items() if it != written}
        yield from (whole | {written: it} for it in values_of(name)[1:])
    yield whole | {"more[0]": 7}
    yield from (7, None, [whole])


def odd_slots() -> Iterator[Any]:
    """Yields slots: each cell with one member that is not right, and with those alone that it needs."""
    for slot in odd(SLOT):
        yield slot
        if isinstance(slot, dict):
            yield from (slot | {"cell": it} for it in ("absent", "secondary", "primary", "forwarding"))
    yield from ({"shard": "s0", "cell": it} for it in ("absent", "secondary", "primary"))


def odd_lists(entries: Iterator[Any], key: str) -> list[Any]:
    """Returns lists: none, of one entry each, of two that have the same key, and what is none."""
    found = list(entries)
    return [[], *([it] for it in found), [{key: "s0"}, {key: "s1"}, {key: "s0"}, 7], {}, "", None]


def values_of(name: str) -> list[Any]:
    """Returns what may stand in a member, what is right first."""
    made = {
        "slots": lambda: odd_lists(odd_slots(), "shard"), "choices": lambda: odd_lists(odd(CHOICE), "shard"),
        "chosen": lambda: odd_lists(odd(CHOSEN), "server"), "moves": lambda: odd_lists(odd(MOVE), "shard"),
        "lost": lambda: odd_lists(iter(SERVERS), "name"),
    }
    return made[name]() if name in made else VALUES[name]


def lines_with_one_fault() -> Iterator[Json]:
    """Yields lines of each command, each with one member that is not right at most."""
    for do, forms in MEMBERS.items():
        for members in forms.split(" | "):
            yield from ({"do": do} | it for it in odd(members) if isinstance(it, dict))
            yield {"do": do, "id": "7", **right(members)}
    yield from ({"do": "hello", "id": it} for it in [*EXACT, *LABELS])
    yield from ({"do": it} for it in ("Open", "", 7, None))


def long_lists() -> Iterator[Json]:
    """Yields lines whose lists are as long as they may be, and longer, some with another fault at the end."""
    slots = [{"shard": f"q{it}", "cell": "absent"} for it in range(4_096)]
    for more in ([], [{"shard": "r", "cell": "absent"}], [slots[7]], [7]):
        yield {"do": "audit", "server": "v0", "place": 1, "slots": slots + more}
    cells: list[Any] = [{"server": f"q{it}", "state": "primary"} for it in range(4_097)]
    for longer in (cells, cells[:1] * 4_097, [7] * 4_097, cells + cells[:1]):
        yield {"do": "confirm", "base": BASE, "cells": [{"shard": "s0", "cells": longer}]}
    for lost in (["v0"] * 1_024, ["v0"] * 1_025, ["v0"] * 1_025 + ["a b"]):
        yield {"do": "reopen", "document": {}, "lost": lost}
    yield {"do": "moves", "moves": [7] * 4_097}


def shuffled(value: Json, dice: random.Random) -> Json:
    """Returns an object whose members stand in another order."""
    return dict(dice.sample(list(value.items()), len(value)))


def some(values: list[Any], dice: random.Random) -> Any:
    """Returns one of the values, the first one mostly."""
    return values[0] if dice.random() < 0.8 else dice.choice(values)


def odd_line(dice: random.Random) -> Json:
    """Returns a line of a command in which several members may not be right."""
    do = dice.choice(list(MEMBERS))
    line: Json = {"do": do}
    for member in dice.choice(MEMBERS[do].split(" | ")).split():
        name = member.removesuffix("?")
        if dice.random() < (0.97 if name == member else 0.5):
            values = values_of(name)
            found = dice.choice(values) if isinstance(values[0], list) else some(values, dice)
            line[WRITTEN.get(name, name)] = found
    return shuffled(line, dice)


def odd_lines(dice: random.Random, count: int) -> Iterator[bytes]:
    """Yields odd lines, some of them spoilt once more."""
    for _ in range(count):
        line = odd_line(dice)
        yield spoilt(line, dice) if dice.random() < 0.3 else as_bytes(line)


def odd_session(document: Json, seed: int, count: int) -> Iterator[bytes]:
    """Yields a session over a document. `count` odd lines come before it is open, and as many at each step after it."""
    dice = random.Random(seed)
    yield from odd_lines(dice, count)
    yield as_bytes({"do": "open", "document": document, "journal": "1", "epoch": 0})
    yield from odd_lines(dice, count)
    yield as_bytes({"do": "reopen", "document": document})
    for server in (None, *(it["name"] for it in document["servers"])):
        yield from odd_lines(dice, count)
        told = {} if server is None else {"unknown": "c0de"}
        yield as_bytes({"do": "fenced", "server": server, "base": BASE} | told)
    yield from odd_lines(dice, count)


def is_bad(line: bytes, known: Known) -> bool:
    """Returns whether the reference finds a fault in a line."""
    try:
        read_inside(read(line, known), known)
    except BadLine:
        return True
    return False


def session_of_faults(document: Json) -> Iterator[bytes]:
    """Yields a session over a document with all lines of one fault: before it is open, in it, and in a reopening."""
    names = names_of(document_of(document))
    lines = [as_bytes(it) for it in (*lines_with_one_fault(), *long_lists())]
    lines.sort(key=lambda it: not is_bad(it, Known(names, names)))
    yield from lines
    yield as_bytes({"do": "open", "document": document, "journal": "1", "epoch": 0})
    yield from lines
    yield as_bytes({"do": "reopen", "document": document})
    yield from lines
    for server in (None, *(it["name"] for it in document["servers"])):
        told = {} if server is None else {"unknown": "c0de"}
        yield as_bytes({"do": "fenced", "server": server, "base": BASE} | told)
    yield from lines
