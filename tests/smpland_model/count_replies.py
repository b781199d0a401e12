"""count_replies.py [FIRST LAST]: how often each reply comes in random sessions of the reference, and which documented ones do not.

By hand: PYTHONPATH=tools:python python3 tests/smpland_model/count_replies.py
"""
from __future__ import annotations

import json
import re
import sys
from collections import Counter
from pathlib import Path
from typing import Any

from smpland_model.lines import tables
from smplan.reading import Names

from random_client import Client

Json = dict[str, Any]
STEPS = 300
COMMANDS = set(tables(Names()))
DOCUMENT = Path(__file__).resolve().parents[2] / "docs" / "SMPLAND.md"
# What random sessions do not reach: sessions worked by hand, or test_planning, have it.
ELSEWHERE = {
    # (a million publications of a shard)
    ("VersionsSpent", "new_epoch"),
    # (a plan of more than 256 signals)
    ("TooMany", "moves"), ("TooMany", "drain"),
    # (the chosen cells are read as what may not have a server twice, lists nothing, and has the floor that is live)
    ("DoubleCell", "confirm"), ("BadListing", "confirm"), ("Short", "confirm"), ("TooManyDown", "confirm"),
    # (what a server to empty has is there, and goes where there is room and spread; moves name their places)
    ("NotThere", "drain"), ("NoRoom", "drain"), ("Spread", "drain"), ("NoPlace", "moves"),
}
REPLIES = {
    "opened", "begun", "moved", "approved", "ended", "up", "restore", "copied", "fence", "waiting", "proposal", "settle", "ignored old",
    "ignored unknown", "bad", "hello", "orders", "map", "document", "state", "since", "accepted", "plan", "audit agrees", "audit differs",
    "audit ahead", "audit later", "failed audit", "failed restore", "failed reopen", "begun again",
}


def command_of(line: bytes) -> str:
    """Returns the command of a line, or nothing if none can be read."""
    try:
        value = json.loads(line)
    except ValueError:
        return ""
    do = value.get("do") if isinstance(value, dict) else None
    return do if isinstance(do, str) and do in COMMANDS else ""


def kind_of(reply: Json) -> str:
    """Returns what kind of reply this is."""
    word = next(it for it in reply if it != "id")
    told = reply[word]
    match word:
        case "ignored":
            return f"ignored {told}"
        case "audit":
            return f"audit {told['is']}"
        case "failed":
            return f"failed {told['then']}"
        case "bad" | "refused":
            return f"{word} {told['kind']}"
    return f"{word} again" if "again" in reply else word


def counted(seeds: range, program: str | None = None, plans_often: float = 0.1) -> Counter[tuple[str, str]]:
    """Returns how often each kind of reply came to each command."""
    counts: Counter[tuple[str, str]] = Counter()
    for seed in seeds:
        for line, reply in Client(seed, program, plans_often if program else 0).play(STEPS):
            counts[kind_of(reply), command_of(line)] += 1
    return counts


def documented() -> set[tuple[str, str]]:
    """Returns the refusals that the document has, each with a command; with none if any command may be refused so."""
    pairs = set()
    for kinds, commands in re.findall(r"^- (`[A-Z][A-Za-z`, ]+`) \(([^)]+)\):", DOCUMENT.read_text(), re.M):
        for kind in re.findall(r"`(\w+)`", kinds):
            pairs |= {(kind, it) for it in re.findall(r"`(\w+)`", commands) or [""]}
    return pairs


def lacking(counts: Counter[tuple[str, str]], has_program: bool) -> set[str]:
    """Returns what did not come."""
    kinds = {kind for kind, _ in counts} | {"bad" for kind, _ in counts if kind.startswith("bad")}
    missing = REPLIES - kinds - (set() if has_program else {"plan"})
    for kind, command in documented() - ELSEWHERE:
        came = counts[f"refused {kind}", command] if command else f"refused {kind}" in kinds
        if not came and (has_program or command not in ("moves", "drain")):
            missing.add(f"refused {kind} of {command or 'any'}")
    return missing


def main() -> None:
    """Prints the table."""
    first, last = map(int, sys.argv[1:3]) if len(sys.argv) > 2 else (0, 110)
    program = None if len(sys.argv) < 4 else sys.argv[3]
    counts = counted(range(first, last), program)
    for (kind, command), count in sorted(counts.items()):
        print(f"{count:7} {kind:24} {command}")
    print(f"{sum(counts.values())} lines; what did not come:", ", ".join(sorted(lacking(counts, program is not None))) or "nothing")


if __name__ == "__main__":
    main()
