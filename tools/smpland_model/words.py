"""Refusals: the word, what it is about, and the line in which a report has it."""
from __future__ import annotations

import re
from typing import Any

Json = dict[str, Any]

# The head of a report's line, with the word's number.
HEAD = re.compile(r"(?:[a-z ]+:|denied) (?P<number>\d+) (?P<kind>[A-Za-z]+) ?(?P<rest>.*)")
NAMES = ("shard", "server", "why")


def pairs(rest: str) -> Json:
    """Reads what a report's line tells behind the word, as pairs of a member and its value."""
    words = rest.split()
    found = dict(zip(words[::2], words[1::2]))
    return {name: it if name in NAMES else int(it) for name, it in found.items()}


def told(kind: str, rest: str) -> Json:
    """Reads what a report's line tells behind the word."""
    words = rest.split()
    if kind == "Stuck":
        return {"positions": [int(it) for it in words[1:]]}
    if kind == "Stream":
        return {"stream": int(words[1]), "at": int(words[3]), "why": words[4]}
    if kind in ("Untrue", "Taken"):
        return {"right": words[0], "shard": words[1]} | ({"server": words[2]} if words[0] == "cell" else {})
    return pairs(rest)


def reported(line: str) -> Json:
    """Returns the refusal that a line of a report tells."""
    head = HEAD.fullmatch(line)
    if head is None:
        raise ValueError(f"this is no refusal: {line}")
    kind = head["kind"]
    return {"kind": kind, "number": int(head["number"])} | told(kind, head["rest"]) | {"text": line}


def own(kind: str, **where: Any) -> Json:
    """Returns a refusal that no report has."""
    text = " ".join([f"refused: {kind}", *(f"{name} {value}" for name, value in where.items())])
    return {"kind": kind} | where | {"text": text}
