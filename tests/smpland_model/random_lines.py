"""Random sessions as lines: commands of random schedules of the model, with questions between, and spoilt lines."""
from __future__ import annotations

import json
import random
from collections.abc import Iterator
from dataclasses import replace
from typing import Any

from driving_model import commands
from driving_model.rules import SOUND
from driving_model.schedule import PROFILES, Schedule

from plain_commands import command_json, with_own_cells

Json = dict[str, Any]
QUESTIONS = [
    {"do": "hello"}, {"do": "orders"}, {"do": "map"}, {"do": "document"}, {"do": "state"}, {"do": "state", "shard": "s0"},
    {"do": "state", "plan": 0}, {"do": "since", "place": 3},
    {"do": "failed", "plan": 0, "stream": 0, "number": 1, "answer": "old"},
    {"do": "audit", "server": "v0", "place": 5, "slots": []},
]


def as_bytes(line: Json) -> bytes:
    """Returns a line."""
    return json.dumps(line, separators=(",", ":")).encode()


def with_views(line: Json, dice: random.Random) -> Json:
    """Returns an answer to a fence with views, which the model has not. They are one view mostly, so that the session
    goes on as the schedule does."""
    return line | {"slots": [it | {"view": dice.choice([7, 7, 7, 8])} for it in line["slots"]]}


def copied(journal: int, fence: int, dice: random.Random) -> Json:
    """Returns that the writes of a shard have copies, which the model does not know."""
    return {"do": "copied", "journal": f"{journal:x}", "fence": fence, "shard": dice.choice(["s0", "s1"]), "copies": dice.choice([1, 2, 2, 3])}


def sessions(seed: int, steps: int) -> Iterator[list[Json]]:
    """Yields the sessions of a schedule, one for each journal, in which each fifth line is a question, and some say how many copies there are."""
    schedule = Schedule(seed, SOUND, steps, ["", *PROFILES][seed % (len(PROFILES) + 1)])
    schedule.run()
    dice = random.Random(seed)
    lines: list[Json] = []
    journal, fence = 1, 0
    for command, _ in schedule.world.session:
        is_opening = isinstance(command, (commands.Open, commands.Reopen))
        if is_opening and command.journal is not None and lines:
            yield lines
            lines = []
        if is_opening and command.journal is not None:
            journal, fence = command.journal, 0
        fence = command.base if isinstance(command, commands.Settled) else fence
        if is_opening:
            command = replace(command, document=with_own_cells(command.document))
        line = command_json(command)
        lines.append(with_views(line, dice) if "slots" in line else line)
        if dice.random() < 0.2:
            lines.append(dice.choice(QUESTIONS))
        if dice.random() < 0.05:
            lines.append(copied(journal, fence, dice))
    yield lines


def spoilt_value(value: Any, dice: random.Random) -> Any:
    """Returns a JSON value in which something is changed."""
    others = [None, True, -1, 0, 1, 2**53, 1.5, "", "a b", "v0", "s1", [], {}, value, [value], {"do": value}]
    if not isinstance(value, (dict, list)) or not value or dice.random() < 0.1:
        return dice.choice(others)
    if isinstance(value, list):
        at = dice.randrange(len(value))
        kept = value[:at] + value[at + 1:]
        return dice.choice([kept, value + [value[at]], value[:at] + [spoilt_value(value[at], dice)] + value[at + 1:]])
    name = dice.choice(list(value))
    kept = {key: it for key, it in value.items() if key != name}
    return dice.choice([kept, kept | {name + "x": value[name]}, *[kept | {name: spoilt_value(value[name], dice)}] * 4])


def nudged(value: Any, dice: random.Random) -> Any:
    """Returns a JSON value in which some numbers and names are others."""
    if isinstance(value, dict):
        return {name: it if name == "do" else nudged(it, dice) for name, it in value.items()}
    if isinstance(value, list):
        return [nudged(it, dice) for it in value]
    if dice.random() < 0.8 or isinstance(value, bool) or value is None:
        return value
    if isinstance(value, int):
        return max(0, value + dice.choice([-1, 1, 2]))
    return value[:-1] + dice.choice("0123") if isinstance(value, str) and value[:1] in ("s", "v") else value


def spoilt(line: Json, dice: random.Random) -> bytes:
    """Returns a line in which something is changed: a name or a number, any value, or a byte of its text."""
    if dice.random() < 0.5:
        return as_bytes(nudged(line, dice))
    if dice.random() < 0.6:
        return as_bytes(spoilt_value(line, dice))
    text = bytearray(as_bytes(line))
    at = dice.randrange(len(text))
    text[at:at + dice.choice([0, 1, 3])] = dice.choice([b"", b" ", b"}", b"\xff", b'"', b"9", b"\\u0000", b"\r"])
    return bytes(text).replace(b"\n", b" ")
