"""Texts that one client sets one after the other, each with a number of its own, and that anybody reads."""
from __future__ import annotations

from dataclasses import dataclass

NEVER = 1 << 63


@dataclass(frozen=True)
class Access:
    """A set of a number, or a read of it; 0: there was none. `end` is NEVER if a set had no reply: it may then be done at any time since, or not at all."""

    is_set: bool
    number: int
    start: int
    end: int

    @staticmethod
    def of(line: dict) -> "Access":
        """Reads a line of history."""
        if line["op"] == "set":
            return Access(True, line["value"], line["start"], line["end"] if "reply" in line else NEVER)
        return Access(False, line["reply"], line["start"], line["end"])


def faults_of_text(key: str, lines: list[dict]) -> list[str]:
    """What is wrong with a text's requests."""
    accesses = [Access.of(it) for it in lines if it["op"] == "set" or "reply" in it]
    sets = {it.number: it for it in accesses if it.is_set}
    reads = sorted((it for it in accesses if not it.is_set), key=lambda it: it.start)
    found = [] if any(it.get("final") and "reply" in it for it in lines) else [f"{key}: nobody could read it at the end"]
    # (from the end of a set, or of a read that shows it, no reader sees what had ended when that set began)
    known = sorted((it.end, sets[it.number].start) for it in accesses if it.end != NEVER and it.number in sets)
    begun, turn = -1, 0
    for read in reads:
        while turn < len(known) and known[turn][0] < read.start:
            begun = max(begun, known[turn][1])
            turn += 1
        seen = sets.get(read.number)
        if seen is None and read.number:
            found.append(f"{key}: text {read.number} was set by nobody")
        elif seen is not None and read.end < seen.start:
            found.append(f"{key}: text {read.number} was read before it was set")
        elif (seen.end if seen is not None else -1) < begun:
            found.append(f"{key}: text {read.number} was read, and a later one had been acknowledged or read before")
    return found
