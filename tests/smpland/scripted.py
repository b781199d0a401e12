"""A session whose replies are known, under `smpland JOURNAL`: it goes on behind the last entry that the journal has."""
from __future__ import annotations

import json
import random
from pathlib import Path
from typing import Any

from runs import Process

Json = dict[str, Any]
MOST_LINES = 30


def last_entry(journal: Path) -> int:
    """Returns the number of the last entry of a journal that was recovered, and -1 if it has none."""
    lines = journal.read_text().splitlines()[1:]
    return json.loads(lines[-1])["entries"][-1]["id"] if lines else -1


class Script:
    """Numbered lines with the replies that are due, and whether each changes something."""

    def __init__(self, dice: random.Random, folder: Path, lines: list[tuple[bytes, Json, bool]]) -> None:
        self.dice, self.journal, self.lines = dice, folder / "journal", lines
        self.under_way: list[int] = []
        self.told: list[int] = []
        self.at = 0
        self.is_over = False

    def start_anew(self, process: Process) -> None:
        """Asks a process that was started again where it is, and goes on behind its last entry."""
        self.under_way = []
        process.send([b'{"do":"hello"}'])
        place = process.reply()["hello"]["place"]
        last = last_entry(self.journal)
        if place != sum(changes for _, _, changes in self.lines[:last + 1]):
            raise AssertionError(f"the last entry is of line {last}, and {place} lines have changed something")
        if last < max(self.told, default=-1):
            raise AssertionError(f"line {max(self.told)} was told, and the last entry is of line {last}")
        self.at = last + 1

    def next_lines(self) -> list[bytes]:
        """Returns lines to send now."""
        numbers = range(self.at, min(len(self.lines), self.at + self.dice.randint(1, MOST_LINES)))
        self.is_over = self.at == len(self.lines) and not self.under_way
        self.under_way += numbers
        self.at += len(numbers)
        return [self.lines[it][0] for it in numbers]

    def take(self, reply: Json) -> None:
        """Takes the reply to the line that was sent first of those under way."""
        number = self.under_way.pop(0)
        line, due, changes = self.lines[number]
        reply.get("hello", {}).pop("version", None)
        if reply != due:
            raise AssertionError(f"{line.decode()} has the reply {reply}, and {due} is due")
        self.told += [number] if changes else []

    def check(self, entries: list[Json]) -> None:
        """Checks that the journal has what changed something, and nothing else."""
        if entries != [json.loads(line) for line, _, changes in self.lines if changes]:
            raise AssertionError(f"the journal has others than the lines that changed something: {entries}")
