"""What befalls messages: rates, and dice by a seed."""
from __future__ import annotations

import random
from collections import Counter
from dataclasses import dataclass


@dataclass(frozen=True, slots=True)
class Rates:
    """How often a message is lost, comes twice or comes late, each from 0 to 1, and by how many seconds it is late: at least, and how many more at most.
    `rare` is how often those come twice that are seldom sent: fences, settles, restores."""

    drop: float = 0.0
    repeat: float = 0.0
    delay: float = 0.0
    longest: float = 0.3
    rare: float = 0.0
    shortest: float = 0.0


class Dice:
    """Rolls for one link. The same seed and link roll the same."""

    def __init__(self, seed: int, link: str, rates: Rates, counts: Counter[str]) -> None:
        self.random, self.rates, self.counts = random.Random(f"{seed}/{link}"), rates, counts
        self.kind = link.partition(" ")[0]

    def rolls(self, rate: float, what: str) -> bool:
        """Whether it happens this time; then it is counted."""
        if self.random.random() >= rate:
            return False
        self.counts[f"{self.kind} {what}"] += 1
        return True

    def drops(self) -> bool:
        """Whether a message is lost."""
        return self.rolls(self.rates.drop, "dropped")

    def repeats(self, is_rare: bool = False) -> bool:
        """Whether a message comes twice."""
        return self.rolls(max(self.rates.repeat, self.rates.rare if is_rare else 0.0), "repeated")

    def lateness_of_copy(self) -> float:
        """How many seconds after the first one a copy comes: at most ten times as late as any other message."""
        return self.random.random() ** 2 * 10 * self.rates.longest

    def lateness(self) -> float:
        """How many seconds late a message comes."""
        if not self.rolls(self.rates.delay, "delayed"):
            return 0.0
        # (most are a little late, and few are late enough to be overtaken by much)
        return self.rates.shortest + self.random.random() ** 3 * self.rates.longest
