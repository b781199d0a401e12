"""A session is told by its lines alone: replicas agree, refused lines do no harm, and the journal brings all back."""
from __future__ import annotations

import random
import unittest
from collections import Counter
from typing import Any

from smpland_model.session import Session

from random_lines import as_bytes, sessions, spoilt

Json = dict[str, Any]
SEEDS = range(500, 512)
SPOILT = 10_000
QUESTIONS = [b'{"do":"state"}', b'{"do":"orders"}', b'{"do":"hello"}', b'{"do":"since","place":0}']
WORDS = {
    "opened", "begun", "moved", "approved", "ended", "up", "restore", "copied", "fence", "waiting", "proposal", "settle",
    "ignored", "refused", "bad", "hello", "orders", "map", "document", "state", "since", "audit", "failed", "plan", "accepted",
}


def place_of(session: Session) -> int:
    """Returns how many lines have changed something."""
    return session.reply(b'{"do":"hello"}')["hello"]["place"]


def condition(session: Session) -> list[Json]:
    """Returns all that questions tell."""
    return [session.reply(it) for it in QUESTIONS]


class Replays(unittest.TestCase):
    """Random sessions."""

    def test_a_replica_says_the_same(self) -> None:
        """A fresh session that is fed the same lines, up to any place, says the same."""
        dice = random.Random(1)
        for seed in SEEDS:
            for lines in sessions(seed, 200):
                first, told = Session(), []
                for line in lines:
                    told.append((first.reply(as_bytes(line)), condition(first) if dice.random() < 0.05 else None))
                second = Session()
                for line, (reply, there) in zip(lines, told):
                    self.assertEqual(second.reply(as_bytes(line)), reply)
                    if there is not None:
                        self.assertEqual(condition(second), there)

    def test_what_changed_something_brings_all_back(self) -> None:
        """A fresh session that is fed only what changed something is the same; each line changes something there."""
        for seed in SEEDS:
            for lines in sessions(seed, 200):
                session, journal = Session(), []
                for line in map(as_bytes, lines):
                    before = place_of(session)
                    session.reply(line)
                    if place_of(session) > before:
                        journal.append(line)
                again = Session()
                for number, line in enumerate(journal, 1):
                    again.reply(line)
                    self.assertEqual(place_of(again), number)
                self.assertEqual(condition(again), condition(session))

    def test_spoilt_lines(self) -> None:
        """A line in which something was changed has one reply, and changes nothing if it is bad, refused or ignored."""
        dice, count = random.Random(2), 0
        coverage: Counter[str] = Counter()
        for seed in range(600, 10_000):
            for lines in sessions(seed, 100):
                session = Session()
                for line in lines:
                    count += self.spoil(session, spoilt(line, dice), coverage)
                    session.reply(as_bytes(line))
            if count >= SPOILT:
                break
        for word in ("bad", "refused", "ignored", "begun", "opened", "copied"):
            self.assertGreater(coverage[word], 3, coverage)

    def spoil(self, session: Session, line: bytes, coverage: Counter[str]) -> int:
        """Gives a session a spoilt line."""
        before = place_of(session)
        reply = session.reply(line)
        word = next(it for it in reply if it != "id")
        coverage[word] += 1
        self.assertIn(word, WORDS)
        if word in ("bad", "refused", "ignored") or "again" in reply:
            self.assertEqual(place_of(session), before, f"{line!r} -> {reply}")
        return 1
