"""Random sessions of all lines: each reply and refusal comes, and replicas say the same."""
from __future__ import annotations

import os
import unittest

from smpland_model.session import Session
from smplan import program

from count_replies import counted, documented, lacking
from random_client import Client

PROGRAM = program.find_program(os.environ.get("SMPLAN"))
SEEDS = range(110)


class Replies(unittest.TestCase):
    """What comes."""

    def test_each_reply_and_each_refusal_comes(self) -> None:
        """Of each command that the document names, too (count_replies.py prints how often)."""
        self.assertGreater(len(documented()), 60)
        self.assertEqual(lacking(counted(SEEDS, PROGRAM), PROGRAM is not None), set())

    def test_what_does_not_come_is_told(self) -> None:
        """Nothing comes of no session."""
        self.assertIn("refused StillThere of confirm", lacking(counted(range(0)), True))

    def test_a_replica_says_the_same(self) -> None:
        """A fresh session that is fed the same lines replies the same, and what is refused changes nothing."""
        for seed in range(100, 106):
            second, place = Session(), 0
            for line, reply in Client(seed, plans_often=0).play(200):
                self.assertEqual(second.reply(line), reply)
                after = second.history.place
                has_changed = not {"bad", "refused", "ignored", "again"} & set(reply)
                self.assertTrue(after == place or (has_changed and after == place + 1), f"{line!r} -> {reply}")
                place = after
