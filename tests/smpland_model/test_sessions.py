"""Sessions worked by hand, of the model, and of the program if $SMPLAND names one."""
from __future__ import annotations

import os
import re
import unittest
from pathlib import Path

from session_files import FOLDER, Program, exchanges, fault_of, subject, texts

# (a program that does not know all commands yet is compared by test_program alone)
PROGRAM = [] if os.environ.get("SMPLAND_DOES") else os.environ.get("SMPLAND", "").split()
FILES = sorted(FOLDER.glob("*.session"))
# The refusals that need as many plans or publications as there may be, or the planner: test_refusals and test_planning have them.
ELSEWHERE = {"TooManyPlans", "VersionsSpent", "NotThere", "Held", "NoRoom", "NoPlace", "Spread", "TooMany", "NoProgram"}


# The words of bad lines, which have a table of their own.
BAD = {"NotJson", "Shape", "Number"}


def documented() -> set[str]:
    """Returns the refusals that docs/SMPLAND.md lists."""
    text = (Path(__file__).resolve().parents[2] / "docs" / "SMPLAND.md").read_text()
    items = re.findall(r"^- ((?:`[A-Za-z]+`(?:, )?)+) \(", text, re.M)
    return {word for item in items for word in re.findall(r"`([A-Z][A-Za-z]+)`", item)}


class Sessions(unittest.TestCase):
    """The session files."""

    def test_each_reply_is_what_is_due(self) -> None:
        """Each line of each file has the reply that stands below it."""
        self.assertGreater(len(FILES), 4)
        for path in FILES:
            replier = subject(PROGRAM or None)
            for exchange in exchanges(path):
                reply = replier.reply(exchange.line)
                what = f"{exchange.place}: {exchange.line[:300]!r} -> {reply}"
                self.assertIsNone(fault_of(exchange.due, reply), what)
            if isinstance(replier, Program):
                self.assertEqual(replier.end(), 0)

    def test_blanks_around_a_line_are_taken(self) -> None:
        """Also the CR of a line that ends in CR and LF. Nothing else may stand there."""
        replier = subject(PROGRAM or None)
        for line in (b'{"do":"hello"}\r', b'\r\t {"do":"hello"}\x0c', b'{"do":\r"hello"}'):
            self.assertIn("hello", replier.reply(line), line)
        for line in (b"\r", b"\x0b{}", b'{"do":\x0c"hello"}', b'{"do":"hello"}\xc2\xa0'):
            self.assertEqual(replier.reply(line)["bad"]["kind"], "NotJson", line)
        if isinstance(replier, Program):
            self.assertEqual(replier.end(), 0)

    def test_a_reply_that_is_not_due_is_told(self) -> None:
        """The comparison can fail: another text, another path, another member."""
        bad = {"bad": {"kind": "Shape", "at": "$.x", "text": "bad input: 3 Shape x"}}
        self.assertIsNone(fault_of("! bad input: 3 Shape x at $.x", bad))
        self.assertIsNotNone(fault_of("! bad input: 3 Shape x at $", bad))
        self.assertIsNotNone(fault_of("! refused: Reopening", {"opened": {}}))
        self.assertIsNotNone(fault_of('< {"up":"a"}', {"up": "b"}))

    def test_each_refusal_comes(self) -> None:
        """Each refusal that the document tells has a line in some file."""
        words = {re.search(r"(?:: |denied )(?:\d+ )?([A-Za-z]+)", it)[1] for it in texts(FILES)}
        self.assertEqual(documented() - ELSEWHERE - words, set())
        self.assertEqual(words - documented(), BAD)
