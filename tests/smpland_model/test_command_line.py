"""The command: lines in, lines out."""
from __future__ import annotations

import io
import json
import subprocess
import sys
import unittest
from pathlib import Path

from smpland_model.command_line import pieces
from smplan.control import ASKING

TOOL = Path(__file__).resolve().parents[2] / "tools" / "smpland_model.py"

# The words of the lines that change something.
CHANGING = {"open", "begin", "answered", "approve", "restarted", "restore", "new_epoch", "copied", "reopen", "fenced", "confirm", "settled"}


class CommandLine(unittest.TestCase):
    """The process."""

    def said(self, data: bytes) -> list[str]:
        """Returns the words of the replies to these bytes."""
        done = subprocess.run([sys.executable, str(TOOL), "-"], input=data, stdout=subprocess.PIPE, check=True)
        self.assertTrue(done.stdout.endswith(b"\n") or not done.stdout)
        return [next(iter(json.loads(it))) for it in done.stdout.splitlines()]

    def test_each_line_has_one_reply(self) -> None:
        """Empty ones too, and a last one without a line feed."""
        self.assertEqual(self.said(b""), [])
        self.assertEqual(self.said(b'{"do":"hello"}'), ["hello"])
        self.assertEqual(self.said(b'{"do":"hello"}\n\n[]\n{"do":"orders"}'), ["hello", "bad", "bad", "orders"])

    def test_a_client_knows_what_asks(self) -> None:
        """A word that changes nothing is one of the client's, which it need not store."""
        done = subprocess.run([sys.executable, str(TOOL), "-"], input=b'{"do":"x"}', stdout=subprocess.PIPE, check=True)
        words = json.loads(done.stdout)["bad"]["text"].partition(" has to be one of ")[2].split()
        self.assertEqual(ASKING, set(words) - CHANGING)

    def test_a_reply_comes_before_the_next_line(self) -> None:
        """A client may wait for each reply."""
        words = [sys.executable, str(TOOL), "-"]
        with subprocess.Popen(words, stdin=subprocess.PIPE, stdout=subprocess.PIPE) as process:
            for _ in range(2):
                process.stdin.write(b'{"do":"hello"}\n')
                process.stdin.flush()
                self.assertIn("hello", json.loads(process.stdout.readline()))
            process.stdin.close()
            self.assertEqual(process.wait(timeout=30), 0)

    def test_a_line_that_is_too_long_is_skipped(self) -> None:
        """Its rest is no line of its own."""
        def cut(data: bytes) -> list[bytes | None]:
            return list(pieces(io.BytesIO(data), 4))

        self.assertEqual(cut(b"1234\n12345\n1\n"), [b"1234", None, b"1"])
        self.assertEqual(cut(b"12345678901234\n1\n12345"), [None, b"1", None])
        self.assertEqual(cut(b"\n\n1234"), [b"", b"", b"1234"])
