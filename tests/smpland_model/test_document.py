"""The sessions in docs/SMPLAND.md are one session, each reply of which is what the model says, and the program if $SMPLAND names one."""
from __future__ import annotations

import json
import re
import tempfile
import unittest
from collections.abc import Iterator
from pathlib import Path
from typing import Any

from smpland_model.lines import Known
from smplan.reading import Names

from session_files import Exchange, exchanges, fault_of, subject
from test_sessions import PROGRAM

DOCUMENT = Path(__file__).resolve().parents[2] / "docs" / "SMPLAND.md"
Json = dict[str, Any]


def told() -> list[Exchange]:
    """What the blocks of the document have, one after another."""
    blocks = re.findall(r"^```session\n(.*?)^```", DOCUMENT.read_text(), re.M | re.S)
    with tempfile.NamedTemporaryFile("w", suffix=".session") as file:
        file.write("".join(blocks))
        file.flush()
        return list(exchanges(Path(file.name)))


def replies() -> Iterator[tuple[str, Json]]:
    """The words of the lines that are carried out, with their replies."""
    for it in told():
        if it.due[:1] == "<":
            yield json.loads(it.line)["do"], json.loads(it.due[2:])


class Document(unittest.TestCase):
    """What the document tells."""

    def test_its_sessions(self) -> None:
        """Its blocks follow each other."""
        found = told()
        self.assertGreater(len(found), 30)
        session = subject(PROGRAM or None)
        for exchange in found:
            reply = session.reply(exchange.line)
            self.assertIsNone(fault_of(exchange.due, reply), f"{exchange.line[:200]!r} -> {reply}")
        if PROGRAM:
            self.assertEqual(session.end(), 0)

    def test_it_has_each_line(self) -> None:
        """Each command is named as one, and has a reply."""
        text, shown = DOCUMENT.read_text(), {do for do, _ in replies()}
        for do in Known(Names(), Names()).tables:
            self.assertTrue(re.search(rf"^- `{do}`|^- `\{{\"do\":\"{do}\"", text, re.M), do)
            self.assertIn(do, shown)

    def test_no_order_goes_to_a_server_without_slots(self) -> None:
        """Each server has got its slots, by a restore or a settle, before a plan names it."""
        known: set[str] = set()
        for _, reply in replies():
            brought = [reply["restore"]] if "restore" in reply else reply.get("settle", [])
            known |= {it["server"] for it in brought if it["server"] is not None}
            named = {it["server"] for it in reply.get("orders", []) if it["server"] is not None}
            self.assertEqual(named - known, set())
