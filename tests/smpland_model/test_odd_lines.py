"""Lines of one fault: the reference meets each kind of fault wherever it may lie."""
from __future__ import annotations

import re
import unittest

from smpland_model.session import Session

from odd_lines import session_of_faults
from test_planning import service

# Where faults lie, without the numbers of entries.
PLACES = {
    "Shape": """
        $ $.do $.id $.journal $.epoch $.by $.nonce $.server $.shard $.answer $.why $.lost $.lost[] $.unknown $.fence $.copies
        $.moves $.moves[] $.slots $.slots[] $.slots[].shard $.slots[].cell $.slots[].party $.slots[].handover
        $.slots[].reached $.cells $.cells[] $.cells[].shard $.cells[].cells $.cells[].cells[]
        $.cells[].cells[].server $.cells[].cells[].state
        $.more[] $.moves[].more[] $.slots[].more[] $.cells[].more[] $.cells[].cells[].more[]
    """,
    "UnknownName": "$.server $.shard $.moves[].from $.cells[].shard $.cells[].cells[].server",
    "TooMany": "$.slots $.lost $.why $.moves",
    "Number": """
        $.id $.base $.place $.permit $.number $.plan $.epoch $.fence $.copies
        $.slots[].handover $.slots[].last $.slots[].load $.slots[].cut $.slots[].position $.slots[].view
    """,
}


class OddLines(unittest.TestCase):
    """The reference."""

    def test_each_fault_is_met(self) -> None:
        """In one session."""
        session, met = Session(), {kind: set() for kind in PLACES}
        for line in session_of_faults(service()):
            told = session.reply(line)
            if "bad" in told:
                met[told["bad"]["kind"]].add(re.sub(r"\d+", "", told["bad"]["at"]))
        for kind, places in PLACES.items():
            self.assertEqual(set(places.split()) - met[kind], set(), kind)
