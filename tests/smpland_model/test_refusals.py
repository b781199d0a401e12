"""Refusals that need many plans, and the words of all refusals."""
from __future__ import annotations

import json
import unittest
from typing import Any

from smpland_model import words
from smpland_model.session import Session

Json = dict[str, Any]


def reply(session: Session, **line: Any) -> Json:
    """Returns the reply to a line."""
    return session.reply(json.dumps(line).encode())


def many_shards(count: int) -> Json:
    """Returns a document with a given number of shards, all at one of two servers."""
    servers = [{"name": it, "region": "r", "room": 100} for it in "ab"]
    cells = [{"server": "a", "state": "primary"}]
    shards = [{"name": f"s{it}", "load": 1, "want": 1, "cap": 0, "spread": 0, "cells": cells} for it in range(count)]
    return {"limit": 1, "servers": servers, "shards": shards}


def adding(shard: str) -> Json:
    """Returns a plan that adds a secondary."""
    holds = {"cells": [{"shard": shard, "server": "b", "state": "absent"}], "room": [{"server": "b", "amount": 1}]}
    code = [{"do": "add", "shard": shard, "server": "b", "role": "secondary"}]
    return {"budget": 1, "streams": [{"budget": 1, "holds": holds, "code": code}]}


class Refusals(unittest.TestCase):
    """Refusals."""

    def test_sixteen_plans_run_at_once(self) -> None:
        """A seventeenth begins once one has ended."""
        session = Session()
        reply(session, do="open", document=many_shards(17), journal="1", epoch=0)
        reply(session, do="restore", server="b", nonce="1")
        for number in range(16):
            told = reply(session, do="begin", plan=adding(f"s{number}"), name=f"p{number}")
            self.assertEqual(told["begun"]["plan"], number)
        told = reply(session, do="begin", plan=adding("s16"), name="p16")
        self.assertEqual(told["refused"], {"kind": "TooManyPlans", "number": 5, "text": "not begun: 5 TooManyPlans"})
        reply(session, do="answered", plan=3, stream=0, number=1)
        self.assertEqual(reply(session, do="begin", plan=adding("s16"), name="p16")["begun"]["plan"], 16)

    def test_a_version_is_spent(self) -> None:
        """No epoch follows at rest once an entry of the map has changed as often as a log has places."""
        session = Session()
        reply(session, do="open", document=many_shards(2), journal="1", epoch=0)
        reply(session, do="restore", server="b", nonce="1")
        reply(session, do="begin", plan=adding("s0"), name="p")
        session.controller.record.versions[1] = (1 << 20) - 1
        self.assertEqual(reply(session, do="new_epoch")["refused"]["kind"], "Running")
        reply(session, do="answered", plan=0, stream=0, number=1)
        self.assertEqual(reply(session, do="new_epoch")["opened"]["epoch"], 1)
        session.controller.record.versions[1] += 1
        told = {"kind": "VersionsSpent", "shard": "s1", "text": "refused: VersionsSpent shard s1"}
        self.assertEqual(reply(session, do="new_epoch")["refused"], told)

    def test_a_refusal_tells_the_pairs_of_its_line(self) -> None:
        """Names stay texts, and numbers become numbers."""
        cases: dict[str, Json] = {
            "held: 3 ShortRoom server 7 free 3 declared 4": {
                "kind": "ShortRoom", "number": 3, "server": "7", "free": 3, "declared": 4,
            },
            "refused: 4 Stream stream 0 at 3 NoRoom": {
                "kind": "Stream", "number": 4, "stream": 0, "at": 3, "why": "NoRoom",
            },
            "refused: 5 Stuck positions 1 0": {"kind": "Stuck", "number": 5, "positions": [1, 0]},
            "refused: 2 Budget streams 3 plan 2": {"kind": "Budget", "number": 2, "streams": 3, "plan": 2},
            "refused: 3 SignalNotOnce signal 0 posts 1 waits 2": {
                "kind": "SignalNotOnce", "number": 3, "signal": 0, "posts": 1, "waits": 2,
            },
            "held: 1 Untrue cell s v": {"kind": "Untrue", "number": 1, "right": "cell", "shard": "s", "server": "v"},
            "held: 2 Taken crown s": {"kind": "Taken", "number": 2, "right": "crown", "shard": "s"},
            "denied 2 Engaged plan 0 stream 1": {"kind": "Engaged", "number": 2, "plan": 0, "stream": 1},
            "no plan: 3 Held shard s server b": {"kind": "Held", "number": 3, "shard": "s", "server": "b"},
            "no plan: 8 TooMany": {"kind": "TooMany", "number": 8},
        }
        for line, told in cases.items():
            self.assertEqual(words.reported(line), told | {"text": line})

    def test_a_refusal_of_its_own_has_no_number(self) -> None:
        """Its text names what it is about."""
        where = {"server": "c", "plan": 0, "stream": 1}
        told = {"kind": "Engaged"} | where | {"text": "refused: Engaged server c plan 0 stream 1"}
        self.assertEqual(words.own("Engaged", **where), told)
