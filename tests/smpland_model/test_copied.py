"""The copies that each acknowledged write surely has: what is named as lost by them, and that no write is lost unnamed."""
from __future__ import annotations

import itertools
import json
import random
import unittest
from collections import Counter
from collections.abc import Iterator
from dataclasses import replace
from typing import Any

from smpland_model.session import Session

from random_client import Client

Json = dict[str, Any]
SERVERS = ("a", "b", "c", "d")
# What may have become of a server when a reopening asks, of the primary and of a secondary. Who is down has not answered, and has its copy.
OF_PRIMARY = ("lost", "lost", "lost", "unknown", "absent")
OF_SECONDARY = ("whole", "whole", "whole", "whole", "lost", "unknown", "down", "part")
BASE = 1 << 21


def reply(session: Session, do: str, **line: Any) -> Json:
    """Returns the reply to a line."""
    return session.reply(json.dumps({"do": do} | line).encode())


def service(servers: tuple[str, ...], cells: list[Json]) -> Json:
    """Returns a document of a shard."""
    shard = {"name": "s", "load": 1, "want": 4, "cap": 4, "spread": 0, "cells": cells}
    return {"limit": 4, "servers": [{"name": it, "region": "r", "room": 9} for it in servers], "shards": [shard]}


def opened(copies: int, down: tuple[str, ...] = ()) -> Session:
    """Returns a session with a shard at four servers, the first of which is its primary. `copies` replicas have each acknowledged write."""
    session = Session()
    cells = [{"server": it, "state": "primary" if it == "a" else "secondary"} for it in SERVERS]
    reply(session, "open", document=service(SERVERS, cells), journal="1", epoch=0)
    reply(session, "copied", journal="1", fence=0, shard="s", copies=copies)
    for server in down:
        reply(session, "approve", server=server, by=server)
    return session


def told(fate: str, number: int, is_holder: bool) -> Json:
    """Returns what a server tells, as members of its answer to a fence. Who has the write has a longer list."""
    if fate == "unknown":
        return {"unknown": f"{number + 1:x}"}
    position, cell = (0 if fate == "part" else 7 if is_holder else 6), "secondary"
    return {"slots": [] if fate == "absent" else [{"shard": "s", "cell": cell, "position": position}]}


def proposal_of(session: Session, fates: dict[str, str], holders: frozenset[str]) -> Json:
    """Returns what a reopening proposes whose servers have these fates."""
    lost = [it for it, fate in fates.items() if fate == "lost"]
    left = tuple(it for it in SERVERS if it not in lost)
    reply(session, "reopen", document=service(left, []), lost=lost)
    base = session.controller.reopening.base
    proposed = reply(session, "fenced", server=None, base=base)
    for number, server in enumerate(left):
        if fates[server] != "down":
            proposed = reply(session, "fenced", server=server, base=base, **told(fates[server], number, server in holders))
    return proposed


def cases(count: int) -> Iterator[tuple[int, dict[str, str], frozenset[str]]]:
    """Yields how many copies are told, what becomes of the servers, and who has the last acknowledged write."""
    dice = random.Random(7)
    for number in range(count):
        copies = 1 + number % 4
        fates = {it: dice.choice(OF_PRIMARY if it == "a" else OF_SECONDARY) for it in SERVERS}
        yield copies, fates, frozenset(["a", *dice.sample(SERVERS[1:], copies - 1)])


class Names(unittest.TestCase):
    """What is named as lost."""

    def test_no_acknowledged_write_is_lost_unnamed(self) -> None:
        """If a shard is not named, its new primary has the write, or there is none and somebody has it."""
        came: Counter[str] = Counter()
        for copies, fates, holders in cases(800):
            session = opened(copies, tuple(it for it, fate in fates.items() if fate == "down"))
            proposed = proposal_of(session, fates, holders)
            if "proposal" not in proposed:
                # (the greatest copy may be at a server that is down: it is waited for)
                self.assertEqual([fates[it] for it in proposed["waiting"]], ["down"] * len(proposed["waiting"]))
                came["waits"] += 1
                continue
            cells = proposed["proposal"]["cells"][0]["cells"]
            primary = next((it["server"] for it in cells if it["state"] == "primary"), None)
            has_it = primary in holders and fates[primary] == "whole"
            is_named = proposed["proposal"]["lost"] == ["s"]
            self.assertTrue(is_named or has_it, f"{copies} {fates} {holders}: {proposed}")
            came[f"{'named' if is_named else 'not named'} with {copies}"] += 1
        for copies in (2, 3, 4):
            self.assertGreater(came[f"named with {copies}"], 20, came)
            self.assertGreater(came[f"not named with {copies}"], 10, came)
        self.assertEqual(came["not named with 1"], 0, came)

    def test_it_is_named_once_as_many_are_gone(self) -> None:
        """The primary is lost, and others besides: lost, Unknown, silent, or without a whole copy."""
        for copies, gone in itertools.product((2, 3, 4), range(4)):
            for fate in ("lost", "unknown", "down", "part"):
                fates = {"a": "lost"} | {it: fate if at < gone else "whole" for at, it in enumerate("bcd")}
                session = opened(copies, tuple(it for it in "bcd" if fates[it] == "down"))
                proposed = proposal_of(session, fates, frozenset("d"))
                if gone < 3:
                    lost = proposed["proposal"]["lost"]
                    self.assertEqual(lost, ["s"] if 1 + gone >= copies else [], f"{copies} {fates}")

    def test_who_has_answered_is_named(self) -> None:
        """The primary is Unknown, or has no slot: whatever the others have, it may have served until it told."""
        for copies, fate in itertools.product((2, 3, 4), ("unknown", "absent")):
            fates = {it: "whole" for it in SERVERS} | {"a": fate}
            self.assertEqual(proposal_of(opened(copies), fates, frozenset("abcd"))["proposal"]["lost"], ["s"])

    def test_a_primary_that_is_there_is_not_named(self) -> None:
        """Whoever else is lost."""
        session = opened(2)
        reply(session, "reopen", document=service(("a",), []), lost=["b", "c", "d"])
        reply(session, "fenced", server=None, base=BASE)
        slots = [{"shard": "s", "cell": "primary", "position": 7}]
        self.assertEqual(reply(session, "fenced", server="a", base=BASE, slots=slots)["proposal"]["lost"], [])

    def test_never_more_is_named_than_with_one_copy(self) -> None:
        """In random sessions; and in some of them less is."""
        came: Counter[str] = Counter()
        for seed in range(60):
            client = Client(seed, plans_often=0, spoils=0)
            for _, told in client.play(150):
                reopening = client.session.controller.reopening
                if reopening is None or "proposal" not in told:
                    continue
                lost = set(reopening.propose().lost)
                as_before = set(replace(reopening, kept=()).propose().lost)
                self.assertLessEqual(lost, as_before)
                came["more copies"] += any(it > 1 for it in reopening.kept)
                came["fewer names"] += lost != as_before
        self.assertGreater(came["more copies"], 5, came)
        self.assertGreater(came["fewer names"], 0, came)


class Noting(unittest.TestCase):
    """The line."""

    def copies(self, session: Session) -> int:
        """Returns how many copies are recorded."""
        return reply(session, "state", shard="s")["state"]["shard"]["copies"]

    def test_it_only_rises(self) -> None:
        """Up to the shard's want; and a refused line counts as no change."""
        session = opened(1)
        for copies, due in ((0, 1), (2, 2), (1, 2), (5, 2), (3, 3), (3, 3), (4, 4)):
            before = session.history.place
            told = reply(session, "copied", journal="1", fence=0, shard="s", copies=copies)
            self.assertEqual("copied" in told, session.history.place > before)
            self.assertEqual(self.copies(session), due)

    def test_a_handover_that_has_ended_keeps_it(self) -> None:
        """While an order of the shard is present, or its handover is recorded, a reopening would count one copy; before and after, all."""
        session = Session()
        cells = [{"server": "a", "state": "primary"}, {"server": "b", "state": "secondary"}]
        reply(session, "open", document=service(SERVERS, cells), journal="1", epoch=0)
        for server in SERVERS:
            reply(session, "restore", server=server, nonce="1f")
        reply(session, "copied", journal="1", fence=0, shard="s", copies=2)
        holds = {
            "cells": [{"shard": "s", "server": "c", "state": "absent"}], "room": [{"server": "c", "amount": 1}],
            "crowns": [{"shard": "s", "lead": "at", "server": "a", "listed": None}],
        }
        code = [{"do": "prepare_add", "server": "c", "other": "a"}, {"do": "prepare_drop", "server": "a", "other": "c"},
                {"do": "add", "server": "c", "role": "primary"}, {"do": "publish"}, {"do": "drop", "server": "a"}, {"do": "publish"}]
        stream = {"budget": 4, "holds": holds, "code": [it | {"shard": "s"} for it in code]}
        self.assertEqual(session.controller.kept_copies(), (2,))
        reply(session, "begin", plan={"budget": 4, "streams": [stream]}, name="p")
        for number in range(1, 6):
            self.assertEqual(session.controller.kept_copies(), (1,))
            reply(session, "answered", plan=0, stream=0, number=number)
            self.assertEqual(self.copies(session), 2)
        self.assertEqual(reply(session, "orders")["orders"][0]["call"], "publish")
        self.assertEqual(session.controller.kept_copies(), (2,))

    def test_shards_and_numbers(self) -> None:
        """Each shard has its own; a document of another order begins anew."""
        session = Session()
        both = service(("a",), [{"server": "a", "state": "primary"}])
        both["shards"].insert(0, both["shards"][0] | {"name": "r"})
        reply(session, "open", document=both, journal="1", epoch=0)
        reply(session, "copied", journal="1", fence=0, shard="s", copies=3)
        self.assertEqual([it["copies"] for it in reply(session, "state")["state"]["shards"]], [1, 3])
        reply(session, "reopen", document=both | {"shards": both["shards"][::-1]})
        self.assertEqual(session.controller.reopening.kept, (1, 3))
        reply(session, "reopen", document=both)
        self.assertEqual(session.controller.reopening.kept, (1, 3))


if __name__ == "__main__":
    unittest.main()
