"""The program that $SMPLAND names against the model, reply for reply: sessions worked by hand, and random ones.

$SMPLAND_DOES may name the commands that the program knows so far; then both are given those alone.
"""
from __future__ import annotations

import json
import os
import random
import unittest
from collections.abc import Iterable, Iterator
from typing import Any

from smpland_model.session import Session

from odd_lines import odd_session, session_of_faults
from random_client import Client
from random_lines import as_bytes, sessions, spoilt
from session_files import FOLDER, Program, exchanges
from test_planning import service

Json = dict[str, Any]
PROGRAM = os.environ.get("SMPLAND", "").split()
DOES = os.environ.get("SMPLAND_DOES", "").split()
SEEDS = range(int(os.environ.get("FIRST_SEED", "3000")), int(os.environ.get("LAST_SEED", "3020")))


def is_known(line: bytes) -> bool:
    """Returns whether the program has to know the command of a line."""
    try:
        value = json.loads(line)
    except ValueError:
        return True
    do = value.get("do") if isinstance(value, dict) else None
    return not DOES or do in DOES or not isinstance(do, str)


def planning_lines() -> Iterator[Json]:
    """Yields the lines of a session that asks for plans."""
    moves = [dict(zip(("shard", "from", "to"), it.split())) for it in ("s0 v0 v2", "s0 v1 v2", "s1 v2 v3", "s4 v0 v3")]
    asked: list[Json] = [{"do": "drain", "server": "v0"}, {"do": "drain", "server": "v3"}]
    asked += [{"do": "moves", "moves": [it]} for it in moves] + [{"do": "moves", "moves": moves[2:]}]
    yield {"do": "open", "document": service(), "journal": "1", "epoch": 0}
    yield from asked
    for server in ("v0", "v2"):
        yield {"do": "begin", "plan": handover("s0", "v0", "v2"), "name": "p"}
        yield {"do": "restore", "server": server, "nonce": "1"}
    yield {"do": "begin", "plan": handover("s0", "v0", "v2"), "name": "p"}
    for number in range(1, 6):
        yield from asked
        yield {"do": "answered", "plan": 0, "stream": 0, "number": number}
    yield from asked


def handover(shard: str, owner: str, taker: str) -> Json:
    """Returns a plan that hands a shard of load 2 over."""
    holds = {
        "cells": [{"shard": shard, "server": taker, "state": "absent"}],
        "crowns": [{"shard": shard, "lead": "at", "server": owner, "listed": owner}],
        "room": [{"server": taker, "amount": 2}],
    }
    code = [
        {"do": "prepare_add", "shard": shard, "server": taker, "other": owner},
        {"do": "prepare_drop", "shard": shard, "server": owner, "other": taker},
        {"do": "add", "shard": shard, "server": taker, "role": "primary"},
        {"do": "publish", "shard": shard},
        {"do": "drop", "shard": shard, "server": owner},
    ]
    return {"budget": 4, "streams": [{"budget": 4, "holds": holds, "code": code}]}


def comparable(reply: Json) -> Json:
    """Returns a reply without what the program alone has: its version."""
    if "hello" in reply:
        return reply | {"hello": {name: it for name, it in reply["hello"].items() if name != "version"}}
    return reply


@unittest.skipIf(not PROGRAM, "$SMPLAND names no program")
class Comparison(unittest.TestCase):
    """The program and the model."""

    def compare(self, name: str, lines: Iterable[bytes]) -> None:
        """Gives both the same lines, and compares their replies."""
        model, program = Session(), Program(PROGRAM)
        for line in filter(is_known, lines):
            told = program.reply(line)
            text = line.decode(errors="replace")
            self.assertEqual(comparable(told), comparable(model.reply(line)), f"{name}: {text}")
        self.assertEqual(program.end(), 0)

    def test_sessions_worked_by_hand(self) -> None:
        """The lines of each file."""
        for path in sorted(FOLDER.glob("*.session")):
            with self.subTest(path.name):
                self.compare(path.name, (it.line for it in exchanges(path)))

    def test_plans(self) -> None:
        """Drains and moves at rest, and at each step of a handover."""
        self.compare("plans", map(as_bytes, planning_lines()))

    def test_random_clients(self) -> None:
        """Clients that use all lines, of which some come spoilt before they come as they are."""
        for seed in SEEDS:
            with self.subTest(seed=seed):
                self.compare(f"client {seed}", (line for line, _ in Client(seed, plans_often=0.03).play(300)))

    def test_random_schedules(self) -> None:
        """Commands of schedules of the model. Some lines go to both spoilt before they go as they are."""
        for seed in SEEDS:
            for lines in sessions(seed, 200):
                with self.subTest(seed=seed):
                    self.compare(f"seed {seed}", self.with_spoilt(lines, random.Random(seed)))

    @staticmethod
    def with_spoilt(lines: list[Json], dice: random.Random) -> Iterator[bytes]:
        """Yields lines, and before some of them the same spoilt."""
        for line in lines:
            if dice.random() < 0.3:
                yield spoilt(line, dice)
            yield as_bytes(line)

    def test_each_fault(self) -> None:
        """Lines with one fault, before a journal is open, in it, and in a reopening."""
        self.compare("lines with one fault", session_of_faults(service()))

    def test_odd_lines(self) -> None:
        """Lines with several faults, before a journal is open, in it, and at each step of a reopening."""
        for seed in SEEDS:
            with self.subTest(seed=seed):
                self.compare(f"odd lines, seed {seed}", odd_session(service(), seed, 30))

    def test_a_difference_is_told(self) -> None:
        """The comparison looks at each member but the version."""
        one = {"hello": {"program": "smpland", "place": 1}}
        self.assertEqual(comparable(one), comparable({"hello": {"program": "smpland", "version": "1", "place": 1}}))
        self.assertNotEqual(comparable(one), comparable({"hello": {"program": "smpland", "place": 2}}))
