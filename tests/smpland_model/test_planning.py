"""Plans that are not begun: at rest they are those of smplan, and beside running plans they begin."""
from __future__ import annotations

import json
import os
import unittest
from pathlib import Path
from typing import Any

from smpland_model.session import Session
from smplan import program

Json = dict[str, Any]
ROOT = Path(__file__).resolve().parents[2]
PROGRAM = program.find_program(os.environ.get("SMPLAN"))


def reply(session: Session, **line: Any) -> Json:
    """Returns the reply to a line."""
    return session.reply(json.dumps(line).encode())


def service() -> Json:
    """Returns a document of four servers in two regions, and six shards with a primary and a secondary each."""
    servers = [{"name": f"v{it}", "region": f"r{it % 2}", "room": 12} for it in range(4)]
    shards = []
    for number in range(6):
        first, second = number % 4, (number + 1) % 4
        cells = [{"server": f"v{first}", "state": "primary"}, {"server": f"v{second}", "state": "secondary"}]
        shards.append({
            "name": f"s{number}", "load": 2, "want": 2, "cap": 1, "spread": 1, "listed": f"v{first}", "cells": cells,
        })
    return {"limit": 1, "servers": servers, "shards": shards}


@unittest.skipIf(PROGRAM is None, "there is no program smplan")
class Planning(unittest.TestCase):
    """`moves` and `drain`."""

    def setUp(self) -> None:
        self.session = Session(PROGRAM)
        opened = reply(self.session, do="open", document=service(), journal="1", epoch=0)["opened"]
        for server in opened["restore"]:
            reply(self.session, do="restore", server=server, nonce="1")

    def test_at_rest_plans_and_refusals_are_those_of_smplan(self) -> None:
        """Whatever is asked for of the examples and of a service."""
        tasks: list[tuple[Json, Json]] = [(service(), {"drain": f"v{it}"}) for it in range(4)]
        for name in ("moves-in-a-chain", "moves-too-close", "drain-berlin-1", "drain-without-a-place"):
            document = json.loads((ROOT / "examples" / f"{name}.json").read_text())
            tasks.append((document, {it: document.pop(it) for it in ("moves", "drain") if it in document}))
        for words in ("s0 v2 v3", "s0 v0 v1", "s0 v0 v2", "s1 v2 v0", "s0 v3 v3"):
            tasks.append((service(), {"moves": [dict(zip(("shard", "from", "to"), words.split()))]}))
        twice = [{"shard": "s0", "from": "v0", "to": "v2"}, {"shard": "s0", "from": "v1", "to": "v2"}]
        tasks.append((service(), {"moves": twice}))
        for document, task in tasks:
            told = program.run(PROGRAM, "plan", json.dumps(document | task).encode()).report.strip()
            session = Session(PROGRAM)
            self.assertIn("opened", reply(session, do="open", document=document, journal="1", epoch=0))
            line = {"do": "drain", "server": task["drain"]} if "drain" in task else {"do": "moves"} | task
            found = reply(session, **line)
            due = json.loads(told) if told[0] == "{" else told
            self.assertEqual(found.get("plan") or found["refused"]["text"], due)

    def test_a_plan_beside_a_running_one_begins(self) -> None:
        """At each step of a handover, a drain that does not need its shard begins, and one that does is refused."""
        moved = reply(self.session, do="moves", moves=[{"shard": "s0", "from": "v0", "to": "v2"}])["plan"]
        order = reply(self.session, do="begin", plan=moved, name="p")["orders"]
        while order:
            held = reply(self.session, do="drain", server="v0")
            self.assertEqual(held["refused"]["text"], "no plan: 3 Held shard s0 server v0")
            plan = reply(self.session, do="drain", server="v3")["plan"]
            self.assertIn("accepted", reply(self.session, do="check", plan=plan))
            held = reply(self.session, do="moves", moves=[{"shard": "s0", "from": "v1", "to": "v2"}])
            self.assertEqual(held["refused"]["text"], "no plan: 3 Held shard s0 server v2")
            order = reply(self.session, do="answered", plan=0, stream=0, number=order[0]["number"])["orders"]
        self.assertIn("plan", reply(self.session, do="drain", server="v0"))

    def test_two_drains_run_beside_each_other(self) -> None:
        """What the first holds is room that the second has not."""
        plan = reply(self.session, do="drain", server="v0")["plan"]
        orders = reply(self.session, do="begin", plan=plan, name="p")["orders"]
        told = reply(self.session, do="drain", server="v3")
        while orders:
            order = orders.pop()
            answer = {"do": "answered", "plan": 0, "stream": order["stream"], "number": order["number"]}
            orders += reply(self.session, **answer)["orders"]
            if "plan" in told:
                self.assertIn("accepted", reply(self.session, do="check", plan=told["plan"]))
            told = reply(self.session, do="drain", server="v3")
        loads = {it["server"]: it["load"] for it in reply(self.session, do="state")["state"]["servers"]}
        self.assertEqual(loads["v0"], 0)

    def test_a_server_that_is_down(self) -> None:
        """It is neither emptied nor filled."""
        reply(self.session, do="approve", server="v3", by="x")
        told = reply(self.session, do="drain", server="v3")
        self.assertEqual(told["refused"]["text"], "no plan: 4 ServerDown server v3")
        told = reply(self.session, do="moves", moves=[{"shard": "s0", "from": "v0", "to": "v3"}])
        self.assertEqual(told["refused"]["text"], "no plan: 4 ServerDown server v3")


class WithoutProgram(unittest.TestCase):
    """No program smplan."""

    def test_it_is_refused(self) -> None:
        """`moves` and `drain` need it."""
        session = Session("/nowhere/smplan")
        reply(session, do="open", document=service(), journal="1", epoch=0)
        self.assertEqual(reply(session, do="drain", server="v0")["refused"]["kind"], "NoProgram")
