"""Empties a server by a campaign of small plans, with rests between them."""
from __future__ import annotations

import argparse
import contextlib
import json
import signal
import sys
import time
from dataclasses import dataclass
from typing import Any, Callable, Dict, List, Optional

from .control_leader import Refused, add_options, controllers_of
from .control_plans import Begun, begun_as
from .failure import Failure
from .reading import did_you_mean

Line = Dict[str, Any]
Post = Callable[[str, Line], Line]

# Refusals that may be over once a running plan has ended; and those that may be over at once: a plan is untrue if another one ended since it was made,
# and a server is unknown until it has got its slots.
PASSING = frozenset(["Held", "Taken", "ShortRoom", "ShortSpare", "TooManyPlans", "LogFull"])
SHORT = frozenset(["Untrue", "Unknown"])


def moves_of(plan: Line, server: str) -> List[Line]:
    """Returns the moves away from a server that a plan makes: for each shard that it drops there, where its replica comes to."""
    targets: Dict[str, str] = {}
    for stream in plan["streams"]:
        for step in stream["code"]:
            if step["do"] == "prepare_add" or (step["do"] == "add" and step["role"] == "secondary"):
                targets[step["shard"]] = step["server"]
    dropped = [it["shard"] for stream in plan["streams"] for it in stream["code"] if it["do"] == "drop" and it["server"] == server]
    return [{"shard": it, "from": server, "to": targets[it]} for it in dropped if it in targets]


@dataclass
class Campaign:
    """A drain: a limit on moves at once, a rest between plans, and no further plan once one takes longer than `patience`."""

    post: Post
    server: str
    batch: int = 4
    pause: float = 1.0
    patience: Optional[float] = None
    tell: Callable[[str], None] = print
    sleep: Callable[[float], None] = time.sleep
    is_stopped: bool = False
    moved: int = 0
    waited: float = 0.0
    # the journal's place at the last refusal, if no plan ran then
    at_rest: Optional[int] = None

    def run(self) -> int:
        """Runs until the server is empty: 0; or stopped: 1."""
        while not self.is_stopped:
            try:
                moves = self.next_moves()
                if not moves:
                    self.tell(f"{self.server} is empty; {self.moved} replicas moved")
                    return 0
                if not self.make(moves[:self.batch]):
                    return 1
            except Refused as why:
                self.let_pass(why)
                continue
            self.waited = 0.0
            self.moved += len(moves[:self.batch])
            if len(moves) > self.batch:
                self.sleep(self.pause)
        self.tell(f"stopped; {self.moved} replicas moved")
        return 1

    def let_pass(self, why: Refused, step: float = 0.5) -> None:
        """Waits a moment if a running plan may be why a line was refused, or one that has ended since; raises the refusal otherwise, and once this takes
        longer than the patience."""
        state = self.post("/ask", {"do": "state"}).get("state", {})
        running = [it["name"] for it in state.get("plans", []) if it["is"] == "running"]
        before, self.at_rest = self.at_rest, None if running else state.get("place")
        has_changed = bool(running) or self.at_rest != before
        may_pass = why.kind in SHORT or (why.kind in PASSING and has_changed)
        if not may_pass or (self.patience is not None and self.waited > self.patience):
            raise why
        if not self.waited:
            self.tell(f"waits for {', '.join(running) or 'a moment'}: {why}")
        self.sleep(step)
        self.waited += step

    def next_moves(self) -> List[Line]:
        """Asks where everything would go that the server has now."""
        reply = self.post("/ask", {"do": "drain", "server": self.server})
        if reply.get("bad", {}).get("kind") == "UnknownName":
            servers = [it["server"] for it in self.post("/ask", {"do": "state"})["state"]["servers"]]
            raise Failure(f"no server is named '{self.server}'{did_you_mean(self.server, servers)}")
        if "plan" not in reply:
            raise Refused(reply)
        return moves_of(reply["plan"], self.server)

    def make(self, moves: List[Line]) -> bool:
        """Moves some replicas, and waits until they are moved. Tells whether the campaign goes on."""
        reply = self.post("/ask", {"do": "moves", "moves": moves})
        if "plan" not in reply:
            raise Refused(reply)
        state = self.post("/ask", {"do": "state"})["state"]
        begun = self.post("/do", {"do": "begin", "plan": reply["plan"], "name": f"drain-{self.server}-{state['epoch']}-{state['place']}"})
        if "begun" not in begun:
            raise Refused(begun)
        self.tell(f"{', '.join(it['shard'] + ' to ' + it['to'] for it in moves)}")
        return self.wait(begun_as(self.ask, begun["begun"]))

    def ask(self, line: Line) -> Line:
        """Asks the session."""
        return self.post("/ask", line)

    def wait(self, plan: Begun) -> bool:
        """Waits until a plan has ended."""
        waited, step = 0.0, 0.2
        while True:
            has_ended = plan.has_ended(self.ask)
            if has_ended is False:
                self.tell("a reopening has broken the plan off")
            if has_ended is not None:
                return has_ended
            if self.patience is not None and waited > self.patience:
                self.tell(f"the plan takes longer than {self.patience:g} s; it goes on, and no other one begins: see `watch`")
                return False
            self.sleep(step)
            waited += step


def run(told: argparse.Namespace) -> int:
    """Runs the command. For programs it tells on standard error what it does, and then whether all is empty."""
    if not told.json:
        return drain(told)
    with contextlib.redirect_stdout(sys.stderr):
        status = drain(told)
    print(json.dumps({"servers": told.server, "empty": status == 0}))
    return status


def drain(told: argparse.Namespace) -> int:
    """Empties one server, or several together."""
    from .control_campaign import run_drain  # (which imports this module)
    if is_for_several(told):
        told.servers, told.batch = told.server, told.batch or 64
        return run_drain(told)
    campaign = Campaign(controllers_of(told).post, told.server[0], told.batch or 4, told.pause, told.stop)

    def stop(*_: object) -> None:
        campaign.is_stopped = True
        signal.signal(signal.SIGINT, signal.default_int_handler)
        print("stops behind the present plan; once more to leave at once", flush=True)

    signal.signal(signal.SIGINT, stop)
    return campaign.run()


def is_for_several(told: argparse.Namespace) -> bool:
    """Whether servers are to be emptied together, or something is asked for that the proved planner does not do."""
    return len(told.server) > 1 or told.server[0].startswith("region:") or any(getattr(told, name) != it for name, it in told.usual.items())


def at_least(least: float, kind: Callable[[str], float] = float) -> Callable[[str], float]:
    """Returns how a number that must not be smaller is read."""
    def number(text: str) -> float:
        value = kind(text)
        if not value >= least:
            raise argparse.ArgumentTypeError(f"{text} is below {least:g}")
        return value
    return number


def add_parser(subparsers: Any) -> None:
    """Adds the command."""
    from .control_campaign import CHOICES, add_choices
    parser = subparsers.add_parser(
        "drain", help="empties a server by small plans, one after the other",
        epilog="example: smplan-control drain berlin-1 --controller http://10.0.0.7:9200 --batch 2 --pause 5",
        description="Empties a server of its replicas by plans of a few moves each, and waits for plans that are in its way. The first interrupt ends "
        "it behind the present plan. If another controller leads meanwhile, it goes on there. Exit status 0: the server is empty. 1: it stopped before "
        "that, or a plan was refused. 3: no controller leads.",
    )
    parser.add_argument("server", nargs="+", metavar="SERVER", help="the server's name; several, or region:R, are emptied together, the greatest loads first")
    add_options(parser)
    add_choices(parser)
    parser.add_argument("--prefer-secondary", action="store_true", help="change the roles of primaries first, and copy secondaries alone")
    parser.add_argument("--batch", type=at_least(1, int), metavar="N", help="moves in a plan (4; of several servers 64, and 1 %% of all load or four of the largest replicas)")
    parser.add_argument("--pause", type=at_least(0), default=1.0, metavar="SECONDS", help="rest between two plans (1)")
    parser.add_argument("--stop", type=at_least(0), metavar="SECONDS", help="begin no further plan once one, or waiting for others' plans, takes longer than this")
    parser.add_argument("--json", action="store_true", help="print JSON in the end; what it does goes to standard error")
    parser.set_defaults(run=run, usual={it: parser.get_default(it) for it in (*CHOICES, "prefer_secondary")})
