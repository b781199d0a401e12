"""`restart`: has a command restart a server, once it may go down; and how any server is restarted, also by `rolling-restart`."""
from __future__ import annotations

import argparse
import os
import subprocess
import sys
import time
from dataclasses import dataclass
from typing import Any, Callable, List, Optional

from .control_campaign import Campaign, Choice, document_of_state, fleet_of_state, known_document, save
from .control_drain import at_least
from .control_leader import Controllers, Line, Refused, add_options, agrees, controllers_of
from .control_operate import add_json, printed
from .failure import Failure
from .files import document_from, read_value
from .fleet import Fleet, Target, primary_of
from .model import document_of
from .planning import named
from .reach import Limits, Reach
from .reading import did_you_mean
from .targets import Wanted, demote

# Refusals that may be over later.
PASSING = frozenset(["Engaged", "GlobalCap", "ShardCap", "Reopening", "LogFull"])


def unserved(state: Line, server: str) -> List[str]:
    """Returns the shards that nobody serves while a server is down: those of which it is the primary, or the old owner in a handover."""
    return [
        it["shard"] for it in state.get("shards", [])
        if any(cell["server"] == server and cell["state"] in ("primary", "forwarding") for cell in it["cells"])
    ]


def led_as_before(fleet: Fleet, before: Fleet, servers: List[str]) -> Wanted:
    """The placement in which these servers lead again what they led before, where they still have a replica."""
    target: Target = fleet.target()
    for shard, name in enumerate(fleet.shards):
        then = before.shard_of.get(name)
        old = None if then is None else primary_of(before.cells[then])
        server = None if old is None or before.servers[old] not in servers else fleet.server_of.get(before.servers[old])
        if server is not None and server != primary_of(fleet.cells[shard]) and server in fleet.cells[shard]:
            target.promote(shard, server)
    return Wanted(target)


def placement_before(path: Optional[str], state: Line, known: Optional[Line]) -> Fleet:
    """The placement of before: that of a file that an earlier run has written, or what is recorded now, which is written there."""
    if path is not None and os.path.exists(path):
        return Fleet(document_from(read_value(path), path))
    value = document_of_state(state, known)
    if path is not None:
        save(path, value)
    return Fleet(document_of(value))


@dataclass(frozen=True)
class Restarted:
    """A restart that has ended."""

    permit: int
    seconds: float


@dataclass
class Restarts:
    """How servers are restarted by commands, each under a name of its own, under which it goes on where it stopped. If it `demotes`, others lead a server's
    shards first; what still leads something does not go down then, unless it `goes_on`. `wait` seconds long it waits for leave, `up` until a server is up."""

    controllers: Controllers
    known: Optional[Line] = None
    has_gap: bool = True
    demotes: bool = True
    goes_on: bool = False
    wait: float = 600.0
    up: float = 300.0
    tell: Callable[[str], None] = print

    @property
    def limits(self) -> Limits:
        return Limits(streams=32, at_server=2, blocks=64, has_gap=self.has_gap)

    def restart(self, server: str, by: str, command: List[str]) -> Optional[Restarted]:
        """Restarts one server by a command; none if it has been restarted under this name before."""
        permit = self.permit(server, by)
        if permit is None:
            return None
        self.tell(f"{server} may go down: permit {permit}")
        begun, again = time.monotonic(), f"{server} keeps permit {permit}: run this again under the same --by"
        try:
            status = subprocess.run(command, check=False, stdout=sys.stderr).returncode
        except OSError as why:
            raise Failure(f"{command[0]}: {why.strerror}; {again}", 1) from None
        if status != 0:
            raise Failure(f"the command ended with {status}; {again}", 1)
        try:
            self.wait_until_up(permit)
        except Refused as why:
            raise Failure(f"{server} is not up yet: {why}; {again}, with `-- true`", 1) from None
        return Restarted(permit, time.monotonic() - begun)

    def give_back(self, servers: List[str], before: Fleet) -> int:
        """Has servers lead again what they led before. Returns 1 if something is left."""
        return self.campaign("give-back", lambda fleet: led_as_before(fleet, before, servers))

    def campaign(self, name: str, choice: Choice) -> int:
        """Changes roles by a campaign."""
        return Campaign(self.controllers, name, choice, self.limits, self.known, 0.0, self.wait, tell=self.tell).run()

    # Leave.

    def permit(self, server: str, by: str) -> Optional[int]:
        """Asks for leave until it is given; none if the server has been restarted under this name before. Others lead first, if they are to, also if a
        leader comes while this waits."""
        reply: Line = {}
        tries = 0

        def hindrance() -> str:
            nonlocal reply, tries
            tries += 1
            if self.demotes and (tries == 1 or not self.goes_on):
                self.demote(server)
            try:
                reply = self.controllers.do({"do": "approve", "server": server, "by": by})
            except Refused as why:
                if why.kind not in PASSING:
                    raise
                return str(why)
            return ""

        self.wait_while(hindrance)
        return reply["approved"]["permit"] if "approved" in reply else None

    def wait_while(self, hindrance: Callable[[], str]) -> None:
        """Waits as long as something is in the way. Fails with it once that takes too long."""
        waited = 0.0
        why = hindrance()
        while why:
            if waited >= self.wait:
                raise Failure(why, 1)
            if not waited:
                self.tell(f"waits: {why}")
            self.controllers.sleep(1.0)
            waited += 1.0
            why = hindrance()

    def wait_until_up(self, permit: int) -> None:
        """Has the controller ask the server for its base until the restart has ended."""
        until = time.monotonic() + self.up
        while True:
            reply = self.controllers.post("/restarted", {"permit": permit})
            if "up" in reply or reply.get("ignored") == "old":
                return
            if "refused" not in reply or reply["refused"]["kind"] not in ("Unsettled", "Reopening") or time.monotonic() >= until:
                raise Refused(reply)
            self.controllers.sleep(0.5)

    # Leaders.

    def open_state(self) -> Line:
        """What is recorded, once no reopening is under way."""
        found: Line = {}

        def hindrance() -> str:
            nonlocal found
            found = self.controllers.state()
            return "" if found.get("is") == "open" else "a reopening is under way"

        self.wait_while(hindrance)
        return found

    def leads(self, server: str) -> List[str]:
        """The shards that nobody would serve if a server went down now; none if it is down."""
        state = self.controllers.state()
        is_down = any(it["server"] == server and it["permit"] is not None for it in state.get("servers", []))
        return [] if is_down else unserved(state, server)

    def demote(self, server: str) -> None:
        """Makes others lead what a server leads. Fails if it still leads something, unless that is allowed."""
        if not self.leads(server):
            return
        if not self.goes_on:
            self.wait_while(lambda: self.need_successors(server))
        self.campaign("demote", self.demotion(server))
        without = self.leads(server)
        if without and not self.goes_on:
            raise Failure(f"{server} still leads {named(without)}: nobody would serve them", 1)

    def demotion(self, server: str) -> Choice:
        return lambda fleet: demote(fleet, {fleet.server_of[server]}, has_gap=self.has_gap)

    def need_successors(self, server: str) -> str:
        """Why others cannot lead yet what a server leads: before that another server has to be up. Fails if they cannot at all."""
        fleet = fleet_of_state(self.open_state(), self.known)
        wanted = self.demotion(server)(fleet)
        left = wanted.left + Reach(fleet, wanted.target, self.limits).left
        if left and not any(fleet.is_down):
            raise Failure("\n  ".join([f"{server} is not restarted, since nobody would serve what it leads:", *left]), 1)
        return "; ".join(left)


# ---- the command

def ended_before(server: str, by: str) -> Failure:
    return Failure(f"the restart of {server} by {by} has ended before; a new one needs another --by", 1)


def tell_up(told: argparse.Namespace, done: Restarted, **shards: List[str]) -> None:
    """Tells that the server is up; for programs also of which shards others led, or nobody."""
    value = {"up": told.server, "permit": done.permit, "seconds": round(done.seconds, 1), **shards}
    printed(told, value, f"{told.server} is up after {done.seconds:.1f} s")


def restart_as_it_is(told: argparse.Namespace, restarts: Restarts, led: List[str]) -> int:
    """Restarts the server with what it leads, which nobody serves meanwhile."""
    if led and not agrees(f"Nobody serves {', '.join(led)} while {told.server} is down. Go on?", told.yes):
        return 1
    done = restarts.restart(told.server, told.by, told.command)
    if done is None:
        raise ended_before(told.server, told.by)
    tell_up(told, done, unserved=led)
    return 0


def restart_without_primaries(told: argparse.Namespace, restarts: Restarts) -> int:
    """Restarts the server once others lead, and gives its leaders back."""
    state = restarts.open_state()
    led = restarts.leads(told.server)
    if led:
        restarts.need_successors(told.server)
        if not agrees(f"Others lead {named(led)} while {told.server} is down, and it leads them again afterwards: each time nobody does for one call. Go on?", told.yes):
            return 1
    goes_on = told.before is not None and os.path.exists(told.before)
    before = placement_before(told.before, state, restarts.known)
    done = restarts.restart(told.server, told.by, told.command)
    if done is not None:
        tell_up(told, done, unserved=[], demoted=led)
    status = restarts.give_back([told.server], before)
    if done is None and not goes_on:
        raise ended_before(told.server, told.by)
    return status


def restart(told: argparse.Namespace) -> int:
    """Runs the command."""
    if not told.command:
        raise Failure("name the command that restarts the server: restart V --by NAME -- COMMAND")
    if told.before is not None and not told.no_primaries:
        raise Failure("--before is of --no-primaries: otherwise no leader moves")
    controllers = controllers_of(told)
    state = controllers.state()
    names = [it["server"] for it in state.get("servers", [])]
    if told.server not in names:
        raise Failure(f"no server is named '{told.server}'{did_you_mean(told.server, names)}")
    restarts = Restarts(controllers, demotes=told.no_primaries, wait=told.wait, up=told.up, tell=lambda text: print(text, file=sys.stderr, flush=True))
    if not told.no_primaries:
        return restart_as_it_is(told, restarts, unserved(state, told.server))
    restarts.known = known_document(controllers, None)
    return restart_without_primaries(told, restarts)


def add_options_of_restarts(parser: argparse.ArgumentParser) -> None:
    """Adds the options of all commands that restart servers."""
    parser.add_argument("--wait", type=at_least(0), default=600.0, metavar="SECONDS", help="wait so long for leave, while others are down or plans run (600)")
    parser.add_argument("--up", type=at_least(0), default=300.0, metavar="SECONDS", help="wait so long until a server is up (300)")
    parser.add_argument("--before", metavar="FILE", help="keep the placement of before here, for a run that goes on, and for 'undo'")
    add_options(parser)


def add_parser(subparsers: Any) -> None:
    """Adds the command."""
    parser = subparsers.add_parser(
        "restart", help="restarts a server by a command, once it may go down", usage="smplan-control restart SERVER --by NAME [OPTION ..] -- COMMAND",
        epilog="example: smplan-control restart b --by rollout-7 -- systemctl restart kv@b",
        description="Asks whether the server may go down, runs the command, and waits until the server is up: known, and not fenced. Under the same --by it goes on "
        "where it stopped. If shards are not served meanwhile, or others are to lead them, it names them and asks. Exit status 0: the server is up. 1: it may not go "
        "down, the command failed, or the server does not come up (it keeps its permit then); or it does not lead again what it led. 3: no controller leads.",
    )
    parser.add_argument("server", metavar="SERVER", help="the server's name")
    parser.add_argument("--by", required=True, metavar="NAME", help="for whom it is, as rollout-7; once for each restart")
    parser.add_argument("--no-primaries", action="store_true", help="have others lead its shards first, as 'demote' does, and give them back afterwards; refuse if others cannot lead")
    parser.add_argument("--yes", action="store_true", help="do not ask")
    add_options_of_restarts(parser)
    add_json(parser)
    parser.set_defaults(run=restart)
