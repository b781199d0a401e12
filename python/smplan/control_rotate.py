"""`rotate`: ends the journal of a controller, and begins a new one in its place. The controller does it; this says so, and tells how it went."""
from __future__ import annotations

import argparse
import sys
import time
from typing import Any

from .control_drain import at_least
from .control_http import NotThere
from .control_leader import Controllers, Line, add_options, agrees, controllers_of
from .control_operate import add_json, printed
from .control_reopen import SEE
from .failure import Failure

BROKEN_OFF = "the controller has started anew meanwhile, as if nothing had happened: say this again"


def size_text(size: int) -> str:
    """A size in the unit that fits."""
    for unit, one in (("GB", 10**9), ("MB", 10**6), ("kB", 10**3)):
        if size >= one:
            return f"{size / one:.1f} {unit}"
    return f"{size} bytes"


def words(state: Line, told: Line) -> str:
    """What a rotation does."""
    kept = "stays as a file in which nobody goes on" if told["keeps"] else "is deleted once the new one is open"
    return (f"Journal {state['journal']} ends with {size_text(told['size'])} at place {state['place']}, and {kept}. "
            f"A new one begins by a reopening, epoch {(state.get('epoch') or 0) + 1}: every server is asked what it has, and "
            "serves meanwhile; nothing is moved. This epoch's names of plans and restarts stay known in the next.")


def in_the_end(last: Line) -> str:
    """What a rotation has done."""
    after, where = last["after"], f"in {last['file']}" if last["file"] else "which are deleted"
    return (f"journal {last['was']} has ended: {size_text(last['size'])}, {last['place']} lines, {where}; "
            f"{last['journal']} goes on: {size_text(after['size'])}, {after['place']} lines, epoch {after['epoch']}; "
            f"nothing could move for {after['seconds']:.1f} s, and no shard waited")


def standing(controllers: Controllers) -> Line:
    """How the rotation stands. Nobody leads for a moment while the journal is replaced."""
    try:
        return controllers.once("/rotate")
    except NotThere:
        return {"is": "turns", "why": ""}


def wait_for(controllers: Controllers, journal: str, patience: float) -> Line:
    """Waits until another journal is open, and returns what was done. Fails once that takes too long, or is given up or left to an operator."""
    until, said = time.monotonic() + patience, None
    while True:
        told = standing(controllers)
        last = told.get("last")
        if told["is"] == "rests" and last is not None and int(last["was"], 16) == int(journal, 16):
            return last
        if told["is"] == "rests":
            raise Failure(f"the journal goes on: {told['why'] or BROKEN_OFF}", 1)
        if told["is"] == "left":
            raise Failure("the new journal is there, and nothing moves until an operator has confirmed what it proposes: "
                          f"{told['why']}. {SEE}", 1)
        if time.monotonic() >= until:
            raise Failure(f"it takes longer than that, and goes on: {told['why'] or 'see `smplan-control watch`'}", 1)
        if told["why"] and told["why"] != said:
            said = told["why"]
            print(f"waits: {said}", file=sys.stderr, flush=True)
        controllers.sleep(0.3)


def rotate(arguments: argparse.Namespace) -> int:
    """Runs the command."""
    controllers = controllers_of(arguments)
    state, told = controllers.state(), controllers.post("/rotate")
    if told["is"] == "none":
        raise Failure(f"nothing to end: {told['why']}", 1)
    if told["is"] == "rests":
        text = words(state, told) + (f" Now it would wait: {told['hindrance']}." if told["hindrance"] else "")
        if arguments.dry_run:
            printed(arguments, told, text)
            return 0
        if not agrees(f"{text} Go on?", arguments.yes):
            return 1
        controllers.post("/rotate", {"wait": arguments.wait})
        journal = state["journal"]
    else:
        print("a rotation is under way: this waits for its end", file=sys.stderr, flush=True)
        journal = told.get("was", state["journal"])
    last = wait_for(controllers, journal, 2 * arguments.wait + 5.0)  # (until all is at rest, and until it is open)
    printed(arguments, {"rotated": last}, in_the_end(last))
    return 0


def add_parser(subparsers: Any) -> None:
    """Adds the command."""
    parser = subparsers.add_parser(
        "rotate", help="ends the controller's journal, which has grown, and begins a new one in its place",
        epilog="example: smplan-control rotate --yes",
        description="Has the controller end its journal as soon as no plan runs, nobody is down under a permit and each server "
        "answers, and go on in a new one, which begins by a reopening. It is confirmed only if nothing is lost and nobody's "
        "replicas change; otherwise it is left to you. The old journal stays as a file; in etcd it is deleted. `run "
        "--rotate-at` does so by itself. Exit status 0: the new journal is open. 1: not agreed to, or not at rest in time, and "
        "the old journal goes on; or the new one is left to you, and it says so. 3: no controller leads.",
    )
    parser.add_argument("--dry-run", action="store_true", help="say what it does, and what it would wait for")
    parser.add_argument("--yes", action="store_true", help="do not ask")
    parser.add_argument("--wait", type=at_least(0), default=120.0, metavar="SECONDS", help="wait so long until all is at rest, and again so long until the new journal is open (120)")
    add_options(parser)
    add_json(parser)
    parser.set_defaults(run=rotate)
