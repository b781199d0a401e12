"""`reopen`: gives servers up for good, shows what a reopening proposes, and confirms it if whoever sits there agrees."""
from __future__ import annotations

import argparse
import json
import secrets
import sys
import time
from typing import Any, Collection, Dict, List, Optional

from .control_document import without_servers
from .control_drain import at_least
from .control_leader import Controllers, Line, Refused, add_options, agrees, controllers_of
from .control_operate import add_json, printed
from .failure import Failure
from .files import read_value
from .reading import did_you_mean
from .words import counted

CLOSED = ("Nothing is confirmed. Primaries serve on, and shards in a handover wait; nothing moves or restarts until a reopening is confirmed. "
          "`reopen --go-on` shows this proposal again, `reopen --lost ..` takes its place.")

OTHER_NUMBERS = " So does `reopen --document FILE` with other numbers: `curl CONTROLLER/document` has those that are recorded."

# Up to how many shards a proposal tells also of those that stay as they are recorded.
MOST_SHARDS = 20

NOTHING_OPENED = "nothing is opened yet: `smplan-control run --open DOCUMENT`"

# How long a server may be silent before a reopening is not begun, in seconds: it may just start anew.
MOMENT = 10.0

SEE = "`smplan-control reopen --go-on` shows what it proposes"


def listed(names: List[str]) -> str:
    """Names, or none."""
    return ", ".join(names) or "none"


# ---- before it is said

def document_to_open(controllers: Controllers, path: Optional[str], lost: List[str]) -> Line:
    """Returns the document of the reopening: a file's, or the service's as the controller tells it, without the servers that are given up."""
    document = read_value(path) if path else controllers.post("/document")
    names = [it["name"] for it in document["servers"]]
    recorded = [it["server"] for it in controllers.state().get("servers", [])]
    for server in lost:
        if server not in names and server not in recorded:
            raise Failure(f"no server is named '{server}'{did_you_mean(server, names)}")
    return without_servers(document, lost)


def refuse_living(controllers: Controllers, lost: List[str], wait: float) -> None:
    """Fails if a server that is to be given up still answers: it would serve beside the one that takes its place."""
    until = time.monotonic() + wait
    for server in lost:
        while controllers.post("/base", {"server": server}).get("answers"):
            if time.monotonic() >= until:
                raise Failure(f"{server} still answers, and may still serve: switch it off first. (If it is only to be emptied: drain {server})", 1)
            controllers.sleep(1.0)


def needs(document: Line, lost: List[str], state: Line) -> str:
    """What the reopening does, in words, before it is said."""
    running = [it["name"] for it in state.get("plans", []) if it["is"] == "running"]
    ends = f"It ends {counted(len(running), 'plan')} ({', '.join(running)})." if running else "No plan runs."
    names = [it["name"] for it in document["servers"]]
    asked = names + [it["server"] for it in state.get("servers", []) if it["server"] not in [*names, *lost]]
    given_up = f"Given up for good: {', '.join(lost)}, which must be off and stay off." if lost else "No server is given up."
    return f"{given_up} Asked what they have: {', '.join(asked)}. {ends} Until it is confirmed nothing moves or restarts."


# ---- the proposal

def primary_of(cells: List[Line]) -> Optional[str]:
    """The server that serves a shard: its primary, or the old owner in a handover."""
    return next((it["server"] for it in cells if it["state"] in ("primary", "forwarding")), None)


def proposal_lines(proposal: Line, before: Dict[str, List[Line]]) -> List[str]:
    """Returns a proposal in words: what is lost, what is below its floor, who did not answer. Of many shards those that change are told alone."""
    shards, lines = proposal["cells"], []
    told = [it for it in shards if len(shards) <= MOST_SHARDS or it["cells"] != before.get(it["shard"])]
    for it in told:
        old, new = primary_of(before.get(it["shard"], [])), primary_of(it["cells"])
        cells = ", ".join(f"{cell['server']} {cell['state']}" for cell in it["cells"]) or "nobody has it"
        lines.append(f"  {it['shard']:<16} {cells}" + (f"  (primary before: {old or 'none'})" if old != new else ""))
    lines += [f"  {counted(len(shards) - len(told), 'shard')} as recorded"] if len(told) < len(shards) else []
    bare = [it["shard"] for it in shards if it["cells"] and primary_of(it["cells"]) is None]
    found = ["proposed:", *lines, f"lost, or without writes that a server which is gone acknowledged alone: {listed(proposal['lost'])}"]
    if bare:
        found.append(f"without a primary, secondaries alone: {', '.join(bare)}; promote the one that has most writes by a plan")
    found.append(f"with fewer live replicas than their floor: {listed([floor_text(it) for it in proposal['floors']])}")
    return [*found, f"down, silent, and left as recorded: {listed(proposal['carried'])}"]


def floor_text(told: Any) -> str:
    """A shard whose floor is lowered."""
    return " ".join(str(it) for it in told.values()) if isinstance(told, dict) else str(told)


def up_by_now(controllers: Controllers, proposal: Line) -> List[str]:
    """Returns the servers that a proposal leaves as they are recorded, since they are down, and that answer by now. They may have lost what they had."""
    return [it for it in proposal["carried"] if controllers.post("/base", {"server": it}).get("answers")]


def wait_for_proposal(controllers: Controllers, base: int, patience: float) -> Optional[Line]:
    """Waits until enough servers have told what they have, and all that answer, and returns the proposal; none if one is confirmed already."""
    until, told_waiting = time.monotonic() + patience, None
    while True:
        state = controllers.state()
        reopening = state.get("reopening") or {}
        if reopening.get("base", base) != base:
            raise Failure(f"another reopening has taken the place of this one: base {reopening['base']}", 1)
        if state.get("is") == "open" or reopening.get("is") == "settle":
            return None
        proposal = reopening.get("proposal")
        late = [] if proposal is None else up_by_now(controllers, proposal)
        if proposal is not None and (not late or time.monotonic() >= until):
            return proposal
        waiting = late or ["the map" if it is None else it for it in reopening.get("waiting", [])]
        if time.monotonic() >= until:
            raise Failure(f"{listed(waiting)} did not answer within {patience:g} s. {CLOSED} A server that never answers is lost: name it with --lost", 1)
        if waiting != told_waiting and waiting:
            print(f"waits for {', '.join(waiting)}", file=sys.stderr, flush=True)
            told_waiting = waiting
        controllers.sleep(0.3)


def wait_until_open(controllers: Controllers, patience: float) -> Line:
    """Waits until everyone has taken what was confirmed, and returns the state."""
    until = time.monotonic() + patience
    while True:
        state = controllers.state()
        if state.get("is") == "open":
            return state
        if time.monotonic() >= until:
            waiting = ["the map" if it is None else it for it in (state.get("reopening") or {}).get("waiting", [])]
            raise Failure(f"confirmed, but {listed(waiting)} did not take it within {patience:g} s: see `smplan-control watch`", 1)
        controllers.sleep(0.3)


# ---- the command

def confirm(controllers: Controllers, arguments: argparse.Namespace, base: int, before: Line, filled: Collection[str] = ()) -> int:
    """Shows the proposal, confirms it if that is agreed to, and waits until the service is open. `filled` are shards that get their replicas only then."""
    proposal = wait_for_proposal(controllers, base, arguments.wait)
    if proposal is not None and not is_confirmed(controllers, arguments, base, proposal, before):
        print(CLOSED)
        return 1
    state = wait_until_open(controllers, arguments.wait)
    short = [it["shard"] for it in state["shards"] if it["live"] <= it["floor"] and it["shard"] not in filled]
    printed(arguments, {"opened": {"epoch": state["epoch"]}, "proposal": proposal},
            f"open: epoch {state['epoch']}" + (f"; at their floor: {', '.join(short)}: `smplan-control repair` brings replicas back" if short else ""))
    return 0


def is_confirmed(controllers: Controllers, arguments: argparse.Namespace, base: int, proposal: Line, before: Line) -> bool:
    """Shows a proposal, and confirms it if that is agreed to."""
    cells = {it["shard"]: it["cells"] for it in before.get("shards", [])}
    text = "\n".join(proposal_lines(proposal, cells))
    print(text, file=sys.stderr if arguments.json else sys.stdout, flush=True)
    if proposal["lost"] and arguments.yes and not arguments.accept_loss:
        raise Failure(f"{', '.join(proposal['lost'])} may be lost: only --accept-loss says yes to that. {CLOSED}", 1)
    doubt = f", though {', '.join(proposal['lost'])} may be lost" if proposal["lost"] else ""
    try:
        if not agrees(f"Confirm this{doubt}?", arguments.yes):
            return False
    except Failure as why:
        raise Failure(f"{why}. {CLOSED}", 1) from None
    reply = controllers.post("/do", {"do": "confirm", "base": base, "lost": proposal["lost"]})
    if "refused" in reply or "bad" in reply:
        raise Failure(f"{Refused(reply)}. {CLOSED}{OTHER_NUMBERS if Refused(reply).kind == 'OverRoom' else ''}", 1)
    return True


def reopen(arguments: argparse.Namespace) -> int:
    """Runs the command."""
    controllers = controllers_of(arguments)
    before = controllers.state()
    present = before.get("reopening")
    if arguments.go_on:
        if present is None:
            raise Failure("no reopening is under way", 1)
        return confirm(controllers, arguments, present["base"], before)
    refuse_new(before, arguments)
    if not arguments.lost and not arguments.document:
        raise Failure("name the servers that are lost for good with --lost, or a --document to open")
    document = document_to_open(controllers, arguments.document, arguments.lost)
    if not arguments.dry_run:
        refuse_living(controllers, arguments.lost, 0.0)
        if present is not None:
            print(f"a reopening is under way (base {present['base']}): this one takes its place", file=sys.stderr)
    return begin(controllers, arguments, document, before)


def refuse_new(before: Line, arguments: argparse.Namespace) -> None:
    """Fails unless a service is adopted by a controller that has opened nothing, and by no other one."""
    is_new = before.get("is") == "new"
    if is_new and (arguments.epoch is None or not arguments.document):
        raise Failure(f"{NOTHING_OPENED}, or adopt a service by --document and --epoch", 1)
    if arguments.epoch is not None and not is_new:
        raise Failure("a journal is open already: --epoch is of a controller that has opened nothing", 1)


def line_of(arguments: argparse.Namespace, document: Line) -> Line:
    """The line of a reopening. One that adopts a service has a new journal."""
    line = {"do": "reopen", "document": document, "lost": arguments.lost, "why": arguments.why}
    epoch = getattr(arguments, "epoch", None)
    return line if epoch is None else {**line, "journal": secrets.token_hex(8), "epoch": epoch}


def begin(controllers: Controllers, arguments: argparse.Namespace, document: Line, before: Line, first: str = "", filled: Collection[str] = ()) -> int:
    """Tells what a reopening by a document does, begins it if that is agreed to, and goes on to what it proposes."""
    line, words = line_of(arguments, document), first + needs(document, arguments.lost, before)
    if arguments.dry_run:
        printed(arguments, line, f"{words}\n{json.dumps(document, indent=2)}")
        return 0
    if not agrees(f"{words} Begin?", arguments.yes):
        return 1
    reply = controllers.once("/do", line)
    if "fence" not in reply:
        raise Refused(reply)
    return confirm(controllers, arguments, reply["fence"][0]["base"], before, filled)


# ---- commands that open another document, in which no server is lost

def state_in_force(controllers: Controllers, arguments: argparse.Namespace, filled: Collection[str] = ()) -> Line:
    """What is recorded. A reopening that is under way, as one of a command that was interrupted, ends first; with --yes only if each primary stays."""
    state = controllers.state()
    if state.get("is") == "new":
        raise Failure(NOTHING_OPENED, 1)
    if state.get("is") != "reopening":
        return state
    if arguments.dry_run:
        raise Failure(f"a reopening is under way: {SEE}", 1)
    base = state["reopening"]["base"]
    print(f"a reopening is under way (base {base}): it ends first", file=sys.stderr, flush=True)
    proposal = wait_for_proposal(controllers, base, arguments.wait)
    moved = moved_by(proposal, state) if proposal is not None else []
    if moved and arguments.yes:
        raise Failure(f"the reopening that is under way gives {', '.join(moved)} another primary, or none, and may be somebody else's: {SEE}", 1)
    if confirm(controllers, arguments, base, state, filled) != 0:
        raise Failure("nothing was changed", 1)
    return controllers.state()


def moved_by(proposal: Line, state: Line) -> List[str]:
    """The shards that have a primary, and another one or none by a proposal."""
    then = {it["shard"]: primary_of(it["cells"]) for it in proposal["cells"]}
    return [it["shard"] for it in state.get("shards", []) if primary_of(it["cells"]) not in (None, then.get(it["shard"]))]


def silent(controllers: Controllers, names: List[str]) -> List[str]:
    """Those of the servers that do not answer."""
    return [it for it in names if not controllers.post("/base", {"server": it}).get("answers")]


def refuse_silent(controllers: Controllers, arguments: argparse.Namespace, document: Line, state: Line) -> str:
    """Fails if a server does not answer that a reopening would wait for, not even after a moment. Tells of those that it would not wait for, since they are
    recorded as down."""
    down = [it["server"] for it in state.get("servers", []) if it["permit"] is not None]
    until, found = time.monotonic() + min(MOMENT, arguments.wait), silent(controllers, [it["name"] for it in document["servers"]])
    while not set(found) <= set(down) and time.monotonic() < until:
        controllers.sleep(0.5)
        found = silent(controllers, found)
    awaited = [it for it in found if it not in down]
    if awaited:
        raise Failure(f"{', '.join(awaited)} {'do' if len(awaited) > 1 else 'does'} not answer, and nothing could move until then: start what is off, or, if it is off "
                      f"for good, `smplan-control reopen --lost {awaited[0]}`", 1)
    return f"Down, silent, and left as recorded: {', '.join(found)}. " if found else ""


def reopen_by(controllers: Controllers, arguments: argparse.Namespace, document: Line, first: str, why: str, filled: Collection[str] = ()) -> int:
    """Reopens by a document in which no server is lost, once all answer that it would wait for."""
    state = controllers.state()
    arguments.lost, arguments.why = [], why
    return begin(controllers, arguments, document, state, first + refuse_silent(controllers, arguments, document, state), filled)


def add_parser(subparsers: Any) -> None:
    """Adds the command."""
    parser = subparsers.add_parser(
        "reopen", help="gives servers up for good, or opens another document, once its proposal is agreed to",
        epilog="example: smplan-control reopen --lost b --why 'disk of b'",
        description="Ends all plans, asks every server but the lost ones what it has, shows what follows, and confirms it if you agree. It refuses to give up a "
        "server that still answers. Exit status 0: the service is open. 1: refused, not agreed to, or somebody does not answer; the service may be closed to moves "
        "then, and it says so. 3: no controller leads.",
    )
    parser.add_argument("--lost", action="append", default=[], metavar="SERVER", help="a server that is off for good; may be given again")
    parser.add_argument("--document", metavar="DOCUMENT", help="what to open, with other servers, rooms or shards; without it what the controller has recorded")
    parser.add_argument("--epoch", type=at_least(1, int), metavar="N", help="adopt the service of --document under the new journal of this controller, which has opened nothing: "
                        "an epoch above all of the old journal")
    parser.add_argument("--why", default="reopen", metavar="TEXT", help="kept in the journal")
    parser.add_argument("--go-on", action="store_true", help="show the proposal of the reopening that is under way")
    add_agreement(parser)
    parser.set_defaults(run=reopen)


def add_agreement(parser: argparse.ArgumentParser) -> None:
    """Adds the options of a command that reopens."""
    parser.add_argument("--dry-run", action="store_true", help="show the document and who would be lost, and send nothing")
    parser.add_argument("--yes", action="store_true", help="do not ask")
    parser.add_argument("--accept-loss", action="store_true", help="with --yes: confirm also if shards may be lost")
    parser.add_argument("--wait", type=at_least(0), default=120.0, metavar="SECONDS", help="wait so long for answers (120)")
    add_options(parser)
    add_json(parser)
