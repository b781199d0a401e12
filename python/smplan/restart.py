"""`ask-restart`: may this server be restarted now?"""
import argparse
import json
import os
import re
from typing import Any, List, Tuple

from . import program
from .failure import Failure
from .files import read_document
from .model import Document
from .reading import did_you_mean
from .reports import Report, read_report


def question(document: Document, server: str) -> Tuple[bytes, int]:
    """Returns the document with one event more, which asks for leave to restart the server, and the number of that event."""
    events = list(document.events or [])
    text = json.dumps(document.value | {"events": [*events, {"event": "approve", "server": server}]})
    return text.encode(), len(events)


def shards_at(report: Report, server: str) -> List[str]:
    """Returns what each shard with a replica at the server loses, in words."""
    found = []
    for shard in report.lists.get("shards", []):
        if any(it["server"] == server for it in shard["cells"]):
            found.append(f"{shard['name']} (live {shard['live']}, floor {shard['floor']})")
    return found


def led_by(report: Report, server: str) -> List[str]:
    """Returns the shards that nobody serves while a server is down."""
    return [
        shard["name"] for shard in report.lists.get("shards", [])
        if any(it["server"] == server and it["state"] in ("primary", "forwarding") for it in shard["cells"])
    ]


def waiting(report: Report, server: str) -> str:
    """Returns whose clients wait while a server is down, in words; nothing if it leads no shard."""
    led = led_by(report, server)
    return f"clients of {', '.join(led)} wait meanwhile: {server} leads; 'smplan-tools demote' makes others lead first" if led else ""


def reason(document: Document, server: str, answer: str, report: Report) -> str:
    """Returns why a restart is denied, in words."""
    if answer == "denied 1 AlreadyDown":
        return f"{server} is down already"
    engaged = re.fullmatch(r"denied 2 Engaged (?:plan (\d+) )?stream (\d+)", answer)
    if engaged:
        plan = f" of plan {engaged[1]}" if engaged[1] else ""
        return f"stream {engaged[2]}{plan} has not ended and has {server} in its code; wait for its end"
    if answer == "denied 3 GlobalCap":
        down = [it["name"] for it in report.lists.get("servers", []) if it["state"] == "down"]
        return f"the limit of {document.limit} servers down at once is reached (down: {', '.join(down) or 'none'})"
    short = re.fullmatch(r"denied 4 ShardCap shard (\S+)", answer)
    if short:
        shard = next(it for it in report.lists["shards"] if it["name"] == short[1])
        over = shard["live"] - shard["floor"]
        held = f"; {over} above it {'is' if over == 1 else 'are'} held by running plans" if over > 0 else ""
        return f"the shard {short[1]} can lose no replica now: live {shard['live']}, floor {shard['floor']}{held}"
    if answer == "denied 5 LogFull":
        return f"the log of {document.log} places has no two free ones; give the document a larger 'log'"
    return answer


def ask(arguments: argparse.Namespace) -> int:
    if not os.path.exists(arguments.document) and os.path.isfile(arguments.server):
        raise Failure(f"the document comes first: smplan-tools ask-restart {arguments.server} {arguments.document}")
    document, server = read_document(arguments.document), arguments.server
    if server not in document.servers:
        raise Failure(f"no server is named '{server}'{did_you_mean(server, document.servers)}")
    if document.plan is not None and document.plans is not None:
        raise Failure("the document has 'plan' and 'plans'; leave one of them out")
    text, number = question(document, server)
    answered = program.run(program.required(arguments.program), "play", text)
    report = read_report(answered.report, "the report")
    answers = [it["answer"] for it in report.lists.get("events", []) if it["event"] == number]
    if not answers:
        raise Failure(f"smplan does not play the document: {answered.lines[0]}\n  'smplan-tools explain' says why")
    if answers[0] == "approved":
        shards = shards_at(report, server)
        print(f"approved: {server} may be restarted now" + (f"; while it is down: {', '.join(shards)}" if shards else "; it has no replicas"))
        waits = waiting(report, server)
        if waits:
            print(waits)
        return 0
    print(f"{answers[0]}: {reason(document, server, answers[0], report)}")
    return 1


def add_parser(subparsers: Any) -> None:
    """Adds the command `ask-restart`."""
    parser = subparsers.add_parser(
        "ask-restart",
        epilog="example: if smplan-tools ask-restart placement.json berlin-2; then restart berlin-2; fi",
        help="ask whether a server may be restarted now",
        description="Asks 'smplan play' whether a server may go down now, after the document's events and beside its plans. "
        "Exit status 0: approved. 1: denied, with the reason.",
    )
    program.add_option(parser)
    parser.add_argument("document", metavar="DOCUMENT", help="the document; - is standard input")
    parser.add_argument("server", metavar="SERVER", help="the server's name")
    parser.set_defaults(run=ask)
