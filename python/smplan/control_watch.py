"""Shows in a terminal what a controller does: plans, messages with their age, servers with load against room, restarts."""
from __future__ import annotations

import argparse
import json
import sys
import time
from typing import Any, Dict, List, Optional, Tuple

from .control_drain import at_least
from .control_http import fetch, leads
from .control_leader import add_options, token_of, urls_of
from .failure import Failure
from .words import counted

Line = Dict[str, Any]
WIDTH = 24


def bar(load: int, held: int, room: int) -> str:
    """Draws a server's room: what is used, what plans hold, what is free."""
    full = min(WIDTH, round(WIDTH * load / room)) if room else WIDTH
    more = min(WIDTH - full, round(WIDTH * held / room)) if room else 0
    return "#" * full + "+" * more + "." * (WIDTH - full - more)


def server_lines(state: Line) -> List[str]:
    """Shows servers."""
    lines = []
    for it in state.get("servers", []):
        note = "carried over" if it["carried"] else f"down, permit {it['permit']}" if it["permit"] is not None else ""
        lines.append(f"  {it['server']:<16} {bar(it['load'], it['held'], it['room'])} {it['load']:>6} of {it['room']:<6} {note}".rstrip())
    return lines


def plan_lines(state: Line) -> List[str]:
    """Shows plans that are running."""
    lines = []
    for it in state.get("plans", []):
        if it["is"] == "running":
            done = sum(stream["is"] == "done" for stream in it["streams"])
            steps, of = sum(stream["at"] for stream in it["streams"]), sum(stream["of"] for stream in it["streams"])
            lines.append(f"  {it['plan']:>4} {it['name']:<32} {done} of {len(it['streams'])} streams, {steps} of {of} steps")
    return lines


def message_lines(outgoing: List[Line], most: int) -> List[str]:
    """Shows messages that are not answered, the oldest first."""
    lines = []
    for it in sorted(outgoing, key=lambda told: -told["age"])[:most]:
        message = it["message"]
        what = f"{message.get('call', it['kind'])} {message.get('shard', '')}".strip()
        lines.append(f"  {it['age']:7.1f} s  {message.get('server') or 'map':<16} {what:<32} sent {counted(it['tries'], 'time')}  {it['said']}".rstrip())
    return lines


def screen(state: Line, outgoing: List[Line], most: int = 15, leads: bool = True) -> str:
    """Writes everything. A controller that does not lead has no messages, whatever is outstanding."""
    condition = {"open": "in force", "reopening": "a reopening is under way", "new": "nothing is opened yet"}[state.get("is", "new")]
    shards = state.get("shards", [])
    without = [it["shard"] for it in shards if not any(cell["state"] in ("primary", "forwarding") for cell in it["cells"])]
    parts = [
        f"journal {state.get('journal')}  epoch {state.get('epoch')}  place {state.get('place')}  {condition}",
        "servers", *(server_lines(state) or ["  none"]),
        f"{len(shards)} shards" + (f", without a primary: {', '.join(without[:10])}" if without else ""),
        "plans", *(plan_lines(state) or ["  none"]),
        *([f"messages outstanding: {len(outgoing)}", *(message_lines(outgoing, most) or ["  none"])] if leads else ["this controller does not lead, and sends no messages"]),
    ]
    return "\n".join(parts) + "\n"


def run(told: argparse.Namespace) -> int:
    """Runs the command, until it is interrupted."""
    urls, token = [it.rstrip("/") for it in urls_of(told)], token_of(told)
    try:
        while True:
            url, is_leader = leader_of(urls, token)
            state, outgoing = fetch(url + "/ask", {"do": "state"}, token=token)["state"], fetch(url + "/outgoing", token=token)
            if told.json:
                text = json.dumps({"controller": url, "leads": is_leader, "state": state, "outgoing": outgoing}) + "\n"
            else:
                text = ("\033[H\033[J" if sys.stdout.isatty() and not told.once else "") + screen(state, outgoing, leads=is_leader)
            sys.stdout.write(text)
            sys.stdout.flush()
            if told.once:
                return 0
            time.sleep(told.every)
    except KeyboardInterrupt:
        return 0


def leader_of(urls: List[str], token: Optional[str]) -> Tuple[str, bool]:
    """Returns the controller that leads, otherwise the first that answers, and whether it leads."""
    found, fault = [], Failure("no controller is named")
    for url in urls:
        try:
            if leads(url, token):
                return url, True
            found.append(url)
        except Failure as why:
            fault = why
    if not found:
        raise fault
    return found[0], False


def run_metrics(told: argparse.Namespace) -> int:
    """Prints the figures once."""
    sys.stdout.write(fetch(urls_of(told)[0].rstrip("/") + "/metrics", token=token_of(told)))
    return 0


def add_parser(subparsers: Any) -> None:
    """Adds both commands."""
    parser = subparsers.add_parser(
        "watch", help="shows plans, outstanding messages, servers and restarts",
        epilog="example: smplan-control watch --controller http://10.0.0.7:9200",
        description="Shows what a controller does until it is interrupted: of each server its load (#), room that plans hold (+) and free room (.), "
        "running plans, and messages that are not answered, the oldest first. Exit status 0: it was interrupted, or shown --once. 3: no controller answers.",
    )
    add_options(parser)
    parser.add_argument("--every", type=at_least(0), default=1.0, metavar="SECONDS", help="rest before it is shown anew (1)")
    parser.add_argument("--once", action="store_true", help="show it once")
    parser.add_argument("--json", action="store_true", help="print a line of JSON each time")
    parser.set_defaults(run=run)
    parser = subparsers.add_parser(
        "metrics", help="prints figures as Prometheus reads them; a controller serves them at /metrics",
        epilog="example: smplan-control metrics --controller http://10.0.0.7:9200",
        description="Prints a controller's figures once, as it serves them at /metrics. Exit status 0; 3: the controller does not answer.",
    )
    add_options(parser)
    parser.set_defaults(run=run_metrics)
