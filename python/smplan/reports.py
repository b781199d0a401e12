"""`json`: a report of smplan as JSON, and what the other commands read of reports."""
import argparse
import json
import re
from dataclasses import dataclass, field
from typing import Any, Dict, List, Optional, Tuple

from .failure import Failure
from .files import name_of, read_bytes
from .json_text import BadText, read

# The lines of a report that stand in lists of their own (docs/FORMATS.md, "The report"), each with the list and its form.
ROWS = [
    ("calls", re.compile(r"call (?P<call>\d+): (?P<answer>.+)")),
    ("events", re.compile(r"event (?P<event>\d+): (?P<answer>.+)")),
    ("asks", re.compile(r"ask (?P<ask>\d+): (?P<answer>.+)")),
    ("streams", re.compile(r"(?:plan (?P<plan>\d+) )?stream (?P<stream>\d+): steps (?P<steps>\d+) calls (?P<calls>\d+) budget (?P<budget>\d+)")),
    ("streams", re.compile(r"(?:plan (?P<plan>\d+) )?stream (?P<stream>\d+): at (?P<at>\d+) of (?P<length>\d+)")),
    ("streams", re.compile(r"(?:plan (?P<plan>\d+) )?stream (?P<stream>\d+): (?P<state>done)")),
    ("plans", re.compile(r"plan (?P<plan>\d+): (?P<answer>.+)")),
    ("servers", re.compile(r"server (?P<name>\S+) room (?P<room>\d+) load (?P<load>\d+) (?P<state>up|down)")),
    ("shards", re.compile(r"shard (?P<name>\S+) live (?P<live>\d+) floor (?P<floor>\d+) listed (?P<listed>\S+) version (?P<version>\d+)")),
]
CELL = re.compile(r"  (?P<server>\S+) (?:(?P<state>primary|secondary)|(?P<party>prepared from|forwarding to) (?P<other>\S+) number (?P<number>\d+))")
NUMBERS = {"call", "event", "ask", "plan", "stream", "steps", "calls", "budget", "at", "length", "room", "load", "live", "floor", "version", "number"}
# The first words of a line that says why there is nothing more.
REFUSALS = ("bad input: ", "placement refused: ", "log refused: ", "refused: ", "held: ", "not begun: ", "no plan: ", "not run: ")


@dataclass
class Report:
    """A report, line by line."""

    plan: Optional[Dict[str, Any]] = None
    accepted: Optional[Dict[str, int]] = None
    refusal: Optional[str] = None
    lists: Dict[str, List[Dict[str, Any]]] = field(default_factory=dict)

    @property
    def has_placement(self) -> bool:
        return "servers" in self.lists or "shards" in self.lists

    def value(self) -> Dict[str, Any]:
        """Returns the report as a JSON value."""
        first = {"plan": self.plan, "accepted": self.accepted, "refused": self.refusal}
        return {name: it for name, it in first.items() if it is not None} | self.lists


def read_row(line: str) -> Optional[Tuple[str, Dict[str, Any]]]:
    """Returns the list of a line, and what the line says."""
    for name, form in ROWS:
        found = form.fullmatch(line)
        if found:
            row = {key: int(it) if key in NUMBERS else it for key, it in found.groupdict().items() if it is not None}
            return name, row
    return None


def read_cell(line: str) -> Optional[Dict[str, Any]]:
    found = CELL.fullmatch(line)
    if not found:
        return None
    if found["state"]:
        return {"server": found["server"], "state": found["state"]}
    return {"server": found["server"], "state": found["party"].split()[0], "other": found["other"], "number": int(found["number"])}


def add_line(report: Report, line: str) -> bool:
    """Adds a line to a report, and returns whether it is one of a report."""
    cell, row = read_cell(line), read_row(line)
    shards = report.lists.get("shards", [])
    accepted = re.fullmatch(r"accepted: calls (\d+) streams (\d+)", line)
    if cell and shards:
        shards[-1]["cells"].append(cell)
    elif row:
        name, entry = row
        report.lists.setdefault(name, []).append(entry | ({"cells": []} if name == "shards" else {}))
    elif accepted:
        report.accepted = {"calls": int(accepted[1]), "streams": int(accepted[2])}
    elif line.startswith(REFUSALS):
        report.refusal = line
    elif line.startswith("{"):
        report.plan = read(line.encode())
    else:
        return False
    return True


def settle_listings(report: Report) -> None:
    """Writes null where the map lists no server. A server may be named `none`: then its shard's primary tells which is meant."""
    for shard in report.lists.get("shards", []):
        owners = [it["server"] for it in shard["cells"] if it["state"] in ("primary", "forwarding")]
        if shard["listed"] == "none" and "none" not in owners:
            shard["listed"] = None


def read_report(text: str, path: str) -> Report:
    """Reads a report."""
    report = Report()
    lines = text.splitlines()
    if not lines:
        raise Failure(f"{name_of(path)} is empty, and so no report of smplan")
    for number, line in enumerate(lines, 1):
        try:
            is_line = add_line(report, line)
        except BadText:
            is_line = False
        if not is_line:
            raise Failure(f"{name_of(path)}: line {number} is no line of a report of smplan: {line[:80]}")
    settle_listings(report)
    return report


def print_json(arguments: argparse.Namespace) -> int:
    report = read_report(read_bytes(arguments.report).decode(errors="replace"), arguments.report)
    print(json.dumps(report.value(), indent=None if arguments.compact else 2))
    return 0


def add_parser(subparsers: Any) -> None:
    """Adds the command `json`."""
    parser = subparsers.add_parser(
        "json",
        epilog="example: smplan run < placement.json | smplan-tools json",
        help="print a report as JSON",
        description="Prints a report of smplan as one JSON object. It has these members, if the report has them: 'refused' (the line that says why there is "
        "no more); 'accepted' with 'calls' and 'streams'; the 'plan' that was made; lists of 'calls', 'events' or 'asks' by number with the 'answer'; "
        "'streams' with 'steps', 'calls' and 'budget' (run), or with 'at' and 'length' or the state 'done' (play); 'plans' that are refused or not begun; "
        "'servers'; 'shards' with 'cells', which in a handover have 'other' and 'number'.",
    )
    parser.add_argument("report", nargs="?", default="-", metavar="REPORT", help="a report of smplan (standard input)")
    parser.add_argument("--compact", action="store_true", help="print one line")
    parser.set_defaults(run=print_json)
