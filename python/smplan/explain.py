"""`explain`: every fault of a document with its place, and the numbers behind each refusal."""
import argparse
import json
import re
from dataclasses import dataclass
from typing import Any, List, Optional

from . import program
from .events import event_lines
from .faults import Fault, FaultKind
from .files import STANDARD_INPUT, is_plan, name_of, read_bytes
from .model import Document, Plan, document_of
from .moves import drain_findings, move_findings
from .placement import Finding, Placement, opening_findings
from .reading import COMMANDS, document_faults, need_faults, read_text
from .verdict import begin_findings, holding_findings, log_findings, plan_findings

# The commands that begin a plan, and those that look at the log before it.
BEGINNING = ("play", "run")
WITH_LOG = ("play", "plan", "run")


@dataclass
class Explained:
    """What is wrong with a document: faults that keep it from being read, or findings about what it says."""

    faults: List[Fault]
    findings: List[Finding]

    @property
    def line(self) -> Optional[str]:
        """The line of a report that names the first of them, which is the one that the program names."""
        if self.faults:
            return self.faults[0].line
        return self.findings[0].line if self.findings else None


def faults_in(data: bytes, command: Optional[str]) -> List[Fault]:
    """Returns the faults of a text, those of the lowest number first."""
    text = read_text(data)
    if text.fault:
        return [text.fault]
    found = document_faults(text.value)
    if not found and command:
        found = need_faults(text.value, command)
    return sorted(found, key=lambda it: it.kind.number)


def beside_faults(value: Any) -> List[Fault]:
    """Returns the faults of members that stand beside each other in a document, though the command that reads them takes one."""
    found = need_faults(value, "play") if "events" in value else []
    return found + (need_faults(value, "plan") if "moves" in value and "drain" in value else [])


def findings_on_plan(plan: Plan, document: Document, placement: Placement, command: Optional[str]) -> List[Finding]:
    """Returns why a plan is refused, or else held up, or else not begun."""
    found = plan_findings(plan, placement) or holding_findings(plan, placement)
    begins = command in BEGINNING or (command is None and document.events is not None)
    return found or (begin_findings(plan, document, placement) if begins else [])


def findings_on_plans(document: Document, placement: Placement) -> List[Finding]:
    """Returns why plans of a list are refused. Whether one may begin is seen when an event begins it."""
    found = []
    for number, plan in enumerate(document.plans or []):
        found += [Finding(f"plan {number}: {it.line}", f"plan {number}: {it.text}", it.details) for it in plan_findings(plan, placement)]
    return found


def findings_in(document: Document, command: Optional[str]) -> List[Finding]:
    """Returns what is wrong with what a document says, in the order in which the program looks."""
    opening = opening_findings(document)
    if opening:
        return opening
    placement = Placement(document)
    found: List[Finding] = []
    if command in WITH_LOG or (command is None and (document.moves is not None or document.drain is not None or document.events is not None)):
        found = log_findings(document, placement)
        if found:
            return found
    if document.plan and command in (None, "check", "play", "run"):
        found += findings_on_plan(document.plan, document, placement, command)
    if command in (None, "play"):
        found += findings_on_plans(document, placement)
    if command in (None, "plan"):
        found += move_findings(placement, document.moves) if document.moves is not None else []
        found += drain_findings(placement, document.drain) if document.drain is not None else []
    return found


def explained(data: bytes, command: Optional[str] = None) -> Explained:
    """Returns what is wrong with a document, as one command answers it, or as any would."""
    faults = faults_in(data, command)
    if faults:
        return Explained(faults, [])
    return Explained([], findings_in(document_of(read_text(data).value), command))


# ---- what is printed

NAMED = re.compile(r"\$\.(servers|shards)(\[\d+\](\.name)?)?")


def causes(faults: List[Fault]) -> List[Fault]:
    """Returns the faults without those that follow from others: while the names of servers or shards are wrong, none is said to be unknown."""
    wrong = {found[1][:-1] for found in (NAMED.fullmatch(it.place) for it in faults if it.member in ("servers", "shards", "name")) if found}
    follows = tuple(f"no {kind} is named " for kind in wrong)
    return [it for it in faults if not (follows and it.kind is FaultKind.UNKNOWN_NAME and it.what.startswith(follows))]


def fault_lines(faults: List[Fault], most: int) -> List[str]:
    shown = causes(faults)
    lines = ["1 fault:" if len(shown) == 1 else f"{len(shown)} faults, of which smplan names the first:"]
    for fault in shown[:most]:
        lines += ["", f"  {fault.place}", f"    {fault.what}", f"    ({fault.line})"]
    lines += ["", f"  and {len(shown) - most} more; --most N shows N of them"] if len(shown) > most else []
    return lines


def finding_lines(findings: List[Finding], most: int) -> List[str]:
    lines = [] if len(findings) == 1 else [f"{len(findings)} things are wrong, of which smplan names the first:"]
    for finding in findings[:most]:
        lines += [""] if lines else []
        lines += [finding.line, f"  {finding.text}", *(f"  - {it}" for it in finding.details)]
    lines += ["", f"and {len(findings) - most} more; --most N shows N of them"] if len(findings) > most else []
    return lines


def verdict_lines(document: Document, found: Explained, path: Optional[str]) -> List[str]:
    """Returns what the program says of a document's plan, if there is a plan and a program. Its word counts."""
    if document.plan is None:
        return []
    if path is None:
        return ["No program smplan was found, whose word counts; these are the tools' own findings."]
    answer = program.run(path, "check", json.dumps(document.value).encode()).report.strip()
    is_same = answer == found.line or (answer.startswith("accepted: ") and found.line is None)
    doubt = [] if is_same or found.line is None or not found.line.startswith(("refused: ", "held: ")) else ["The program's word counts: the numbers above are of something else."]
    return [f"smplan check: {answer}", *doubt]


def answers(document: Document, arguments: argparse.Namespace) -> List[str]:
    """Returns what stands behind the answers to a document's events, if there are events and a program."""
    path = program.find_program(arguments.program)
    if path is None or document.events is None or arguments.command not in (None, "play"):
        return []
    return event_lines(document, path)


def plan_alone_lines(path: str) -> List[str]:
    """Returns what to do with a plan by itself, as `smplan plan` prints one: a document would need members that it has not."""
    plan = "" if path == STANDARD_INPUT else f" {path}"
    return [
        f"{name_of(path)}: this is a plan without its document; put it into the document that it was made for:",
        f"  smplan-tools put-plan DOCUMENT{plan} | smplan-tools explain",
    ]


def explain(arguments: argparse.Namespace) -> int:
    data = read_bytes(arguments.document)
    if is_plan(read_text(data).value):
        print("\n".join(plan_alone_lines(arguments.document)))
        return 1
    found = explained(data, arguments.command)
    faults = found.faults or ([] if arguments.command else beside_faults(read_text(data).value))
    if faults:
        print("\n".join(fault_lines(faults, arguments.most)))
        return 1
    document = document_of(read_text(data).value)
    said = verdict_lines(document, found, program.find_program(arguments.program))
    if not found.findings:
        print("\n".join([f"{name_of(arguments.document)}: nothing is wrong", *said, *answers(document, arguments)]))
        return 0
    print("\n".join(finding_lines(found.findings, arguments.most) + (["", *said] if said else [])))
    return 1


def add_parser(subparsers: Any) -> None:
    """Adds the command `explain`."""
    parser = subparsers.add_parser(
        "explain",
        epilog="example: smplan-tools explain placement.json",
        help="say what is wrong with a document, and where",
        description="Lists every fault of a document with its place and a suggestion; of a document without faults, why its placement or its plan is refused, "
        "or why no plan is made, with the numbers behind it. Exit status 0: nothing is wrong. 1: something is.",
    )
    program.add_option(parser)
    parser.add_argument("--command", choices=COMMANDS, help="what smplan COMMAND answers (default: all that the document has)")
    parser.add_argument("--most", type=int, default=20, metavar="N", help="show N at most (20)")
    parser.add_argument("document", nargs="?", default="-", metavar="DOCUMENT", help="a document (standard input)")
    parser.set_defaults(run=explain)
