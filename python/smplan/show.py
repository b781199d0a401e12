"""`show`: a plan for people, as text, as a Mermaid chart, or as a page."""
import argparse
import json
import os
import re
import sys
from dataclasses import dataclass
from pathlib import Path
from typing import Any, List, Optional, Sequence

from . import mermaid, page, program
from .documents import with_plan
from .explain import findings_in
from .failure import Failure
from .files import PlanText, read_plans_or_documents
from .model import CALLS, Document, Instruction, Json, Spot, plan_of
from .placement import Finding, Placement, opening_findings
from .story import Change, Story, led, servers_of
from .verdict import holding_findings, plan_findings
from .width import AtOnce, copied_load, most_at_once, most_in_turn
from .words import counted, in_words, label, rights_in_words

SIGNS = {"add": "+", "drop": "-", "change": "~"}


def table(rows: Sequence[Sequence[str]], right: Sequence[int] = (), indent: str = "  ") -> List[str]:
    """Returns the lines of a table; the columns of `right` are set to the right."""
    widths = [max(len(row[at]) for row in rows) for at in range(len(rows[0]))] if rows else []
    lines = []
    for row in rows:
        cells = [it.rjust(widths[at]) if at in right else it.ljust(widths[at]) for at, it in enumerate(row)]
        lines.append((indent + "  ".join(cells)).rstrip())
    return lines


def kind_of(change: Change) -> str:
    return "add" if change.before is None else "drop" if change.after is None else "change"


def calls_of(story: Story) -> List[Instruction]:
    return [it for stream in story.plan.streams for it in stream.code if it.do in CALLS]


def copies_in_words(stories: Sequence[Story]) -> str:
    """Returns what becomes of the replicas, and what is copied, in words."""
    kinds = [kind_of(it) for story in stories for it in story.changes()]
    copied = sum(copied_load(it.plan, it.document) for it in stories if it.document)
    return f"{counted(kinds.count('add'), 'replica')} to add, {kinds.count('drop')} to drop, {kinds.count('change')} to change role; load {copied} to copy"


def at_once_lines(at_once: Optional[AtOnce], rate: Optional[int], indent: str) -> List[str]:
    """Returns how many copies are made at once, and how long they take at a rate, the load that a copy moves in a second."""
    return [f"{indent}{at_once}" + (f", at least {at_once.chain / rate:.0f} s" if rate else "")] if at_once else []


def summary(story: Story, rate: Optional[int] = None) -> List[str]:
    """Returns what the plan comes to, in a few lines."""
    plan, calls = story.plan, calls_of(story)
    size = f"{counted(len(plan.streams), 'stream')}, {counted(len(calls), 'call')} to {counted(len({it.server for it in calls}), 'server')}, " \
           f"{counted(len(story.shards_touched()), 'shard')}, {counted(len(plan.signals), 'signal')}"
    if not story.document:
        return [f"Plan: {size}"]
    return [f"Plan: {copies_in_words([story])}", f"      {size}", *at_once_lines(most_at_once(story.plan, story.document), rate, "      ")]


def campaign_lines(stories: Sequence[Story], rate: Optional[int] = None) -> List[str]:
    """Returns what plans come to of which each is of the placement that the one before leaves."""
    indent = " " * len("Campaign: ")
    calls = sum(len(calls_of(it)) for it in stories)
    at_once = most_in_turn([(it.plan, it.document) for it in stories if it.document])
    return [f"Campaign: {copies_in_words(stories)}", f"{indent}{counted(len(stories), 'plan')}, {counted(calls, 'call')}", *at_once_lines(at_once, rate, indent),
            "", *server_lines(stories)]


def replica_lines(story: Story) -> List[str]:
    """Returns what becomes of the replicas and of the map, a line each."""
    rows = []
    for it in story.changes():
        kind = kind_of(it)
        state = {"add": f"{it.after}", "drop": f"{it.before}", "change": f"{it.before} -> {it.after}"}[kind]
        rows.append([SIGNS[kind], it.shard, f"at {it.server}", state, f"load {story.before.document.shards[it.shard].load}" if kind == "add" else ""])
    for it in story.listings():
        rows.append(["~", it.shard, "listed", f"{it.before or 'none'} -> {it.after or 'none'}", ""])
    order = list(story.before.cells)
    rows.sort(key=lambda row: (order.index(row[1]), row[2] == "listed", "+~-".index(row[0])))
    return table(rows)


def server_lines(stories: Sequence[Story]) -> List[str]:
    """Returns the load of each server that plans touch, and how many shards it leads: before the first, and after the last; and the most load under way."""
    before, after = stories[0].before, stories[-1].after
    rows = [["server", "region", "room", "load", "after", "most", "primaries"]]
    for name in servers_of(stories):
        server, most = before.document.servers[name], max(it[name] for story in stories for it in story.loads if name in it)
        over = "  above its room" if most > server.room else ""
        rows.append([name, server.region, str(server.room), str(before.loads[name]), str(after.loads[name]), str(most), " -> ".join(map(str, led(name, (before, after)))) + over])
    return table(rows, right=(2, 3, 4, 5))


def stream_lines(story: Story, number: int) -> List[str]:
    """Returns a stream's steps in words."""
    plan, stream = story.plan, story.plan.streams[number]
    waits = [it.signal for it in stream.code if it.do == "wait"]
    retries = f", {counted(stream.retries, 'retry', 'retries')}" if stream.retries else ""
    needs = f"waits for {counted(len(waits), 'signal')}" if waits else "waits for nobody"
    lines = [f"Stream {number}: {counted(sum(it.is_call for it in stream.code), 'call')}{retries}, {needs}"]
    lines += [f"  {'holds' if at == 0 else '     '}  {it}" for at, it in enumerate(rights_in_words(stream.holds))]
    width = max([len(label(it)) for it in stream.code], default=0)
    why = story.walks[number].why if story.document else None
    for position, it in enumerate(stream.code):
        spot = Spot(number, position)
        lines.append(f"  {position:>3}  {label(it):<{width}}  {in_words(plan, spot, story.hold_before(spot))}")
        if why and position == story.walks[number].position:
            lines.append(f"       {'':<{width}}  ^ {why.word}: {why.text}")
    return lines


def text_of(story: Story, rate: Optional[int] = None) -> str:
    """Returns a plan for people."""
    lines = summary(story, rate)
    if story.document:
        lines += ["", *(replica_lines(story) or ["  no replica moves"]), "", *server_lines([story])]
    for number in range(len(story.plan.streams)):
        lines += ["", *stream_lines(story, number)]
    return "\n".join(lines)


def room_lines(document: Document) -> List[str]:
    """Returns the load and the free room of each server of a document without a plan."""
    placement = Placement(document)
    rows = [["server", "region", "room", "load", "free", ""]]
    for name, server in document.servers.items():
        numbers = placement.numbers(name)
        rows.append([name, server.region, str(server.room), str(numbers.load), str(numbers.free), "down" if server.down else ""])
    return [f"No plan: {counted(len(document.servers), 'server')}, {counted(len(document.shards), 'shard')}", "", *table(rows, right=(2, 3, 4))]


def placement_text(document: Document) -> str:
    """Returns the placement of a document without a plan."""
    placement = Placement(document)
    shards = [["shard", "load", "live", "floor", "listed", "replicas"]]
    for name, shard in document.shards.items():
        cells = ", ".join(f"{server} ({state})" for server, state in placement.cells[name].items()) or "none"
        shards.append([name, str(shard.load), str(len(placement.live(name))), str(shard.floor), shard.listed or "none", cells])
    return "\n".join([*room_lines(document), "", *table(shards, right=(1, 2, 3))])


# ---- which plans are shown, and what the program says of them

class NoPlan(Failure):
    """The program makes no plan for a document's moves or its server to empty."""

    def __init__(self, line: str) -> None:
        super().__init__(f"there is no plan, as smplan says: {line}\n  'smplan-tools explain' shows the numbers behind it", 1)


def made_plan(document: Document, path: str) -> Json:
    """Returns the plan that the program makes for a document's moves or its server to empty."""
    answer = program.run(path, "plan", json.dumps(document.value).encode())
    if answer.status != 0:
        raise NoPlan(answer.lines[0])
    return json.loads(answer.report)


def plans_of(text: PlanText, given: Optional[str]) -> List[Json]:
    """Returns the plans of a file. For a document with moves or a server to empty, and no plan, the program makes one."""
    if text.document is None:
        return [text.value]
    value = text.document.value
    if "plan" in value:
        return [value["plan"]]
    if value.get("plans"):
        return value["plans"]
    if "moves" in value or "drain" in value:
        return [made_plan(text.document, program.required(given))]
    return []


def verdict(document: Optional[Document], plan: Json, given: Optional[str]) -> Optional[str]:
    """Returns what the program says of a plan, or none if it cannot be asked."""
    path = program.find_program(given)
    if document is None or path is None:
        return None
    return program.run(path, "check", json.dumps(with_plan(document.value, plan)).encode()).report.strip()


@dataclass(frozen=True)
class Picture:
    """What is shown of a plan: what it does, and what the program says of it, if it was asked."""

    story: Story
    verdict: Optional[str]


def pictures_of(text: PlanText, given: Optional[str]) -> List[Picture]:
    """Returns the pictures of a file's plans."""
    return [Picture(Story(plan_of(it), text.document), verdict(text.document, it, given)) for it in plans_of(text, given)]


def pictures_or_none(text: PlanText, given: Optional[str] = None) -> List[Picture]:
    """Returns the pictures of a file's plans, of which there are none if no plan is made."""
    try:
        return pictures_of(text, given)
    except NoPlan:
        return []


def campaign_of(pictures: List[Picture]) -> List[Story]:
    """Returns the plans' stories, if there are several of which each has its own document."""
    stories = [it.story for it in pictures]
    documents = {id(it.document) for it in stories if it.document}
    return stories if len(documents) == len(stories) > 1 else []


def texts_of(pictures: List[Picture], rate: Optional[int] = None) -> List[str]:
    """Returns what is printed of each plan."""
    found = []
    for number, picture in enumerate(pictures):
        head = f"== plan {number} of {len(pictures)} ==\n" if len(pictures) > 1 else ""
        said = f"\n\nsmplan check: {picture.verdict}" if picture.verdict else ""
        found.append(f"{head}{text_of(picture.story, rate)}{said}")
    return found


def summaries_of(pictures: List[Picture], rate: Optional[int] = None) -> List[str]:
    """Returns what each plan comes to, without its replicas and steps."""
    found = []
    for it in pictures:
        loads = ["", *server_lines([it.story])] if it.story.document else []
        said = ["", f"smplan check: {it.verdict}"] if it.verdict else []
        found.append("\n".join([*summary(it.story, rate), *loads, *said]))
    return found


def text_shown(arguments: argparse.Namespace, text: PlanText, pictures: List[Picture]) -> str:
    """Returns what is printed of plans, or of a document without one."""
    if not pictures and text.document:
        return "\n".join(room_lines(text.document)) if arguments.summary else placement_text(text.document)
    campaign = campaign_of(pictures)
    first = ["\n".join(campaign_lines(campaign, arguments.rate))] if campaign else []
    return "\n\n".join(first + (summaries_of if arguments.summary else texts_of)(pictures, arguments.rate))


def findings_of(picture: Picture) -> List[Finding]:
    """Returns why a plan is refused or held up, if its document is there."""
    document = picture.story.document
    if document is None:
        return []
    opening = opening_findings(document)
    return opening or plan_findings(picture.story.plan, Placement(document)) or holding_findings(picture.story.plan, Placement(document))


def page_of(text: PlanText, pictures: List[Picture], name: str, rate: Optional[int] = None) -> str:
    """Returns the page of plans, or of a document without one."""
    campaign = campaign_of(pictures)
    articles = [page.campaign_html(campaign, name, rate)] if campaign else []
    for number, it in enumerate(pictures):
        heading = f"{name}: plan {number}" if len(pictures) > 1 else name
        articles.append(page.plan_html(page.PlanPage(it.story, it.verdict, findings_of(it), rate), heading))
    if not pictures and text.document:
        articles.append(page.placement_html(text.document, name, findings_in(text.document, None)))
    return page.page(name, articles)


def write_page(path: str, text: str) -> None:
    try:
        Path(path).write_text(text, encoding="utf-8")
    except OSError as why:
        raise Failure(f"{path}: {why.strerror}") from None


# The colours of lines on a terminal: what is added, dropped and changed, and the verdict.
COLOURS = [(r"^  \+ .*$", 32), (r"^  - .*$", 31), (r"^  ~ .*$", 33), (r"^smplan check: accepted.*$", 32), (r"^smplan check: (?!accepted).*$", 31), (r"^ +\^ .*$", 31)]


def painted(text: str) -> str:
    """Returns a text with the colours of a terminal."""
    for form, colour in COLOURS:
        text = re.sub(form, lambda found, colour=colour: f"\033[{colour}m{found[0]}\033[0m", text, flags=re.MULTILINE)
    return text


def show(arguments: argparse.Namespace) -> int:
    texts, is_page = read_plans_or_documents(arguments.document), arguments.html is not None
    pictures = [it for text in texts for it in (pictures_or_none if is_page else pictures_of)(text, arguments.program)]
    if is_page:
        name = "plan" if arguments.document == "-" else Path(arguments.document).name
        write_page(arguments.html, page_of(texts[0], pictures, arguments.title or name, arguments.rate))
        return 0
    if arguments.mermaid:
        if not pictures:
            raise Failure("the document has no plan", 1)
        print("\n".join(mermaid.chart(it.story) for it in pictures))
        return 0
    shown = text_shown(arguments, texts[0], pictures)
    print(painted(shown) if sys.stdout.isatty() and "NO_COLOR" not in os.environ else shown)
    return 0


def rate_of(text: str) -> int:
    """How a rate is read."""
    if not text.isascii() or not text.isdigit() or int(text) == 0:
        raise argparse.ArgumentTypeError(f"{text} is no whole number above 0")
    return int(text)


def add_parser(subparsers: Any) -> None:
    """Adds the command `show`."""
    parser = subparsers.add_parser(
        "show",
        epilog="example: smplan-tools show --html plan.html placement.json",
        help="show a plan for people",
        description="Shows the plan of a document, or a plan by itself: what it comes to, and each stream's steps in words. For a document with moves or a "
        "server to empty, and no plan, smplan makes the plan. The last line is what 'smplan check' says of it. Of several documents, one a line, as 'drain --batch' "
        "prints them, it first tells what they come to together.",
    )
    program.add_option(parser)
    parser.add_argument("document", nargs="?", default="-", metavar="DOCUMENT", help="a document, a plan by itself, or several, one a line (standard input)")
    parser.add_argument("--summary", action="store_true", help="print what the plan comes to, and the servers' loads, without each replica and step")
    parser.add_argument("--mermaid", action="store_true", help="print a Mermaid chart")
    parser.add_argument("--html", metavar="FILE", help="write a page that needs no network")
    parser.add_argument("--rate", type=rate_of, metavar="N", help="load that a copy moves in a second, for the least time that the copies take")
    parser.add_argument("--title", metavar="TEXT", help="the heading of the page (the document's name)")
    parser.set_defaults(run=show)
