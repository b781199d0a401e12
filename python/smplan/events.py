"""What stands behind the answers of `smplan play` to a document's events."""
import json
import re
from typing import List, Optional

from . import program
from .model import Document, Json, Plan
from .reports import Report, read_report
from .restart import reason, waiting
from .words import counted

# The most answers that are looked into; for each the events up to it are played once more.
MOST_EVENTS = 20
# The answers that say that what the event speaks of was done.
DONE = re.compile(r"moved|done|executed at .*|passed to .*|approved|up|refilled|lost|begun: .*")


def played(document: Document, path: str, count: Optional[int] = None) -> Report:
    """Returns the report of the first `count` events, or of all."""
    events = (document.events or [])[:count]
    answer = program.run(path, "play", json.dumps(document.value | {"events": events}).encode())
    return read_report(answer.report, "the report")


def plan_of_event(document: Document, event: Json) -> Optional[Plan]:
    plans = [document.plan] if document.plan else document.plans or []
    number = event.get("plan", 0)
    return plans[number] if number < len(plans) else None


def owners(report: Report, shard: str) -> str:
    """Returns where the primary of a shard stands at the end of a report, in words."""
    row = next(it for it in report.lists["shards"] if it["name"] == shard)
    states = {it["state"]: it["server"] for it in row["cells"]}
    if "forwarding" in states:
        return f"{states['forwarding']} forwards to {states.get('prepared', states.get('primary', 'nobody'))}"
    return f"its primary is at {states['primary']}" if "primary" in states else "it has no primary"


def unknown(event: Json) -> str:
    """Returns what an event speaks of that is not there."""
    kind = event["event"]
    if kind in ("step", "lose", "refill"):
        return f"there is no stream {event['stream']} of plan {event.get('plan', 0)}, or that plan has not begun"
    if kind == "begin":
        return f"there is no plan {event['plan']}, or it has begun already"
    if kind == "pass_on":
        return f"ticket {event['ticket']} is of no request that was passed on and still waits"
    return f"{event['server']} is not down"


def holding(answer: str, report: Report) -> str:
    """Returns why a plan does not begin beside those that run."""
    cell = re.fullmatch(r"held: 1 Untrue cell (\S+) (\S+)", answer)
    if cell:
        row = next(it for it in report.lists["shards"] if it["name"] == cell[1])
        state = next((it["state"] for it in row["cells"] if it["server"] == cell[2]), "absent")
        return f"the cell of {cell[1]} at {cell[2]} is {state} by now"
    crown = re.fullmatch(r"held: 1 Untrue crown (\S+)", answer)
    if crown:
        row = next(it for it in report.lists["shards"] if it["name"] == crown[1])
        return f"{owners(report, crown[1])} by now, and the map lists {row['listed'] or 'no server'}"
    if answer.startswith("held: 2 "):
        return "a plan that runs holds it, or another stream declares it"
    if answer.startswith("held: 5 "):
        return "it is down"
    return "plans that run hold the rest" if answer.startswith("held: ") else ""


def words(document: Document, event: Json, answer: str, report: Report) -> str:
    """Returns what stands behind an answer, at the moment of the report."""
    if answer.startswith("denied "):
        return reason(document, event["server"], answer, report)
    if answer == "approved":
        return waiting(report, event["server"])
    blocked = re.fullmatch(r"blocked on signal (\d+)", answer)
    if blocked:
        plan = plan_of_event(document, event)
        posts = plan.spots("signal", int(blocked[1])) if plan else []
        return f"stream {event['stream']} waits for it; it is posted at {'; '.join(map(str, posts)) or 'no stream'}"
    if answer == "spent":
        plan = plan_of_event(document, event)
        stream = plan.streams[event["stream"]] if plan else None
        tries = f" (its budget is {stream.budget}, and its retries are {stream.retries})" if stream else ""
        return f"stream {event['stream']} has made all tries that it may{tries}; a 'refill' gives it more"
    if answer == "unknown":
        return unknown(event)
    if answer == "unavailable":
        return "the server is down"
    if answer == "not owner":
        about = f": {owners(report, event['shard'])}" if "shard" in event else ", or the request was passed on in another handover"
        return f"the server does not own the shard{about}"
    if answer == "log full":
        return f"\"log\" is {document.log}, and no place of it is neither used nor set aside"
    return holding(answer, report)


def event_lines(document: Document, path: str) -> List[str]:
    """Returns a line for each event that is not answered by what it asks for, with what stands behind the answer, and for each restart for which clients wait."""
    events, lines = document.events or [], []
    answers = [it["answer"] for it in played(document, path).lists.get("events", [])]
    refused = [number for number, answer in enumerate(answers) if not DONE.fullmatch(answer)]
    approved = [number for number, answer in enumerate(answers) if answer == "approved"]
    for number in sorted(refused[:MOST_EVENTS] + approved[:MOST_EVENTS]):
        said = words(document, events[number], answers[number], played(document, path, number + 1))
        if said or answers[number] != "approved":
            lines.append(f"event {number}: {answers[number]}" + (f": {said}" if said else ""))
    if len(refused) > MOST_EVENTS:
        lines.append(f"and {counted(len(refused) - MOST_EVENTS, 'more event')}")
    return lines
