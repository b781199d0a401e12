"""A controller's figures as Prometheus reads them."""
from __future__ import annotations

from typing import Any, Dict, Iterable, List, Tuple

from .control import BOUNDS, Controller, Line, Times

Sample = Tuple[Dict[str, str], float]


def label_text(labels: Dict[str, str]) -> str:
    """Returns labels as they stand behind a name."""
    inner = ",".join('{}="{}"'.format(name, value.replace("\\", "\\\\").replace('"', '\\"').replace("\n", "\\n")) for name, value in labels.items())
    return "{" + inner + "}" if inner else ""


def number_text(value: float) -> str:
    """Returns a number: a whole one with all its digits."""
    return f"{value:.0f}" if value.is_integer() else f"{value:g}"


def metric(name: str, kind: str, text: str, samples: Iterable[Sample]) -> List[str]:
    """Returns a metric with its samples."""
    lines = [f"# HELP smplan_{name} {text}", f"# TYPE smplan_{name} {kind}"]
    return lines + [f"smplan_{name}{label_text(labels)} {number_text(value)}" for labels, value in samples]


def histogram(name: str, text: str, times: Times) -> List[str]:
    """Returns a histogram of seconds."""
    lines = [f"# HELP smplan_{name} {text}", f"# TYPE smplan_{name} histogram"]
    lines += [f'smplan_{name}_bucket{{le="{bound:g}"}} {count}' for bound, count in zip(BOUNDS, times.within)]
    lines.append(f'smplan_{name}_bucket{{le="+Inf"}} {times.count}')
    return [*lines, f"smplan_{name}_sum {times.total:g}", f"smplan_{name}_count {times.count}"]


def of_servers(state: Line) -> List[str]:
    """Returns what is recorded of servers."""
    servers: List[Dict[str, Any]] = state.get("servers", [])

    def each(member: str) -> List[Sample]:
        return [({"server": it["server"]}, float(it[member])) for it in servers]

    down = [({"server": it["server"]}, float(it["permit"] is not None)) for it in servers]
    return [
        *metric("server_load", "gauge", "load of the replicas that a server has", each("load")),
        *metric("server_room", "gauge", "load that a server has room for", each("room")),
        *metric("server_room_held", "gauge", "room that plans hold at a server", each("held")),
        *metric("server_down", "gauge", "whether a server is down under a permit", down),
    ]


def of_shards(state: Line) -> List[str]:
    """Returns what is recorded of shards, as sums."""
    shards: List[Dict[str, Any]] = state.get("shards", [])
    without = sum(not any(cell["state"] in ("primary", "forwarding") for cell in it["cells"]) for it in shards)
    at_floor = sum(it["live"] <= it["floor"] for it in shards)
    return [
        *metric("shards", "gauge", "shards of the placement", [({}, float(len(shards)))]),
        *metric("shards_without_primary", "gauge", "shards that no server serves", [({}, float(without))]),
        *metric("shards_at_floor", "gauge", "shards that can lose no replica", [({}, float(at_floor))]),
    ]


def of_controller(controller: Controller) -> List[str]:
    """Returns what the controller itself counts."""
    outgoing = list(controller.outgoing.items())
    kinds = sorted({key[0] for key, _ in outgoing} | {"order"})
    oldest = [({"kind": kind}, max((it.age for key, it in outgoing if key[0] == kind), default=0.0)) for kind in kinds]
    count = [({"kind": kind}, float(sum(key[0] == kind for key, _ in outgoing))) for kind in kinds]
    events = [({"event": name}, float(value)) for name, value in sorted(controller.counts.items())]
    answers = [({"kind": kind, "said": word}, float(value)) for (kind, word), value in sorted(controller.answers.items())]
    failures = [({"why": why}, float(controller.counts[f"appends {why}"])) for why in ("lost", "refused")]
    return [
        *metric("leads", "gauge", "whether this controller acts", [({}, float(controller.leads))]),
        *metric("outstanding", "gauge", "messages that are not answered", count),
        *metric("outstanding_age_seconds", "gauge", "age of the oldest message that is not answered", oldest),
        *metric("events_total", "counter", "what this controller did", events),
        *metric("appends_total", "counter", "appends to the journal", [({}, float(controller.counts["appends"]))]),
        *metric("append_failures_total", "counter", "appends that the journal did not take: lines too long, or the journal is another's or out of reach", failures),
        *metric("answers_total", "counter", "answers to messages by their kind and by what was said", answers),
        *histogram("answer_seconds", "how long a message took to be answered, repetitions included", controller.times),
    ]


async def metrics_of(controller: Controller) -> str:
    """Returns all figures as text."""
    state = (await controller.ask({"do": "state"})).get("state", {})
    log = state.get("log", {})
    running = sum(it["is"] == "running" for it in state.get("plans", []))
    lines = [
        *of_controller(controller), *of_servers(state), *of_shards(state),
        *metric("place", "counter", "commands that changed something", [({}, float(state.get("place", 0)))]),
        *metric("epoch", "gauge", "epoch in force", [({}, float(state.get("epoch") or 0))]),
        *metric("reopening", "gauge", "whether a reopening is under way", [({}, float(state.get("is") == "reopening"))]),
        *metric("plans_running", "gauge", "plans that have not ended", [({}, float(running))]),
        *metric("log_places_free", "gauge", "places of the log that are neither used nor set aside", [({}, float(log.get("free", 0)))]),
    ]
    return "\n".join(lines) + "\n"
