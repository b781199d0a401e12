"""What a controller looks at before it begins a plan, beside what `smpland` proves of it."""
from __future__ import annotations

from typing import Dict, List, NamedTuple, Optional, Set

from .control_session import Line

# The states of a cell whose server has the shard's data.
HAVING = frozenset(["primary", "secondary"])


def streams_of(line: Line) -> List[List[Line]]:
    """The code of each stream of the plan that a line begins; none if it begins none, or what it has is no plan."""
    try:
        codes = [list(stream["code"]) for stream in line["plan"]["streams"]] if line.get("do") == "begin" else []
        return codes if all(isinstance(step, dict) for code in codes for step in code) else []
    except (LookupError, TypeError, AttributeError):
        return []


def servers_of(line: Line) -> List[str]:
    """The servers that the plan of a line names; none if the line begins none."""
    return sorted({str(step["server"]) for code in streams_of(line) for step in code if "server" in step})


def is_of(step: Line, what: str, shard: str) -> bool:
    """Whether a step is this call of a shard."""
    return step.get("do") == what and step.get("shard") == shard


class Place(NamedTuple):
    """Where a plan calls a server: the numbers of the stream and of its step."""

    stream: int
    step: int
    server: str


def calls_of(codes: List[List[Line]], what: str, shard: str) -> List[Place]:
    """Where codes have this call of a shard."""
    return [Place(stream, at, str(step.get("server"))) for stream, code in enumerate(codes) for at, step in enumerate(code) if is_of(step, what, shard)]


def emptied_by(line: Line, shards: List[Line]) -> Optional[str]:
    """A shard of which the plan that a line begins may drop all replicas before it adds another, which would begin empty; None if there is none."""
    replicas: Dict[str, Set[str]] = {it["shard"]: {cell["server"] for cell in it["cells"] if cell["state"] in HAVING} for it in shards}
    streams = streams_of(line)
    for shard, codes in sorted(calls_by_shard(streams).items()):
        if any(is_of(step, "add", shard) for code in codes for step in code) and replicas.get(shard):
            # (first without all that waits: a long plan is looked at once, and not once for each shard)
            if all(replicas[shard] <= {it.server for it in bare_drops(them, shard)} for them in (codes, streams)):
                return shard
    return None


def calls_by_shard(streams: List[List[Line]]) -> Dict[str, List[List[Line]]]:
    """What the streams add and drop of each shard, without the streams that do neither."""
    found: Dict[str, List[List[Line]]] = {}
    for code in streams:
        calls: Dict[str, List[Line]] = {}
        for step in code:
            if step.get("do") in ("add", "drop"):
                calls.setdefault(str(step.get("shard")), []).append(step)
        for shard, mine in calls.items():
            found.setdefault(shard, []).append(mine)
    return found


def bare_drops(streams: List[List[Line]], shard: str) -> List[Place]:
    """The drops of a shard before which no `add` that lasts has to come. One lasts if its replica is not dropped later, or only behind another that lasts: from
    then on there is always a replica."""
    lasting: List[Place] = []
    while True:
        bare = calls_of(beginnings(streams, lasting), "drop", shard)
        found = [it for it in calls_of(streams, "add", shard) if not any(drop.server == it.server and (drop.stream != it.stream or drop > it) for drop in bare)]
        if found == lasting:
            return bare
        lasting = found


def beginnings(streams: List[List[Line]], places: List[Place]) -> List[List[Line]]:
    """What of each stream may come while none of these steps is done."""
    behind: Set[str] = set()
    while True:
        codes = [beginning(code, {it.step for it in places if it.stream == stream}, behind) for stream, code in enumerate(streams)]
        later = signals_of(streams) - signals_of(codes)
        if later == behind:
            return codes
        behind = later


def beginning(code: List[Line], steps: Set[int], signals: Set[str]) -> List[Line]:
    """What of a stream comes before these steps, and before it waits for one of these signals."""
    ends = [it for it, step in enumerate(code) if it in steps or step.get("do") == "wait" and str(step.get("signal")) in signals]
    return code[:min(ends, default=len(code))]


def signals_of(codes: List[List[Line]]) -> Set[str]:
    """The signals that codes post."""
    return {str(step.get("signal")) for code in codes for step in code if step.get("do") == "signal"}
