"""The figures of a run, from the histories of servers and clients."""
from __future__ import annotations

import json
from bisect import bisect_left, bisect_right
from collections import defaultdict
from collections.abc import Callable, Iterable, Mapping
from dataclasses import dataclass
from itertools import accumulate
from pathlib import Path
from statistics import median

NANO, BILLION, MILLION = 1e-9, 10**9, 10**6
NEVER = 1 << 63
# The numbers of the orders of one epoch.
STEP = 1 << 21
# No request of a client takes longer, in seconds.
LONGEST = 60
# Messages of a leader that died are no longer on their way after this time, in seconds.
LATE = 1.0


def lines_of(path: Path) -> list[dict]:
    """The JSON lines of a file, none if it is not there."""
    if not path.exists():
        return []
    with path.open(encoding="utf-8") as lines:
        return [json.loads(it) for it in lines]


@dataclass(frozen=True)
class Handover:
    """A shard's primary that was handed over, and what clients met of it: the longest that one of them waited, from the first begin of its stream's work until the
    old owner has dropped the shard, and how many requests there were meanwhile, and from the moment when the old owner lets running ones end until the new one has
    the writes up to the cut; and how many bytes were copied."""

    shard: str
    begin: int
    end: int
    longest: float
    requests: int
    requests_at_cut: int
    bytes: int = 0


@dataclass
class Window:
    """A handover as histories tell it: the new owner, its first begin, how much it copied, the begin of `prepare_drop`, and the seal."""

    shard: str
    new: str
    begin: int
    bytes: int = 0
    holding: int | None = None
    seal: int | None = None


def windows_of(events: Iterable[dict]) -> list[tuple[Window, int]]:
    """The handovers that came to their end, each with its end."""
    windows: dict[tuple[int, int, int], Window] = {}
    passing: dict[str, Window] = {}
    preparing: dict[tuple[str, str], Window] = {}
    found = []
    for event in sorted((it for it in events if "t" in it), key=lambda it: it["t"]):
        kind, call, time = event["kind"], event.get("call"), event["t"]
        if kind == "seal" and event["shard"] in passing:
            passing[event["shard"]].seal = time
        if kind == "copy" and (window := preparing.get((event["shard"], event["server"]))):
            window.bytes = event["bytes"]
        if kind not in ("begin", "commit"):
            continue
        stream = (event["number"] // STEP, event["plan"], event["stream"])
        if kind == "begin" and call == "prepare_add":
            window = windows.setdefault(stream, Window(event["shard"], event["server"], time))
            preparing[window.shard, window.new] = window
        elif stream in windows and kind == "begin" and call == "prepare_drop":
            window = passing[event["shard"]] = windows[stream]
            window.holding = window.holding or time
        elif stream in windows and kind == "commit" and call == "drop":
            window = windows.pop(stream)
            found.append((window, time))
            passing.pop(window.shard, None)
            preparing.pop((window.shard, window.new), None)
    return found


def handovers_of(events: Iterable[dict], asked: Iterable[dict]) -> list[Handover]:
    """Each handover that came to its end, by the histories of the servers and of the clients."""
    requests: dict[str, list[tuple[int, int]]] = defaultdict(list)
    for line in asked:
        if not line.get("final"):
            requests[line["shard"]].append((line["start"], line["end"]))
    for spans in requests.values():
        spans.sort()
    found = []
    for window, end in windows_of(events):
        met = spans_within(requests[window.shard], window.begin, end)
        at_cut = spans_within(met, window.holding, window.seal) if window.holding and window.seal else []
        longest = max((last - first for first, last in met), default=0) / BILLION
        found.append(Handover(window.shard, window.begin, end, longest, len(met), len(at_cut), window.bytes))
    return found


def of_handovers(handovers: list[Handover]) -> str:
    """What clients met of handovers, in words."""
    met = [it for it in handovers if it.requests]
    if not met:
        return f"{len(handovers)}; none met a request"
    largest = max(met, key=lambda it: it.bytes)
    return (f"{len(handovers)}; the longest wait of a client meanwhile {in_words([it.longest for it in met])}, of the largest shard "
            f"({largest.bytes / 1e6:.1f} MB) {1000 * largest.longest:.0f} ms\n             requests met by each: {median(it.requests for it in handovers):.0f} (median), "
            f"{median(it.requests_at_cut for it in handovers):.0f} of them between the begin of prepare_drop and the seal")


def spans_within(spans: list[tuple[int, int]], begin: int, end: int) -> list[tuple[int, int]]:
    """Those of sorted spans that lie, at least in part, between two moments."""
    first = bisect_left(spans, (begin - LONGEST * BILLION, 0))
    return [it for it in spans[first:bisect_left(spans, (end, 0))] if it[1] > begin]


def copied(events: Iterable[dict]) -> list[int]:
    """How many bytes of data each copy of a shard had."""
    return [it["bytes"] for it in events if it["kind"] == "copy"]


def order_waits(events: Iterable[dict], deaths: Iterable[int]) -> list[float]:
    """From each death of a leader until the next one's first order begins at a server, in seconds."""
    begins = sorted(it["t"] for it in events if it["kind"] == "begin")
    places = [(death, bisect_left(begins, death + LATE / NANO)) for death in deaths]
    return [(begins[place] - death) * NANO for death, place in places if place < len(begins)]


def unacknowledged(lines: Iterable[dict], forsaken: Mapping[str, int]) -> int:
    """How many requests had no reply in time, but those of shards whose server was lost, from then on."""
    return sum("reply" not in it and "unclear" not in it and not forsaken.get(it["shard"], NEVER) <= it["end"] for it in lines)


def without_service(lines: Iterable[dict], kept: Iterable[tuple[int, int]] = ()) -> dict[str, float]:
    """For each shard the longest time in seconds in which somebody waited for a reply, and nobody got one; beside the milliseconds for which, by the
    second, the proxies were kept from running."""
    by_shard: dict[str, list[dict]] = defaultdict(list)
    for line in lines:
        if not line.get("final"):
            by_shard[line["shard"]].append(line)
    until = kept_until(kept)
    return {shard: longest_gap(it, until) / BILLION for shard, it in by_shard.items()}


def kept_until(kept: Iterable[tuple[int, int]]) -> Callable[[int], int]:
    """For how long the proxies had been kept from running by the end of the second of a moment."""
    ordered = sorted(kept)
    seconds, sums = [it for it, _ in ordered], [0, *accumulate(it * MILLION for _, it in ordered)]
    return lambda moment: sums[bisect_right(seconds, moment // BILLION)]


def longest_gap(lines: list[dict], kept: Callable[[int], int]) -> int:
    """The longest time without a reply in which a request was under way, of requests of one shard, beside the time for which the proxies were kept."""
    ordered = sorted(lines, key=lambda it: it["end"])
    # (of those that ended then or later, when the first began)
    earliest = list(accumulate((it["start"] for it in reversed(ordered)), min))[::-1]
    longest, last, behind = 0, 0, 0
    for place, line in enumerate(ordered):
        end, begin = line["end"], max(last, min(earliest[behind], line["end"]))
        longest = max(longest, end - begin - (kept(end) - kept(begin)))
        if "reply" in line:
            last, behind = line["end"], place + 1
    return longest


def request_waits(lines: Iterable[dict]) -> list[float]:
    """How many seconds each request of a client took."""
    return sorted((it["end"] - it["start"]) * NANO for it in lines if not it.get("final") and "reply" in it)


def rate_of(lines: list[dict], times: list[tuple[int, int]]) -> float:
    """Requests a second within these spans of time."""
    seconds = sum(end - start for start, end in times) * NANO
    count = sum(any(start <= it["end"] < end for start, end in times) for it in lines if "reply" in it)
    return count / seconds if seconds else 0.0


def at(sorted_values: list[float], share: float) -> float:
    """The value below which this share of the values lies."""
    return sorted_values[min(len(sorted_values) - 1, int(share * len(sorted_values)))] if sorted_values else 0.0


def in_words(values: list[float]) -> str:
    """Median and worst."""
    return f"median {1000 * median(values):.0f} ms, worst {1000 * max(values):.0f} ms" if values else "none"
