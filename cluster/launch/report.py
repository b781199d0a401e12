"""What a run prints in the end: some lines of figures, and a verdict in the words that decide whether one trusts it."""
from __future__ import annotations

import re
from collections import Counter
from collections.abc import Iterable, Mapping

from .figures import at
from .situations import SITUATIONS

# What a violation is about, by words of its text. The first that fits counts.
KINDS = (
    ("acknowledged writes lost", r"acknowledged and is lost|acknowledged as number|nobody could read it|in the end: "),
    ("writes executed twice", r"is there more than once|and was write \d|was (replaced|deleted) twice"),
    ("stale reads", r"acknowledged or read before|no beginning of the final list|stands before a value|before its push|before it was set|by nobody|"
     r"had been found|while there was a value|follow nothing|in a circle"),
    ("two primaries", r"has the primaries|its term overlaps|executed by a server that is|executed at a fenced server"),
    ("floors broken", r"has -?\d+ replicas"),
    ("lines that were not true", r"was not true when it was written"),
)
OTHERS = "other violations"
# How many violations are shown.
SHOWN = 20


def kind_of(fault: str) -> str:
    """What a violation is about."""
    return next((kind for kind, words in KINDS if re.search(words, fault)), OTHERS)


def counted(count: int, what: str) -> str:
    """A count of things, whose first word stands in the plural: 1 leader killed, 2 leaders killed."""
    first, space, rest = what.partition(" ")
    one = first.removesuffix("ies") + "y" if first.endswith("ies") else first.removesuffix("es") if first.endswith(("shes", "sses")) else first.removesuffix("s")
    return f"{count} {one if count == 1 else first}{space}{rest}"


def listed(counts: Mapping[str, int], is_wanted: Iterable[str] | None = None) -> str:
    """Counts in words."""
    return ", ".join(counted(count, what) for what, count in sorted(counts.items()) if count and (is_wanted is None or what in is_wanted)) or "none"


def seconds_of(times: list[float]) -> str:
    """Times in words."""
    return ", ".join(f"{it:.1f} s" for it in times) or "none"


def trust_lines(faults: list[str], counts: Mapping[str, int]) -> list[str]:
    """The violations by what they are about, with how much was looked at."""
    found = Counter(map(kind_of, faults))
    of = {"acknowledged writes lost": sum(counts[f"clients: {it} acknowledged"] for it in ("pushes", "sets", "comparisons")),
          "writes executed twice": counts["servers: execute"],
          "stale reads": sum(counts[f"clients: {it}"] for it in ("reads", "reads of texts", "reads of registers")),
          "lines that were not true": counts["servers: lines that were true"]}
    kinds = [f"{found[kind]} {kind}" + (f" (of {of[kind]:,})" if kind in of else "") for kind in (*(kind for kind, _ in KINDS), OTHERS)]
    return [f"verdict      {counted(len(faults), 'violations')}: {', '.join(kinds[:3])},", f"             {', '.join(kinds[3:])}"]


def service_line(gaps: Mapping[str, float]) -> str:
    """The longest time without service, by shard."""
    worst = sorted(gaps.items(), key=lambda it: -it[1])[:3]
    values = sorted(gaps.values())
    return f"a shard's longest time without service: median {1000 * at(values, 0.5):.0f} ms; the worst " + ", ".join(f"{gap:.1f} s ({shard})" for shard, gap in worst)


def situations_line(situations: Mapping[str, int]) -> str:
    """How many of the situations came up."""
    return f"{sum(bool(situations.get(it)) for it in SITUATIONS)} of {len(SITUATIONS)} situations came up (--details tells which)"
