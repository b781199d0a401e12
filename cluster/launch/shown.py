"""All that the published map has shown, from the history that etcd keeps. A compaction takes that away, so it is read before each."""
from __future__ import annotations

import json

from smplan.control import Line

from cluster.controllers.etcd import Entry, Etcd, encoded, end_of, entries_of

# By shard its entries, the first one first.
Shown = dict[str, list[Line]]
PREFIX = "/map/"


async def shown_at(etcd: Etcd, oldest: int, revision: int = 0) -> Shown:
    """The map's entries up to a revision (0: the present one), back to the oldest that etcd still has."""
    body = {"key": encoded(PREFIX), "range_end": encoded(end_of(PREFIX)), "revision": str(revision)}
    entries = entries_of(await etcd.post_again("/v3/kv/range", body))
    return {it.key.removeprefix(PREFIX): [json.loads(one.value) for one in await past_of(etcd, it, oldest)] for it in entries}


async def past_of(etcd: Etcd, entry: Entry, oldest: int) -> list[Entry]:
    """What a key was before, as far as etcd still knows it, and this entry at the end."""
    found = [entry]
    while found[0].version > 1 and found[0].revision - 1 >= oldest:
        (before,) = entries_of(await etcd.post_again("/v3/kv/range", {"key": encoded(entry.key), "revision": str(found[0].revision - 1)}))
        found.insert(0, before)
    return found


def add_shown(before: Shown, more: Shown) -> Shown:
    """What was read before a compaction, and what was read later: that begins with the last entry that was read before, or with newer ones."""
    return {shard: entries_behind(before.get(shard, []), more.get(shard, [])) for shard in {**before, **more}}


def entries_behind(before: list[Line], more: list[Line]) -> list[Line]:
    """Entries, and those of others that are not among them."""
    return [*before, *(more[1:] if before and more and more[0] == before[-1] else more)]
