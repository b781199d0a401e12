"""Which situations came up in a run, from histories, replies and counts. A storm counts in how many runs each did."""
from __future__ import annotations

from bisect import bisect_left
from collections import Counter, defaultdict
from collections.abc import Iterable

# Every situation that a storm is to meet.
SITUATIONS = (
    "an order answered again after its stream went on", "an order answered old", "a restore that comes late",
    "a restore of an earlier restart that comes late",
    "a restore behind a late fence", "a second restarted",
    "a passed request after its handover ended", "an append that timed out and went through", "a map write of a deposed leader",
    "a repetition while work runs", "a repetition while a copy runs", "a server that crashed without leave",
    "a leader killed between an order and its answer's entry",
    "a leader killed between an entry and its write of the map", "a fence that meets an order at work", "a crash while at work", "a late fence",
    "a late inventory",
    "a late settle", "a second reopening in place of one under way", "a server lost between fence and settle",
    "a late publication after a reopening", "a failover",
    "a restart amid a reopening", "a server carried over a reopening", "a server left behind a reopening", "a primary lost while replicas lag",
    "a primary lost while a restarted replica catches up", "a new owner lost behind the cut",
    "a server lost while another replica was away", "a disk replaced", "a disk replaced under a permit",
    "a full disk", "a slow disk", "a log cut to its last sync", "a server stopped", "two servers stopped",
    "answers of a server lost", "a server cut off from all but clients", "a server in a black hole", "two servers at once", "all servers at once",
    "all controllers at once", "all of etcd at once",
    "no quorum of etcd", "etcd's leader killed", "etcd's leader stopped", "etcd's answers to a leader lost", "etcd's history compacted",
    "a line that is too large", "a handover that clients did not hear of", "a write acknowledged while a member was away",
    "a primary was lost and its shard was not named",
)
# What the story itself counts.
TOLD = {
    "a server carried over a reopening": "servers carried over a reopening", "a primary lost while replicas lag": "primaries lost while replicas lag",
    "a primary lost while a restarted replica catches up": "primaries lost while a restarted replica catches up", "a disk replaced": "disks replaced",
    "a server lost while another replica was away": "servers lost while another replica was away", "two servers stopped": "stops of two servers at once",
    "a full disk": "servers whose disk was full", "a slow disk": "stores stopped", "a server stopped": "servers stopped",
    "answers of a server lost": "servers whose answers were lost", "a server cut off from all but clients": "servers cut off from all but clients",
    "a server in a black hole": "servers in a black hole",
    "a log cut to its last sync": "logs cut to their last sync",
    "a disk replaced under a permit": "disks replaced under a permit",
    "two servers at once": "crashes of two servers at once", "all servers at once": "crashes of all servers at once",
    "all controllers at once": "crashes of all controllers at once", "all of etcd at once": "crashes of all of etcd at once",
    "no quorum of etcd": "times without a quorum of etcd", "etcd's leader killed": "leaders of etcd killed",
    "etcd's leader stopped": "leaders of etcd stopped",
    "etcd's history compacted": "compactions of etcd", "a line that is too large": "lines that were too large",
    "etcd's answers to a leader lost": "leaders without etcd's answers",
    "a handover that clients did not hear of": "handovers unheard by clients",
}
# What a deposed leader does to the map, as controllers and the story count it.
DEPOSED = ("publications of one that does not lead", "map writes of one that does not lead", "map writes that a deposed leader had sent")
# Which orders copy a shard. (one that only takes it over is done in no time)
COPYING = ("prepare_add", "add")


def at_work(events: Iterable[dict]) -> Counter[str]:
    """Fences and crashes that met an order at work, by the histories."""
    found: Counter[str] = Counter()
    working: dict[str, set[tuple[str, int]]] = defaultdict(set)
    for event in events:
        server, kind = event["server"], event["kind"]
        key = (event.get("shard", ""), event.get("number", 0))
        if kind == "begin":
            working[server].add(key)
        elif kind in ("commit", "abandon"):
            working[server].discard(key)
        elif kind in ("fence", "start", "forget"):
            found["a fence that meets an order at work" if kind == "fence" else "a crash while at work"] += len(working[server])
            working[server].clear()
    return found


def answered_again(events: list[dict]) -> int:
    """How many orders came again after their streams had gone on."""
    streams: dict[tuple[int, int, int], list[float]] = defaultdict(list)
    done: dict[tuple[str, str, int], tuple[tuple[int, int, int], float]] = {}
    for event in events:
        if event["kind"] == "commit":
            stream = (event["number"] >> 21, event["plan"], event["stream"])
            # (orders of two streams may have one number, but not at one server for one shard)
            done.setdefault((event["server"], event["shard"], event["number"]), (stream, event["t"]))
            streams[stream].append(event["t"])
    found = 0
    for event in events:
        key = (event["server"], event.get("shard", ""), event.get("number", 0))
        if event["kind"] == "order-again" and key in done:
            stream, own = done[key]
            found += bisect_left(streams[stream], event["t"]) > streams[stream].index(own) + 1
    return found


def earlier_restores(events: list[dict]) -> int:
    """How many restores came that an earlier start of their server had asked for. A fence makes one more nonce for the start in which it comes."""
    earlier: dict[str, set[int]] = defaultdict(set)
    present: dict[str, set[int]] = defaultdict(set)
    found = 0
    for event in events:
        server, nonce = event["server"], int(event.get("nonce") or "0", 16)
        if event["kind"] in ("start", "forget"):
            earlier[server] |= present[server]
            present[server] = {nonce}
        elif event["kind"] == "fence":
            present[server].add(nonce)
        elif event["kind"] == "restore-ignored":
            found += nonce in earlier[server] - {0}
    return found


def restores_behind_fences(events: list[dict]) -> int:
    """How many servers without slots were fenced, and then restored and not settled."""
    fenced: set[str] = set()
    found = 0
    for event in events:
        server = event["server"]
        if event["kind"] == "fence" and int(event["nonce"], 16):
            fenced.add(server)
        elif event["kind"] in ("start", "forget", "settle", "restore"):
            found += event["kind"] == "restore" and server in fenced
            fenced.discard(server)
    return found


def amid_reopenings(events: list[dict]) -> int:
    """How many servers started between the first fence and the last settle of a reopening."""
    first: dict[int, float] = {}
    last: dict[int, float] = {}
    for event in events:
        if event["kind"] == "fence":
            first.setdefault(event["base"], event["t"])
        elif event["kind"] == "settle":
            last[event["base"]] = event["t"]
    return sum(any(begin < it["t"] < last.get(base, begin) for base, begin in first.items()) for it in events if it["kind"] == "start")


def lost_behind_cut(events: list[dict]) -> int:
    """How many servers ended for good when they had executed requests of a handover that were passed on, and had not become primary yet."""
    prepared: dict[str, set[str]] = defaultdict(set)
    executed: dict[str, set[str]] = defaultdict(set)
    for event in events:
        server, kind = event["server"], event["kind"]
        if kind == "commit":
            executed[server].discard(event["shard"])
            (set.add if event["state"] == "prepared" else set.discard)(prepared[server], event["shard"])
        elif kind == "execute" and event.get("passed") and event["shard"] in prepared[server]:
            executed[server].add(event["shard"])
        elif kind in ("forget", "settle", "restore") or (kind == "start" and not event["known"]):
            executed[server].clear()
            prepared[server].clear()
    return sum(bool(it) for it in executed.values())


def situations_of(events: list[dict], replies: Counter[str], counts: Counter[str]) -> Counter[str]:
    """How often each situation came up."""
    ordered = sorted((it for it in events if "t" in it), key=lambda it: it["t"])
    kinds = Counter(it["kind"] for it in ordered)
    found = at_work(ordered)
    found["an order answered again after its stream went on"] = answered_again(ordered)
    found["an order answered old"] = kinds["order-old"]
    found["a restore that comes late"] = kinds["restore-ignored"]
    found["a restore of an earlier restart that comes late"] = earlier_restores(ordered)
    found["a restore behind a late fence"] = restores_behind_fences(ordered)
    found["a second restarted"] = replies["restarted: ignored"]
    found["a passed request after its handover ended"] = kinds["passed-late"]
    found["an append that timed out and went through"] = counts["appends that went through unanswered"]
    found["a map write of a deposed leader"] = sum(counts[it] for it in DEPOSED)
    found["a repetition while work runs"] = kinds["order-at-work"]
    found["a repetition while a copy runs"] = sum(it["kind"] == "order-at-work" and it["call"] in COPYING for it in ordered)
    found["a server that crashed without leave"] = counts["servers killed without leave"]
    found["a leader killed between an order and its answer's entry"] = counts["leaders killed with orders outstanding"]
    found["a leader killed between an entry and its write of the map"] = counts["leaders killed in a write of the map"]
    found["a late fence"] = kinds["fence-ignored"] + kinds["fence-again"]
    found["a late inventory"] = replies["fenced: ignored"]
    found["a late settle"] = kinds["settle-again"] + kinds["settle-ignored"] + replies["settled: ignored"]
    found["a second reopening in place of one under way"] = counts["reopenings replaced"]
    found["a server lost between fence and settle"] = counts["servers lost between fence and settle"]
    found["a late publication after a reopening"] = (
        counts["publications old"] + counts["publications not_ready"] + counts["writes of the map refused behind a fence"])
    found["a failover"] = counts["failovers"]
    found["a restart amid a reopening"] = amid_reopenings(ordered)
    found["a server left behind a reopening"] = kinds["forget"]
    found["a new owner lost behind the cut"] = lost_behind_cut(ordered)
    found["a write acknowledged while a member was away"] = kinds["alone"]
    found["a primary was lost and its shard was not named"] = counts["servers: primaries lost without a name"]
    found.update({what: counts[told] for what, told in TOLD.items()})
    return +found
