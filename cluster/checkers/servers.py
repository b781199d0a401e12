"""What the servers did, told by their own histories, and by the journal's orders if they are given. Nothing that a
client saw is looked at.

`python3 -m cluster.checkers.servers --history FILE.. [--orders FILE --answered FILE --written FILE] [--expected FILE]
[--wants FILE] [--loads FILE] [--permits FILE] [--named FILE] [--gone FILE]`.
Histories are those of `python3 -m cluster.servers.history`. Orders are lines of orders as they were sent, answered are
lines of the journal with `"do":"answered"`, written are lines `{"t":T,"line":LINE,"reply":REPLY}` of all lines of the
journal, each with a moment at which it was there, expected is `{"s":{"a":"primary",..},..}` at the end, wants is
`{"s":FLOOR,..}`, the fewest replicas that a shard may have, loads is `{"s":LOAD,..}`, and permits are lines
`{"server":"a","t":T,"kind":"permit","down":true}` of restarts that were approved (at the latest then) or ended (at the
earliest then), and `{"server":"a","t":T,"kind":"lost"}` of servers that are given up. Named is `{"s":[BASE,..],..}`, the
reopenings that named a shard as lost; writes that are gone with that are written to gone, for the clients' checker. Exit
status 1 if anything is wrong.
"""
from __future__ import annotations

import argparse
import json
import sys
from collections import Counter, defaultdict
from dataclasses import dataclass, field
from typing import Iterable, Iterator

from .data import Data
from .truth import Past, Truth

STEP = 1 << 21
# A member that has been away for so many seconds is not waited for.
DEAD_AFTER = 3.0
REFUSALS = ("order-already-held", "order-not-held", "order-wrong-role", "order-no-room")
HELD = ("secondary", "primary", "forwarding", "prepared")

# The cells that a call leads to, by the call and the cell that it meets.
LEADS = {
    ("add", "absent"): {"primary", "secondary"}, ("add", "prepared"): {"primary"},
    ("drop", "prepared"): {"absent"}, ("drop", "secondary"): {"absent"},
    ("drop", "primary"): {"absent"}, ("drop", "forwarding"): {"absent"},
    ("change", "primary"): {"secondary"}, ("change", "secondary"): {"primary"},
    ("prepare_add", "absent"): {"prepared"}, ("prepare_drop", "primary"): {"forwarding"},
}


@dataclass
class At:
    """A shard at a server, as its history has told so far."""

    state: str = "absent"
    last: int = 0
    tenure: int = 0
    position: int = 0


@dataclass
class Host:
    """A server, as its history has told so far."""

    name: str
    base: int = 0
    is_known: bool = False
    is_fenced: bool = False
    is_down: bool = False
    is_lost: bool = False
    nonce: str | None = None
    # (what it told at its last fence: state, position and view by shard)
    told: dict[str, list] = field(default_factory=dict)
    settled: set[int] = field(default_factory=set)
    shards: dict[str, At] = field(default_factory=lambda: defaultdict(At))


@dataclass
class Shard:
    """A shard over all servers: the writes that stand, who has executed last, the last write that was acknowledged without
    a server, and the servers that have not followed since a reopening chose the primary: no write waits for them."""

    data: Data = field(default_factory=Data)
    executor: tuple[str, int] | None = None
    tenures: set[tuple[str, int]] = field(default_factory=set)
    alone: dict[str, int] = field(default_factory=dict)
    unjoined: set[str] = field(default_factory=set)


def copy_of(slot: list | None) -> tuple[int, int]:
    """The view and the position of a copy that was told."""
    return (slot[2], slot[1]) if slot else (0, 0)


class Checker:
    """Walks through all histories in the order of time."""

    def __init__(self, wants: dict[str, int], loads: dict[str, int] | None = None, named: dict[str, list[int]] | None = None) -> None:
        self.wants, self.loads, self.named = dict(wants), loads or {}, named or {}
        # (the writes that are gone with what a reopening named as lost)
        self.gone: list[dict] = []
        self.hosts: dict[str, Host] = {}
        self.shards: dict[str, Shard] = defaultdict(Shard)
        self.faults: list[str] = []
        self.commits: Counter[tuple[int, int, int, int]] = Counter()
        self.committed: dict[tuple[int, int, int], dict] = {}
        self.begun: dict[tuple[str, str, int], int] = {}
        # (by its stream the last order that was done, and when; and when each order began first)
        self.turns: dict[tuple[int, int, int], tuple[int, int]] = {}
        self.first_begins: dict[tuple[int, int, int, int], int] = {}
        # (by shard, the server that asked and its question: who gave leave)
        self.leaves: dict[tuple[str, str, int], set[str]] = defaultdict(set)
        self.counts: Counter[str] = Counter()
        self.epoch = self.begun_epoch = 0

    def fault(self, event: dict, text: str) -> None:
        """Notes what is wrong."""
        self.faults.append(f"{event['server']} {event.get('shard', '')} at {event['t']}: {text}")

    def walk(self, events: Iterable[dict]) -> None:
        """Looks at all events."""
        for event in sorted((it for it in events if "t" in it), key=lambda it: it["t"]):
            self.counts[event["kind"]] += 1
            host = self.hosts.setdefault(event["server"], Host(event["server"]))
            kind = "order-refused" if event["kind"] in REFUSALS else event["kind"]
            handler = getattr(self, "on_" + kind.replace("-", "_"), None)
            if handler is not None:
                handler(host, event)

    # -- a server's beginning, and its base

    def on_start(self, host: Host, event: dict) -> None:
        """It has started: with its slots, or Unknown and under a new nonce."""
        self.counts["start again with slots"] += event["known"]
        self.counts["start after a crash at work"] += event["at_work"] > 0
        self.counts["start with the proved library"] += event.get("library", False)
        if not event["known"]:
            self.clear(host)
            if event["nonce"] == host.nonce:
                self.fault(event, "a start under the nonce of before")
        host.nonce = event["nonce"]

    def on_forget(self, host: Host, event: dict) -> None:
        """It has turned Unknown."""
        self.clear(host)
        host.nonce = event["nonce"]

    def clear(self, host: Host) -> None:
        """It has no slots."""
        host.base, host.is_known, host.is_fenced = 0, False, False
        host.settled.clear()
        for at in host.shards.values():
            at.state, at.last, at.tenure = "absent", 0, at.tenure + 1

    def on_fence(self, host: Host, event: dict) -> None:
        """It is fenced: from now on it takes no order of before, and its handovers stand still."""
        if event["base"] <= host.base:
            self.fault(event, "a fence at or below its base")
        self.counts["fence at work"] += event["at_work"] > 0
        host.base, host.is_fenced, host.nonce, host.told = event["base"], True, event["nonce"], event["slots"] if host.is_known else {}
        self.epoch = max(self.epoch, event["base"])

    def on_settle(self, host: Host, event: dict) -> None:
        """It is settled, once for each fence."""
        if not host.is_fenced or event["base"] in host.settled:
            self.fault(event, "a settle that was taken twice, or without a fence")
        host.settled.add(event["base"])
        host.is_lost = False
        self.set_slots(host, event)

    def on_restore(self, host: Host, event: dict) -> None:
        """It is restored, for the nonce with which it asked."""
        if host.is_known or event["nonce"] != host.nonce:
            self.fault(event, "a restore that it did not ask for")
        self.set_slots(host, event)

    def set_slots(self, host: Host, event: dict) -> None:
        """It has the slots that were brought."""
        host.base, host.is_known, host.is_fenced = event["base"], True, False
        for other in self.hosts.values():  # (who was not fenced for this epoch was given up, or is carried over as it is: down under a permit)
            if event["kind"] == "settle" and other.base < event["base"] and (other.is_lost or not other.is_down):
                self.clear(other)
        for name in set(host.shards) | set(event["slots"]):
            at, brought = host.shards[name], event["slots"].get(name)
            state = brought[0] if brought else "absent"
            if at.state != state or state != "primary":
                at.tenure += 1
            at.state = state
            at.position = brought[1] if brought else 0
            is_successor = state == "primary" and event["kind"] == "settle"
            if is_successor and self.shards[name].executor not in (None, (host.name, at.tenure)):
                self.inherit(host, event, name, at.position)
        self.look_at_primaries(event, event["slots"])

    def inherit(self, host: Host, event: dict, name: str, position: int) -> None:
        """A reopening makes another server the primary, and writes behind its copy are gone. If it names the shard as lost, these may be writes that
        were acknowledged while that server was away."""
        shard = self.shards[name]
        for other in self.hosts.values():
            if other.base == host.base and copy_of(other.told.get(name)) > copy_of(host.told.get(name)):
                self.fault(event, f"it inherits {name}, of which {other.name} has told a greater copy")
        acknowledged = shard.alone.get(host.name, 0)
        is_lost = shard.executor is not None and self.hosts[shard.executor[0]].is_lost
        self.counts["primaries lost without a name"] += is_lost and event["base"] not in self.named.get(name, ())
        if event["base"] in self.named.get(name, ()):
            last = shard.data.length if host.name in shard.unjoined else acknowledged
            writes = shard.data.writes[position:last]
            self.gone += [{"t": event["t"], "shard": name, "key": key, "identity": identity, "value": rest[0] if rest else ""}
                          for identity, (_, key, *rest) in writes]
            self.counts["writes gone that were named as lost"] += len(writes)
        elif position < acknowledged:
            self.fault(event, f"it goes on from write {position} of {name}, {acknowledged} were acknowledged, and nobody named it as lost")
        shard.alone = {it: min(count, position) for it, count in shard.alone.items()}
        shard.unjoined = set(self.hosts) - {host.name}
        shard.data.cut_back(position)

    def look_at_epoch(self, event: dict) -> None:
        """With the first order behind a reopening everybody is settled: each shard has as many replicas as it may have at least."""
        if event["number"] // STEP > self.begun_epoch:
            self.begun_epoch = event["number"] // STEP
            for shard in self.wants:
                self.look_at_floor(event, shard)

    # -- orders

    def on_begin(self, host: Host, event: dict) -> None:
        """Work begins: it has to end with all writes that were executed by now."""
        self.look_at_epoch(event)
        self.first_begins.setdefault((event["number"] // STEP, event["plan"], event["stream"], event["number"]), event["t"])
        self.begun[(host.name, event["shard"], event["number"])] = self.shards[event["shard"]].data.length

    def on_commit(self, host: Host, event: dict) -> None:
        """An order has its effect. At a server that was given up, and does not know, that is nobody's concern as long as it serves nobody."""
        if host.is_lost and host.base < self.epoch:
            self.counts["orders done at servers that were given up"] += 1
            return
        shard, at, number = event["shard"], host.shards[event["shard"]], event["number"]
        key = (number // STEP, event["plan"], event["stream"], number)
        self.commits[key] += 1
        if self.commits[key] > 1:
            self.fault(event, f"order {number} has its effect again")
        self.committed[key[1:]] = event
        if number <= max(at.last, host.base):
            self.fault(event, f"order {number} has its effect behind {max(at.last, host.base)}")
        if not host.is_known or host.is_fenced:
            self.fault(event, "an order has its effect at a server that is fenced or Unknown")
        if event["state"] not in LEADS.get((event["call"], at.state), ()):
            self.fault(event, f"{event['call']} makes {at.state} {event['state']}")
        self.look_at_copy(host, event, at.state)
        self.look_at_turn(event)
        self.look_at_leave(host, event)
        if event["state"] in ("absent", "forwarding", "secondary") or at.state in ("absent", "secondary"):
            at.tenure += 1
        at.state, at.last, at.position = event["state"], number, event["position"]
        self.look_at_room(host, event)
        self.look_at_primaries(event, [shard])
        if event["state"] == "absent":
            self.look_at_floor(event, shard)

    def on_leave(self, host: Host, event: dict) -> None:
        """It gives another server leave to drop a shard."""
        self.leaves[event["shard"], event["to"], event["question"]].add(host.name)

    def look_at_leave(self, host: Host, event: dict) -> None:
        """Who drops a shard that others have as well has got leave for that."""
        if event["call"] == "drop" and set(event.get("replicas") or ()) - {host.name}:
            self.counts["drops with leave"] += 1
            if not self.leaves[event["shard"], host.name, event["leave"]]:
                self.fault(event, f"it drops {event['shard']} without leave")

    def look_at_room(self, host: Host, event: dict) -> None:
        """The loads of all that a server has fit into its room, and so does what it says that they are."""
        used = sum(self.loads.get(name, 0) for name, at in host.shards.items() if at.state != "absent")
        if max(used, event["used"]) > event["room"]:
            self.fault(event, f"{max(used, event['used'])} is more than the room of {event['room']}")

    def look_at_turn(self, event: dict) -> None:
        """The orders of a stream are done one after the other: the next one begins when the one before is done, as its answer lets it be sent."""
        stream = (event["number"] // STEP, event["plan"], event["stream"])
        first = self.first_begins.get((*stream, event["number"]), event["t"])
        before, done = self.turns.get(stream, (0, 0))
        if event["number"] > before and first < done:
            self.fault(event, f"order {event['number']} began before order {before} of its stream was done")
        self.turns[stream] = max(self.turns.get(stream, (0, 0)), (event["number"], event["t"]))

    def on_order_refused(self, host: Host, event: dict) -> None:
        """An order fits nothing that the server has; one that is late would be old."""
        self.fault(event, f"order {event['number']} is refused")

    def look_at_copy(self, host: Host, event: dict, before: str) -> None:
        """Who begins to have a shard, or to serve it, has all writes that were executed when the order's work began."""
        needed = self.begun.pop((host.name, event["shard"], event["number"]), 0)
        is_empty = event["call"] == "add" and before == "absent" and event["state"] == "primary"
        if is_empty:
            self.shards[event["shard"]].data.cut_back(0)
        elif event["state"] in ("prepared", "secondary", "primary") and event["position"] < min(needed, self.shards[event["shard"]].data.length):
            self.fault(event, f"{event['call']} has its effect with {event['position']} writes of {needed}")

    def look_at_primaries(self, event: dict, shards: Iterable[str]) -> None:
        """No shard has two primaries."""
        for shard in shards:
            primaries = [it.name for it in self.hosts.values() if it.shards[shard].state == "primary"]
            if len(primaries) > 1:
                self.fault(event, f"{shard} has the primaries {' and '.join(sorted(primaries))}")

    def on_permit(self, host: Host, event: dict) -> None:
        """It may be down from now on, or no longer."""
        host.is_down = event["down"]
        for shard in [name for name, at in host.shards.items() if at.state != "absent"]:
            self.look_at_floor(event, shard)

    def on_lost(self, host: Host, event: dict) -> None:
        """It is given up: each shard that it has, or has a part of, may have one replica less from now on."""
        host.is_lost = True
        for shard, at in host.shards.items():
            if at.state != "absent" and shard in self.wants:
                self.wants[shard] -= 1

    def look_at_floor(self, event: dict, shard: str) -> None:
        """No shard has fewer replicas at servers that may not be down, are not given up and have their slots than it may have. The two of a handover are one."""
        states = Counter(it.shards[shard].state for it in self.hosts.values() if it.is_known and not it.is_down and not it.is_lost)
        count = states["secondary"] + (states["primary"] or states["forwarding"])
        if count < self.wants.get(shard, 0):
            self.fault(event, f"{shard} has {count} replicas")

    # -- requests

    def on_alone(self, host: Host, event: dict) -> None:
        """A write was acknowledged without some members: each has been away for so long that nobody waits for it."""
        for name, seconds in event["without"].items():
            if seconds < DEAD_AFTER - 0.01:
                self.fault(event, f"write {event['position']} was acknowledged without {name}, which had been away for {seconds:.1f} s")
            alone = self.shards[event["shard"]].alone
            alone[name] = max(alone.get(name, 0), event["position"])

    def on_joined(self, host: Host, event: dict) -> None:
        """A server follows the shard: from now on writes wait for it."""
        self.shards[event["shard"]].unjoined.discard(event["follower"])

    def on_execute(self, host: Host, event: dict) -> None:
        """A write was executed: it is the next one of its shard, and its identity is new."""
        self.look_at_term(host, event)
        text = self.shards[event["shard"]].data.add(event["position"], event["identity"], tuple(event["command"]))
        if text is not None:
            self.fault(event, text)
        host.shards[event["shard"]].position = event["position"]

    def on_read(self, host: Host, event: dict) -> None:
        """A read was executed."""
        self.look_at_term(host, event)

    def look_at_term(self, host: Host, event: dict) -> None:
        """Who executes may do so, and nobody whose term has ended executes again."""
        at, shard = host.shards[event["shard"]], self.shards[event["shard"]]
        if at.state not in ("primary", "prepared") or (at.state == "prepared" and not event["passed"]):
            self.fault(event, f"a request is executed by a server that is {at.state}")
        if host.is_fenced and at.state == "prepared":
            self.fault(event, "a request of a handover is executed at a fenced server")
        term = (host.name, at.tenure)
        if term != shard.executor and term in shard.tenures:
            self.fault(event, f"its term overlaps with that of {shard.executor[0]}")
        shard.executor = term
        shard.tenures.add(term)

    # -- the end

    def look_at_data(self, lines: Iterable[dict]) -> None:
        """Each replica has in the end what all writes make."""
        for line in lines:
            host = self.hosts.get(line["server"])
            if host is None or not line["known"] or line["base"] < self.epoch or line["state"] not in ("primary", "secondary"):
                continue
            self.counts["replicas compared"] += 1
            data = self.shards[line["shard"]].data
            wrong = data.difference(line["position"], line["values"]) or (f"it has {line['position']} writes of {data.length}" if line["position"] < data.length else None)
            if wrong:
                self.faults.append(f"{line['server']} {line['shard']} in the end: {wrong}")

    def look_at_orders(self, orders: Iterable[dict], answered: Iterable[dict]) -> None:
        """Each order that the journal has as answered had its effect, at its server, and nothing else had."""
        calls = {(it["plan"], it["stream"], it["number"]): it for it in orders if it["call"] != "publish"}
        for line in answered:
            key = (line["plan"], line["stream"], line["number"])
            order, event = calls.get(key), self.committed.get(key)
            if order is None:
                continue
            self.counts["answers compared"] += 1
            if event is None or (event["server"], event["shard"], event["call"]) != (order["server"], order["shard"], order["call"]):
                self.faults.append(f"order {key} was answered, and {order['server']} has not done it")
        for key in self.committed:
            if calls and key not in calls:
                self.faults.append(f"order {key} was done, and nobody sent it")

    def look_at_end(self, expected: dict[str, dict[str, str]], lines: list[dict]) -> None:
        """The end placement."""
        found: dict[str, dict[str, str]] = defaultdict(dict)
        for line in lines:
            if line["known"] and line["base"] >= self.epoch and line["state"] in HELD:
                found[line["shard"]][line["server"]] = line["state"]
        for shard in sorted(set(expected) | set(found)):
            if expected.get(shard, {}) != found.get(shard, {}):
                self.faults.append(f"{shard} is in the end at {found.get(shard, {})}, and is to be at {expected.get(shard, {})}")


def lines_of(paths: Iterable[str]) -> Iterator[dict]:
    """The JSON lines of files."""
    for path in paths:
        with open(path, encoding="utf-8") as lines:
            yield from map(json.loads, lines)


def main() -> int:
    """The command line."""
    parser = argparse.ArgumentParser(prog="cluster.checkers.servers", description="Checks what servers did.")
    parser.add_argument("--history", nargs="+", required=True)
    parser.add_argument("--orders")
    parser.add_argument("--answered")
    parser.add_argument("--written")
    parser.add_argument("--expected")
    parser.add_argument("--wants")
    parser.add_argument("--loads")
    parser.add_argument("--permits")
    parser.add_argument("--named")
    parser.add_argument("--gone")
    told = parser.parse_args()
    checker = Checker(*(json.load(open(it, encoding="utf-8")) if it else {} for it in (told.wants, told.loads, told.named)))
    lines = list(lines_of(told.history))
    data = [it for it in lines if it["kind"] == "data"]
    checker.walk([*lines, *(lines_of([told.permits]) if told.permits else ())])
    checker.look_at_data(data)
    if told.orders and told.answered:
        answered = (it for it in lines_of([told.answered]) if it.get("do", "answered") == "answered")
        checker.look_at_orders(lines_of([told.orders]), answered)
    if told.orders and told.written:
        truth = Truth(Past.of(lines), lines_of([told.orders]))
        for it in lines_of([told.written]):
            truth.look(it["line"], it["reply"], it["t"])
        checker.faults += truth.faults
        checker.counts += truth.counts
    if told.expected:
        checker.look_at_end(json.load(open(told.expected, encoding="utf-8")), data)
    if told.gone:
        with open(told.gone, "w", encoding="utf-8") as file:
            file.writelines(json.dumps(it) + "\n" for it in checker.gone)
    for fault in checker.faults:
        print(fault)
    print(json.dumps({"violations": len(checker.faults), **checker.counts}))
    return 1 if checker.faults else 0


if __name__ == "__main__":
    sys.exit(main())
