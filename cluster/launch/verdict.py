"""What is looked at when a run has ended: the journal played again, audits, the map, and the two checkers."""
from __future__ import annotations

import asyncio
import json
import os
from collections import Counter
from dataclasses import dataclass, field
from pathlib import Path

from smplan.control import Line, Session

from cluster.controllers.etcd import Etcd, end_of
from cluster.controllers.fleet import from_wire
from cluster.controllers.journal import PREFIX
from cluster.wire import Address, Channel, Failed

from .cluster import ENVIRONMENT, PYTHON, LocalCluster
from .operator import Operator
from .shown import Shown, add_shown, shown_at


# A line that nobody saw in time.
NEVER = 1 << 63


@dataclass
class Verdict:
    """The faults that were found, and what was counted."""

    faults: list[str] = field(default_factory=list)
    counts: Counter[str] = field(default_factory=Counter)
    replies: Counter[str] = field(default_factory=Counter)

    def need(self, holds: bool, text: str) -> None:
        """Notes a fault unless something holds."""
        if not holds:
            self.faults.append(text)

    def take(self, name: str, lines: list[str], errors: str) -> None:
        """Takes what a checker printed: a line for each violation, and one with sums. Without sums it did not come to its end."""
        short = name.rpartition(".")[2]
        try:
            sums = json.loads(lines[-1])
        except (IndexError, ValueError):
            self.faults.append(f"{name} failed: {errors[-300:]}")
            return
        self.counts.update({f"{short}: {what}": count for what, count in sums.items() if isinstance(count, int)})
        self.faults += [f"{short}: {it}" for it in lines[:-1]]


@dataclass
class Evidence:
    """What a run knows beside what its processes tell: the servers that are not given up, the fewest replicas that each shard may have, when servers
    were down or given up, and when each line of the journal, by its key, was seen first."""

    alive: list[str]
    floors: dict[str, int]
    permits: list[Line]
    seen: dict[str, int]
    # What the map had shown when etcd's history was compacted last, and at which revision that was.
    shown: Shown = field(default_factory=dict)
    compacted_at: int = 0
    # Whether the run breaks the rules' premises, so that controllers have to give an alarm.
    is_outside: bool = False


@dataclass
class Journal:
    """A journal played again: its lines, the orders that it sent, and how it stands."""

    lines: list[str]
    told: list[Line] = field(default_factory=list)
    orders: list[Line] = field(default_factory=list)
    replies: Counter[str] = field(default_factory=Counter)
    state: Line = field(default_factory=dict)
    shown: list[Line] = field(default_factory=list)
    audits: dict[str, Line] = field(default_factory=dict)


async def read_journal(cluster: LocalCluster) -> dict[str, str]:
    """Reads the journal from etcd, without proxies: its lines by their keys, in their order."""
    etcd = Etcd([("127.0.0.1", port) for _, port in cluster.members], timeout=5.0)
    lines: dict[str, str] = {}
    after = PREFIX
    while found := await etcd.range(after, end_of(PREFIX), limit=500):
        lines |= {it.key: it.value for it in found}
        after = found[-1].key + "0"
    await etcd.close()
    return lines


async def play(program: list[str], lines: list[str], audits: dict[str, Line]) -> Journal:
    """Feeds a journal to a new session, and asks it what it has."""
    journal = Journal(lines)
    session = await Session.start(program)
    for text, reply in [(text, session.feed(text)) for text in lines]:
        told = await reply
        journal.told.append(told)
        journal.orders += told.get("orders", [])
        journal.replies[f"{json.loads(text).get('do')}: {next(it for it in told if it != 'id')}"] += 1
    journal.state = (await session.ask({"do": "state"}))["state"]
    # (there is no map before the first opening, where a planted bug may have lost that)
    journal.shown = (await session.ask({"do": "map"})).get("map", [])
    for server, told in audits.items():
        slots = [from_wire(it) for it in told["slots"]]
        journal.audits[server] = await session.ask({"do": "audit", "server": server, "place": journal.state["place"], "slots": slots})
    await session.close()
    return journal


async def look_at_reference(verdict: Verdict, reference: list[str] | None, journal: Journal) -> None:
    """The reference says the same to each line of the journal as the session that decided."""
    if reference is None:
        return
    again = await play(reference, journal.lines, {})
    wrong = [place for place, (told, other) in enumerate(zip(journal.told, again.told), 1) if told != other]
    verdict.need(not wrong, f"the reference replies otherwise to {len(wrong)} lines of the journal, the first of them line {wrong[0] if wrong else 0}")
    verdict.need(again.state == journal.state, "the reference has another state in the end")
    verdict.counts["replies compared with the reference"] += len(journal.told)


async def audits_of(cluster: LocalCluster, servers: list[str]) -> dict[str, Line]:
    """Asks servers for all their slots, without proxies."""
    return dict(zip(servers, await asyncio.gather(*(audit_of(cluster.ports[it].control) for it in servers))))


async def audit_of(port: int, tries: int = 4) -> Line:
    """Asks a server for all its slots, again if it is slow to answer."""
    channel, why = Channel(Address("127.0.0.1", port)), ""
    try:
        for _ in range(tries):
            try:
                return (await channel.ask(5.0, audit={}))["audit"]
            except Failed as failed:
                why = str(failed)
                await asyncio.sleep(0.2)
        return {"slots": [], "known": False, "failed": why}
    finally:
        channel.close()


async def map_of(cluster: LocalCluster, before: Shown, oldest: int) -> Shown:
    """Reads the published map from etcd, with what was read of it before etcd's history was compacted."""
    etcd = Etcd([("127.0.0.1", port) for _, port in cluster.members], timeout=5.0)
    try:
        return add_shown(before, await shown_at(etcd, oldest))
    finally:
        await etcd.close()


def look_at_servers(verdict: Verdict, journal: Journal, audits: dict[str, Line]) -> None:
    """Each server has what the journal says of it."""
    verdict.need(journal.state.get("is") == "open", "no epoch is in force in the end")
    running = [it["name"] for it in journal.state.get("plans", []) if it["is"] == "running"]
    verdict.need(not running, f"plans that have not come to their end: {', '.join(running)}")
    names = {it["server"] for it in journal.state.get("servers", [])}
    for server in sorted(names):
        told, audit = audits.get(server, {}), journal.audits.get(server, {}).get("audit", {})
        verdict.need(told.get("known", False) and not told.get("fenced"), f"{server} is Unknown or fenced in the end: {told.get('failed', '')}")
        verdict.need(audit.get("is") == "agrees", f"the audit of {server}: {json.dumps(journal.audits.get(server))}")
        verdict.counts["servers audited"] += 1


def look_at_map(verdict: Verdict, journal: Journal, shown: dict[str, list[Line]]) -> None:
    """The map shows in the end what the journal says, never showed anything that the journal did not say, and never went back."""
    for entry in journal.shown:
        found = shown.get(entry["shard"], [])
        last = (found[-1]["to"], found[-1]["version"]) if found else (None, None)
        verdict.need(last == (entry["to"], entry["version"]), f"the map names {last[0]} for {entry['shard']} by {last[1]}, and is to name {entry['to']} by {entry['version']}")
        verdict.counts["map entries compared"] += 1
    said = entries_said(journal.told)
    for shard, entries in shown.items():
        versions = [it["version"] for it in entries]
        verdict.need(versions == sorted(set(versions)), f"the map's entry of {shard} went back: {versions}")
        for entry in entries:
            verdict.need((shard, entry["to"], entry["version"]) in said, f"the map named {entry['to']} for {shard} by {entry['version']}, which nobody said")
        verdict.counts["map writes compared"] += len(versions)


def entries_said(told: list[Line]) -> set[tuple[str, str | None, int]]:
    """All entries that replies said are to be shown: by orders to publish, and by settles of the map's owner."""
    orders = [it for reply in told for it in reply.get("orders", []) if it["call"] == "publish"]
    settled = [it for reply in told for settle in reply.get("settle") or [] if settle["server"] is None for it in settle["entries"]]
    return {(it["shard"], it["to"], it["version"]) for it in (*orders, *settled)}


def false_alarms(page: Line) -> list[str]:
    """The alarms that a controller gave, if nothing was wrong. (After a loss a replica may have writes that were never acknowledged, and that its
    source lacks. A disk that was replaced has no data.)"""
    return [it for it in page.get("given", []) if " lacks writes: " not in it and " no data: " not in it]


async def look_at_replicas(verdict: Verdict, operator: Operator, journal: Journal, is_outside: bool) -> None:
    """The controllers' sessions say the same as one that is fed the journal anew, and no controller gave a false alarm."""
    for name in operator.pages:
        page = await operator.post(name, "/state", None) or {}
        verdict.need(is_outside or not false_alarms(page), f"{name} gave a false alarm: {'; '.join(false_alarms(page))}")
        verdict.counts.update({it: count for it, count in page.get("counts", {}).items() if " " in it})
        reply = await operator.post(name, "/ask", {"do": "state"})
        state = (reply or {}).get("state", {})
        if state.get("place") == journal.state["place"]:
            verdict.need(state == journal.state, f"{name} has another state than the journal")
            verdict.counts["controllers compared"] += 1


def expected_of(state: Line) -> dict[str, dict[str, str]]:
    """The end placement, as the servers' checker wants it."""
    return {it["shard"]: {cell["server"]: cell["state"] for cell in it["cells"]} for it in state.get("shards", [])}


def named_as_lost(journal: Journal) -> dict[str, list[int]]:
    """By shard the numbers of the reopenings that were confirmed and named it as lost: what was acknowledged while a replica was away may be gone."""
    named: dict[str, list[int]] = {}
    for text, reply in zip(journal.lines, journal.told):
        line = json.loads(text)
        for shard in line.get("lost") or () if line["do"] == "confirm" and "settle" in reply else ():
            named.setdefault(shard, []).append(line["base"])
    return named


def write_lines(path: Path, lines: list[str]) -> Path:
    """Writes lines to a file."""
    path.write_text("".join(f"{it}\n" for it in lines), encoding="utf-8")
    return path


async def run_checker(verdict: Verdict, name: str, directory: Path, *words: str) -> None:
    """Runs a checker, whose violations and sums become part of the verdict."""
    pipe = asyncio.subprocess.PIPE
    done = await asyncio.create_subprocess_exec(*PYTHON, name, *words, stdout=pipe, stderr=pipe, env={**os.environ, **ENVIRONMENT})
    out, err = await done.communicate()
    lines = out.decode().splitlines()
    write_lines(directory / f"{name}.txt", lines + err.decode().splitlines())
    verdict.take(name, lines, err.decode())


async def histories_of(cluster: LocalCluster) -> Path:
    """Prints the servers' histories, once they have ended."""
    path = cluster.directory / "histories.jsonl"
    names = cluster.shape.server_names
    folders = [str(it) for it in sorted(cluster.directory.iterdir()) if it.is_dir() and it.name.partition(".")[0] in names]
    with path.open("wb") as out:
        done = await asyncio.create_subprocess_exec(*PYTHON, "cluster.servers.history", *folders, stdout=out, env={**os.environ, **ENVIRONMENT})
        await done.wait()
    return path


def written_lines(journal: Journal, keys: list[str], seen: dict[str, int]) -> list[str]:
    """The lines of a journal, each with a moment at which it was there, and what it got as a reply that says something of servers."""
    told = [{it: reply[it] for it in ("approved", "up", "copied") if it in reply} for reply in journal.told]
    return [json.dumps({"t": seen.get(key, NEVER), "line": json.loads(text), "reply": reply}) for key, text, reply in zip(keys, journal.lines, told)]


async def judge(cluster: LocalCluster, operator: Operator, program: list[str], reference: list[str] | None, evidence: Evidence) -> Verdict:
    """Looks at everything. Ends the cluster's processes in between."""
    verdict = Verdict()
    audits = await audits_of(cluster, evidence.alive)
    entries = await read_journal(cluster)
    journal = await play(program, list(entries.values()), audits)
    shown = await map_of(cluster, evidence.shown, evidence.compacted_at)
    look_at_servers(verdict, journal, audits)
    look_at_map(verdict, journal, shown)
    await look_at_replicas(verdict, operator, journal, evidence.is_outside)
    verdict.replies = journal.replies
    verdict.counts["reopenings replaced"] = journal.replies["reopen: fence"] - journal.replies["settled: opened"]
    verdict.counts["lines of the journal"] = len(entries)
    verdict.counts["orders"] = len(journal.orders)
    await cluster.end()
    await look_at_reference(verdict, reference, journal)
    await run_checkers(verdict, cluster, journal, list(entries), evidence)
    return verdict


async def run_checkers(verdict: Verdict, cluster: LocalCluster, journal: Journal, keys: list[str], evidence: Evidence) -> None:
    """Writes down what the checkers read, and runs them."""
    where = cluster.directory
    write_lines(where / "journal.jsonl", journal.lines)
    write_lines(where / "replies.txt", [f"{count} {what}" for what, count in journal.replies.items()])
    documents = {"expected": expected_of(journal.state), "wants": evidence.floors, "loads": {it["shard"]: it["load"] for it in journal.state.get("shards", [])},
                 "named": named_as_lost(journal)}
    answered = [it for it in journal.lines if json.loads(it)["do"] == "answered"]
    lines = {"orders": [json.dumps(it) for it in journal.orders], "answered": answered, "written": written_lines(journal, keys, evidence.seen),
             "permits": [json.dumps(it) for it in evidence.permits]}
    words = [f"--history={await histories_of(cluster)}"]
    words += [f"--{name}={write_lines(where / f'{name}.json', [json.dumps(it)])}" for name, it in documents.items()]
    words += [f"--{name}={write_lines(where / f'{name}.jsonl', it)}" for name, it in lines.items()]
    gone = write_lines(where / "gone.jsonl", [])
    await run_checker(verdict, "cluster.checkers.servers", where, *words, f"--gone={gone}")
    await run_checker(verdict, "cluster.checkers.clients", where, str(where / "clients.jsonl"), f"--gone={gone}")
    if cluster.copies > 1:
        files = {"history": "histories", "clients": "clients", "written": "written", "permits": "permits"}
        await run_checker(verdict, "cluster.checkers.copies", where, f"--copies={cluster.copies}", *(f"--{it}={where / f'{name}.jsonl'}" for it, name in files.items()))
