"""A gate for restarts: may this machine go down now? It imports what is so anew for each question, asks `smplan`, and stores a yes before it tells it."""
from __future__ import annotations

import copy
import json
import re
import subprocess
import threading
import time
from concurrent.futures import ThreadPoolExecutor
from dataclasses import dataclass, field
from enum import Enum
from typing import Callable, Dict, List, Optional, Sequence, Set, Tuple

from . import program
from .failure import Failure
from .files import document_from
from .gate_state import Held, Store
from .import_groups import Names, document_of, values_in
from .import_kubernetes import Cluster, PodName, read_cluster
from .model import Json, document_of as model_of
from .reading import did_you_mean
from .repair import relaxed
from .reports import Report, read_report
from .restart import question, reason, shards_at

# Who has leave by an eviction. Nobody tells when its machine is back, so that is seen.
EVICTION = "eviction"
# The members of a document with which a gate would have to know which plans run.
RUNNING = ("plan", "plans", "events")


class Word(Enum):
    """What a gate answers: a fault is a no, since nobody could be asked."""

    YES = "yes"
    NO = "no"
    FAULT = "fault"


@dataclass(frozen=True)
class Answer:
    """A yes or a no, and why."""

    word: Word
    text: str

    @property
    def is_yes(self) -> bool:
        return self.word is Word.YES


@dataclass(frozen=True)
class Sources:
    """The commands that tell what is so: each prints a document, or Kubernetes' objects."""

    documents: Sequence[str]
    kubernetes: Optional[str] = None
    primary: Optional[str] = None
    names: Names = Names()
    limit: Optional[int] = None
    timeout: float = 8.0


@dataclass(frozen=True)
class World:
    """What is so now: a document, and what Kubernetes tells beside it."""

    document: Json
    cluster: Optional[Cluster] = None
    cordoned: Set[str] = field(default_factory=set)

    def servers(self) -> Dict[str, Json]:
        return {it["name"]: it for it in self.document["servers"]}


# ---- what is so

def output_of(command: str, timeout: float) -> str:
    """Returns what a command prints, or fails."""
    try:
        done = subprocess.run(["/bin/sh", "-c", command], stdin=subprocess.DEVNULL, capture_output=True, timeout=timeout, check=False)
    except subprocess.TimeoutExpired:
        raise Failure(f"'{command}' has printed nothing whole within {timeout:g} s", 3) from None
    if done.returncode:
        told = done.stderr.decode(errors="replace").strip()[-300:]
        raise Failure(f"'{command}' ended with {done.returncode}" + (f": {told}" if told else ""), 3)
    return done.stdout.decode(errors="replace")


def checked(value: Json, command: str) -> Json:
    """Returns a document of a command, or fails with its first fault."""
    document_from(value, f"'{command}'")
    running = [it for it in RUNNING if value.get(it)]
    if running:
        raise Failure(f"'{command}' prints a document with '{running[0]}': ask its controller for leave, which knows the plans that run")
    return value


def free_name(name: str, taken: Set[str]) -> str:
    """Returns a shard's name, with a number if another source has it."""
    names = (name if number == 1 else f"{name[:28]}.{number}" for number in range(1, len(taken) + 2))
    return next(it for it in names if it not in taken)


def merged(documents: Sequence[Json], names: Names, limit: Optional[int]) -> Json:
    """Returns one document of several, with the servers of all, and all shards. A replica at a server that its own document has down does not live. Loads
    and the map do not matter to a restart, and are left out."""
    servers: Dict[str, Json] = {}
    shards: List[Json] = []
    for document in documents:
        down = {it["name"] for it in document["servers"] if it.get("down")}
        for it in document["servers"]:
            name = names.machine(it["name"])
            known = servers.setdefault(name, {"name": name, "region": it["region"], "room": 0})
            known.update({"down": True} if it.get("down") else {})
        for it in document["shards"]:
            cells = [{"server": names.machine(one["server"]), "state": one["state"]} for one in it["cells"] if one["server"] not in down]
            name = free_name(it["name"], {one["name"] for one in shards})
            shards.append(it | {"name": name, "load": 0, "listed": None, "cells": cells})
    least = min(it["limit"] for it in documents)
    return {"limit": least if limit is None else limit, "servers": list(servers.values()), "shards": shards}


def cluster_in(text: str, sources: Sources) -> Cluster:
    """Returns what Kubernetes' objects say, or fails."""
    try:
        return read_cluster(values_in(text, f"'{sources.kubernetes}'"), sources.primary)
    except (KeyError, TypeError, AttributeError, ValueError) as why:
        raise Failure(f"'{sources.kubernetes}' prints no objects of Kubernetes: {why}") from None


def look(sources: Sources) -> World:
    """Returns what is so now, of all sources, whose commands run beside each other."""
    commands = [*sources.documents, *([sources.kubernetes] if sources.kubernetes else [])]
    with ThreadPoolExecutor(len(commands)) as pool:
        texts = list(pool.map(lambda it: output_of(it, sources.timeout), commands))
    cluster = cluster_in(texts.pop(), sources) if sources.kubernetes else None
    documents = [document_of(cluster.imported, 1, sources.names)] if cluster else []
    for command, text in zip(sources.documents, texts):
        documents += [checked(it, command) for it in values_in(text, f"'{command}'")]
    document = merged(documents, sources.names, sources.limit)
    document_from(document, "what all sources say together")
    return World(document, cluster, {sources.names.machine(it) for it in cluster.cordoned} if cluster else set())


# ---- a question

def placement_for(world: World, held: Set[str], server: str) -> Json:
    """Returns the document in which `smplan` is asked whether a machine may go: who has leave to be down counts as down, also if no source shows it.

    The machine itself counts as up, so that what lives there counts by its own source. What is below its floor already, or above the limit, may not
    become worse: so `cap` and `limit` are raised to what is so.
    """
    now = copy.deepcopy(world.document)
    known = {it["name"]: it for it in now["servers"]}
    for name in sorted(held - {server}):
        if name not in known:
            now["servers"].append({"name": name, "region": "gone", "room": 0, "down": True})
        else:
            known[name]["down"] = True
    known[server].pop("down", None)
    return relaxed(now)[0]


def primaries_at(document: Json, server: str) -> List[str]:
    return [shard["name"] for shard in document["shards"] for it in shard["cells"] if it["server"] == server and it["state"] == "primary"]


def in_words(document: Json, server: str, answer: str, report: Report) -> Answer:
    """Returns the answer that `smplan` gave, with its numbers."""
    if answer == "approved":
        shards, primaries = shards_at(report, server), primaries_at(document, server)
        told = [f"while it is down: {', '.join(shards)}"] if shards else ["nothing there would be missed"]
        told += [f"it is the primary of {', '.join(primaries)}"] if primaries else []
        return Answer(Word.YES, "; ".join([f"approved: {server} may go down now", *told]))
    return Answer(Word.NO, f"{answer}: {reason(model_of(document), server, answer, report)}")


def asked(document: Json, server: str, path: str) -> Answer:
    """Asks `smplan` whether a machine may go down."""
    text, number = question(model_of(document), server)
    answered = program.run(path, "play", text)
    report = read_report(answered.report, "the report")
    answers = [it["answer"] for it in report.lists.get("events", []) if it["event"] == number]
    if not answers:
        raise Failure(f"smplan does not play the document: {answered.lines[0]}", 3)
    return in_words(document, server, answers[0], report)


def way_of(by: str) -> str:
    """Returns in which way somebody asks: `ask`, `fleetlock` or `eviction`."""
    return by.partition("/")[0]


def taken(server: str, by: str, holders: Dict[str, float]) -> Optional[Answer]:
    """Returns a no if somebody else has leave who asks in the same way: together they could hold the machine for ever. Those who ask in other ways may
    join, as a node's pods are evicted before it restarts."""
    same = [it for it in holders if it != by and way_of(it) == way_of(by)]
    return Answer(Word.NO, f"denied 1 AlreadyDown: {server} has leave already, for {same[0]}") if same else None


# How many seconds who was refused keeps the place, unless it asks again.
PATIENCE = 60.0


@dataclass
class Waiting:
    """Who asks for a machine in vain: since when, and when it asked last."""

    since: Dict[str, float] = field(default_factory=dict)
    last: Dict[str, float] = field(default_factory=dict)

    def note(self, by: str, is_yes: bool, now: float) -> None:
        """Notes a question and its answer. Who has got a yes waits no longer, nor does who has not asked for a while."""
        for it in [it for it in self.since if now - self.last[it] > PATIENCE or (it == by and is_yes)]:
            del self.since[it]
        if not is_yes:
            self.since.setdefault(by, now)
            self.last[by] = now

    def first(self, by: str, now: float) -> Optional[str]:
        """Who has asked longer than this one, in the same way, and still asks. Its answer would be the same, so it comes first."""
        since = self.since.get(by, now) if now - self.last.get(by, now) <= PATIENCE else now
        before = [it for it, at in self.since.items() if at < since and now - self.last[it] <= PATIENCE and way_of(it) == way_of(by)]
        return min(before, key=lambda it: self.since[it], default=None)


@dataclass
class Counts:
    """How many answers were given, and how long the last one took."""

    answers: Dict[Tuple[str, Word], int] = field(default_factory=dict)
    seconds: float = 0.0


@dataclass
class Gate:
    """Decides, one question after the other."""

    store: Store
    look: Callable[[], World]
    path: str
    names: Names = Names()
    settle: float = 60.0
    keeps_primaries: bool = False
    tell: Callable[[str], None] = print
    clock: Callable[[], float] = time.time
    counts: Counts = field(default_factory=Counts)
    turn: threading.Lock = field(default_factory=threading.Lock)
    waiting: Dict[str, Waiting] = field(default_factory=dict)

    def ask(self, name: str, by: str, is_trial: bool = False) -> Answer:
        """Answers whether a machine may go down, and stores a yes first, unless it is a trial."""
        def decide() -> Answer:
            server = self.names.machine(name)
            holders, waiting, now = self.store.held.get(server, {}), self.waiting.setdefault(server, Waiting()), self.clock()
            first = None if by in holders else waiting.first(by, now)
            later = Answer(Word.NO, f"denied: {first} has asked for {server} longer") if first else None
            answer = taken(server, by, holders) or later or self.decided(server, by, is_trial, self.look())
            if not is_trial and by not in holders:
                waiting.note(by, answer.is_yes, now)
            return answer
        return self.answered(by, decide)

    def evict(self, pod: PodName, is_trial: bool) -> Answer:
        """Answers whether a pod may be evicted: whether its machine may go down."""
        def decide() -> Answer:
            world = self.look()
            node = world.cluster.nodes.get(pod) if world.cluster else None
            if world.cluster is None:
                return Answer(Word.FAULT, "this gate does not look at Kubernetes: start it with --kubernetes")
            if node is None:
                return Answer(Word.YES, f"approved: no pod {pod.namespace}/{pod.name} runs")
            return self.decided(self.names.machine(node), EVICTION, is_trial, world)
        return self.answered(EVICTION, decide)

    def back(self, name: str, by: str) -> Answer:
        """Notes that a machine is up again, as far as this holder is concerned. A holder that has no leave is told the same."""
        def decide() -> Answer:
            server, held = self.names.machine(name), copy.deepcopy(self.store.held)
            held.get(server, {}).pop(by, None)
            self.store.put({it: holders for it, holders in held.items() if holders})
            return Answer(Word.YES, f"{server} is back")
        return self.answered(by, decide)

    def answered(self, by: str, decide: Callable[[], Answer]) -> Answer:
        """Decides in turn, and tells what was decided. A fault is a no."""
        with self.turn:
            begun = time.monotonic()
            try:
                answer = decide()
            except Failure as why:
                answer = Answer(Word.FAULT, str(why))
            self.counts.seconds = time.monotonic() - begun
            key = (way_of(by), answer.word)
            self.counts.answers[key] = self.counts.answers.get(key, 0) + 1
        self.tell(f"{answer.word.value} to {by}: {answer.text}")
        return answer

    def decided(self, server: str, by: str, is_trial: bool, world: World) -> Answer:
        """Returns the answer of what is so now, also to one who has leave already: what still lives there may be needed meanwhile."""
        known = world.servers()
        if server not in known:
            return Answer(Word.NO, f"no source shows a machine {server}{did_you_mean(server, known)}")
        held = self.still_held(world)
        holders = held.get(server, {})
        answer = self.asked(server, set(held), world)
        if answer.is_yes and not is_trial:
            self.store.put(held | {server: holders | {by: self.clock()}})
        return answer

    def asked(self, server: str, held: Set[str], world: World) -> Answer:
        document = placement_for(world, held, server)
        primaries = primaries_at(document, server)
        if self.keeps_primaries and primaries:
            return Answer(Word.NO, f"denied: {server} is the primary of {', '.join(primaries)}: hand it over first")
        return asked(document, server, self.path)

    def still_held(self, world: World) -> Held:
        """Returns who has leave. A machine of an eviction is back once it is seen up and takes pods, some time after its last eviction."""
        known, now = world.servers(), self.clock()

        def is_back(server: str, since: float) -> bool:
            is_up = server not in known or not (known[server].get("down") or server in world.cordoned)
            return world.cluster is not None and is_up and now - since >= self.settle

        found = {server: {by: it for by, it in holders.items() if by != EVICTION or not is_back(server, it)} for server, holders in self.store.held.items()}
        return {server: holders for server, holders in found.items() if holders}


# ---- its figures

def label(text: str) -> str:
    return re.sub(r'(["\\])', r"\\\1", text).replace("\n", " ")


def metrics_of(gate: Gate) -> str:
    """Returns the gate's figures as Prometheus reads them."""
    lines = ["# HELP smplan_gate_answers_total answers, by who asked", "# TYPE smplan_gate_answers_total counter"]
    lines += sorted(f'smplan_gate_answers_total{{by="{label(by)}",answer="{word.value}"}} {count}' for (by, word), count in gate.counts.answers.items())
    lines += ["# HELP smplan_gate_held machines that have leave to be down", "# TYPE smplan_gate_held gauge", f"smplan_gate_held {len(gate.store.held)}"]
    oldest = min((it for holders in gate.store.held.values() for it in holders.values()), default=gate.clock())
    lines += ["# HELP smplan_gate_oldest_seconds age of the oldest leave", "# TYPE smplan_gate_oldest_seconds gauge"]
    lines += [f"smplan_gate_oldest_seconds {max(0.0, gate.clock() - oldest):g}"]
    lines += ["# HELP smplan_gate_seconds how long the last answer took", "# TYPE smplan_gate_seconds gauge", f"smplan_gate_seconds {gate.counts.seconds:g}"]
    return "\n".join(lines) + "\n"


def state_of(gate: Gate) -> Json:
    """Returns who has leave, and since when."""
    held = gate.store.held
    return {"held": [{"server": server, "by": by, "since": since} for server, holders in sorted(held.items()) for by, since in sorted(holders.items())]}


def world_text(world: World) -> str:
    return json.dumps(world.document, indent=2)
