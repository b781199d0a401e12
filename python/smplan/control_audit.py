"""Looks at a journal: its sums, each of its lines by the reference model, and each epoch's piece by `smplan play`."""
from __future__ import annotations

import argparse
import contextlib
import hashlib
import json
import subprocess
import sys
from dataclasses import dataclass, field
from pathlib import Path
from typing import Any, Dict, Iterator, List, Optional, Tuple

from . import program
from .control_rotated import CLOSED, HEAD
from .failure import Failure
from .words import counted

Line = Dict[str, Any]

NO_SUM = "0" * 64
# The most plans in a document of `smplan play`.
MOST_PLANS = 16


@dataclass
class Read:
    """The lines of a journal, and what is wrong with its sums."""

    lines: List[str] = field(default_factory=list)
    faults: List[str] = field(default_factory=list)
    is_torn: bool = False


def object_of(text: str) -> Optional[Line]:
    """Reads a line that is one JSON object; none if it is anything else."""
    try:
        line = json.loads(text)
    except (ValueError, RecursionError):
        return None
    return line if isinstance(line, dict) else None


def read_journal(text: str) -> Read:
    """Reads a journal of `smpland JOURNAL`, or lines as a host of `smpland -` has stored them."""
    lines = text.split("\n")
    read = Read(is_torn=lines[-1] != "")
    if lines[0] not in (HEAD, CLOSED):
        whole = lines[:-1] if object_of(lines[-1]) is None else lines
        read.lines = [it for it in whole if it.strip()]
        return read
    after = NO_SUM
    for number, line in enumerate(lines[1:-1], 2):
        entries, own = read_line(line, after)
        if own is None:
            read.faults.append(f"line {number}: its sum or the one before it is wrong")
            return read
        read.lines += entries
        after = own
    return read


def read_line(line: str, after: str) -> Tuple[List[str], Optional[str]]:
    """Reads the entries of a line and its sum; no sum if it is wrong."""
    front, _, sum_part = line.rpartition(',"sum":"')
    own = sum_part[:-2]
    is_right = hashlib.sha256(front.encode()).hexdigest() == own and front.endswith(f'],"after":"{after}"') and front.startswith('{"entries":[')
    if not is_right:
        return [], None
    # (each entry is taken from the line as it stands, since its text is what was fed)
    body, decoder, place, found = front[len('{"entries":['):-len(f'],"after":"{after}"')], json.JSONDecoder(), 0, []
    while place < len(body):
        _, end = decoder.raw_decode(body, place)
        found.append(body[place:end])
        place = end + 1
    return found, own


class Model:
    """The reference model in a process, a line in and a reply out."""

    def __init__(self, words: List[str]) -> None:
        try:
            self.process = subprocess.Popen(words, stdin=subprocess.PIPE, stdout=subprocess.PIPE)
        except OSError as why:
            raise Failure(f"the session {words[0]}: {why.strerror}", 3) from None

    def reply(self, text: str) -> Line:
        """Feeds a line."""
        assert self.process.stdin is not None and self.process.stdout is not None
        try:
            self.process.stdin.write(text.encode() + b"\n")
            self.process.stdin.flush()
        except OSError:
            raise Failure("the session has ended", 3) from None
        answer = self.process.stdout.readline()
        if not answer:
            raise Failure("the session has ended", 3)
        return json.loads(answer)

    def state(self) -> Line:
        """Asks for everything that is recorded."""
        return self.reply('{"do":"state"}').get("state", {})

    def close(self) -> None:
        """Ends the process."""
        if self.process.stdin and self.process.stdout:
            with contextlib.suppress(OSError):
                self.process.stdin.close()
            self.process.wait()
            self.process.stdout.close()


@dataclass
class Piece:
    """An epoch, or the part of it until a reopening: how it began, its plans, its events, and how it ended."""

    start: Line
    document: Line
    plans: List[Line] = field(default_factory=list)
    events: List[Line] = field(default_factory=list)
    numbers: Dict[int, int] = field(default_factory=dict)
    streams: List[List[int]] = field(default_factory=list)
    posted: List[set] = field(default_factory=list)
    end: Line = field(default_factory=dict)

    def begin(self, plan: Line) -> None:
        """A plan begins."""
        self.plans.append(plan)
        self.streams.append([0] * len(plan["streams"]))
        self.posted.append(set())
        self.events.append({"event": "begin", "plan": len(self.plans) - 1})
        self.advance(len(self.plans) - 1)

    def step(self, plan: int, stream: int) -> None:
        """A stream's order was answered, and then everything went on that is local."""
        self.make(plan, stream)
        self.advance(plan)

    def make(self, plan: int, stream: int) -> None:
        """One step of a stream."""
        code = self.plans[plan]["streams"][stream]["code"]
        at = self.streams[plan][stream]
        if at < len(code) and code[at]["do"] == "signal":
            self.posted[plan].add(code[at]["signal"])
        self.streams[plan][stream] = at + 1
        self.events.append({"event": "step", "plan": plan, "stream": stream})

    def advance(self, plan: int) -> None:
        """Makes every local step, always of the lowest stream that has one."""
        while (stream := next((it for it in range(len(self.streams[plan])) if self.goes_by_itself(plan, it)), None)) is not None:
            self.make(plan, stream)

    def goes_by_itself(self, plan: int, stream: int) -> bool:
        """The stream's next step is its end, a signal, or a wait for one that was posted."""
        code, at = self.plans[plan]["streams"][stream]["code"], self.streams[plan][stream]
        if at >= len(code):
            return at == len(code)
        return code[at]["do"] == "signal" or (code[at]["do"] == "wait" and code[at]["signal"] in self.posted[plan])


def document_of(state: Line, document: Line) -> Line:
    """Returns the placement at the beginning of a piece, as a document."""
    shards = []
    told = {it["name"]: it for it in document["shards"]}
    for it in state["shards"]:
        cells = [{"server": cell["server"], "state": cell["state"]} for cell in it["cells"]]
        shards.append({**told[it["shard"]], "listed": it["listed"], "cells": cells})
    servers = [{"name": it["server"], "region": it["region"], "room": it["room"], "down": it["permit"] is not None} for it in state["servers"]]
    return {"limit": state["limit"], "log": state["log"]["places"], "servers": servers, "shards": shards}


def add_line(piece: Optional[Piece], line: Line, reply: Line) -> None:
    """Adds what a line did to a piece."""
    if piece is None:
        return
    if "begun" in reply and "again" not in reply:
        piece.begin(line["plan"])
    elif "moved" in reply:
        piece.step(line["plan"], line["stream"])
    elif "approved" in reply:
        piece.events.append({"event": "approve", "server": line["server"]})
    elif "up" in reply:
        piece.events.append({"event": "done", "server": reply["up"]})


def pieces_of(lines: List[str], model: Model, faults: List[str], strict: bool) -> Iterator[Piece]:
    """Feeds all lines to the model, and gives each epoch's piece."""
    piece: Optional[Piece] = None
    document: Line = {}
    for number, text in enumerate(lines, 1):
        line = object_of(text)
        if line is None:
            faults.append(f"entry {number} is no JSON object")
            line = {}
        if piece is not None and line.get("do") in ("reopen", "new_epoch"):
            piece.end = model.state()
        reply = model.reply(text)
        if strict and any(it in reply for it in ("bad", "refused", "ignored")):
            faults.append(f"entry {number} changes nothing: {json.dumps(reply)}")
        add_line(piece, line, reply)
        if "fence" in reply or "opened" in reply:
            document = line.get("document", document)
            if piece is not None:
                yield piece
            state = model.state()
            piece = Piece(state, document_of(state, document)) if "opened" in reply else None
    if piece is not None:
        piece.end = model.state()
        yield piece


def placement_of(report: List[str]) -> Dict[str, Dict[str, str]]:
    """Reads the end placement of a report: for each shard its cells."""
    found: Dict[str, Dict[str, str]] = {}
    shard = ""
    for words in (it.split() for it in report):
        if words[:1] == ["shard"] and "listed" in words:
            shard = words[1]
            found[shard] = {}
        elif shard and len(words) >= 2 and words[1] in ("primary", "secondary", "prepared", "forwarding"):
            found[shard][words[0]] = words[1]
    return found


def compare(piece: Piece, path: str) -> Optional[str]:
    """Plays a piece, and tells how the end differs; none if it does not."""
    epoch = piece.start["epoch"]
    if len(piece.plans) > MOST_PLANS:
        return None
    document = {**piece.document, "plans": piece.plans, "events": piece.events}
    answer = program.run(path, "play", json.dumps(document).encode())
    wanted = {it["shard"]: {cell["server"]: cell["state"] for cell in it["cells"]} for it in piece.end["shards"]}
    found = placement_of(answer.lines)
    if found == wanted:
        return None
    differing = next((it for it in wanted if found.get(it) != wanted[it]), "?")
    return f"epoch {epoch}: played, shard {differing} is at {found.get(differing)}, and is recorded at {wanted.get(differing)}"


def run(told: argparse.Namespace) -> int:
    """Runs the command."""
    try:
        read = read_journal(Path(told.journal).read_text(encoding="utf-8"))
    except OSError as why:
        raise Failure(f"{told.journal}: {why.strerror}") from None
    except UnicodeDecodeError as why:
        raise Failure(f"{told.journal} is no journal: its byte {why.start} is not UTF-8") from None
    faults, played, passed_over = list(read.faults), 0, 0
    path = program.find_program(told.program)
    model = Model(told.session)
    try:
        for piece in pieces_of(read.lines, model, faults, told.strict):
            if path is None or len(piece.plans) > MOST_PLANS:
                passed_over += 1
                continue
            played += 1
            fault = compare(piece, path)
            faults += [fault] if fault else []
    finally:
        model.close()
    for fault in faults:
        print(fault)
    torn = ", an end that was not written whole" if read.is_torn else ""
    why = f", {passed_over} not played ({'no program smplan' if path is None else f'more than {MOST_PLANS} plans'})" if passed_over else ""
    entries = counted(len(read.lines), "entry", "entries")
    print(f"{entries}{torn}; {counted(played, 'epoch')} played{why}; {counted(len(faults), 'fault')}")
    return 1 if faults else 0


def add_parser(subparsers: Any) -> None:
    """Adds the command."""
    root = Path(__file__).resolve().parents[2]
    parser = subparsers.add_parser(
        "audit-journal", help="looks at a journal: its sums, each line by the reference model, each epoch by smplan play",
        epilog="example: smplan-control audit-journal /var/lib/smpland/journal",
        description="Tests the sums of a journal, feeds each of its entries to the reference model, and plays each epoch by 'smplan play': both must come "
        "to the same placement. Exit status 0: no fault was found. 1: each one has a line. 2: it can't be read. 3: a program does not run.",
    )
    parser.add_argument("journal", help="the file of `smpland JOURNAL`, or the lines that a host has stored")
    parser.add_argument("--session", nargs="+", default=[sys.executable, str(root / "tools" / "smpland_model.py"), "-"], metavar="WORD", help="the session's command line, behind the journal (the reference)")
    parser.add_argument("--strict", action="store_true", help="each entry has to change something, as in a journal of `smpland JOURNAL`")
    program.add_option(parser)
    parser.set_defaults(run=run)
