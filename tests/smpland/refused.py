"""Runs of smpland in which one call is refused: what is due of a session, and what a run has wrong."""
from __future__ import annotations

import hashlib
import json
import os
import random
import subprocess
from collections.abc import Iterator
from dataclasses import dataclass, field
from pathlib import Path
from typing import Any, NamedTuple

from crashes import Disk
from random_client import Client
from smpland_model.session import Session

Json = dict[str, Any]
HEAD = b'{"journal":"smpland","format":2}\n'
QUESTIONS = [b'{"do":"%s"}' % it for it in (b"hello", b"orders", b"map", b"state")]
# A random client's session that has all kinds of lines that change something within its first lines.
SEED, LINES = 1334, 40
# Lines that the client does not write: plans are asked of the program alone, which the reference would ask of smplan.
PLANNED = [b'{"do":"drain","server":"v1"}', b'{"do":"moves","moves":[{"shard":"s7","from":"v1","to":"v4"}]}']
ASKED = [
    *QUESTIONS, b'{"do":"since","place":3}', b'{"do":"state","shard":"s1"}', b'{"do":"state","plan":0}',
    b'{"do":"failed","plan":0,"stream":0,"number":1,"answer":"old"}',
]
ODD = [b"", b"{", b'{"do":"hello","id":1.5}', b'{"do":"open","document":{},"journal":"1","epoch":0}']

# What the program says of a call that has failed: on a stream, and on the journal. (A seek is a part of a read or a write.)
SAID_OF_STREAMS = {"read-input": "the input was not read", "write-output": "the output was not written"}
SAID = {
    "open": "the journal was not opened", "open-folder": "the folder of the journal was not opened", "lock": "the journal was not locked",
    "seek": "the journal was not ", "read": "the journal was not read", "write": "the journal was not written", "cut": "the journal was not cut",
    "sync": "the journal was not synced", "sync-folder": "the journal was not synced",
}


def told_by(words: list[str], lines: list[bytes]) -> list[bytes]:
    """Returns the replies of a process to lines."""
    given = b"".join(it + b"\n" for it in lines)
    return subprocess.run(words, input=given, capture_output=True, check=True).stdout.splitlines(keepends=True)


def entries_in(text: bytes) -> list[Json]:
    """Returns the entries of a journal, as far as its lines follow from each other."""
    found: list[Json] = []
    after = "0" * 64
    if not text.startswith(HEAD):
        return found
    for line in text[len(HEAD):].split(b"\n")[:-1]:
        body, _, rest = line.rpartition(b',"sum":"')
        total = hashlib.sha256(body).hexdigest()
        if rest != total.encode() + b'"}' or json.loads(line)["after"] != after:
            return found
        found, after = found + json.loads(line)["entries"], total
    return found


@dataclass
class Due:
    """A session: its lines with the replies that are due, which of them change something, and what is answered to the questions behind each
    entry."""

    lines: list[bytes]
    replies: list[bytes] = field(default_factory=list)
    changing: list[int] = field(default_factory=list)
    answers: list[list[bytes]] = field(default_factory=list)
    # Whether the program goes on right from journals that were left.
    restarts: dict[bytes | None, bool] = field(default_factory=dict)

    @classmethod
    def of(cls, words: list[str], lines: list[bytes]) -> Due:
        """Returns what the program replies to lines, which has to be what the reference says."""
        due, session, asked = cls(lines), Session(), len(QUESTIONS) + 1
        all_lines = [other for line in lines for other in (line, *QUESTIONS)]
        told = told_by([*words, "-"], QUESTIONS + all_lines)
        due.answers.append(told[:asked - 1])
        for line, reply in zip(QUESTIONS + all_lines, told, strict=True):
            if line not in PLANNED and json.loads(reply) != session.reply(line):
                raise AssertionError(f"{line!r} has the reply {reply!r}, and the reference has another")
        for number in range(len(lines)):
            reply, *answers = told[asked * (number + 1) - 1:asked * (number + 2) - 1]
            due.replies.append(reply)
            if json.loads(answers[0])["hello"]["place"] == len(due.answers):
                due.changing.append(number)
                due.answers.append(answers)
        return due

    def places(self, number: int) -> int:
        """Returns how many of the first lines change something."""
        return sum(it < number for it in self.changing)

    def behind(self, place: int) -> int:
        """Returns the number of the line behind this many entries."""
        return self.changing[place - 1] + 1 if place else 0


def session_lines(count: int) -> list[bytes]:
    """Returns the lines of the session."""
    lines = [line for line, _, _ in Client(SEED, plans_often=0).numbered(count)]
    middle = len(lines) // 2
    return [*ODD, *lines[:middle], *ASKED, *PLANNED, *ODD, *lines[middle:], *ASKED, *PLANNED]


class Setting(NamedTuple):
    """Where the program is started: with this word; the journal has these bytes (None if there is none), and the first lines are known."""

    name: str
    word: str
    before: bytes | None = None
    first: int = 0

    def said(self, journal: Path) -> str:
        """Returns what standard error says of a run in which nothing fails: a torn end that is cut off."""
        whole = (self.before or b"").rfind(b"\n") + 1
        gone = len(self.before or b"") - whole
        return f"{journal}: the last {gone} bytes were torn, and are cut off: {whole} are left\n" if gone else ""


class Fault(NamedTuple):
    """What is refused: calls of a kind, how, and the status that is due."""

    kind: str
    how: str
    status: int

    def variables(self, number: int) -> Json:
        """Returns the variables by which a library refuses the call of this number."""
        if self.kind == "allocation":
            return {"REFUSED_ALLOCATION": str(number)}
        return {"REFUSED_KIND": self.kind, "REFUSED_HOW": self.how, "REFUSED_CALL": str(number)}

    def said(self, journal: Path) -> list[str]:
        """Returns what standard error says of a call that was refused: the journal, what was not done, and why."""
        if self.kind == "allocation":
            return ["error: out of memory"]
        if self.status == 5:
            return [f"error: {journal}: another process has the journal\n"]
        where = f"{journal}: {SAID[self.kind]}" if self.kind in SAID else SAID_OF_STREAMS[self.kind]
        return [f"error: {where}", os.strerror(28 if self.how == "half" else int(self.how))]


class Trial:
    """Runs in one folder, in which calls are refused by the libraries. What a run has wrong is a list of words."""

    def __init__(self, words: list[str], folder: Path, libraries: list[Path], due: Due, piece: int) -> None:
        self.words, self.folder, self.due = words, folder, due
        self.journal, self.notes, self.refused = folder / "journal", folder / "notes", folder / "refused"
        self.variables = dict(os.environ) | {
            "LD_PRELOAD": " ".join(map(str, libraries)), "NOTED_FILE": str(self.journal), "NOTED_FOLDER": str(folder),
            "NOTES": str(self.notes), "INPUT_PIECE": str(piece),
        }
        self.dice = random.Random(1)
        self.refused.write_bytes(b"")
        os.dup2(os.open(self.refused, os.O_WRONLY | os.O_APPEND), 9)

    def run(self, setting: Setting, fault: Fault, number: int) -> tuple[bool, list[str]]:
        """Runs the program with one call refused. Returns whether there was such a call, and what is wrong. It may do without memory that it asks for
        by a guess of a list's length; then it replies to all."""
        self.journal.unlink(missing_ok=True)
        if setting.before is not None:
            self.journal.write_bytes(setting.before)
        self.notes.write_bytes(b"")
        os.truncate(self.refused, 0)
        lines = b"".join(it + b"\n" for it in self.due.lines[setting.first:])
        words = [*self.words, str(self.journal) if setting.word == "JOURNAL" else setting.word]
        variables = self.variables | fault.variables(number)
        done = subprocess.run(words, input=lines, capture_output=True, env=variables, pass_fds=(9,), check=False)
        is_refused = self.refused.stat().st_size > 0
        does_without = fault.kind == "allocation" and done.returncode == 0
        status = fault.status if is_refused and not does_without else 0
        wrong = [] if done.returncode == status else [f"status {done.returncode}"]
        said = done.stderr.decode(errors="replace")
        is_said = all(it in said for it in fault.said(self.journal)) if status else said == setting.said(self.journal)
        wrong += [] if is_said else [f"stderr {said!r}"]
        return is_refused, wrong + list(self.wrong_in(setting, done.stdout, status == 0))

    def wrong_in(self, setting: Setting, told: bytes, is_whole: bool) -> Iterator[str]:
        """Yields what is wrong with what was told, and with what is left."""
        wanted = b"".join(self.due.replies[setting.first:])
        if told != wanted if is_whole else not wanted.startswith(told):
            yield "replies"
        if setting.word == "-":
            return
        count = max(setting.first, setting.first + told.count(b"\n"))
        least = self.due.places(count)
        left = self.journal.read_bytes() if self.journal.exists() else None
        yield from self.wrong_with("as it is left", left, least)
        disk = Disk(setting.before or b"", setting.before is not None)
        disk.take(self.notes.read_bytes())
        yield from self.wrong_with("after a crash", disk.left(self.dice), least)

    def wrong_with(self, when: str, left: bytes | None, least: int) -> Iterator[str]:
        """Yields what is wrong with a journal that is left, in which at least the first entries have to stand."""
        entries = entries_in(left or b"")
        due = [json.loads(self.due.lines[it]) for it in self.due.changing[:len(entries)]]
        if entries != due or len(entries) < least:
            yield f"journal {when}: {len(entries)} entries, {least} were told"
            return
        if left not in self.due.restarts:
            self.due.restarts[left] = self.goes_on(left, len(entries))
        if not self.due.restarts[left]:
            yield f"restart {when}"

    def goes_on(self, left: bytes | None, place: int) -> bool:
        """Returns whether the program, started again with a journal that is left, answers as is due, and goes on so with the rest of the lines."""
        self.journal.unlink(missing_ok=True)
        if left is not None:
            self.journal.write_bytes(left)
        rest = self.due.behind(place)
        given = b"".join(it + b"\n" for it in QUESTIONS + self.due.lines[rest:])
        done = subprocess.run([*self.words, str(self.journal)], input=given, capture_output=True, check=False)
        return (done.returncode, done.stdout) == (0, b"".join(self.due.answers[place] + self.due.replies[rest:]))
