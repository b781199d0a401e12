"""The files of a journal that ends and of the one that goes on in its place.

`JOURNAL` always names a whole journal: the old one, or the new one from the moment on in which `JOURNAL.next` takes its
name. The old one is `JOURNAL.EPOCH` then, and closed: no session goes on in it. `JOURNAL.origin` says what the new one
goes on from. It is written before, and heeded only by a journal that it names.
"""
from __future__ import annotations

import contextlib
import fcntl
import json
import mmap
import os
import re
from dataclasses import asdict, dataclass
from pathlib import Path
from typing import Any, Dict, Iterable, Iterator, List, Optional, Tuple

Line = Dict[str, Any]

# The first line of a journal, and what takes its place once the journal has ended: then no session goes on (status 6).
HEAD = '{"journal":"smpland","format":2}'
CLOSED = '{"journal":"smpland","closed":2}'

# What the first line of a journal says that goes on from another one.
GOES_ON = "goes on from "

# An epoch's numbers begin with this many for each one before it.
EPOCH = 1 << 21

# The commands that begin an epoch; and entries that do so, or bring a name that is kept in it.
BEGINNING = ("open", "reopen", "new_epoch")
TOLD = re.compile(rb'"do":\s*"(?:open|reopen|new_epoch|begin|approve)"')

# Calls to servers; other steps of a plan are the map's, or signals.
CALLS = frozenset(["add", "drop", "change", "prepare_add", "prepare_drop"])


class NotRotated(Exception):
    """Why a journal does not end. Nothing has happened to it."""


@dataclass(frozen=True)
class Origin:
    """What a journal goes on from: its number and the base of its first reopening, and the journal before it with its last
    epoch, its size and its file; who has what by it; the names of its last epoch, of plans with what was told of each,
    and of restarts with their server; when it ended, and what is told of the new one."""

    journal: str
    base: int
    was: str
    epoch: int
    place: int
    size: int
    file: str
    cells: Dict[str, Dict[str, str]]
    plans: Dict[str, Line]
    approved: Dict[str, str]
    ended: float
    after: Optional[Line] = None

    @property
    def first(self) -> int:
        """The epoch in which the journal opens."""
        return self.base // EPOCH


def number_of(journal: str) -> str:
    """The number of a journal as sessions tell it."""
    return f"{int(journal, 16):x}"


def cells_of(shards: List[Line], name: str) -> Dict[str, Dict[str, str]]:
    """Who has what of each shard, of a document or of a proposal."""
    return {it[name]: {cell["server"]: cell["state"] for cell in it["cells"]} for it in shards}


# ---- names

def entries_of(line: bytes) -> List[Line]:
    """The entries of a line of a journal; none if it is not whole."""
    try:
        return list(json.loads(line)["entries"])
    except (ValueError, LookupError, TypeError):
        return []


def names_in(lines: Iterable[bytes]) -> Tuple[Dict[str, Line], Dict[str, str]]:
    """The names that the last epoch of a journal has, of its plans and of restarts."""
    plans: Dict[str, Line] = {}
    approved: Dict[str, str] = {}
    for entry in (it for line in lines if TOLD.search(line) for it in entries_of(line)):
        if entry.get("do") in BEGINNING:
            plans, approved = {}, {}
        elif entry.get("do") == "begin":
            codes = [it["code"] for it in entry["plan"]["streams"]]
            calls = sum(step["do"] in CALLS for code in codes for step in code)
            plans[entry["name"]] = {"plan": len(plans), "calls": calls, "streams": len(codes)}
        elif entry.get("do") == "approve":
            approved[entry["by"]] = entry["server"]
    return plans, approved


def last_epoch(text: mmap.mmap) -> int:
    """Where a journal names the command that has begun its last epoch, or tried to."""
    found = 0
    for word in (f'"{it}"'.encode() for it in BEGINNING):
        at = len(text)
        while (at := text.rfind(word, found, at)) > 0 and not text[max(0, at - 16):at].rstrip().endswith(b'"do":'):
            pass
        found = max(found, at)
    return found


# ---- files

def sync_folder(path: Path) -> None:
    """Makes names durable."""
    folder = os.open(path.parent, os.O_RDONLY)
    try:
        os.fsync(folder)
    finally:
        os.close(folder)


def write_whole(path: Path, text: str) -> None:
    """Puts a text in place of a file, durably."""
    draft = path.with_name(path.name + ".new")
    with draft.open("w", encoding="utf-8") as file:
        file.write(text)
        file.flush()
        os.fsync(file.fileno())
    os.replace(draft, path)
    sync_folder(path)


@dataclass(frozen=True)
class JournalFile:
    """A journal in a file, and the files beside it."""

    path: Path

    @staticmethod
    def of(word: str) -> "Optional[JournalFile]":
        """The journal that the last word of a session's command names, if it is a file here."""
        path = Path(os.path.realpath(word))
        try:
            with path.open("rb") as file:
                return JournalFile(path) if file.readline(64).rstrip(b"\n") == HEAD.encode() else None
        except OSError:
            return None

    def beside(self, end: str) -> Path:
        """A file beside the journal."""
        return self.path.with_name(f"{self.path.name}.{end}")

    @property
    def next(self) -> Path:
        """The journal to be."""
        return self.beside("next")

    def size(self) -> int:
        """The bytes of the journal."""
        return self.path.stat().st_size

    # What it goes on from.

    def origins(self) -> Dict[str, Line]:
        """What `JOURNAL.origin` says, by the journal that goes on: this one, and maybe one that did not begin."""
        try:
            return dict(json.loads(self.beside("origin").read_text(encoding="utf-8")))
        except (OSError, ValueError, TypeError):
            return {}

    def origin(self, journal: str) -> Optional[Origin]:
        """What a journal goes on from; none if it began otherwise."""
        try:
            return Origin(**self.origins()[number_of(journal)])
        except (LookupError, TypeError):
            return None

    def write_origin(self, origin: Origin, beside: Optional[str] = None) -> None:
        """Says what a journal goes on from, durably, beside what another one does."""
        told = {it: line for it, line in self.origins().items() if beside is not None and it == number_of(beside)}
        told[number_of(origin.journal)] = asdict(origin)
        write_whole(self.beside("origin"), json.dumps(told, separators=(",", ":")) + "\n")

    # The end of the old one.

    @contextlib.contextmanager
    def locked(self, size: Optional[int] = None) -> Iterator[int]:
        """Holds a journal whose session has ended, so that no other one begins over it. Fails if another one has it, or
        has written to it since it had this size."""
        file = os.open(self.path, os.O_RDWR)
        try:
            fcntl.flock(file, fcntl.LOCK_EX | fcntl.LOCK_NB)
            if size is not None and os.fstat(file).st_size != size:
                raise NotRotated("another process has written to the journal")
            yield file
        except BlockingIOError:
            raise NotRotated("another process has the journal") from None
        finally:
            os.close(file)

    def names(self) -> Tuple[Dict[str, Line], Dict[str, str]]:
        """The names that the last epoch has. (Lines of earlier ones are passed over, unread.)"""
        with self.path.open("rb") as file, mmap.mmap(file.fileno(), 0, access=mmap.ACCESS_READ) as text:
            file.seek(text.rfind(b"\n", 0, last_epoch(text)) + 1)
            return names_in(file)

    def name_old(self, epoch: int) -> Path:
        """Gives the journal the name that it has once it has ended, beside its own. A name that a rotation has left which
        was broken off is taken again."""
        path = self.beside(str(epoch))
        if path.exists() and not path.samefile(self.path):
            raise NotRotated(f"{path} is there, and is another file")
        try:
            path.unlink(missing_ok=True)
            os.link(self.path, path)
            sync_folder(path)
        except OSError as why:
            raise NotRotated(f"{path}: {why.strerror}") from None
        return path

    def swap(self) -> None:
        """Gives the new journal the old one's name: the one moment in which the old one ends."""
        os.replace(self.next, self.path)
        sync_folder(self.path)

    def close_old(self, origin: Origin) -> None:
        """Closes the file of the journal that has ended, if it is still there. It may be said again."""
        path = self.path.with_name(origin.file)
        if path.exists() and not path.samefile(self.path):
            with JournalFile(path).locked() as file:
                close(file)

    def is_draft(self, journal: str) -> bool:
        """Whether the file of the journal to be is one that a rotation of this journal has left, and not somebody else's."""
        with self.next.open("rb") as file:
            front = file.read(256)
        return len(front) <= len(HEAD) + 1 or f'"{GOES_ON}{journal}"'.encode() in front

    def clear_next(self, journal: str) -> None:
        """Makes place for the journal to be."""
        if self.next.exists():
            if not self.is_draft(journal):
                raise NotRotated(f"{self.next} is there, and no rotation has left it")
            self.next.unlink()

    def tidy(self, journal: str) -> List[str]:
        """Deletes what a rotation of this journal has left that was broken off before it ended. Returns the names."""
        found = [self.next] if self.next.exists() and self.is_draft(journal) else []
        for path in self.path.parent.glob(f"{self.path.name}.*"):
            if path.suffix[1:].isdigit() and path.samefile(self.path):
                found.append(path)
        for path in found:
            path.unlink()
        return [it.name for it in found]


def close(file: int) -> None:
    """Makes an open file none that a session goes on in."""
    if os.pread(file, len(CLOSED), 0) != CLOSED.encode():
        os.pwrite(file, CLOSED.encode(), 0)
        os.fsync(file)
