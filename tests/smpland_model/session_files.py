"""Session files: lines with the replies that are due.

`= NAME JSON` names a value; `"@NAME"` in a line or a reply stands for it. `> LINE` is a line, as it stands if it is no
JSON. Below it stands what is due: `< REPLY` the whole reply, `! TEXT` a refusal or a bad line with this text (for a bad
line the path stands behind ` at `), or `?`, anything. `#` begins a comment.
"""
from __future__ import annotations

import json
import subprocess
from collections.abc import Iterator
from dataclasses import dataclass
from pathlib import Path
from typing import Any, Protocol

from smpland_model.session import Session

FOLDER = Path(__file__).parent / "sessions"
Json = dict[str, Any]


@dataclass(frozen=True)
class Exchange:
    """A line, and what is due."""

    place: str
    line: bytes
    due: str


class Subject(Protocol):
    """Whoever replies to lines."""

    def reply(self, line: bytes) -> Json:
        """Returns the reply to a line."""


class Program:
    """A process that replies to lines."""

    def __init__(self, words: list[str]) -> None:
        self.process = subprocess.Popen(words, stdin=subprocess.PIPE, stdout=subprocess.PIPE)

    def reply(self, line: bytes) -> Json:
        """Returns the reply to a line."""
        self.process.stdin.write(line + b"\n")
        self.process.stdin.flush()
        told = self.process.stdout.readline()
        if not told.endswith(b"\n"):
            raise AssertionError(f"the program has ended, and not replied to {line[:200]!r}")
        return json.loads(told)

    def end(self) -> int:
        """Ends the process, and returns its status."""
        self.process.stdin.close()
        with self.process.stdout:
            return self.process.wait(timeout=60)


def subject(words: list[str] | None) -> Subject:
    """Returns a new session of the model, or of a program."""
    return Program(words) if words else Session()


def filled(value: Any, names: Json) -> Any:
    """Returns a value in which names stand for what they name."""
    if isinstance(value, str) and value.startswith("@"):
        return names[value[1:]]
    if isinstance(value, dict):
        return {key: filled(it, names) for key, it in value.items()}
    return [filled(it, names) for it in value] if isinstance(value, list) else value


def filled_text(text: str, names: Json) -> str:
    """Returns a line in which names stand for what they name; one that is no JSON as it is."""
    if "@" not in text:
        return text
    return json.dumps(filled(json.loads(text), names), separators=(",", ":"))


def exchanges(path: Path) -> Iterator[Exchange]:
    """Yields what a session file has."""
    names: Json = {}
    line = None
    for number, text in enumerate(path.read_text().splitlines(), 1):
        mark, rest = text[:1], text[2:]
        if mark == "=":
            name, value = rest.split(" ", 1)
            names[name] = filled(json.loads(value), names)
        elif mark == ">":
            line = filled_text(rest, names).encode()
        elif mark in ("<", "!", "?"):
            due = f"< {filled_text(rest, names)}" if mark == "<" else text
            yield Exchange(f"{path.name}:{number}", line, due)
        elif mark not in ("", "#"):
            raise ValueError(f"{path.name}:{number}: {text}")


def fault_of(due: str, reply: Json) -> str | None:
    """Returns what is wrong with a reply."""
    mark, rest = due[:1], due[2:]
    if mark == "?":
        return None
    if mark == "<":
        return None if json.loads(rest) == reply else f"due {rest}"
    told = reply.get("refused") or reply.get("bad") or {}
    text = told.get("text", "") + (f" at {told['at']}" if "at" in told and "bad" in reply else "")
    return None if text == rest else f"due {rest}"


def texts(paths: list[Path]) -> Iterator[str]:
    """Yields the texts of the refusals and bad lines that files have."""
    for path in paths:
        yield from (it.due[2:] for it in exchanges(path) if it.due[:1] == "!")
