"""What the tests of the tools share: the repository's documents, the command line, and the program."""
import contextlib
import io
import json
import os
import pathlib
import subprocess
import sys
import tempfile
from dataclasses import dataclass
from typing import Any, Iterator, List, Optional
from unittest import mock

from smplan.__main__ import main

ROOT = pathlib.Path(__file__).resolve().parents[2]
EXAMPLES = sorted((ROOT / "examples").glob("*.json"))
PROGRAM = os.environ["SMPLAN"]


def example(name: str) -> pathlib.Path:
    return ROOT / "examples" / f"{name}.json"


def command_of(path: pathlib.Path) -> str:
    """Returns the command that an example is read by."""
    command = path.with_suffix(".command")
    return command.read_text().strip() if command.exists() else "calls"


@dataclass
class Done:
    """What a command of the tools printed, and its exit status."""

    out: str
    err: str
    status: int


def tools(*words: str, text: Optional[str] = None) -> Done:
    """Runs a command of the tools, with a text as standard input."""
    out, err = io.StringIO(), io.StringIO()
    given = io.TextIOWrapper(io.BytesIO((text or "").encode()))
    with contextlib.redirect_stdout(out), contextlib.redirect_stderr(err), mock.patch.object(sys, "stdin", given):
        try:
            status = main(list(words))
        except SystemExit as end:
            status = int(end.code or 0)
    return Done(out.getvalue(), err.getvalue(), status)


def program(command: str, document: Any) -> str:
    """Returns what the program prints of a document."""
    text = document if isinstance(document, bytes) else json.dumps(document).encode()
    return subprocess.run([PROGRAM, command], input=text, stdout=subprocess.PIPE, check=False).stdout.decode()


@contextlib.contextmanager
def written(value: Any) -> Iterator[str]:
    """Gives the path of a file with a JSON value, or with a text."""
    with tempfile.TemporaryDirectory(prefix="smplan-tools-") as folder:
        path = pathlib.Path(folder) / "document.json"
        path.write_text(value if isinstance(value, str) else json.dumps(value))
        yield str(path)


def load(path: pathlib.Path) -> Any:
    return json.loads(path.read_text())


def lines_of(text: str) -> List[str]:
    return text.splitlines()
