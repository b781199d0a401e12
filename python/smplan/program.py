"""Finds the program `smplan` and runs it."""
import argparse
import os
import shutil
import subprocess
from dataclasses import dataclass
from pathlib import Path
from typing import List, Optional

from .failure import Failure

# The statuses of a report (docs/FORMATS.md, "Exit statuses"); above them the report is not there, or not whole.
LAST_REPORT_STATUS = 2


@dataclass(frozen=True)
class Answer:
    """What the program printed, and its exit status."""

    report: str
    status: int

    @property
    def lines(self) -> List[str]:
        return self.report.splitlines()


def candidates(given: Optional[str]) -> List[str]:
    """Returns where the program may be, the first place first."""
    root = Path(__file__).resolve().parents[2]
    if given:
        return [given]
    if os.environ.get("SMPLAN"):
        return [os.environ["SMPLAN"]]
    built = [str(root / "build" / it) for it in ("smplan", "smplan-unproved")]
    return [*built, "smplan"]


def find_program(given: Optional[str]) -> Optional[str]:
    """Returns the path of the program, or none if there is none."""
    return next((found for found in map(shutil.which, candidates(given)) if found), None)


def add_option(parser: argparse.ArgumentParser) -> None:
    """Adds the option that names the program."""
    parser.add_argument("--program", metavar="PATH", help="the program smplan ($SMPLAN, build/smplan, build/smplan-unproved, or on the PATH)")


def required(given: Optional[str]) -> str:
    """Returns the path of the program, or fails."""
    found = find_program(given)
    if found is None:
        tried = ", ".join(candidates(given))
        raise Failure(f"no program smplan was found (tried {tried}); name it with --program or $SMPLAN, or build one with 'make try'", 3)
    return found


def run(program: str, command: str, document: bytes) -> Answer:
    """Runs one command of the program over a document."""
    try:
        done = subprocess.run([program, command], input=document, stdout=subprocess.PIPE, stderr=subprocess.PIPE, check=False)
    except OSError as why:
        raise Failure(f"{program} cannot be run: {why.strerror}", 3) from None
    if done.returncode not in range(LAST_REPORT_STATUS + 1) and not done.stdout.startswith(b"not run: "):
        told = done.stderr.decode(errors="replace").strip() or f"status {done.returncode}"
        raise Failure(f"{program} {command} made no report: {told}", 3)
    return Answer(done.stdout.decode("ascii", errors="replace"), done.returncode)
