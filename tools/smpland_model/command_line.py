"""The command: `smpland_model.py -` reads commands on standard input, and writes their replies."""
from __future__ import annotations

import argparse
import json
import sys
from collections.abc import Iterator
from typing import BinaryIO

from smpland_model.session import Session
from smplan.limits import MOST_BYTES

ABOUT = """The reference of `smpland -`, in plain Python: slow, tested, not proved. Each line of standard input is a
command, a JSON object, and gets one line on standard output: docs/SMPLAND.md. `moves` and `drain` ask smplan."""
PROGRAM = "the program smplan ($SMPLAN, build/smplan, build/smplan-unproved, or on the PATH)"


def pieces(source: BinaryIO, most: int = MOST_BYTES) -> Iterator[bytes | None]:
    """Yields the lines, without their line feeds, and None for one that is too long, whose rest is skipped."""
    while line := source.readline(most + 1):
        if line.endswith(b"\n"):
            yield line[:-1]
        elif len(line) <= most:
            yield line
        else:
            while (rest := source.readline(most + 1)) and not rest.endswith(b"\n"):
                pass
            yield None


def arguments(given: list[str] | None) -> argparse.Namespace:
    """Reads the command line."""
    parser = argparse.ArgumentParser(prog="smpland_model.py", description=ABOUT)
    parser.add_argument("journal", metavar="-", choices=["-"], help="keep no file: standard input is the journal")
    parser.add_argument("--program", metavar="PATH", help=PROGRAM)
    return parser.parse_args(given)


def main(given: list[str] | None = None) -> int:
    """Runs the command."""
    session = Session(arguments(given).program)
    out = sys.stdout.buffer
    try:
        for line in pieces(sys.stdin.buffer):
            reply = session.reply_to_long() if line is None else session.reply(line)
            out.write(json.dumps(reply, separators=(",", ":")).encode() + b"\n")
            out.flush()
    except BrokenPipeError:
        return 4
    return 0
