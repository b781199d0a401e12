"""`python3 -m smplan.control_commands`: what an operator does with a running controller."""
from __future__ import annotations

import argparse
import importlib
import os
import sys
from typing import List, Optional, Tuple

from . import __version__
from .command_line import Parser
from .failure import Failure

# Each module adds its commands with `add_parser(subparsers)`.
MODULES = [
    "control_run", "control_operate", "control_restart", "control_reopen", "control_servers", "control_resize", "control_shards", "control_repair", "control_rotate", "control_drain",
    "control_watch", "control_audit", "gate_command", "control_campaign", "control_rolling",
]


def parser() -> argparse.ArgumentParser:
    """Returns the parser of all commands."""
    top = Parser(
        prog="smplan-control", description="Runs a controller of servers that speak HTTP, and does with a running one what operators do.",
        epilog="exit status: 0 done, 1 the answer is no, 2 bad input or a fault of the command line, 3 a controller or a program does not answer, 130 interrupted",
    )
    top.add_argument("--version", action="version", version=f"smplan-control {__version__}")
    subparsers = top.add_subparsers(metavar="COMMAND", required=True)
    for name in MODULES:
        importlib.import_module(f".{name}", __package__).add_parser(subparsers)
    return top


def split(words: List[str]) -> Tuple[List[str], List[str]]:
    """Returns the words before `--`, and the command behind it."""
    at = words.index("--") if "--" in words else len(words)
    return words[:at], words[at + 1:]


def main(words: Optional[List[str]] = None) -> int:
    """Runs one command, and returns its exit status."""
    words, command = split(sys.argv[1:] if words is None else words)
    told = parser().parse_args(words)
    told.command = command
    try:
        status = told.run(told)
        sys.stdout.flush()
        return status
    except Failure as why:
        print(f"smplan-control: {why}", file=sys.stderr)
        return why.status
    except KeyboardInterrupt:
        return 130
    except BrokenPipeError:
        # (the reader of the output went away, as `head` does; nothing more is written when Python ends)
        os.dup2(os.open(os.devnull, os.O_WRONLY), sys.stdout.fileno())
        return 3


if __name__ == "__main__":
    sys.exit(main())
