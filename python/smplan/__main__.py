"""`python3 -m smplan`: the command line of the tools."""
import argparse
import importlib
import os
import sys
from typing import List, Optional

from . import __version__
from .command_line import Parser
from .failure import Failure

# Each module adds its commands with `add_parser(subparsers)`.
MODULES = ["show", "explain", "documents", "reports", "restart", "repair", "planning", "import_command", "export_kafka"]

EPILOG = """\
DOCUMENT and REPORT are files; - or nothing is standard input. The tools run smplan where they need its answer. They take
--program, then $SMPLAN, build/smplan, build/smplan-unproved, and smplan on the PATH.

exit status: 0 done, 1 the answer is no, 2 bad input or a fault of the command line, 3 no program was found or it failed"""


def parser() -> argparse.ArgumentParser:
    """Returns the parser of all commands."""
    top = Parser(
        prog="smplan-tools",
        description="Shows plans, explains refusals, and carries documents and reports from one command to the next.",
        epilog=EPILOG,
        formatter_class=argparse.RawDescriptionHelpFormatter,
    )
    top.add_argument("--version", action="version", version=f"smplan-tools {__version__}")
    subparsers = top.add_subparsers(metavar="COMMAND", required=True)
    for name in MODULES:
        importlib.import_module(f".{name}", __package__).add_parser(subparsers)
    return top


def main(words: Optional[List[str]] = None) -> int:
    """Runs one command, and returns its exit status."""
    arguments = parser().parse_args(words)
    try:
        status = arguments.run(arguments)
        sys.stdout.flush()
        return status
    except Failure as why:
        print(f"smplan-tools: {why}", file=sys.stderr)
        return why.status
    except BrokenPipeError:
        # (the reader of the output went away, as `head` does; nothing more is written when Python ends)
        os.dup2(os.open(os.devnull, os.O_WRONLY), sys.stdout.fileno())
        return 3


if __name__ == "__main__":
    sys.exit(main())
