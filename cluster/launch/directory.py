"""Where a run keeps its data: in memory if there is such a file system, or where the user says."""
from __future__ import annotations

import argparse
import os
import tempfile
from pathlib import Path

MEMORY = Path("/dev/shm")


def new_directory(prefix: str, parent: Path | None) -> Path:
    """Makes an empty directory in the one that is named, otherwise in memory."""
    if parent is not None:
        parent.mkdir(parents=True, exist_ok=True)
    elif os.access(MEMORY, os.W_OK):
        parent = MEMORY
    return Path(tempfile.mkdtemp(prefix=prefix, dir=parent))


def add_directory(parser: argparse.ArgumentParser) -> None:
    """Adds the option that says where data lies."""
    parser.add_argument("--dir", type=Path, metavar="DIR", help=f"keep the data of etcd and servers there, for instance on a disk (default: in memory, {MEMORY})")
