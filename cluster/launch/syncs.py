"""What a disk has for certain of a redis-server's log: a library notes how long it was when it was synced last (cluster/faults/last_sync.c)."""
from __future__ import annotations

import hashlib
import shutil
import subprocess
from pathlib import Path

# The variable by which a server hears of the library.
VARIABLE = "SM_SYNCS"
SOURCE = Path(__file__).resolve().parents[1] / "faults" / "last_sync.c"


def library(build: Path) -> Path | None:
    """The library, which is built if it is not there; none if there is no compiler."""
    made = build / f"last_sync-{hashlib.blake2b(SOURCE.read_bytes(), digest_size=4).hexdigest()}.so"
    if not made.exists():
        compiler = shutil.which("cc")
        if compiler is None:
            return None
        build.mkdir(parents=True, exist_ok=True)
        part = made.with_suffix(".part")
        subprocess.run([compiler, "-O2", "-Wall", "-Werror", "-shared", "-fPIC", "-o", str(part), str(SOURCE), "-ldl"], check=True)
        part.replace(made)
    return made


def cut_back(folder: Path) -> int:
    """Cuts the logs of a folder to what was synced last, all of it if nothing ever was; how many bytes are lost."""
    lost = 0
    for log in folder.glob("appendonlydir/*.incr.aof"):
        notes = log.with_name(f"{log.name}.synced")
        synced = int(notes.read_text() or "0") if notes.exists() else 0
        if log.stat().st_size > synced:
            lost += log.stat().st_size - synced
            with log.open("r+b") as file:
                file.truncate(synced)
    return lost
