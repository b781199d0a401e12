"""Which machines a gate has let go, in a file that outlives the gate."""
from __future__ import annotations

import fcntl
import json
import os
from dataclasses import dataclass
from typing import Any, Dict, IO

from .failure import Failure

FORMAT = 1
# The status of a fault of the store, of a gate that finds another one at work, and of a damaged file, as of `smpland`.
STORE_FAILED, IN_USE, DAMAGED = 4, 5, 6

# For each machine, who has leave to take it down, and since when (seconds since 1970).
Held = Dict[str, Dict[str, float]]


def is_held(value: Any) -> bool:
    return isinstance(value, dict) and all(
        isinstance(holders, dict) and holders and all(isinstance(it, (int, float)) and not isinstance(it, bool) for it in holders.values())
        for holders in value.values()
    )


def read(path: str) -> Held:
    """Reads the file; if there is none, nobody has leave."""
    try:
        with open(path, encoding="utf-8") as file:
            value = json.load(file)
    except FileNotFoundError:
        return {}
    except OSError as why:
        raise Failure(f"{path}: {why.strerror}", STORE_FAILED) from None
    except ValueError:
        value = None
    if not isinstance(value, dict) or value.get("format") != FORMAT or not is_held(value.get("held")):
        raise Failure(f"{path}: this is no state of a gate, or it is damaged; see who is down, and write it anew by hand, or remove it", DAMAGED)
    return {server: {by: float(since) for by, since in holders.items()} for server, holders in value["held"].items()}


def write(path: str, held: Held) -> None:
    """Writes the file so that a crash leaves the old or the new one: beside it, synced, renamed."""
    beside = f"{path}.new"
    with open(beside, "w", encoding="utf-8") as file:
        json.dump({"format": FORMAT, "held": held}, file)
        file.write("\n")
        file.flush()
        os.fsync(file.fileno())
    os.replace(beside, path)
    folder = os.open(os.path.dirname(os.path.abspath(path)), os.O_RDONLY | os.O_DIRECTORY)
    try:
        os.fsync(folder)
    finally:
        os.close(folder)


@dataclass
class Store:
    """The file, which one gate at a time has."""

    path: str
    lock: IO[str]
    held: Held

    @staticmethod
    def open(path: str) -> "Store":
        """Opens the file, and locks it by one beside it."""
        try:
            lock = open(f"{path}.lock", "a", encoding="utf-8")  # pylint: disable=consider-using-with
        except OSError as why:
            raise Failure(f"{path}.lock: {why.strerror}", STORE_FAILED) from None
        try:
            fcntl.flock(lock, fcntl.LOCK_EX | fcntl.LOCK_NB)
        except OSError:
            lock.close()
            raise Failure(f"{path}: another gate has this state", IN_USE) from None
        return Store(path, lock, read(path))

    def put(self, held: Held) -> None:
        """Stores who has leave; if this fails, all stays as it was."""
        if held == self.held:
            return
        try:
            write(self.path, held)
        except OSError as why:
            raise Failure(f"{self.path}: {why.strerror}", STORE_FAILED) from None
        self.held = held

    def close(self) -> None:
        self.lock.close()
