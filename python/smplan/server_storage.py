"""Where a server keeps what has to last: texts by key, changed in transactions. `Sqlite` is ready-made."""
from __future__ import annotations

import sqlite3
import threading
from contextlib import contextmanager
from typing import ContextManager, Iterator, List, Optional, Protocol, Tuple


class Transaction(Protocol):
    """What may be done in a transaction. Keys of the frame begin with `frame/`; all others are the service's."""

    def get(self, key: str) -> Optional[str]:
        """Returns the text of a key; none if there is none."""

    def put(self, key: str, text: str) -> None:
        """Stores a text."""

    def delete(self, key: str) -> None:
        """Deletes a key, if it is there."""

    def list(self, prefix: str) -> List[Tuple[str, str]]:
        """Returns the keys that begin so, in their order, with their texts."""


class Storage(Protocol):
    """A store of one server."""

    def transaction(self) -> ContextManager[Transaction]:
        """Begins a transaction, once no other one runs. It is durable when it ends; if it ends by an exception, nothing is changed."""


class Sqlite:
    """A store in one SQLite database. A service may have tables of its own there: they change in the same transaction, by `db`."""

    def __init__(self, path: str) -> None:
        self.db = sqlite3.connect(path, check_same_thread=False, isolation_level=None)
        self.lock = threading.Lock()
        self.db.execute("PRAGMA locking_mode=EXCLUSIVE")  # (no second process of the same server)
        self.db.execute("PRAGMA journal_mode=WAL")
        self.db.execute("PRAGMA synchronous=FULL")
        self.db.execute("CREATE TABLE IF NOT EXISTS kept (key TEXT PRIMARY KEY, text TEXT NOT NULL) WITHOUT ROWID")

    @contextmanager
    def transaction(self) -> Iterator["Sqlite"]:
        """Begins a transaction."""
        with self.lock:
            self.db.execute("BEGIN IMMEDIATE")
            try:
                yield self
                self.db.execute("COMMIT")
            except BaseException:
                if self.db.in_transaction:
                    self.db.execute("ROLLBACK")
                raise

    def get(self, key: str) -> Optional[str]:
        """Returns the text of a key."""
        row = self.db.execute("SELECT text FROM kept WHERE key = ?", (key,)).fetchone()
        return None if row is None else row[0]

    def put(self, key: str, text: str) -> None:
        """Stores a text."""
        self.db.execute("REPLACE INTO kept VALUES (?, ?)", (key, text))

    def delete(self, key: str) -> None:
        """Deletes a key."""
        self.db.execute("DELETE FROM kept WHERE key = ?", (key,))

    def list(self, prefix: str) -> List[Tuple[str, str]]:
        """Returns the keys that begin so."""
        end = prefix[:-1] + chr(ord(prefix[-1]) + 1)
        return self.db.execute("SELECT key, text FROM kept WHERE key >= ? AND key < ? ORDER BY key", (prefix, end)).fetchall()
