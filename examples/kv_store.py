"""What a server of kv_server.py keeps: its base, its slots, and a copy of each shard, in one SQLite database, so that all change in one transaction.

A shard's data are the list of its writes (a real service drops old ones), and of each view of the list where it began.
"""
import secrets
import sqlite3
from dataclasses import astuple

from smplan import agent
from smplan.agent import Answer, Base, Slot, ToldCopy, ViewStart

TABLES = """
CREATE TABLE IF NOT EXISTS base (one INTEGER PRIMARY KEY, journal, number, nonce, known, fenced);
CREATE TABLE IF NOT EXISTS reopened (one INTEGER PRIMARY KEY, number);
CREATE TABLE IF NOT EXISTS copies (one INTEGER PRIMARY KEY, number);
CREATE TABLE IF NOT EXISTS slots (shard TEXT PRIMARY KEY, cell, party, handover, last, at_work, load, cut, has_cut);
CREATE TABLE IF NOT EXISTS writes (shard, place, request, key, text, reply, PRIMARY KEY (shard, place));
CREATE TABLE IF NOT EXISTS views (shard, view, began, PRIMARY KEY (shard, view));
CREATE TABLE IF NOT EXISTS old_owners (shard TEXT PRIMARY KEY, number);
"""


def has_more(one, other):
    """Whether one copy has more than another one."""
    return agent.compare(one, other) == Answer.GREATER


class Store:
    """What is stored. `with self.db` is a transaction."""

    def __init__(self, path):
        self.db = sqlite3.connect(path)
        self.db.executescript(TABLES)

    # -- base and slots

    def base(self):
        return Base(*map(int, self.db.execute("SELECT journal, number, nonce, known, fenced FROM base").fetchone()))

    def store_base(self, base):
        self.db.execute("REPLACE INTO base VALUES (1, ?, ?, ?, ?, ?)", [str(int(it)) for it in astuple(base)])  # (64 bits are too many for it)

    def reopened(self):
        """The number of the last reopening at which it was settled."""
        return (self.db.execute("SELECT number FROM reopened").fetchone() or (0,))[0]

    def store_copies(self, number, may_fall=False):
        """Stores how many replicas have each acknowledged write, and returns how many: no fewer than before, unless they may fall."""
        before = (self.db.execute("SELECT number FROM copies").fetchone() or (1,))[0]
        number = number if may_fall else max(number, before)
        self.db.execute("REPLACE INTO copies VALUES (1, ?)", (number,))
        return number

    def slot(self, shard):
        row = self.db.execute("SELECT cell, party, handover, last, at_work, load, cut, has_cut FROM slots WHERE shard = ?", (shard,)).fetchone()
        return Slot(*row) if row else agent.VACANT if self.base().known else Slot()

    def store_slot(self, shard, slot):
        self.db.execute("REPLACE INTO slots VALUES (?, ?, ?, ?, ?, ?, ?, ?, ?)", (shard, *map(int, astuple(slot))))

    def shards(self):
        return [shard for (shard,) in self.db.execute("SELECT shard FROM slots ORDER BY shard")]

    def copied(self):
        """The shards of which there is a copy."""
        return [shard for (shard,) in self.db.execute("SELECT DISTINCT shard FROM views")]

    def used(self):
        return self.db.execute("SELECT COALESCE(SUM(load), 0) FROM slots").fetchone()[0]

    # -- copies

    def applied(self, shard):
        """The shard's position: how many of its writes are here."""
        return self.db.execute("SELECT COUNT(*) FROM writes WHERE shard = ?", (shard,)).fetchone()[0]

    def mark(self, shard):
        """The view and position of the copy; None without one."""
        view = self.db.execute("SELECT MAX(view) FROM views WHERE shard = ?", (shard,)).fetchone()[0]
        return None if view is None else ToldCopy(view, self.applied(shard))

    def begins_with(self, shard, mark):
        """Whether a copy with this mark is a beginning of the one here."""
        views = [ViewStart(*it) for it in self.db.execute("SELECT view, began FROM views WHERE shard = ? ORDER BY view", (shard,))]
        return agent.resumes(mark, views, self.applied(shard))

    def copy_of(self, shard, after=0):
        """A shard's views, and its writes behind a place, with the identities and replies of the requests that made them."""
        return (self.db.execute("SELECT view, began FROM views WHERE shard = ?", (shard,)).fetchall(),
                self.db.execute("SELECT place, request, key, text, reply FROM writes WHERE shard = ? AND place > ? ORDER BY place",
                                (shard, after)).fetchall())

    def store_copy(self, shard, copy, after=0):
        """Puts a copy behind the first writes that are here, or in place of all: then these are set aside, for an operator to delete."""
        if self.applied(shard) > after:
            self.db.execute("UPDATE writes SET shard = ? WHERE shard = ?", (f"{shard}, aside {secrets.token_hex(4)}", shard))
        self.db.execute("DELETE FROM views WHERE shard = ?", (shard,))
        self.db.executemany("INSERT INTO views VALUES (?, ?, ?)", [(shard, *view) for view in copy[0]])
        self.db.executemany("INSERT INTO writes VALUES (?, ?, ?, ?, ?, ?)", [(shard, *write) for write in copy[1]])

    def delete_copy(self, shard):
        for table in ("writes", "views", "old_owners"):
            self.db.execute(f"DELETE FROM {table} WHERE shard = ?", (shard,))

    def begin_view(self, shard, number):
        """A primary goes on from what is here, in a view with the number of what made it the primary."""
        self.db.execute("INSERT INTO views VALUES (?, ?, ?)", (shard, number, self.applied(shard)))

    def put_old_owner(self, shard, number):
        self.db.execute("REPLACE INTO old_owners VALUES (?, ?)", (shard, number))

    def old_owner(self, shard):
        """Who has to have each write, live or not: from whom the shard came by a handover, until that has dropped it; 0 if nobody."""
        return (self.db.execute("SELECT number FROM old_owners WHERE shard = ?", (shard,)).fetchone() or (0,))[0]

    # -- the data

    def execute(self, shard, request, command):
        """Executes a request once: a write, as ("append", key, text), or a read, as ("get", key)."""
        done = self.db.execute("SELECT reply FROM writes WHERE shard = ? AND request = ?", (shard, request)).fetchone()
        if done:
            return done[0]
        if command[0] == "append":
            self.write(shard, request, command)
        return self.value(shard, command[1])

    def value(self, shard, key):
        row = self.db.execute("SELECT reply FROM writes WHERE shard = ? AND key = ? ORDER BY place DESC LIMIT 1", (shard, key)).fetchone()
        return row[0] if row else ""

    def write(self, shard, request, command):
        _, key, text = command
        write = (shard, self.applied(shard) + 1, request, key, text, self.value(shard, key) + text)
        self.db.execute("INSERT INTO writes VALUES (?, ?, ?, ?, ?, ?)", write)
