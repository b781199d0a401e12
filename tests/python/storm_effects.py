"""The servers of control_storm.py, in Python and in Go, and what each of their stores has kept: which orders had their effect, in their order."""
import json
import os
import shutil
import sqlite3
import subprocess
import sys
import threading
import time
import zlib
from dataclasses import replace
from pathlib import Path

from smplan.agent import Slot

ROOT = Path(__file__).resolve().parents[2]
HAS_GO = shutil.which("go") is not None

# (a server replaces what it keeps of a slot, and the trigger notes what is stored)
TABLES = """
CREATE TABLE IF NOT EXISTS kept (key TEXT PRIMARY KEY, text TEXT NOT NULL) WITHOUT ROWID;
CREATE TABLE IF NOT EXISTS stored (place INTEGER PRIMARY KEY, key, text);
CREATE TRIGGER IF NOT EXISTS notes AFTER INSERT ON kept WHEN NEW.key LIKE 'frame/slot/%'
BEGIN INSERT INTO stored (key, text) VALUES (NEW.key, NEW.text); END;
"""


class Effects:
    """A slot shows that an order had its effect when it was at work, and is the last one."""

    def __init__(self):
        self.at_work, self.found = {}, []

    def see(self, key, last, at_work):
        """Takes a slot as it was stored: its shard's key, the number of the last order, and of the order at work."""
        if last and not at_work and self.at_work.get(key) == last:
            self.found.append((key, last))
        self.at_work[key] = at_work


class PythonServer:
    """examples/kv_http.py."""

    kind = "Python"

    def __init__(self, folder, name, early=False):
        self.name, self.path = name, folder / f"{name}.sqlite"
        self.program = [ROOT / "tests/python/planted_server.py", "answers-early"] if early else [ROOT / "examples/kv_http.py"]
        db = sqlite3.connect(self.path)
        db.executescript(TABLES)
        db.close()

    def words(self, controllers):
        return [sys.executable, *self.program, self.name, controllers, self.path, "--new"]

    def forget(self):
        """Sets the number of each slot's last order to 0, while the server is down."""
        db = sqlite3.connect(self.path)
        with db:
            for key, text in db.execute("SELECT key, text FROM kept WHERE key LIKE 'frame/slot/%'").fetchall():
                shard, *slot = json.loads(text)
                db.execute("UPDATE kept SET text = ? WHERE key = ?", (json.dumps([shard, *map(int, vars(replace(Slot(*slot), last=0)).values())]), key))
        db.close()

    def effects(self):
        """The orders that had their effect, each with its shard, of a server that is down."""
        found, db = Effects(), sqlite3.connect(self.path)
        for key, text in db.execute("SELECT key, text FROM stored ORDER BY place"):
            slot = Slot(*json.loads(text)[1:])
            found.see(key, slot.last, slot.at_work)
        db.close()
        return found.found

    def close(self):
        """Has nothing to end."""


class GoServer:
    """ports/go/examples/kv. Its store is a file to which each transaction adds a line, and which is now and then written anew: so it is read all the time."""

    kind = "Go"

    def __init__(self, folder, name):
        self.name, self.path, self.program = name, folder / f"{name}.store", folder / "kv"
        self.found, self.slots, self.is_over = Effects(), {}, False
        self.reader = threading.Thread(target=self.read, daemon=True)
        self.reader.start()

    @staticmethod
    def build(folder):
        words, cache = ["go", "build", "-o", folder / "kv", "./examples/kv"], str(ROOT / "build/go-cache")
        subprocess.run(words, cwd=ROOT / "ports/go", check=True, env={**os.environ, "GOCACHE": cache, "GOPROXY": "off"})

    def words(self, controllers):
        return [self.program, "-new", self.name, controllers, self.path]

    def forget(self):
        slots = {key: json.dumps({**slot, "Last": 0}) for key, slot in self.slots.items()}
        text = json.dumps(slots).encode()
        with open(self.path, "ab") as file:
            file.write(b"%08x %s\n" % (zlib.crc32(text), text))

    def read(self):
        while not self.path.exists():
            time.sleep(0.05)
        while not self.is_over:
            with open(self.path, "rb") as file:
                while not self.is_over and os.stat(self.path).st_ino == os.fstat(file.fileno()).st_ino:
                    self.read_lines(file)
                    time.sleep(0.05)
                self.read_lines(file)

    def read_lines(self, file):
        """Reads the lines that are whole."""
        while True:
            place = file.tell()
            line = file.readline()
            if not line.endswith(b"\n"):
                file.seek(place)
                return
            for key, text in json.loads(line[9:]).items():
                if key.startswith("frame/slot/") and text is not None:
                    slot = self.slots[key] = json.loads(text)
                    self.found.see(key, slot["Last"], slot["AtWork"])

    def effects(self):
        return self.found.found

    def close(self):
        self.is_over = True
        self.reader.join(10)
