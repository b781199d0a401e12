"""Processor seconds by kind of process, from /proc: those that this process has started, and all others. Who ends between
two looks is missed from the last one on."""
import os
import threading
from collections import Counter
from pathlib import Path

TICKS = os.sysconf("SC_CLK_TCK")

# What a command line begins with, behind the program's path, or has in it, and what that is.
KINDS = (("postgres: walsender", "streams at their source"), ("postgres: logical replication worker", "streams at their follower"),
         ("pg_dump", ""), ("psql", ""),  # (smplan-pg's, which are counted as they end)
         ("postgres: postgres", "PostgreSQL for clients, smplan-pg and copies"), ("postgres:", "PostgreSQL, other"), ("bin/postgres", "PostgreSQL, other"),
         ("smplan_pg", "smplan-pg"), ("writers.py", "clients"), ("bench.py", "bench"), ("smplan.control", "controller"), ("smpland", "controller"))

# What smplan-pg has begun, and what has ended.
ENDED = "pg_dump and psql of copies"


def kind_of(words):
    """What a process is, by its command line."""
    return ENDED if words == ENDED else next((kind for it, kind in KINDS if it in words), "others")


def looked():
    """The processor seconds of each process so far, by its number and beginning, with its command line, if this process
    has started it."""
    found, parents = {}, {}
    for path in Path("/proc").iterdir():
        if path.name.isdigit():
            try:
                fields = (path / "stat").read_text().rsplit(")", 1)[1].split()
                words = (path / "cmdline").read_text().replace("\0", " ")
            except OSError:
                continue
            parents[path.name] = fields[1]
            found[path.name, fields[19]] = (words, (int(fields[11]) + int(fields[12])) / TICKS)
            if "smplan_pg" in words:
                found[path.name, ENDED] = (ENDED, (int(fields[13]) + int(fields[14])) / TICKS)
    return {key: (words if is_own(key[0], parents) else "", used) for key, (words, used) in found.items()}


def is_own(number, parents):
    """Whether a process is this one, or descends from it."""
    while number in parents and number != str(os.getpid()):
        number = parents[number]
    return number == str(os.getpid())


class Usage(threading.Thread):
    """Looks twice a second from its start on."""

    def __init__(self):
        super().__init__(daemon=True)
        self.ended, self.before = threading.Event(), looked()
        self.last = dict(self.before)

    def run(self):
        while not self.ended.wait(0.5):
            self.last.update(looked())

    def end(self):
        """Processor seconds by kind, the most first."""
        self.ended.set()
        self.join()
        self.last.update(looked())
        used = Counter()
        for key, (words, seconds) in self.last.items():
            used[kind_of(words)] += seconds - self.before.get(key, ("", 0.0))[1]
        used.pop("", None)
        return used.most_common()
