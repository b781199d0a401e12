"""bench.py FOLDER [--shards 12] [--rows 20000] [--at-once 1] [--rest 0.1] [--databases]: one of four PostgreSQL servers
is drained while clients write; tells how long that takes, for how long shards' writes pause at their handover and beside
those of others, what takes the processors, and what pg_dump | psql of one such schema takes. With --databases each shard
has a database of its own at each server.

A shard has one client, which rests equally long between two writes. A pause is the longest time without an acknowledged
write of a shard, so with such a rest; it also tells for how long of that somebody waited. What a client would see that
never rests lies between. Exit status 1: something was lost, or the drain did not end.
"""
import argparse
import os
import signal
import subprocess
import sys
import time
from pathlib import Path

import checker
import run as runs
from servers import BIN
from story import handovers
from usage import Usage

# How far around its handover a shard's pause is looked for, in seconds.
AROUND = (1.0, 5.0)

# For how long before the drain clients' pauses are looked for, in seconds.
REST = 4.0

# The rest of a client whose shard is not watched, in seconds.
SELDOM = 5.0

# The drain begins once the load is below this (it counts the copies of before for a minute), or behind so many seconds.
CALM, PATIENCE = 4.0, 120.0


class Bench(runs.Run):
    """One drain."""

    def moves(self, _):
        until = time.time() + PATIENCE
        while os.getloadavg()[0] >= CALM and time.time() < until:
            time.sleep(1.0)
        self.before, begun, usage = os.getloadavg()[0], time.time(), Usage()
        usage.start()
        self.say("drain a")
        self.status = self.command("drain", "region:a" if self.told.databases else "a", "--batch", "2", "--pause", "0.2", seconds=7200.0)
        self.drain, self.after, self.used = (begun, time.time()), os.getloadavg()[0], usage.end()

    def setup(self):
        """Of the shards that are watched two of three move, and the others have nothing at a, as far as there are such.
        Clients of the rest write seldom."""
        moves = [it for it in self.fleet.shards if self.cells[it][0][0] == "a"]
        stays = [it for it in self.fleet.shards if all(name[0] != "a" for name in self.cells[it])]
        first = moves[:2 * self.watch // 3]
        self.watched = set([*first, *stays, *(it for it in self.fleet.shards if it not in {*first, *stays})][:self.watch])
        return {**super().setup(), "rests": {it: SELDOM for it in self.fleet.shards if it not in self.watched}}

    def cuts(self):
        """When shards were cut, from the servers' logs."""
        found = {}
        for path in self.fleet.folder.glob("serve-*.log"):
            for line in path.read_text().splitlines():
                words = line.split()
                if words[2:3] == ["prepare_drop"] and words[-1] == "done":
                    found.setdefault(words[3], []).append(float(words[0]))
        return found

    def report(self, by_shard):
        """What the drain took, and how long writes of shards that are watched paused."""
        begun, ended = self.drain
        cuts = self.cuts()
        print(machine(self.fleet.folder), f"; load {self.before:.1f} before, {self.after:.1f} after", sep="")
        size = self.fleet.posts[self.fleet.names[1]].query("SELECT pg_database_size(current_database()) >> 20")[0][0]
        kind = ", each a database of its own" if self.told.databases else ""
        print(f"{len(by_shard)} shards of {self.size} MB{kind}, {len(self.fleet.machines)} servers, {self.told.option}; a database has {size} MB in the end")
        writes, seconds = sum(map(len, by_shard.values())), ended - begun
        print(f"drain: {seconds:.1f} s, status {self.status}; {writes} acknowledged writes, {len(self.watched)} shards watched")
        used = [f"{it / seconds:.2f} {kind}" for kind, it in self.used if it > 0.01 * seconds]
        print("processors:", ", ".join(used))
        moved = {it for it in by_shard if it in cuts or any(name[0] == "a" for name in self.cells[it])}
        by_shard = {it: rows for it, rows in by_shard.items() if it in self.watched}
        for title, look in (("without an acknowledged write", checker.gaps_of), ("while somebody waited for one", checker.waits_of)):
            print(told(f"{title}, at rest", [look(rows, begun - REST, begun) for rows in by_shard.values()]))
            moves = [max(look(by_shard[it], at - AROUND[0], at + AROUND[1]) for at in ats)
                     for it, ats in cuts.items() if it in by_shard]
            print(told(f"{title}, at a shard's handover", moves))
            stays = [look(rows, begun, ended) for it, rows in by_shard.items() if it not in moved]
            print(told(f"{title}, of shards that do not move", stays))
        for title, times in handovers(self.fleet.folder).items():
            print(told(title, times))
        print(f"pg_dump | psql of one schema: {self.dump():.1f} s")

    def dump(self):
        """How long pg_dump | psql of one schema takes."""
        shard = self.fleet.shards[0]
        state = self.fleet.state()
        owner = next(cell["server"] for it in state["shards"] if it["shard"] == shard for cell in it["cells"] if cell["state"] == "primary")
        there = next(it for it in self.fleet.names if it != owner)
        self.fleet.posts[there].query("CREATE DATABASE dumped")
        ports = [self.fleet.posts[it].port for it in (owner, there)]
        begun = time.monotonic()
        words = "{0}/pg_dump -h 127.0.0.1 -p {1} -U postgres -n {3} --exclude-table='{3}.sm_*' --no-publications postgres | {0}/psql -qX -h 127.0.0.1 -p {2} -U postgres dumped"
        subprocess.run(words.format(BIN, *ports, shard), shell=True, stdout=subprocess.DEVNULL, stderr=subprocess.DEVNULL, check=False)
        return time.monotonic() - begun

    def make(self):
        document = super().make()
        self.size = document["shards"][0]["load"]
        return document


def told(title, times):
    """Median and longest of times, in words."""
    its = sorted(it * 1e3 for it in times)
    return f"{title}: median {its[len(its) // 2]:.0f} ms, longest {its[-1]:.0f} ms of {len(its)}" if its else f"{title}: none"


def machine(folder):
    """What the machine is."""
    model = next((it.split(":")[1].strip() for it in Path("/proc/cpuinfo").read_text().splitlines() if it.startswith("model name")), "?")
    memory = int(Path("/proc/meminfo").read_text().split()[1]) >> 20
    disk = subprocess.run(["df", "--output=fstype", str(folder)], capture_output=True, text=True, check=False).stdout.split()[-1]
    return f"{os.cpu_count()} processors ({model}), {memory} GB, {disk}"


def main():
    signal.signal(signal.SIGTERM, lambda *_: sys.exit(143))
    parser = argparse.ArgumentParser()
    parser.add_argument("folder")
    for name, value in (("--shards", "12"), ("--rows", "20000"), ("--at-once", "1"), ("--rest", "0.1"),
                        ("--writers", "1"), ("--patience", "1200")):
        parser.add_argument(name, default=value)
    parser.add_argument("--watch", type=int, default=20, help="so many shards are watched")
    parser.add_argument("--databases", action="store_true")
    given = parser.parse_args()
    sys.argv = ["run.py", given.folder, "--harm", "--seconds", "40", "--seed", "1", "--copies", "1", "--steady",
                f"--option=--at-once={given.at_once}"]
    for name in ("shards", "rows", "rest", "writers", "patience"):
        sys.argv += [f"--{name}", getattr(given, name)]
    sys.argv += ["--databases", given.shards] if given.databases else []
    bench = Bench(runs.arguments())
    bench.watch = given.watch
    try:
        wrong = bench.run()
        wrong += [] if bench.status == 0 else [f"the drain ended with {bench.status}"]
    except TimeoutError as why:
        wrong = [str(why)]
    finally:
        (bench.fleet.folder / "stop").touch()
        bench.fleet.close()
        for it in bench.writers:
            it.kill()
    print(f"verdict: {len(wrong)} violations", *wrong[:20], sep="\n  ", flush=True)
    os._exit(1 if wrong else 0)


if __name__ == "__main__":
    main()
