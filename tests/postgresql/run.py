"""run.py FOLDER [--seconds 60] [--seed N] [--shards 6] [--rows 5000] [--harm ..] [--bug NAME]: servers, shards and clients that write all the time, plans
that move the shards, harm drawn by the seed, and a verdict. Exit status 0: nothing is wrong; 1: violations; 4: the machine is too slow for a verdict.
"""
import argparse
import json
import os
import random
import signal
import subprocess
import sys
import threading
import time
from collections import Counter
from pathlib import Path

import checker
import clock
from harm import KINDS, Harm
from servers import Fleet
from share import Share

HERE = Path(__file__).resolve().parent

# What a client notes that was not served within its patience.
LATE = ": not served"
TABLES = """CREATE SCHEMA {0};
CREATE TABLE {0}.accounts (id int PRIMARY KEY, balance bigint NOT NULL DEFAULT 0, filler text);
CREATE TABLE {0}.history (id bigserial PRIMARY KEY, request text NOT NULL, account int NOT NULL, delta int NOT NULL);
CREATE TABLE {0}.notes (id text PRIMARY KEY);
INSERT INTO {0}.accounts SELECT it, 0, repeat(md5(it::text), 9) FROM generate_series(1, {1}) it;"""


class Run:
    """One run."""

    def __init__(self, told):
        self.told, self.dice, self.begun, self.events = told, random.Random(told.seed), time.time(), []
        names = [chr(ord("a") + it) for it in range(told.servers)]
        options = ["--dead", str(told.dead), "--copies", str(told.copies), *told.option]
        self.fleet = Fleet(told.folder, names, told.shards, options=options, harm=told.messages, seed=told.seed, bug=told.bug,
                           controllers=told.controllers, parts=told.databases)
        self.fleet.dead, self.fleet.late, self.fleet.frozen, self.fleet.patience, self.fleet.copies = told.dead, told.late, told.frozen, told.patience, told.copies
        self.harm = Harm(self.fleet, random.Random(f"{told.seed} harm"), self.say)
        self.stopping = threading.Event()
        self.writers, self.spans, self.drained, self.share = [], {}, None, Share()
        self.looked, self.is_wrong = 0.0, False
        self.share.start()

    def say(self, *words):
        """Tells what happens."""
        self.events.append((time.time(), " ".join(str(it) for it in words)))
        if not self.told.quiet:
            print(f"{time.time() - self.begun:7.2f} s ", *words, flush=True)

    # -- the service

    def make(self):
        """Servers, shards, and a document of what is where."""
        sys.path.insert(0, str(HERE.parents[1] / "ports/postgresql"))
        if self.told.bug:
            import wrong
            wrong.plant(self.told.bug)
        from smplan_pg.adopt import adopt, load_of
        from smplan_pg.database import Database
        self.fleet.make()
        names, cells, loads = self.fleet.names, {f"s{n}": self.cells_of(n) for n in range(self.told.shards)}, {}

        def fill(name):
            database = Database(self.fleet.posts[name].reach)
            for shard in (it for it, its in cells.items() if its[0] == name):
                self.fleet.posts[name].query(TABLES.format(shard, self.told.rows))
                adopt(database, [shard])
                loads[shard] = load_of(database, shard)
        fillers = [threading.Thread(target=fill, args=(it,)) for it in names]
        for step in (threading.Thread.start, threading.Thread.join):
            for it in fillers:
                step(it)
        self.fleet.shards, self.cells, self.fleet.room = list(cells), cells, max(loads.values()) if self.told.databases else 3 * sum(loads.values())
        regions = {it: it[0] if self.told.databases else "r" for it in names}
        return {"limit": 1, "servers": [{"name": it, "region": regions[it], "room": self.fleet.room} for it in names],
                "shards": [{"name": shard, "load": loads[shard], "want": len(its), "cap": len(its) - 1, "spread": len({regions[it] for it in its}), "listed": its[0], "cells": [
                    {"server": it, "state": "secondary" if n else "primary"} for n, it in enumerate(its)]} for shard, its in cells.items()]}

    def cells_of(self, n):
        """The servers of a shard, the primary first. If each is a database, a shard has one of its number at each."""
        names = list(self.fleet.machines)
        order = names[n % len(names):] + names[:n % len(names)]
        if n % len(names) == 0 or n % 3 == 0 or self.told.at_one:
            order = [names[0], *self.dice.sample(names[1:], len(names) - 1)]
        order = order[:3 if len(names) > 3 and (self.told.wide or n % 3 == 2) else 2]
        return [f"{it}{n}" for it in order] if self.told.databases else order

    def start_writers(self):
        """Clients in processes of their own."""
        (self.fleet.folder / "setup.json").write_text(json.dumps(self.setup()))
        self.writers = [subprocess.Popen(["/usr/bin/python3", "writers.py", str(self.fleet.folder), str(n), "1", str(self.told.rest), str(self.told.plain)], cwd=HERE,
                                         stdout=(self.fleet.folder / f"writers-{n}.log").open("w"), stderr=subprocess.STDOUT) for n in range(self.told.writers)]

    def setup(self):
        """What clients have to know."""
        return {"patience": 60.0 * self.told.copies,  # (where a second copy is lost, who writes waits for another one)
                "servers": {it: post.reach for it, post in self.fleet.posts.items()},
                "maps": [str(it) for it in self.fleet.map_files], "shards": self.fleet.shards, "rows": self.told.rows,
                "steady": self.told.steady, "rests": {}}

    def written(self):
        """How many writes are acknowledged so far."""
        return sum(path.read_text().count("\n") for path in self.fleet.folder.glob("acknowledged-*.jsonl"))

    # -- what goes on

    def harms(self):
        """One harm after the other, with rests between; each kind comes once before any comes again."""
        kinds = []
        while not self.stopping.wait(self.harm.dice.uniform(0.15, 1.0) * self.told.every) and sum(self.harm.counts.values()) < self.told.most:
            kinds = kinds or self.harm.dice.sample(self.told.harm, len(self.told.harm))
            kind = kinds.pop()
            try:
                self.harm.do(kind, self.stopping.is_set)
            except Exception as why:  # pylint: disable=broad-exception-caught
                self.say("harm", kind, type(why).__name__, why)

    def moves(self, seconds):
        """Drains one server after the other for a while, and repairs what shards lack."""
        begun, loses, done = clock.now(), self.told.lose, 0
        until = begun + seconds
        while not self.is_over() and (clock.now() < until or loses or (clock.now() < begun + self.told.patience and (done < self.told.drains or self.lacks_harm()))):
            if loses and clock.now() >= begun + seconds * self.told.lose_at:
                name = self.serving()
                (self.harm.lose_alone if self.told.alone else self.harm.lose)(name)
                self.repair()
                if not self.told.no_disk:
                    self.harm.replace(name)
                    self.repair()
                loses = 0
                continue
            if self.dice.random() < self.told.back:
                name = self.serving() if self.told.at_one else self.dice.choice(self.harm.present())
                status = self.lead_away(name)
                done += status == 0
                self.say(f"others lead for {name} while it is killed and starts again, and give back: {status}")
                continue
            name = self.next_to_drain()
            words = ["drain", name, "--batch", "2", "--pause", "0.2", "--stop", "20"] + (["--prefer-secondary"] if self.dice.random() < self.told.roles else [])
            self.say(*words[:2], *(words[8:]))
            at = time.time()
            is_patient = self.told.drains or self.told.each
            status = self.command(*words, seconds=self.told.patience if is_patient else max(5.0, min(until - clock.now() + 10, self.told.seconds / 3)))
            done += status == 0
            self.say(f"drain of {name} ended with {status}")
            self.spans.setdefault("drains", []).append((at, time.time()))

    def lacks_harm(self):
        """Whether a kind of harm has not come as often as it has to."""
        came = Counter()
        for what, count in list(self.harm.counts.items()):
            came[what.split(":")[0]] += count
        return any(came[it] < self.told.each for it in self.told.harm)

    def found(self):
        """What is wrong already, and no time mends."""
        return self.harm.wrong + checker.conflicts(self.fleet.folder) + checker.told_wrong(self.fleet.folder)

    def is_over(self):
        """Whether something is wrong already that no time mends, as was seen within the last second."""
        if time.monotonic() > self.looked + 1.0:
            self.looked, self.is_wrong = time.monotonic(), bool(self.found())
        return self.is_wrong

    def lead_away(self, name):
        """Others lead for a server, which is killed and starts again once that is allowed; and they give back."""
        asked = self.fleet.folder / "restart"
        process = self.fleet.command("restart", name, "--no-primaries", "--by", "storm", "--yes", "--wait", "20", "--", "sh", "-c",
                                     f"touch {asked}; while [ -e {asked} ]; do sleep 0.05; done")
        until = clock.now() + self.told.patience
        while process.poll() is None and clock.now() < until and not self.is_over():
            if asked.exists():
                with self.harm.lock:
                    self.fleet.posts[name].kill()
                    self.harm.revive(name)
                asked.unlink()
            time.sleep(0.05)
        asked.unlink(missing_ok=True)
        if process.poll() is None:
            process.kill()
        return process.wait()

    def serving(self):
        """A server that serves most shards, so that there is something to lose."""
        served = [cell["server"] for it in self.fleet.state()["shards"] for cell in it["cells"] if cell["state"] == "primary"]
        return max(self.harm.present(), key=served.count)

    def next_to_drain(self):
        """A server that has something, and was not drained last."""
        try:
            state = self.fleet.ask({"do": "state"})["state"]
            full = {cell["server"] for it in state["shards"] for cell in it["cells"]} & set(self.harm.present())
        except Exception:  # pylint: disable=broad-exception-caught  (the controller is away)
            full = set(self.harm.present())
        self.drained = self.serving() if self.told.at_one else self.dice.choice(sorted(full - {self.drained}) or sorted(full))
        return self.drained

    def repair(self):
        """Brings back what shards lack. Of one that has secondaries alone, as if a server was lost that others were about to give back to, one is promoted."""
        bare = [it["shard"] for it in self.fleet.state()["shards"] if all(cell["state"] != "primary" for cell in it["cells"])]
        return self.command("repair", "--yes", *(["--promote"] if bare else []))

    def command(self, *words, seconds=60.0):
        """Runs a command of an operator for a while, unless something is wrong."""
        process, until = self.fleet.command(*words), clock.now() + seconds
        while clock.now() < until and not self.is_over():
            try:
                return process.wait(0.5)
            except subprocess.TimeoutExpired:
                continue
        process.kill()
        process.wait()
        return "no end"

    # -- the end

    def is_quiet(self):
        """Whether no plan runs, and each shard has what it wants; asks for repair otherwise."""
        state = self.fleet.ask({"do": "state"})["state"]
        if state["is"] != "open" or any(it["is"] == "running" for it in state["plans"]):
            return False
        lacking = [it["shard"] for it in state["shards"] if len(it["cells"]) != len(self.cells[it["shard"]]) or all(cell["state"] != "primary" for cell in it["cells"])]
        if lacking:
            self.say("repair of", lacking)
            self.repair()
            return False
        return all(self.counts(it) for it in state["shards"])

    def counts(self, entry):
        """Whether all secondaries of a shard count at its primary."""
        shard, owner = entry["shard"], next(it["server"] for it in entry["cells"] if it["state"] == "primary")
        rows = self.fleet.posts[owner].query(f"SELECT name FROM {shard}.sm_members JOIN sm.servers ON number = server")
        return {it for (it,) in rows} == {it["server"] for it in entry["cells"]} - {owner}

    def settle(self):
        """Heals all, and waits until the service is at rest."""
        for name in self.harm.present():
            self.harm.revive(name)
        for it in [*([self.fleet.store] if self.fleet.store else []), *self.fleet.controllers]:
            if not it.is_up():
                it.start()
        self.fleet.wait_for("the service is at rest", lambda: self.is_over() or self.is_quiet())

    def run(self):
        """The whole run; returns what is wrong."""
        document = self.make()
        self.fleet.open(document)
        self.fleet.wait_for("all secondaries are copied", lambda: self.is_quiet_at_first(document))
        self.say(f"{len(self.fleet.names)} servers, {self.told.shards} shards of {document['shards'][0]['load']} MB; secondaries are copied")
        self.start_writers()
        self.fleet.wait_for("clients write", lambda: self.written() > 3 * self.told.shards)
        time.sleep(min(4.0, self.told.seconds / 8))
        self.spans["rest"] = [(self.begun, time.time())]
        harms = threading.Thread(target=self.harms) if self.told.harm else None
        if harms:
            harms.start()
        self.moves(self.told.seconds)
        self.stopping.set()
        if harms:
            harms.join()
        if self.told.bug and (found := self.found()):
            return found
        stuck = []
        try:
            self.settle()
        except TimeoutError as why:
            stuck = [f"{why}: {self.fleet.told_stuck()}"]
        time.sleep(1.0)
        (self.fleet.folder / "stop").touch()
        for it in self.writers:
            it.wait()
        wrong, by_shard = checker.check(self.fleet, {} if stuck else {shard: len(its) for shard, its in self.cells.items()}, self.told.least, self.harm.present(),
                                        self.harm.losses)
        self.report(by_shard)
        return stuck + self.harm.wrong + wrong

    def is_quiet_at_first(self, document):
        """Whether all secondaries are copied and count."""
        return all(self.counts(it | {"shard": it["name"]}) for it in document["shards"])

    def report(self, by_shard):
        """Figures."""
        for shard, rows in sorted(by_shard.items()):
            rest = checker.gaps_of(rows, *self.spans["rest"][0])
            drain = max((checker.gaps_of(rows, *it) for it in self.spans.get("drains", [])), default=0.0)
            print(f"{shard}: {len(rows)} acknowledged; longest time without one: {rest * 1e3:.0f} ms at rest, {drain * 1e3:.0f} ms while shards moved")
        print(f"load {os.getloadavg()[0]:.0f}; share of a processor {self.share.mean():.2f}")
        print("servers:", self.done())
        print("harm:", dict(self.harm.counts), "messages:", {it: dict(counts) for it, counts in self.fleet.proxied.items()})
        for n in range(len(self.writers)):
            print((self.fleet.folder / f"writers-{n}.log").read_text().strip()[-300:])


    def done(self):
        """How often servers did what, as their logs say."""
        lines = (line.split() for path in self.fleet.folder.glob("serve-*.log") for line in path.read_text().splitlines())
        return dict(Counter(words[2] for words in lines if words[2:3] and words[2] in ("copied", "prepare_drop", "sealed", "follows", "change")))


def arguments():
    parser = argparse.ArgumentParser()
    parser.add_argument("folder")
    parser.add_argument("--seconds", type=float, default=60)
    parser.add_argument("--seed", type=int, default=None)
    parser.add_argument("--servers", type=int, default=4)
    parser.add_argument("--shards", type=int, default=6)
    parser.add_argument("--rows", type=int, default=5000)
    parser.add_argument("--writers", type=int, default=2, help="processes, each with a client a shard")
    parser.add_argument("--rest", type=float, default=0.02)
    parser.add_argument("--steady", action="store_true", help="clients rest equally long, and do nothing on purpose twice")
    parser.add_argument("--harm", nargs="*", default=list(KINDS))
    parser.add_argument("--messages", type=float, default=0.0, help="the share of messages that are lost, late or doubled")
    parser.add_argument("--every", type=float, default=2.0, help="the longest rest between two harms, in seconds")
    parser.add_argument("--most", type=int, default=10000, help="so many harms come at most")
    parser.add_argument("--each", type=int, default=0, help="each kind of harm has to come so often, however long it takes")
    parser.add_argument("--controllers", type=int, default=1, help="several are over etcd")
    parser.add_argument("--databases", type=int, default=0, help="so many databases of each PostgreSQL are the servers, one for each shard (at least --shards)")
    parser.add_argument("--plain", type=float, default=0.0, help="a client that knows nothing of shards for each, and for how long it leaves a transaction open")
    parser.add_argument("--wide", action="store_true", help="all shards want three replicas")
    parser.add_argument("--at-one", action="store_true", help="one server serves all shards at first, and is drained")
    parser.add_argument("--back", type=float, default=0.0, help="the share of moves in which others lead for a server, and give back at once")
    parser.add_argument("--late", type=float, default=1.5, help="for how long a copy or a stream stands still, in seconds")
    parser.add_argument("--lose", type=int, default=0)
    parser.add_argument("--copies", type=int, default=None, help="each acknowledged write is at so many servers; without it, 2 by odd seeds")
    parser.add_argument("--alone", action="store_true", help="who is lost has gone on without the others before")
    parser.add_argument("--frozen", type=float, default=0.7, help="for how long streams of a server stand still before it is lost, in seconds")
    parser.add_argument("--no-disk", action="store_true", help="a server that is lost does not come back with an empty disk")
    parser.add_argument("--lose-at", type=float, default=0.5, help="the share of the time behind which a server is lost")
    parser.add_argument("--drains", type=int, default=0, help="so many drains have to end, however long it takes")
    parser.add_argument("--roles", type=float, default=0.4, help="the share of drains that change roles first")
    parser.add_argument("--dead", type=float, default=4.0)
    parser.add_argument("--patience", type=float, default=120.0)
    parser.add_argument("--least", type=int, default=100)
    parser.add_argument("--option", action="append", default=[])
    parser.add_argument("--bug", default="")
    parser.add_argument("--strict", action="store_true", help="what comes too late is wrong, however slow the machine is")
    parser.add_argument("--quiet", action="store_true")
    told = parser.parse_args()
    told.seed = random.SystemRandom().randrange(1 << 30) if told.seed is None else told.seed
    told.copies = 1 + told.seed % 2 if told.copies is None else told.copies
    return told


def main():
    signal.signal(signal.SIGTERM, lambda *_: sys.exit(143))
    told = arguments()
    run = Run(told)
    print(f"seed {told.seed}", flush=True)
    try:
        wrong = run.run()
    except TimeoutError as why:
        wrong = [str(why)]
    finally:
        (run.fleet.folder / "stop").touch()
        run.stopping.set()
        run.fleet.close()
        for it in run.writers:
            it.kill()
    print(f"verdict: {len(wrong)} violations (seed {told.seed})", *wrong[:20], sep="\n  ", flush=True)
    is_late = all(it.endswith(LATE) or it.startswith(("not within ", checker.LITTLE)) for it in wrong)
    os._exit(0 if not wrong else 4 if is_late and run.share.is_slow() and not told.strict else 1)


if __name__ == "__main__":
    main()
