"""Clients that write all the time, by the router; what they are told stands in FOLDER/acknowledged-N.jsonl.

    python3 writers.py FOLDER NUMBER THREADS_PER_SHARD REST_SECONDS PLAIN_SECONDS    (until FOLDER/stop is there)

One request of fifty is sent again after its acknowledgement, and one of a hundred loses its connection while COMMIT is
under way. Not so if clients are to be steady: then each rests equally long between two requests, and a time without an
acknowledgement is known to the length of that rest. With PLAIN_SECONDS above 0 each shard has a client, too, that knows
nothing of shards, and leaves each transaction open for up to so long; what it has committed stands in plain-N.jsonl.
"""
import json
import random
import sys
import threading
import time
from pathlib import Path

import clock
import servers  # (it makes the packages be found)
import psycopg
from smplan_pg.router import NotServed, Router


class RoughRouter(Router):
    """A router whose connections end in the middle of a COMMIT, now and then."""

    def commit(self, c):
        if random.random() >= 0.01:
            return super().commit(c)
        self.counts["cut off"] += 1
        c.pgconn.send_query(b"COMMIT")
        time.sleep(random.choice([0, 0.0003, 0.001]))
        c.close()
        raise psycopg.OperationalError("the connection was cut off in COMMIT")


def transfer(request, account, delta):
    """One request's work: a balance and its history."""
    def work(cursor):
        cursor.execute("INSERT INTO history (request, account, delta) VALUES (%s, %s, %s)", (request, account, delta))
        return cursor.execute("UPDATE accounts SET balance = balance + %s WHERE id = %s RETURNING balance", (delta, account)).fetchone()["balance"]
    return work


class Writer:
    """One client of one shard."""

    def __init__(self, folder, router, setup, shard, name, rest):
        self.folder, self.router, self.setup, self.shard, self.name, self.rest = folder, router, setup, shard, name, rest

    def run(self, log):
        number, dice = 0, random.Random(self.name)
        while not (self.folder / "stop").exists():
            number += 1
            request, account, delta = f"{self.name}-{number}", dice.randrange(1, self.setup["rows"] + 1), dice.randrange(-99, 100)
            begun = time.time()
            try:
                reply = self.patient(request, account, delta)
            except NotServed:
                log([self.shard, request, account, delta, "not served", begun, time.time()])
                continue
            except Exception as why:  # pylint: disable=broad-exception-caught
                log([self.shard, request, account, delta, f"fault {type(why).__name__} {why}", begun, time.time()])
                continue
            log([self.shard, request, account, delta, reply, begun, time.time()])
            if self.setup["steady"]:
                time.sleep(self.rest)
                continue
            if dice.random() < 0.02:
                try:
                    if self.router.run(self.shard, request, transfer(request, account, delta)) != reply:
                        log([self.shard, request, account, delta, "other reply", begun, time.time()])
                except NotServed:
                    pass
            time.sleep(random.random() * 2 * self.rest)


    def patient(self, request, account, delta):
        """A request's reply; once more if it was not served within a time in which this process stood still."""
        until = clock.now() + self.setup["patience"]
        while True:
            try:
                return self.router.run(self.shard, request, transfer(request, account, delta))
            except NotServed:
                if clock.now() >= until - clock.STEP:
                    raise


class PlainWriter:
    """A client of one shard that knows nothing of shards: it connects to where the map lists it, and looks at the map again when it is refused."""

    def __init__(self, folder, setup, shard, name, rest, longest):
        self.folder, self.setup, self.shard, self.name, self.rest, self.longest = folder, setup, shard, name, rest, longest

    def run(self, log):
        number, c, place = 0, None, None
        while not (self.folder / "stop").exists():
            number += 1
            try:
                if c is None:
                    place = self.listed()
                    c = psycopg.connect(self.setup["servers"][place], connect_timeout=5)
                begun = time.time()
                with c.transaction():
                    c.execute(f"INSERT INTO {self.shard}.notes VALUES (%s)", (f"{self.name}-{number}",))
                    time.sleep(random.random() * self.longest)
                log([self.shard, f"{self.name}-{number}", begun, time.time()])
            except (psycopg.Error, OSError, LookupError, ValueError):
                if c is not None and (c.closed or self.listed() != place):
                    c.close()
                    c = None
            time.sleep(max(0.03, random.random() * 2 * self.rest))

    def listed(self):
        """Where the map lists the shard; none while it can't be read."""
        try:
            return json.loads(Path(self.setup["maps"][0]).read_text())["entries"][self.shard]["to"]
        except (OSError, LookupError, ValueError):
            return None


class Log:
    """Lines of JSON that threads write."""

    def __init__(self, path):
        self.lock, self.file = threading.Lock(), path.open("w", buffering=1)

    def __call__(self, line):
        with self.lock:
            self.file.write(json.dumps(line) + "\n")


def main(folder, number, threads, rest, longest):
    setup = json.loads((folder / "setup.json").read_text())
    kind, maps, rests = Router if setup["steady"] else RoughRouter, setup["maps"], setup["rests"]
    routers = [kind(setup["servers"], maps[it % len(maps)], patience=setup["patience"]) for it in range(2)]
    told, plain = Log(folder / f"acknowledged-{number}.jsonl"), Log(folder / f"plain-{number}.jsonl")
    work = [(Writer(folder, routers[it % 2], setup, shard, f"{shard}-{number}-{it}", rests.get(shard, rest)), told)
            for shard in setup["shards"] for it in range(threads)]
    work += [(PlainWriter(folder, setup, shard, f"{shard}-{number}", rest, longest), plain) for shard in setup["shards"] if longest]
    running = [threading.Thread(target=it.run, args=(log,)) for it, log in work]
    for step in (threading.Thread.start, threading.Thread.join):
        for it in running:
            step(it)
    for it in (told, plain):
        it.file.close()
    print("writers:", dict(sum((it.counts for it in routers), start=routers[0].counts.__class__())), flush=True)


if __name__ == "__main__":
    main(Path(sys.argv[1]), int(sys.argv[2]), int(sys.argv[3]), float(sys.argv[4]), float(sys.argv[5]))
