"""What befalls servers, at moments that are waited for."""
import contextlib
import json
import os
import signal
import threading
import time

import psycopg

# The shards that are copied from a server, each with when its copy began, and those in a handover.
MOVES = "SELECT shard, since FROM sm.copied WHERE seen > clock_timestamp() - interval '8 s' UNION SELECT shard, NULL FROM sm.slots WHERE cell IN (2, 5)"

# The new owner of a shard that a server has handed over, has leave to drop, and does not follow any more.
LEAVES = "SELECT party FROM sm.leaving JOIN sm.slots USING (shard), sm.state, pg_subscription WHERE cell = 5 AND subname = sm.stream(shard, me) AND NOT subenabled"

# When a moment has come to a server; `drop`: a schema is dropped in a transaction that has not ended, or an old owner's is about to be. A cut has a name, so
# that each is struck once, and a handover gets on.
MOMENTS = {
    "copy": "SELECT EXISTS (SELECT FROM sm.copying)",
    "cut": "SELECT shard || ' ' || last FROM sm.slots WHERE cell = 5",
    "seal": "SELECT EXISTS (SELECT FROM sm.slots WHERE cell = 2 AND has_cut = 1)",
    "over": "SELECT EXISTS (SELECT FROM sm.slots WHERE cell = 5 AND source IS NOT NULL)",
    "order": "SELECT EXISTS (SELECT FROM sm.slots WHERE at_work <> 0)",
    "drop": "SELECT EXISTS (SELECT FROM pg_locks WHERE locktype = 'object' AND mode = 'AccessExclusiveLock' AND granted AND classid = 'pg_namespace'::regclass) "
            f"OR EXISTS ({LEAVES})",
    "moves": f"SELECT EXISTS ({MOVES})",
    "prepared": "SELECT EXISTS (SELECT FROM sm.slots WHERE cell = 2 AND has_cut = 0 AND is_whole)",
    "leave": f"SELECT EXISTS ({LEAVES})",
}
FLUSHED = "SELECT pg_current_wal_flush_lsn()::text"
# Whether a shard that a server serves, or has handed over, is followed up to a place of its log.
COUNTED = "SELECT EXISTS (SELECT FROM {0}.sm_members JOIN pg_replication_slots ON slot_name = sm.stream('{0}', server) WHERE confirmed_flush_lsn >= '{1}')"
HANDED_OVER = ("SELECT count(*) = 0 OR bool_or(active AND confirmed_flush_lsn >= '{1}') FROM pg_replication_slots WHERE starts_with(slot_name, sm.stream('{0}') || '_')")
# Of what stands still: the shard, and the name of its stream.
LATE = {
    "copy": "SELECT shard, sm.stream(shard, me) FROM sm.copying, sm.state",
    "prepared": "SELECT shard, sm.stream(shard, me) FROM sm.slots, sm.state WHERE cell = 2 AND has_cut = 0 AND is_whole",
}
KILLS = ("copy", "cut", "seal", "over", "order", "drop")
KINDS = (*KILLS, "controller", "hold", "ddl", "away", "late copy", "late stream", "late commit")


def resume(pid):
    """Lets a process go on."""
    with contextlib.suppress(OSError):
        os.kill(pid, signal.SIGCONT)


class Harm:
    """Harm to a fleet, told as it comes."""

    def __init__(self, fleet, dice, say):
        self.fleet, self.dice, self.say = fleet, dice, say
        self.counts, self.wrong, self.gone, self.losses = {}, [], set(), []
        self.lock = threading.Lock()
        self.looks, self.struck = {}, set()

    def count(self, what):
        self.counts[what] = self.counts.get(what, 0) + 1

    def present(self):
        return [it for it in self.fleet.names if it not in self.gone]

    def do(self, kind, stop=lambda: False):
        """One harm of a kind, unless its moment does not come."""
        dead = 2.0 + self.fleet.dead
        works = {"controller": self.controller, "hold": lambda: self.hold(self.dice.uniform(0.5, 3.0)), "ddl": lambda: self.ddl(stop), "away": lambda: self.away(dead),
                 "late copy": lambda: self.delay("copy", stop), "late stream": lambda: self.delay("prepared", stop),
                 "late commit": lambda: self.late_commit(stop), "leave": lambda: self.lose_behind_leave(stop)}
        works.get(kind, lambda: self.strike(kind, stop))()

    def rows(self, name, statement, values=None):
        """All rows of a statement at a server, over a connection that is kept; none if it is away."""
        try:
            if name not in self.looks:
                self.looks[name] = psycopg.connect(self.fleet.posts[name].reach, autocommit=True, connect_timeout=5)
            return self.looks[name].execute(statement, values).fetchall()
        except psycopg.Error:
            if name in self.looks:
                self.looks.pop(name).close()
            return []

    def holds(self, name, statement, values=None):
        """Whether something holds at a server."""
        return (self.rows(name, statement, values) or [(False,)])[0][0]

    def has_come(self, name, moment):
        """Whether a moment has come to a server, and was not struck before if it has a name."""
        fresh = {told for (told,) in self.rows(name, MOMENTS[moment]) if told} - self.struck
        self.struck |= fresh - {True}
        return bool(fresh)

    def victim(self, moment, seconds=8.0, stop=lambda: False):
        """A server to which a moment has come; none if it does not come."""
        until = time.monotonic() + seconds
        while time.monotonic() < until and not stop():
            for name in self.dice.sample(self.present(), len(self.present())):
                if self.has_come(name, moment):
                    return name
            time.sleep(0.02)
        return None

    def delay(self, moment, stop):
        """A table that is read for a copy, or what a server would follow to the cut of a handover, stands still: until it has sealed all the same, or for a
        while."""
        name, until = self.victim(moment, stop=stop), time.monotonic() + self.fleet.late
        rows = self.rows(name, LATE[moment]) if name else []
        if not rows:
            return
        shard, stream = rows[0]
        kind = "client backend" if moment == "copy" else "walsender"
        reads = f"SELECT pid FROM pg_stat_activity WHERE application_name = '{stream}' AND backend_type = '{kind}'"
        with self.lock, contextlib.ExitStack() as frozen:
            found = []
            while not found and time.monotonic() < until and not stop():
                for source in set(self.present()) - {name}:
                    for (pid,) in self.rows(source, reads):
                        with contextlib.suppress(OSError):
                            frozen.callback(resume, pid)
                            os.kill(pid, signal.SIGSTOP)
                            found.append(pid)
                time.sleep(0.005)
            if found:
                self.count(f"late {'copy' if moment == 'copy' else 'stream'}")
            serves = f"SELECT EXISTS (SELECT FROM sm.slots WHERE shard = '{shard}' AND (cell = 4 OR has_cut = 1))"
            while found and time.monotonic() < until and not self.holds(name, serves):
                time.sleep(0.05)

    def late_commit(self, stop):
        """A client that knows nothing of shards writes just before a cut, and commits once the new owner has sealed; if the cut waits for it, after a while."""
        name = self.victim("prepared", stop=stop)
        rows = self.rows(name, "SELECT shard, party FROM sm.slots WHERE cell = 2 AND has_cut = 0 AND is_whole LIMIT 1") if name else []
        if not rows:
            return
        begun, (shard, party) = time.time(), rows[0]
        owner, note, until = self.fleet.names[party - 1], f"late-{begun}", time.monotonic() + 3.0
        try:
            with psycopg.connect(self.fleet.posts[owner].reach, connect_timeout=2) as c:
                c.execute(f"INSERT INTO {shard}.notes VALUES (%s)", (note,))
                self.count("late commit")
                sealed = "SELECT EXISTS (SELECT FROM sm.slots WHERE shard = %s AND (has_cut = 1 OR cell <> 2))"
                while time.monotonic() < until and not self.holds(name, sealed, (shard,)):
                    time.sleep(0.02)
            with (self.fleet.folder / "plain-late.jsonl").open("a") as file:
                file.write(json.dumps([shard, note, begun, time.time()]) + "\n")
        except psycopg.Error:
            pass

    def strike(self, moment, stop=lambda: False):
        """Kills a server, its side, or both, when a moment has come; and starts them again."""
        name = self.victim(moment, stop=stop)
        if name is None:
            return
        kinds = self.dice.choice([("server",), ("side",), ("server", "side")])
        with self.lock:
            if name in self.gone:
                return
            self.count(f"{moment}: {' and '.join(kinds)}")
            self.say(f"kill -9 {name} ({', '.join(kinds)}) at {moment}")
            if "side" in kinds:
                self.fleet.agents[name].kill()
            if "server" in kinds:
                self.fleet.posts[name].kill()
            time.sleep(self.dice.uniform(0.2, 1.5))
            self.revive(name)

    def revive(self, name):
        """Starts what is not up of a server."""
        post, side = self.fleet.posts[name], self.fleet.agents[name]
        if not post.is_up():
            post.start()
            post.wait()
        if not side.is_up():
            side.start()

    def away(self, seconds):
        """A server is off for longer than others wait for it."""
        with self.lock:
            name = self.dice.choice(self.present())
            self.count("away")
            self.say(f"{name} is off for {seconds:.0f} s")
            self.fleet.posts[name].kill()
            time.sleep(seconds)
            self.revive(name)

    def controller(self):
        """A controller and its session are killed, and started again; of several mostly the one that leads."""
        with self.lock:
            number = self.fleet.leader() if self.dice.random() < 0.7 else self.dice.randrange(len(self.fleet.controllers))
            self.count("controller")
            self.say(f"kill -9 controller {number}")
            self.fleet.kill_controller(number)
            time.sleep(self.dice.uniform(0.1, 1.0))
            self.fleet.controllers[number].start()

    def hold(self, seconds):
        """A client leaves a transaction open."""
        shard = self.dice.choice(self.fleet.shards)
        for name in self.present():
            try:
                with psycopg.connect(self.fleet.posts[name].reach, connect_timeout=2) as c:
                    if c.execute("SELECT answer FROM sm.enter(%s, %s)", (shard, f"held-{time.time()}")).fetchone()[0] == 12:
                        self.count("hold")
                        self.say(f"a transaction on {shard} stays open for {seconds:.0f} s")
                        time.sleep(seconds)
                    c.rollback()
            except psycopg.Error:
                continue

    def ddl(self, stop):
        """Somebody changes the schema of a shard that moves: it has to be refused."""
        name = self.victim("moves", stop=stop)
        if name is None:
            return
        try:
            with psycopg.connect(self.fleet.posts[name].reach, connect_timeout=2) as c:
                for row in c.execute(MOVES).fetchall():
                    self.count("ddl")
                    c.execute("SET lock_timeout = '200ms'")
                    c.execute(f"ALTER TABLE {row[0]}.accounts ADD COLUMN other int")
                    if row in c.execute(MOVES).fetchall():
                        self.wrong.append(f"the schema of {row[0]} was changed at {name} while it moves")
                c.rollback()
        except psycopg.Error:
            pass

    def is_followed(self, name, place):
        """Whether each shard that a server serves has a follower that counts, and has what was written up to a place of the server's log; of what it has
        handed over, whoever still reads."""
        post = self.fleet.posts[name]
        served = post.query("SELECT shard, cell FROM sm.slots WHERE cell IN (4, 5) OR (cell = 2 AND has_cut = 1)")
        return all(post.query((HANDED_OVER if cell == 5 else COUNTED).format(shard, place))[0][0] for shard, cell in served)

    def lose(self, name):
        """A server is lost for good, and the service reopened without it. (Whose followers are all away just then is not lost: nobody else would have its
        last writes. Where each write is at several, no shard has to be named unless some move.)"""
        with self.lock:
            places = []
            if self.fleet.copies > 1:
                self.fleet.wait_for(f"copies of what {name} serves are told", lambda: self.is_told(name))
            self.fleet.wait_for(f"{name} answers", lambda: places.append((time.time(), self.fleet.posts[name].query(FLUSHED)[0][0])) or places)
            at, place = places[0]
            self.fleet.wait_for(f"what {name} serves is followed", lambda: self.is_followed(name, place))
            self.count("lose")
            self.gone.add(name)
            frozen = self.freeze(name)
            self.say(f"kill -9 {name} for good, while {len(frozen)} of its streams stand still")
            time.sleep(self.fleet.frozen)
            self.fleet.agents[name].kill()
            self.fleet.posts[name].kill()
            self.reopen(name, at, 2 if self.fleet.copies > 1 else 0)

    def reopen(self, name, at, unnamed, tries=20):
        """Reopens the service without a server; a few times as long as no shard is named."""
        begun = time.monotonic()
        for n in range(tries):
            words = [] if n < unnamed else ["--accept-loss"]
            if self.fleet.command("reopen", "--lost", name, "--yes", *words, "--wait", "60").wait() == 0:
                self.count("named" if words else "unnamed")
                break
            time.sleep(0.5)
        else:
            self.wrong.append(f"not within {time.monotonic() - begun:.0f} s: the service is open without {name}")
        self.losses.append((at, time.time()))
        self.say(f"reopened after {time.monotonic() - begun:.1f} s")

    def is_told(self, name):
        """Whether a controller knows the copies of each shard that a server leads."""
        shards = self.fleet.state()["shards"]
        return all(it["copies"] >= self.fleet.copies for it in shards if {"server": name, "state": "primary"} in it["cells"])

    def lose_alone(self, name):
        """A server is alone, as the others are off, and is lost for good as they start again: no shard may have to be named."""
        with self.lock:
            self.fleet.wait_for(f"copies of what {name} serves are told", lambda: self.is_told(name))
            at, others = time.time(), [it for it in self.present() if it != name]
            for it in others:
                self.fleet.agents[it].kill()
                self.fleet.posts[it].kill()
            served = [shard for (shard,) in self.fleet.posts[name].query("SELECT shard FROM sm.slots WHERE cell = 4")]
            alone = " AND ".join(f"NOT EXISTS (SELECT FROM {it}.sm_members)" for it in served)
            with contextlib.suppress(TimeoutError):  # (it waits for the last one)
                self.fleet.wait_for(f"{name} goes on alone", lambda: self.fleet.posts[name].query(f"SELECT {alone}") == [(True,)], 2 * self.fleet.dead + 8.0)
            time.sleep(2.0)
            self.count("lose")
            self.gone.add(name)
            self.fleet.agents[name].kill()
            self.fleet.posts[name].kill()
            self.say(f"kill -9 {name} for good, while it is alone")
            for it in others:
                self.revive(it)
            for it in others:
                self.fleet.wait_for(f"{it} answers", lambda it=it: self.fleet.answers(it))
            self.reopen(name, at, 5, 5)

    def lose_behind_leave(self, stop):
        """Kills an old owner that has leave to drop its copy, and loses the new owner, before it starts again: a reopening takes that copy for whole."""
        name = self.victim("leave", stop=stop)
        rows = self.rows(name, LEAVES) if name else []
        if not rows:
            return
        with self.lock:
            self.count("leave")
            for it in (self.fleet.agents[name], self.fleet.posts[name]):
                it.kill()
        time.sleep(0.7)
        lost = self.fleet.names[rows[0][0] - 1]
        threading.Thread(target=self.revive_behind, args=(name, lost), daemon=True).start()
        self.lose(lost)

    def revive_behind(self, name, lost):
        """Starts a server again once another one is lost."""
        while self.fleet.posts[lost].is_up():
            time.sleep(0.05)
        self.revive(name)

    def freeze(self, name):
        """Lets streams of a server stand still, so that their followers lack what is written then: of every other shard with several followers one goes on.
        Returns the streams' processes."""
        frozen, streams = [], {}
        with contextlib.suppress(psycopg.Error):
            for slot, pid in self.fleet.posts[name].query("SELECT slot_name, active_pid FROM pg_replication_slots WHERE active AND slot_name LIKE 'sm\\_%' ORDER BY 1"):
                streams.setdefault(slot.rsplit("_", 1)[0], []).append(pid)
        for n, pids in enumerate(streams.values()):
            for pid in self.dice.sample(pids, max(1, len(pids) - n % 2)):
                with contextlib.suppress(OSError):
                    os.kill(pid, signal.SIGSTOP)
                    frozen.append(pid)
        return frozen

    def replace(self, name):
        """A server that was lost comes back with an empty disk."""
        with self.lock:
            self.count("replace")
            self.fleet.remake(name)
            self.fleet.agents[name].start()
            self.fleet.wait_for(f"{name} answers", lambda: self.revive(name) or self.fleet.answers(name))  # (its side ends if its database is away for long)
            status = self.fleet.command("add-server", name, "--region", "r", "--room", str(self.fleet.room), "--yes").wait()
            self.say(f"{name} is back with an empty disk: {'added' if status == 0 else 'not added'}")
            if status == 0:
                self.gone.discard(name)
