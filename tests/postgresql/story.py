"""story.py FOLDER: four PostgreSQL servers with schemas that are written all the time; a drain, a restart by permit, a kill behind a cut, a server that is lost
for good, the service reopened and repaired; and a verdict. Each step tells how long shards were without an acknowledged write.
"""
import argparse
import os
import signal
import subprocess
import sys
import threading
import time

import checker
import run as runs
from servers import BIN

SCRIPT = """\\set id random(1, 1000000000000)
\\set account random(1, {rows})
BEGIN;
SELECT answer FROM sm.enter('{shard}', 'pgbench-:client_id-:id') \\gset
UPDATE accounts SET balance = balance + 1 WHERE id = :account;
INSERT INTO history (request, account, delta) VALUES ('pgbench-:client_id-:id', :account, 1);
SELECT sm.reply('{shard}', 'pgbench-:client_id-:id', '0');
COMMIT;
SELECT sm.acknowledged('{shard}');
"""
PLAIN = """\\set account random(1, {rows})
BEGIN;
UPDATE plain.accounts SET balance = balance + 1 WHERE id = :account;
INSERT INTO plain.history (request, account, delta) VALUES ('x', :account, 1);
COMMIT;
"""


class Story(runs.Run):
    """The run, step by step."""

    def step(self, title, work, *words):
        """A step, and what shards' writes waited for meanwhile."""
        self.say(f"-- {title}")
        begun = time.time()
        told = work(*words)
        self.spans.setdefault("steps", []).append((title, begun, time.time()))
        self.say(f"   done in {time.time() - begun:.1f} s: {told}")
        time.sleep(1.5)

    def moves(self, _):
        self.step("pgbench on s0 beside the other clients", self.pgbench)
        self.step("drain a", self.patient, "drain", "a", "--batch", "2", "--pause", "0.2")
        self.step("restart b, by permit", self.restart, "b")
        self.step("drain c, and kill -9 the server that has just handed a shard over", self.drain_and_kill, "c")
        self.step("kill -9 d for good, and reopen without it", self.lose, "d")
        self.step("repair", self.patient, "repair", "--yes")

    def patient(self, *words):
        """A command that may take long on a busy machine."""
        return self.command(*words, seconds=300.0)

    def pgbench(self):
        """Transactions a second with everything, and of plain tables beside."""
        told = []
        post = self.fleet.posts[self.cells["s0"][0]]
        post.query(runs.TABLES.format("plain", self.told.rows))
        for name, text in (("with sm.enter, identities and a follower that has it", SCRIPT), ("plain", PLAIN)):
            file = self.fleet.folder / "pgbench.sql"
            file.write_text(text.format(shard="s0", rows=self.told.rows))
            words = [str(BIN / "pgbench"), "-n", "-f", str(file), "-c", "4", "-T", "4", "-h", "127.0.0.1", "-p", str(post.port), "-U", "postgres", "postgres"]
            out = subprocess.run(words, capture_output=True, text=True, check=False)
            rate = next((it.split("=")[1].split("(")[0].strip() for it in out.stdout.splitlines() if it.startswith("tps")), out.stderr[-200:])
            told.append(f"{name}: {rate} a second")
        post.query("DROP SCHEMA plain CASCADE")
        return "; ".join(told)

    def restart(self, name):
        """A restart of PostgreSQL as an operator makes it: once it is allowed."""
        asked = self.fleet.folder / "restart"
        command = ["restart", name, "--by", "story", "--yes", "--wait", "300", "--", "sh", "-c", f"touch {asked}; while [ -e {asked} ]; do sleep 0.05; done"]
        told = []
        waiting = threading.Thread(target=lambda: told.append(self.patient(*command)))
        waiting.start()
        self.fleet.wait_for("the permit", asked.exists, 300.0)
        self.say(f"   {name} may restart")
        self.fleet.posts[name].stop(signal.SIGINT)
        self.fleet.posts[name].start()
        self.fleet.posts[name].wait()
        asked.unlink()
        waiting.join()
        return told[0]

    def drain_and_kill(self, name):
        """The old owner is killed right behind its cut, and comes back."""
        told = []
        waiting = threading.Thread(target=lambda: told.append(self.patient("drain", name, "--batch", "2", "--pause", "0.2")))
        waiting.start()
        until = time.monotonic() + 120
        while time.monotonic() < until and waiting.is_alive():
            try:
                if self.fleet.posts[name].query("SELECT EXISTS (SELECT FROM sm.slots WHERE cell = 5)")[0][0]:
                    self.fleet.posts[name].kill()
                    self.say(f"   kill -9 {name}")
                    time.sleep(1.0)
                    self.harm.revive(name)
                    break
            except runs.checker.psycopg.Error:
                pass
            time.sleep(0.004)
        waiting.join()
        return told[0]

    def lose(self, name):
        """A server is lost for good."""
        self.harm.lose(name)
        return "see above"

    def report(self, by_shard):
        """Longest times without an acknowledged write, by step."""
        for title, begun, ended in [("at rest", *self.spans["rest"][0]), *self.spans["steps"]]:
            gaps = sorted(checker.gaps_of(rows, begun, ended) * 1e3 for rows in by_shard.values())
            if gaps:
                print(f"{title:62} median of shards {gaps[len(gaps) // 2]:5.0f} ms, longest {gaps[-1]:5.0f} ms")
        print(f"{sum(map(len, by_shard.values()))} acknowledged writes; load {os.getloadavg()[0]:.1f}")
        for title, times in handovers(self.fleet.folder).items():
            times.sort()
            print(f"{title:30} median {times[len(times) // 2] * 1e3:.0f} ms, longest {times[-1] * 1e3:.0f} ms of {len(times)}")


def handovers(folder):
    """How long the parts of handovers took, from the servers' logs: from the cut to the seal, and to the last follower."""
    cuts, seals, follows, found = {}, {}, {}, {}
    for path in folder.glob("serve-*.log"):
        for line in path.read_text().splitlines():
            words = line.split()
            try:
                at = float(words[0])
            except (ValueError, IndexError):
                continue
            if words[2:3] == ["prepare_drop"]:
                cuts.setdefault(words[3], []).append(at)
            elif words[2:3] == ["sealed"]:
                seals.setdefault(words[3], []).append(at)
            elif words[2:3] == ["follows"]:
                follows.setdefault(words[5], []).append(at)
    for shard, its in cuts.items():
        for at in its:
            seal = min((it for it in seals.get(shard, []) if it > at - 0.1), default=None)
            if seal is not None and seal < at + 30:
                found.setdefault("from the cut to the seal", []).append(max(0.0, seal - at))
                over = [it for it in follows.get(shard, []) if at < it < at + 30]
                if over:
                    found.setdefault("from the cut to the last follower", []).append(max(over) - at)
    return found


def main():
    signal.signal(signal.SIGTERM, lambda *_: sys.exit(143))
    parser = argparse.ArgumentParser()
    parser.add_argument("folder")
    parser.add_argument("--shards", type=int, default=12)
    parser.add_argument("--rows", type=int, default=20000)
    parser.add_argument("--rest", type=float, default=0.03)
    parser.add_argument("--at-once", default="2")
    given = parser.parse_args()
    sys.argv = ["run.py", given.folder, "--shards", str(given.shards), "--rows", str(given.rows), "--rest", str(given.rest), "--harm", "--seconds", "40", "--seed", "1", "--copies", "1",
                f"--option=--at-once={given.at_once}"]
    story = Story(runs.arguments())
    try:
        wrong = story.run()
    except TimeoutError as why:
        wrong = [str(why)]
    finally:
        (story.fleet.folder / "stop").touch()
        story.fleet.close()
        for it in story.writers:
            it.kill()
    print(f"verdict: {len(wrong)} violations", *wrong[:20], sep="\n  ", flush=True)
    os._exit(1 if wrong else 0)


if __name__ == "__main__":
    main()
