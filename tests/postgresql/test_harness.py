"""What storms of PostgreSQL stand on: servers that are killed whole, ports of one run, a clock, and the table of wrong versions."""
import contextlib
import json
import os
import shutil
import signal
import subprocess
import tempfile
import threading
import time
import unittest
from pathlib import Path
from types import SimpleNamespace
from unittest import mock

import checker
import clock
import run
import servers
import psycopg
import trials
import writers

HERE = Path(__file__).resolve().parent


class KilledTest(unittest.TestCase):
    """A PostgreSQL server that is killed starts again at once, whatever ran there."""

    def setUp(self):
        self.folder = Path(tempfile.mkdtemp(prefix="pg-test-", dir="/dev/shm"))
        self.addCleanup(shutil.rmtree, self.folder)
        os.chmod(self.folder, 0o777)
        self.post = servers.Postgres(self.folder, "a", servers.free_ports(1)[0], 20, 3)
        self.assertEqual(self.post.make().wait(), 0)
        self.addCleanup(self.post.kill)
        self.post.start()
        self.post.wait()
        self.post.query("CREATE TABLE it (n int)")

    def make_stream(self, c):
        """Makes a stream, which ends with its server."""
        with contextlib.suppress(psycopg.Error):
            c.execute("SELECT pg_create_logical_replication_slot('it', 'pgoutput')")

    def test_a_backend_that_makes_a_stream_ends_with_its_server(self):
        writer, maker = psycopg.connect(self.post.reach), psycopg.connect(self.post.reach, autocommit=True)
        backend = maker.info.backend_pid
        writer.execute("INSERT INTO it VALUES (1)")
        making = threading.Thread(target=self.make_stream, args=(maker,))
        making.start()
        while self.post.query("SELECT count(*) FROM pg_locks WHERE NOT granted") == [(0,)]:
            time.sleep(0.01)
        writer.commit()
        servers.Process.kill(self.post)  # (the first process alone)
        time.sleep(0.5)
        outlived = self.post.processes()
        self.post.kill()
        making.join(5.0)
        self.assertEqual((self.post.processes(), making.is_alive()), ([], False))
        self.post.start()
        self.post.wait(10)
        self.assertIn(backend, outlived)
        writer.close()
        maker.close()

    def test_all_its_processes_stand_still_and_go_on(self):
        with self.post.still():
            states = {Path(f"/proc/{it}/stat").read_text().rsplit(")", 1)[1].split()[0] for it in self.post.processes()}
        self.assertEqual(states, {"T"})
        self.assertEqual(self.post.query("SELECT 1"), [(1,)])

    def test_nothing_starts_behind_the_end(self):
        self.post.may_start = False
        self.post.kill()
        with self.assertRaisesRegex(RuntimeError, "a starts no more"):
            self.post.wait(5)
        self.assertEqual(self.post.processes(), [])


class PortsTest(unittest.TestCase):
    """Two processes never choose one port, as long as both are there."""

    CHOOSE = "import servers, sys; print(*servers.free_ports(int(sys.argv[1])), flush=True); sys.stdin.read()"

    def choosing(self, count):
        """A process that chooses ports, and ends with its input."""
        words = ["/usr/bin/python3", "-c", self.CHOOSE, str(count)]
        return subprocess.Popen(words, cwd=HERE, stdin=subprocess.PIPE, stdout=subprocess.PIPE, text=True)

    def test_two_that_choose_at_once(self):
        with self.choosing(400) as one, self.choosing(400) as other:
            its = [*one.stdout.readline().split(), *other.stdout.readline().split()]
            self.assertEqual((len(its), len(set(its))), (800, 800))
            self.assertFalse(any(servers.hold(int(it)) for it in its))
            one.stdin.close()
            one.wait()
            self.assertTrue(servers.hold(int(its[0])))
            other.stdin.close()

    def test_below_what_connections_get(self):
        lowest = int(Path("/proc/sys/net/ipv4/ip_local_port_range").read_text().split()[0])
        self.assertLessEqual(servers.PORTS.stop, lowest)


class ClockTest(unittest.TestCase):
    """What is waited for is waited for as long as this process runs."""

    WAIT = ("import checker, clock; clock.STEP = 0.5; print('waits', flush=True); "
            "print(len(checker.lasting(lambda: [1], 3)), flush=True)")

    def test_a_time_in_which_nobody_looks_counts_little(self):
        times = iter([10.0, 11.0, 200.0, 203.0])
        it = clock.Clock(lambda: next(times))
        self.assertEqual([it.now(), it.now(), it.now()], [1.0, 1.0 + clock.STEP, 4.0 + clock.STEP])

    def test_a_process_that_is_stopped_waits_as_long_behind_it(self):
        with subprocess.Popen(["/usr/bin/python3", "-c", self.WAIT], cwd=HERE, stdout=subprocess.PIPE, text=True) as process:
            self.assertEqual(process.stdout.readline(), "waits\n")
            process.send_signal(signal.SIGSTOP)
            time.sleep(5.0)
            begun = time.monotonic()
            process.send_signal(signal.SIGCONT)
            self.assertEqual(process.stdout.readline(), "1\n")
            self.assertGreater(time.monotonic() - begun, 1.0)


class NotServedTest(unittest.TestCase):
    """A request that was not served in time is sent again if its client stood still meanwhile."""

    def sent(self, passed):
        """What comes of a request that is not served at first, if so much time has passed by then."""
        router, times = mock.Mock(), iter([0.0, passed])
        router.run.side_effect = [writers.NotServed("late"), "done"]
        writer = writers.Writer(None, router, {"patience": 60.0}, "s0", "s0-0-0", 0.1)
        with mock.patch.object(clock, "now", lambda: next(times)):
            return writer.patient("s0-0-0-1", 1, 2)

    def test_it_stood_still(self):
        self.assertEqual(self.sent(9.0), "done")

    def test_it_waited_for_all_of_its_patience(self):
        with self.assertRaises(writers.NotServed):
            self.sent(59.5)


class ToldTest(unittest.TestCase):
    """What clients have noted is wrong, unless they were not served, or still write it."""

    def test_lines_of_clients(self):
        with tempfile.TemporaryDirectory() as folder:
            rows = [["s0", "s0-1", 1, 2, 3, 0.0, 1.0], ["s0", "s0-2", 1, 2, "not served", 0.0, 1.0], ["s0", "s0-3", 1, 2, "other reply", 0.0, 1.0]]
            Path(folder, "acknowledged-0.jsonl").write_text("".join(json.dumps(it) + "\n" for it in rows) + '["s0", "s0-4", 1, 2, "fault It')
            self.assertEqual(checker.told_wrong(Path(folder)), ["s0-3: other reply"])


class EachTest(unittest.TestCase):
    """A run that is about a situation goes on until that has come."""

    def test_each_kind_of_harm(self):
        for counts, each, lacks in (({}, 0, False), ({"cut: server": 1, "cut: side": 1}, 1, True), ({"cut: server": 1, "leave": 1}, 1, False), ({"leave": 2}, 1, True)):
            it = SimpleNamespace(harm=SimpleNamespace(counts=counts), told=SimpleNamespace(each=each, harm=["cut", "leave"]))
            self.assertEqual(run.Run.lacks_harm(it), lacks, counts)


class TrialsTest(unittest.TestCase):
    """Runs of wrong versions are made once, and each counts in the table."""

    SAID = "harm: {}\nverdict: 1 violations (seed 2)\n  s0-0-0-17 was acknowledged and is lost\n  s0: replicas differ: {}\n"

    def setUp(self):
        self.folder = Path(tempfile.mkdtemp(prefix="pg-test-"))
        self.addCleanup(shutil.rmtree, self.folder)
        self.path = self.folder / "results.jsonl"
        self.its = [trials.Trial("moves", "", 1), trials.Trial("moves", "no_lock", 1), trials.Trial("moves", "no_lock", 2)]

    def results(self, text="one"):
        return trials.Results(self.path, text)

    def result(self, verdict, said=""):
        return trials.Result(verdict, said, 12.3, 4.0)

    def test_a_verdict(self):
        self.assertEqual(trials.verdict_of(1, self.SAID)[0], "found")
        self.assertEqual(trials.verdict_of(0, "verdict: 0 violations (seed 2)"), ("clean", ""))
        for status, said in ((4, self.SAID), (-9, self.SAID), (1, "Traceback"), (1, "verdict: 1\n  not within 60 s: all secondaries are copied")):
            self.assertEqual(trials.verdict_of(status, said)[0], "none", said)

    def test_which_check_found_it(self):
        self.assertEqual(trials.check_of(trials.verdict_of(1, self.SAID)[1])[1], "L")
        self.assertEqual(trials.check_of("not within 60 s: the service is at rest")[1], "W")
        self.assertEqual(trials.check_of("what nobody expects"), trials.OTHER)

    def test_what_stands_in_the_file_is_not_made_again(self):
        self.results().put(self.its[0], self.result("clean"))
        self.results("another").put(self.its[1], self.result("found", "x"))
        with self.path.open("a") as file:
            file.write('{"text": "one", "tri')
        self.assertEqual(self.results().found, {self.its[0]: self.result("clean")})

    def test_a_run_without_a_verdict_has_found_nothing(self):
        results = self.results()
        for it, verdict in zip(self.its, ("clean", "found", "none")):
            results.put(it, self.result(verdict, "s0-1 was executed 2 times" if verdict == "found" else ""))
        self.assertFalse(trials.is_good(self.its, results))
        self.assertTrue(trials.is_good(self.its[:2], results))
        lines = trials.table_of(self.its, results)
        self.assertEqual([it.split() for it in lines[1:3]], ["sound moves ok 12 - 1 of 1".split(), "no_lock X 12 none 12 1 of 2".split()])
        self.assertIn("X: a request was executed twice", lines[3])

    def test_a_run_that_was_not_made_is_not_good(self):
        self.assertFalse(trials.is_good(self.its, self.results()))


if __name__ == "__main__":
    unittest.main()
