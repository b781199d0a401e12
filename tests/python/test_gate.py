"""`gate`: what it answers to FleetLock, to Kubernetes and to scripts, what it stores, and that machines that go by it break no floor."""
import contextlib
import json
import pathlib
import random
import re
import shutil
import signal
import socket
import ssl
import subprocess
import sys
import tempfile
import threading
import time
import unittest
import urllib.error
import urllib.request
from typing import Any, Callable, Dict, Iterator, List, Optional, Tuple
from unittest import mock

from fixtures import PROGRAM, example, written
from smplan import gate_state
from smplan.failure import Failure
from smplan.gate import Gate, Sources, Word, World, look, merged
from smplan.gate_command import address_of, is_loopback
from smplan.gate_http import Server, handler_for
from smplan.gate_state import Store
from smplan.import_groups import Group, Imported, Machine, Member, Names, document_of
from smplan.import_kubernetes import PodName, read_cluster
from test_import import NODES, listed, node, pod

# The review of Kubernetes' documentation ("Extensible Admission Controllers"), for an eviction.
REVIEW = {
    "apiVersion": "admission.k8s.io/v1", "kind": "AdmissionReview",
    "request": {
        "uid": "705ab4f5-6393-11e8-b7cc-42010a800002",
        "kind": {"group": "policy", "version": "v1", "kind": "Eviction"}, "resource": {"group": "", "version": "v1", "resource": "pods"}, "subResource": "eviction",
        "requestKind": {"group": "policy", "version": "v1", "kind": "Eviction"}, "requestResource": {"group": "", "version": "v1", "resource": "pods"},
        "requestSubResource": "eviction", "name": "web-0", "namespace": "shop", "operation": "CREATE",
        "userInfo": {"username": "admin", "uid": "014fbff9a07c", "groups": ["system:authenticated"]},
        "object": {"apiVersion": "policy/v1", "kind": "Eviction", "metadata": {"name": "web-0", "namespace": "shop"}},
        "oldObject": None, "options": {"apiVersion": "meta.k8s.io/v1", "kind": "CreateOptions"}, "dryRun": False,
    },
}
BUDGET = {"kind": "PodDisruptionBudget", "metadata": {"namespace": "shop", "name": "web"}, "spec": {"maxUnavailable": 1, "selector": {"matchLabels": {"app": "web"}}}}


def world(limit: int = 1, live: str = "abc", down: str = "", floor: int = 2) -> World:
    """Three machines with a member of a group each, of which `a` is the primary."""
    members = tuple(Member(it, "primary" if it == "a" else "secondary") for it in live)
    return World(document_of(Imported(tuple(Machine(it, is_down=it in down) for it in "abc"), (Group("group", 3, floor, members),)), limit))


def cluster(*nodes: Any, pods: Optional[List[Any]] = None) -> World:
    """Kubernetes with these nodes, and a pod on each of three."""
    its = pods if pods is not None else [pod(f"web-{n}", f"n{n + 1}") for n in range(3)]
    found = read_cluster([json.loads(listed(*(nodes or map(node, NODES)), *its, BUDGET))])
    return World(document_of(found.imported, 1), found, found.cordoned)


@contextlib.contextmanager
def gate_of(now: Callable[[], World], **how: Any) -> Iterator[Gate]:
    with tempfile.TemporaryDirectory(prefix="smplan-gate-") as folder:
        store = Store.open(f"{folder}/gate.json")
        try:
            yield Gate(store, now, PROGRAM, tell=lambda _: None, **how)
        finally:
            store.close()


@contextlib.contextmanager
def served(gate: Gate, token: Optional[str] = None) -> Iterator[Callable[..., Tuple[int, Any]]]:
    """Serves a gate, and gives what asks it: a path, a body and headers; the answer is its status and its value."""
    server = Server(("127.0.0.1", 0), handler_for(gate, token))
    thread = threading.Thread(target=server.serve_forever, kwargs={"poll_interval": 0.05})
    thread.start()

    def ask(path: str, body: Any = None, **headers: str) -> Tuple[int, Any]:
        data = None if body is None else body if isinstance(body, bytes) else json.dumps(body).encode()
        sent = urllib.request.Request(f"http://127.0.0.1:{server.server_port}{path}", data, {name.replace("_", "-"): it for name, it in headers.items()})
        try:
            with urllib.request.urlopen(sent, timeout=60) as answer:
                status, text = answer.status, answer.read()
        except urllib.error.HTTPError as why:
            status, text = why.code, why.read()
            why.close()
        return status, json.loads(text) if text.startswith(b"{") else text.decode()

    try:
        yield ask
    finally:
        server.shutdown()
        server.server_close()
        thread.join()


def stored(gate: Gate) -> Dict[str, List[str]]:
    """Returns who has leave by the gate's file."""
    value = json.loads(pathlib.Path(gate.store.path).read_text()) if pathlib.Path(gate.store.path).exists() else {"held": {}}
    return {server: sorted(holders) for server, holders in value["held"].items()}


class Decisions(unittest.TestCase):
    def test_a_yes_is_stored_before_it_is_told_and_ends_when_the_machine_is_back(self):
        told: List[Any] = []
        with gate_of(lambda: world(limit=2)) as gate:
            gate.tell = lambda text: told.append((text, stored(gate)))
            self.assertTrue(gate.ask("a", "one").is_yes)
            self.assertEqual({"a": ["one"]}, told[-1][1])
            self.assertIn("it is the primary of group", told[-1][0])
            no = gate.ask("b", "two")
            self.assertEqual((False, {"a": ["one"]}), (no.is_yes, stored(gate)))
            self.assertEqual("denied 4 ShardCap shard group: the shard group can lose no replica now: live 2, floor 2", no.text)
            self.assertTrue(gate.back("a", "other").is_yes)
            self.assertFalse(gate.ask("b", "two").is_yes)
            gate.back("a", "one")
            self.assertTrue(gate.ask("b", "two").is_yes)
            self.assertEqual({"b": ["two"]}, stored(gate))

    def test_a_trial_stores_nothing(self):
        with gate_of(world) as gate:
            self.assertTrue(gate.ask("a", "one", is_trial=True).is_yes)
            self.assertEqual({}, stored(gate))
            self.assertTrue(gate.ask("b", "two").is_yes)

    def test_a_machine_with_leave_is_back_once_all_say_so(self):
        with gate_of(world) as gate:
            self.assertTrue(gate.ask("a", "one").is_yes and gate.ask("a", "two").is_yes)
            gate.back("a", "one")
            self.assertFalse(gate.ask("b", "one").is_yes)
            gate.back("a", "two")
            self.assertTrue(gate.ask("b", "one").is_yes)

    def test_of_those_that_ask_in_one_way_one_at_a_time_has_leave_for_a_machine(self):
        with gate_of(world) as gate:
            self.assertTrue(gate.ask("a", "ask/one").is_yes and gate.ask("a", "ask/one").is_yes)
            self.assertEqual("denied 1 AlreadyDown: a has leave already, for ask/one", gate.ask("a", "ask/two").text)
            self.assertTrue(gate.ask("a", "fleetlock/default").is_yes)
            self.assertEqual({"a": ["ask/one", "fleetlock/default"]}, stored(gate))

    def test_who_has_asked_longest_comes_first(self):
        at = 0.0
        with gate_of(world, clock=lambda: at) as gate:
            self.assertTrue(gate.ask("a", "ask/one").is_yes)
            for at, by in ((1.0, "two"), (2.0, "three")):
                self.assertIn("AlreadyDown", gate.ask("a", f"ask/{by}").text)
            gate.back("a", "ask/one")
            at = 3.0
            for by in ("one", "three", "four"):
                self.assertEqual("denied: ask/two has asked for a longer", gate.ask("a", f"ask/{by}").text)
            self.assertTrue(gate.ask("a", "fleetlock/default").is_yes and gate.ask("a", "ask/two").is_yes and gate.ask("a", "ask/two").is_yes)
            gate.back("a", "ask/two")
            gate.back("a", "fleetlock/default")
            self.assertEqual("denied: ask/three has asked for a longer", gate.ask("a", "ask/two", is_trial=True).text)
            at = 64.0
            self.assertTrue(gate.ask("a", "ask/two").is_yes)
            gate.back("a", "ask/two")
            self.assertEqual({}, gate.waiting["a"].since)

    def test_who_cannot_have_leave_keeps_no_machine_else_waiting(self):
        with gate_of(lambda: world(live="ab")) as gate:
            self.assertFalse(gate.ask("a", "ask/one").is_yes)
            self.assertTrue(gate.ask("c", "ask/two").is_yes)

    def test_who_has_leave_is_answered_anew(self):
        now = world(limit=2)
        with gate_of(lambda: now) as gate:
            self.assertTrue(gate.ask("a", "ask/one").is_yes and gate.ask("a", "ask/one").is_yes)
            now = world(limit=2, live="ab")
            self.assertIn("denied 4 ShardCap", gate.ask("a", "ask/one").text)
            self.assertEqual({"a": ["ask/one"]}, stored(gate))
            now = world(limit=2, live="bc")
            self.assertTrue(gate.ask("a", "ask/one").is_yes)

    def test_the_limit_counts_those_that_are_down_or_gone(self):
        now = world(limit=2, floor=0)
        with gate_of(lambda: now) as gate:
            gate.store.put({"z": {"one": 1.0}})
            self.assertTrue(gate.ask("a", "two").is_yes)
            self.assertIn("denied 3 GlobalCap", gate.ask("b", "two").text)
            now = world(limit=2, floor=0, down="c")
            gate.store.put({})
            self.assertTrue(gate.ask("a", "two").is_yes)
            self.assertIn("down: a, c", gate.ask("b", "two").text)
            self.assertFalse(gate.ask("b", "two").is_yes)

    def test_what_is_below_its_floor_keeps_others_from_nothing(self):
        short, other = Group("short", 3, 3, (Member("a"), Member("b"))), Group("other", 3, 2, tuple(map(Member, "cde")))
        now = World(document_of(Imported(tuple(map(Machine, "abcde")), (short, other)), 2))
        with gate_of(lambda: now) as gate:
            self.assertIn("denied 4 ShardCap shard short", gate.ask("a", "one").text)
            self.assertTrue(gate.ask("c", "one").is_yes)

    def test_a_machine_that_is_down_may_go(self):
        with gate_of(lambda: world(live="bc", down="a")) as gate:
            self.assertTrue(gate.ask("a", "one").is_yes)
            self.assertFalse(gate.ask("b", "one").is_yes)

    def test_primaries_may_be_kept(self):
        with gate_of(world, keeps_primaries=True) as gate:
            self.assertEqual("denied: a is the primary of group: hand it over first", gate.ask("a", "one").text)
            self.assertTrue(gate.ask("b", "one").is_yes)

    def test_names(self):
        with gate_of(world, names=Names({"c988d2509fdf5cdcbed39037c56406fb": "a"})) as gate:
            self.assertTrue(gate.ask("c988d2509fdf5cdcbed39037c56406fb", "one").is_yes)
            self.assertEqual({"a": ["one"]}, stored(gate))
            self.assertEqual("no source shows a machine d", gate.ask("d", "one").text)


class Faults(unittest.TestCase):
    def test_a_source_that_fails_is_a_no(self):
        for sources in (Sources(("exit 3",)), Sources(("echo '{'",)), Sources(("echo '{}'",)), Sources(("sleep 9",), timeout=0.2), Sources((f"cat {example('plan-handover')}",)), Sources((), kubernetes="echo '{\"kind\":\"List\",\"items\":[]}'")):
            with gate_of(lambda sources=sources: look(sources)) as gate:
                answer = gate.ask("a", "one")
                self.assertEqual((Word.FAULT, {}), (answer.word, stored(gate)), sources)

    def test_a_yes_that_cannot_be_stored_is_a_no(self):
        with gate_of(world) as gate:
            with mock.patch("os.fsync", side_effect=OSError(28, "No space left on device")):
                answer = gate.ask("a", "one")
            self.assertEqual((Word.FAULT, {}), (answer.word, gate.store.held))
            self.assertIn("No space left", answer.text)
            self.assertTrue(gate.ask("b", "one").is_yes)

    def test_the_file(self):
        with tempfile.TemporaryDirectory(prefix="smplan-gate-") as folder:
            path = f"{folder}/gate.json"
            store = Store.open(path)
            store.put({"a": {"one": 5.0}})
            with self.assertRaisesRegex(Failure, "another gate") as told:
                Store.open(path)
            self.assertEqual(gate_state.IN_USE, told.exception.status)
            store.close()
            again = Store.open(path)
            self.assertEqual({"a": {"one": 5.0}}, again.held)
            again.close()
            for text in ("", "{", "[]", '{"format":2,"held":{}}', '{"format":1,"held":{"a":{}}}', '{"format":1,"held":{"a":{"one":true}}}'):
                pathlib.Path(path).write_text(text)
                with self.assertRaises(Failure) as told:
                    gate_state.read(path)
                self.assertEqual(gate_state.DAMAGED, told.exception.status, text)

    def test_sources_together(self):
        one = document_of(Imported((Machine("a", "r1"), Machine("b", "r1", is_down=True)), (Group("db", 2, 1, (Member("a"), Member("b"))),)), 3)
        two = document_of(Imported((Machine("host-a"), Machine("b")), (Group("db", 2, 1, (Member("host-a"), Member("b"))),)), 2)
        document = merged([one, two], Names({"host-a": "a"}), None)
        self.assertEqual((2, [("a", "r1", None), ("b", "r1", True)]), (document["limit"], [(it["name"], it["region"], it.get("down")) for it in document["servers"]]))
        self.assertEqual([("db", ["a"]), ("db.2", ["a", "b"])], [(it["name"], [one["server"] for one in it["cells"]]) for it in document["shards"]])
        self.assertEqual(7, merged([one], Names(), 7)["limit"])

    def test_kubernetes_and_a_document_together(self):
        with written(listed(*map(node, NODES[:2]), node("n3", is_cordoned=True), pod("web-0", "n1"), BUDGET)) as objects, written(world().document) as path:
            now = look(Sources((f"cat {path}",), f"cat {objects}", names=Names({"n3": "a"}), limit=3))
        self.assertEqual((3, ["shop.web", "group"], ["n1", "n2", "a", "b", "c"]), (now.document["limit"], [it["name"] for it in now.document["shards"]], [*now.servers()]))
        self.assertEqual(({"a"}, {PodName("shop", "web-0"): "n1"}), (now.cordoned, now.cluster.nodes))

    def test_where_it_may_serve(self):
        self.assertEqual([("127.0.0.1", 9201), ("::1", 1), ("h", 0)], [address_of(it) for it in (":9201", "[::1]:1", "h:0")])
        self.assertEqual([True, True, True, False, False], [is_loopback(it) for it in ("127.0.0.1", "::1", "localhost", "0.0.0.0", "host")])


class FleetLock(unittest.TestCase):
    """The protocol as https://coreos.github.io/zincati/development/fleetlock/protocol/ gives it."""

    def test_lock_again_and_unlock(self):
        def body(it: str, group: str = "default") -> Any:
            return {"client_params": {"id": it, "group": group}}

        with gate_of(world) as gate, served(gate) as ask:
            def post(path: str, it: str) -> Tuple[int, Any]:
                return ask(path, body(it), fleet_lock_protocol="true")

            self.assertEqual([200, 200], [post("/v1/pre-reboot", "a")[0] for _ in range(2)])
            status, value = post("/v1/pre-reboot", "b")
            self.assertEqual((409, "failed_lock", True), (status, value["kind"], value["value"].startswith("denied 3 GlobalCap")))
            self.assertEqual([200, 200], [post("/v1/steady-state", "a")[0] for _ in range(2)])
            self.assertEqual(200, post("/v1/pre-reboot", "b")[0])
            self.assertEqual({"b": ["fleetlock/default"]}, stored(gate))
            self.assertEqual((409, "no source shows a machine unknown"), (post("/v1/pre-reboot", "unknown")[0], post("/v1/pre-reboot", "unknown")[1]["value"]))
            self.assertEqual(400, ask("/v1/pre-reboot", body("a"))[0])
            for value in ({}, [], {"client_params": {"id": "", "group": "default"}}, body("a", "no group"), {"client_params": 5}):
                self.assertEqual((400, "bad_request"), (lambda it: (it[0], it[1]["kind"]))(ask("/v1/pre-reboot", value, fleet_lock_protocol="true")), value)


class Evictions(unittest.TestCase):
    def review(self, ask: Callable[..., Tuple[int, Any]], name: str = "web-0", **changes: Any) -> Any:
        status, value = ask("/evict", REVIEW | {"request": REVIEW["request"] | {"name": name} | changes})
        self.assertEqual((200, "admission.k8s.io/v1", "AdmissionReview", REVIEW["request"]["uid"]), (status, value["apiVersion"], value["kind"], value["response"]["uid"]))
        return value["response"]

    def test_a_review_is_answered(self):
        with gate_of(cluster) as gate, served(gate) as ask:
            self.assertEqual({"uid": REVIEW["request"]["uid"], "allowed": True}, self.review(ask))
            self.assertEqual({"n1": ["eviction"]}, stored(gate))
            no = self.review(ask, "web-1")
            self.assertEqual((False, 429, "TooManyRequests"), (no["allowed"], no["status"]["code"], no["status"]["reason"]))
            self.assertTrue(no["status"]["message"].startswith("denied 3 GlobalCap: "), no)
            self.assertTrue(self.review(ask)["allowed"])
            self.assertTrue(self.review(ask, "gone")["allowed"])

    def test_a_dry_run_stores_nothing(self):
        with gate_of(cluster) as gate, served(gate) as ask:
            self.assertTrue(self.review(ask, dryRun=True)["allowed"])
            self.assertTrue(self.review(ask, object=REVIEW["request"]["object"] | {"deleteOptions": {"dryRun": ["All"]}})["allowed"])
            self.assertEqual({}, stored(gate))
            self.assertTrue(self.review(ask, "web-2")["allowed"])
            self.assertEqual({"n3": ["eviction"]}, stored(gate))

    def test_a_node_is_back_once_it_takes_pods_again(self):
        now, clock = cluster(), 1000.0
        with gate_of(lambda: now, clock=lambda: clock) as gate, served(gate) as ask:
            self.assertTrue(self.review(ask)["allowed"])
            nodes = [node("n1", is_cordoned=True), node("n2"), node("n3")]
            for after, its, is_back in [(30, [node(it) for it in NODES], False), (200, nodes, False), (300, [node("n1", is_ready=False), *nodes[1:]], False), (400, [node(it) for it in NODES], True)]:
                now, clock = cluster(*its), 1000.0 + after
                self.assertEqual(is_back, self.review(ask, "web-1", dryRun=True)["allowed"], after)

    def test_what_is_no_review_of_an_eviction(self):
        with gate_of(cluster) as gate, served(gate) as ask:
            other = self.review(ask, subResource=None)
            self.assertEqual((True, 1), (other["allowed"], len(other["warnings"])))
            for value in ({}, [], REVIEW | {"apiVersion": "admission.k8s.io/v1beta1"}, REVIEW | {"request": None}, b"{", b"\xff"):
                self.assertEqual(400, ask("/evict", value)[0], value)
            self.assertEqual({}, stored(gate))
        with gate_of(world) as gate, served(gate) as ask:
            self.assertEqual(429, self.review(ask)["status"]["code"])


class Pages(unittest.TestCase):
    def test_questions_of_scripts(self):
        with gate_of(world) as gate, served(gate) as ask:
            self.assertEqual((200, True), (lambda it: (it[0], it[1]["allowed"]))(ask("/ask", {"server": "a", "by": "x", "dry_run": True})))
            self.assertEqual(200, ask("/ask", {"server": "a", "by": "x"})[0])
            self.assertEqual((429, False), (lambda it: (it[0], it[1]["allowed"]))(ask("/ask", {"server": "b"})))
            self.assertEqual([{"server": "a", "by": "ask/x"}], [{name: it[name] for name in ("server", "by")} for it in ask("/state")[1]["held"]])
            self.assertEqual(200, ask("/back", {"server": "a", "holder": "ask/x"})[0])
            self.assertEqual({}, stored(gate))
            figures = ask("/metrics")[1]
            self.assertIn('smplan_gate_answers_total{by="ask",answer="no"} 1\n', figures)
            self.assertIn("\nsmplan_gate_held 0\n", figures)
            self.assertEqual([404, 404, 400, 400], [ask("/")[0], ask("/ask")[0], ask("/ask", {})[0], ask("/ask", {"server": 5})[0]])

    def test_a_token(self):
        with gate_of(world) as gate, served(gate, "sesame") as ask:
            self.assertEqual([403, 403, 403], [ask("/state")[0], ask("/wrong/state")[0], ask("/state", Authorization="Bearer wrong")[0]])
            self.assertEqual([200, 200, 200], [ask("/healthz")[0], ask("/sesame/state")[0], ask("/state", Authorization="Bearer sesame")[0]])
            body = {"client_params": {"id": "a", "group": "default"}}
            self.assertEqual(200, ask("/sesame/v1/pre-reboot", body, fleet_lock_protocol="true")[0])


class Processes(unittest.TestCase):
    """`smplan-control gate` as it is started."""

    @contextlib.contextmanager
    def started(self, state: str, *words: str) -> Iterator[Tuple[Any, str]]:
        """Starts a gate over a document of three machines; gives the process, and the address that it tells."""
        with written(world().document) as path:
            words = ("gate", "--program", PROGRAM, "--import", f"cat {path}", "--state", state, "--http", "127.0.0.1:0", *words)
            process = subprocess.Popen([sys.executable, "-m", "smplan.control_commands", *words], stdin=subprocess.DEVNULL, stderr=subprocess.PIPE, text=True)
            try:
                told = process.stderr.readline()
                found = re.search(r"serves (https?://\S+)/; (\d+) machines", told)
                self.assertIsNotNone(found, told)
                yield process, found[1]
            finally:
                process.kill()
                process.communicate()

    def ask(self, address: str, server: str, context: Optional[ssl.SSLContext] = None) -> int:
        request = urllib.request.Request(f"{address}/ask", json.dumps({"server": server}).encode())
        try:
            with urllib.request.urlopen(request, timeout=60, context=context) as answer:
                return int(answer.status)
        except urllib.error.HTTPError as why:
            why.close()
            return why.code

    def test_a_leave_outlives_the_gate(self):
        with tempfile.TemporaryDirectory(prefix="smplan-gate-") as folder:
            state = f"{folder}/gate.json"
            with self.started(state) as (process, address):
                self.assertEqual(200, self.ask(address, "a"))
                done = subprocess.run([sys.executable, "-m", "smplan.control_commands", "gate", "--import", "true", "--state", state], capture_output=True, text=True, check=False)
                self.assertEqual(gate_state.IN_USE, done.returncode, done.stderr)
                process.kill()
                process.wait()
            with self.started(state) as (process, address):
                self.assertEqual([429, 200], [self.ask(address, it) for it in "ba"])
                process.send_signal(signal.SIGTERM)
                self.assertEqual(0, process.wait(30))

    def test_what_it_does_not_start_with(self):
        for words, told in [((), "what is so?"), (("--import", "true", "--http", "0.0.0.0:1"), "--token FILE"), (("--import", "true", "--token", "/nowhere"), "/nowhere: No such file")]:
            done = subprocess.run([sys.executable, "-m", "smplan.control_commands", "gate", "--program", PROGRAM, *words], capture_output=True, text=True, check=False)
            self.assertEqual(2, done.returncode)
            self.assertIn(told, done.stderr)

    @unittest.skipIf(shutil.which("openssl") is None, "there is no openssl")
    def test_tls(self):
        with tempfile.TemporaryDirectory(prefix="smplan-gate-") as folder:
            cert, key = f"{folder}/cert.pem", f"{folder}/key.pem"
            words = ["openssl", "req", "-x509", "-newkey", "rsa:2048", "-nodes", "-keyout", key, "-out", cert, "-subj", "/CN=gate", "-addext", "subjectAltName=IP:127.0.0.1", "-days", "1"]
            subprocess.run(words, check=True, capture_output=True)
            with self.started(f"{folder}/gate.json", "--tls", cert, key) as (_, address):
                self.assertTrue(address.startswith("https://"))
                with socket.create_connection(("127.0.0.1", int(address.rpartition(":")[2]))) as silent:
                    self.assertEqual(200, self.ask(address, "a", ssl.create_default_context(cafile=cert)))
                    silent.close()
                with self.assertRaises(urllib.error.URLError):
                    self.ask(address, "a", ssl.create_default_context())


class Fleet:
    """Three machines with a member of three groups each. Members live again some time after their machine is up."""

    GROUPS = (Group("etcd", 3, 2, ()), Group("redis", 3, 2, ()), Group("postgresql", 2, 1, ()))

    def __init__(self) -> None:
        self.lock = threading.Lock()
        self.restarts = {it: 0 for it in "abc"}
        self.live_at = {it: 0.0 for it in "abc"}
        self.broken: List[str] = []

    def live(self, group: Group) -> List[str]:
        return [it for it in "abc"[:group.want] if not self.restarts[it] and time.monotonic() >= self.live_at[it]]

    def world(self) -> World:
        with self.lock:
            groups = tuple(Group(it.name, it.want, it.floor, tuple(map(Member, self.live(it)))) for it in self.GROUPS)
            return World(document_of(Imported(tuple(Machine(it) for it in "abc"), groups), 2))

    def restart(self, machine: str, seconds: float) -> None:
        with self.lock:
            self.restarts[machine] += 1
            self.broken += [f"{it.name} has {self.live(it)}" for it in self.GROUPS if len(self.live(it)) < it.floor]
        time.sleep(seconds)
        with self.lock:
            self.restarts[machine] -= 1
            self.live_at[machine] = time.monotonic() + seconds


def storm(gate: Gate, fleet: Fleet, seconds: float, rest: float) -> List[int]:
    """Ten loops ask for one of three machines each, and restart it some time after a yes, until each had a turn. Returns how often each restarted its
    machine."""
    turns, end = [0] * 10, time.monotonic() + seconds

    def loop(number: int) -> None:
        dice, machine = random.Random(number), "abc"[number % 3]
        while time.monotonic() < end and not (min(turns) or fleet.broken):
            if gate.ask(machine, f"ask/{number}").is_yes:
                time.sleep(dice.uniform(0.0, rest))
                fleet.restart(machine, dice.uniform(0.0, rest))
                gate.back(machine, f"ask/{number}")
                turns[number] += 1
            time.sleep(dice.uniform(0.0, 0.2))

    threads = [threading.Thread(target=loop, args=(it,)) for it in range(10)]
    for it in threads:
        it.start()
    for it in threads:
        it.join()
    return turns


class Storm(unittest.TestCase):
    def test_ten_loops_break_no_floor_and_each_gets_its_turn(self):
        fleet = Fleet()
        with gate_of(fleet.world) as gate:
            turns = storm(gate, fleet, 300.0, 0.1)
        self.assertEqual([], fleet.broken)
        self.assertGreater(min(turns), 0, turns)

    def test_a_gate_that_forgets_its_leaves_is_found(self):
        fleet = Fleet()
        with gate_of(fleet.world) as gate, mock.patch.object(Store, "put", lambda *_: None):
            storm(gate, fleet, 120.0, 5.0)
        self.assertNotEqual([], fleet.broken)
