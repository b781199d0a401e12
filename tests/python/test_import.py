"""`import`: what other systems print comes to a document that says who may go, and the program agrees."""
import json
import unittest
from typing import Any, Dict, List

from fixtures import ROOT, program, tools, written
from smplan.import_groups import Group, Imported, Machine, Member, Names, document_of, short_name

RECORDED = ROOT / "tests" / "imports"
NODES = ("n1", "n2", "n3")


def recorded(name: str) -> str:
    return (RECORDED / name).read_text()


def imported(system: str, text: str, *words: str) -> Any:
    """Returns the document of what a system prints."""
    with written(text) as path:
        done = tools("import", system, *words, path)
    if done.status:
        raise AssertionError(done.err)
    return json.loads(done.out)


def node(name: str, is_ready: bool = True, is_cordoned: bool = False) -> Dict[str, Any]:
    """A node as Kubernetes' API has it."""
    return {
        "apiVersion": "v1", "kind": "Node", "metadata": {"name": name, "labels": {"topology.kubernetes.io/zone": f"zone-{name}"}},
        "spec": {"unschedulable": True} if is_cordoned else {},
        "status": {"conditions": [{"type": "MemoryPressure", "status": "False"}, {"type": "Ready", "status": "True" if is_ready else "Unknown"}]},
    }


def pod(name: str, at: str, is_ready: bool = True, **labels: str) -> Dict[str, Any]:
    """A pod as Kubernetes' API has it."""
    return {
        "apiVersion": "v1", "kind": "Pod", "metadata": {"namespace": "shop", "name": name, "labels": {"app": "web", **labels}}, "spec": {"nodeName": at},
        "status": {"phase": "Running", "conditions": [{"type": "Ready", "status": "True" if is_ready else "False"}]},
    }


def listed(*items: Any) -> str:
    return json.dumps({"apiVersion": "v1", "kind": "List", "items": list(items)})


def may_go(document: Any) -> List[str]:
    """Returns the machines that the program lets go, each by itself."""
    names = [it["name"] for it in document["servers"]]
    report = program("play", document | {"events": [{"event": event, "server": it} for it in names for event in ("approve", "done")]}).splitlines()
    return [it for number, it in enumerate(names) if f"event {2 * number}: approved" in report]


def of_counts(counts: Dict[str, int], floor: int) -> Any:
    members = tuple(Member(name) for name, count in counts.items() for _ in range(count))
    return document_of(Imported(tuple(Machine(it) for it in counts), (Group("g", len(members), floor, members),)), 1)


class Groups(unittest.TestCase):
    def test_members_on_one_machine_go_together(self):
        for counts, floor, wanted in [
            ({"a": 1, "b": 1, "c": 1}, 2, "abc"), ({"a": 1, "b": 1, "c": 1}, 3, ""), ({"a": 2, "b": 1, "c": 1}, 2, "abc"), ({"a": 2, "b": 1, "c": 1}, 3, "bc"),
            ({"a": 3, "b": 1}, 2, "b"), ({"a": 3}, 1, ""), ({"a": 3}, 0, "a"), ({"a": 2, "b": 2}, 3, ""), ({"a": 2, "b": 2}, 2, "ab"), ({"a": 1, "b": 2}, 4, ""),
        ]:
            with self.subTest(counts=counts, floor=floor):
                self.assertEqual(list(wanted), may_go(of_counts(counts, floor)))

    def test_whatever_goes_together_the_floor_is_kept(self):
        counts = {"a": 4, "b": 2, "c": 2, "d": 1, "e": 1}
        for floor in range(11):
            for order in ("abcde", "edcba"):
                document = of_counts(counts, floor) | {"limit": 5}
                report = program("play", document | {"events": [{"event": "approve", "server": it} for it in order]})
                gone = [name for number, name in enumerate(order) if f"event {number}: approved" in report]
                self.assertGreaterEqual(10 - sum(counts[it] for it in gone), floor, gone)

    def test_names_that_a_document_does_not_take(self):
        self.assertEqual("berlin-1", short_name("berlin-1"))
        long = [short_name(f"ip-10-0-0-{n}.eu-central-1.compute.internal.example") for n in range(2)]
        self.assertEqual(2, len(set(long)))
        self.assertTrue(all(len(it) <= 32 for it in long))
        self.assertRegex(short_name("10.0.0.1:2379"), r"10\.0\.0\.1-2379-[0-9a-f]{8}")
        document = document_of(Imported((Machine("10.0.0.1"),), ()), 2, Names({"10.0.0.1": "n1"}))
        self.assertEqual((2, ["n1"]), (document["limit"], [it["name"] for it in document["servers"]]))


class Kubernetes(unittest.TestCase):
    def test_a_budget_becomes_a_shard(self):
        text = listed(*(node(it) for it in NODES), *(pod(f"web-{n}", f"n{n + 1}", role="master" if n == 1 else "replica") for n in range(3)), json.loads(recorded("budget-v1beta1.json")))
        document = imported("kubernetes", text, "--primary", "role=master")
        shard = document["shards"][0]
        self.assertEqual(("shop.web", 3, 1, "n2"), (shard["name"], shard["want"], shard["cap"], shard["listed"]))
        self.assertEqual({"n1": "zone-n1", "n2": "zone-n2", "n3": "zone-n3"}, {it["name"]: it["region"] for it in document["servers"]})
        self.assertEqual(list(NODES), may_go(document))

    def test_what_is_not_ready_does_not_live(self):
        budget = json.loads(recorded("budget-expression.json"))
        ending = pod("web-1", "n2")
        ending["metadata"]["deletionTimestamp"] = "2026-11-29T17:00:00Z"
        for changed in (pod("web-1", "n2", is_ready=False), ending, pod("web-1", "gone"), pod("web-1", "n2") | {"spec": {}}):
            document = imported("kubernetes", listed(*(node(it) for it in NODES), pod("web-0", "n1"), changed, pod("web-2", "n3"), budget))
            self.assertEqual((["n1", "n3"], 3), ([it["server"] for it in document["shards"][0]["cells"]], document["shards"][0]["want"]), changed)
            self.assertEqual(["n2"], may_go(document))
        document = imported("kubernetes", listed(node("n1"), node("n2", is_ready=False), pod("web-0", "n1"), pod("web-1", "n2"), budget))
        self.assertEqual(([None, True], ["n1"]), ([it.get("down") for it in document["servers"]], [it["server"] for it in document["shards"][0]["cells"]]))

    def test_how_a_budget_counts(self):
        pods = [pod(f"web-{n}", NODES[n % 3]) for n in range(7)]
        for spec, floor in [({"minAvailable": 3}, 3), ({"minAvailable": "50%"}, 4), ({"maxUnavailable": "30%"}, 4), ({"maxUnavailable": 0}, 7), ({}, 1)]:
            budget = {"kind": "PodDisruptionBudget", "metadata": {"namespace": "shop", "name": "web", "generation": 2}, "spec": spec | {"selector": {}}}
            for status, wanted in [({}, floor), ({"desiredHealthy": 6, "expectedPods": 9, "observedGeneration": 1}, floor), ({"desiredHealthy": 6, "expectedPods": 9, "observedGeneration": 2}, 6)]:
                with self.subTest(spec=spec, status=status):
                    document = imported("kubernetes", listed(*(node(it) for it in NODES), *pods, budget | {"status": status}))
                    self.assertEqual(may_go(of_counts({"n1": 3, "n2": 2, "n3": 2}, wanted)), may_go(document))

    def test_whom_a_selector_selects(self):
        pods = [pod("a", "n1", tier="front"), pod("b", "n2", tier="back"), pod("c", "n3") | {"metadata": {"namespace": "other", "name": "c", "labels": {"app": "web"}}}]
        for selector, wanted in [
            ({}, ["n1", "n2"]), (None, []), ({"matchLabels": {"tier": "front"}}, ["n1"]),
            ({"matchExpressions": [{"key": "tier", "operator": "NotIn", "values": ["front"]}]}, ["n2"]),
            ({"matchExpressions": [{"key": "tier", "operator": "Exists"}, {"key": "canary", "operator": "DoesNotExist"}]}, ["n1", "n2"]),
        ]:
            budget = {"kind": "PodDisruptionBudget", "metadata": {"namespace": "shop", "name": "web"}, "spec": {"selector": selector, "minAvailable": 1}}
            document = imported("kubernetes", listed(*(node(it) for it in NODES), *pods, budget))
            self.assertEqual(wanted, [it["server"] for it in document["shards"][0]["cells"]], selector)

    def test_lists_of_one_kind_and_what_is_none(self):
        lists = [{"kind": "NodeList", "items": [{"metadata": {"name": "n1"}, "status": {"conditions": [{"type": "Ready", "status": "True"}]}}]}, {"kind": "PodList", "items": None}]
        self.assertEqual(["n1"], [it["name"] for it in imported("kubernetes", "\n".join(map(json.dumps, lists)))["servers"]])
        for text, told in [("", "is empty"), ("{", "no JSON"), ('{"items":[]}', "'kind' is missing"), (listed(), "there is no node")]:
            with written(text) as path:
                done = tools("import", "kubernetes", path)
            self.assertEqual((2, ""), (done.status, done.out))
            self.assertIn(told, done.err)


class Databases(unittest.TestCase):
    def test_etcd_keeps_its_quorum(self):
        document = imported("etcd", recorded("etcd.json"))
        shard = document["shards"][0]
        self.assertEqual((3, 1, "n1", ["n2", "n1"]), (shard["want"], shard["cap"], shard["listed"], [it["server"] for it in shard["cells"]]))
        self.assertEqual(["n3"], may_go(document))
        hosts = imported("etcd", recorded("etcd.json").replace("127.0.0.1:23792", "10.0.0.2:2379"), "--machine", "host")
        self.assertEqual(["10.0.0.2", "127.0.0.1"], [it["name"] for it in hosts["servers"]])

    def test_a_learner_and_a_member_that_never_started(self):
        members = [{"ID": n, "name": f"m{n}" if n != 4 else "", "clientURLs": [f"http://m{n}:2379"] if n != 4 else [], "isLearner": n == 5} for n in range(1, 6)]
        health = [{"endpoint": f"http://m{n}:2379", "health": True} for n in (1, 2, 3, 5)]
        document = imported("etcd", json.dumps({"members": members}) + json.dumps(health))
        self.assertEqual((4, 1, ["m1", "m2", "m3"]), (document["shards"][0]["want"], document["shards"][0]["cap"], [it["name"] for it in document["servers"]]))
        self.assertEqual([], may_go(document))

    def test_patroni(self):
        document = imported("patroni", recorded("patroni.json"), "--want", "3")
        self.assertEqual(("main", "10.0.0.1", 2), (document["shards"][0]["name"], document["shards"][0]["listed"], len(document["shards"][0]["cells"])))
        self.assertEqual(["10.0.0.3"], may_go(document))
        self.assertEqual(["pg1", "pg2", "pg3"], may_go(imported("patroni", recorded("patroni.json"), "--want", "main=3", "--cap", "2", "--machine", "member")))
        rest = {"scope": "main", "members": [{"name": "pg1", "role": "leader", "state": "running", "host": "h1", "port": 5432}, {"name": "pg2", "role": "replica", "state": "streaming", "host": "h2", "lag": 3 << 20}]}
        for lag, live in [("2", ["h1"]), ("4", ["h1", "h2"])]:
            found = imported("patroni", json.dumps(rest), "--want", "3", "--lag", lag)
            self.assertEqual(live, [it["server"] for it in found["shards"][0]["cells"]])

    def test_patroni_forgets_who_is_gone(self):
        with written(recorded("patroni.json")) as path:
            done = tools("import", "patroni", "--want", "other=3", path)
        self.assertEqual(2, done.status)
        self.assertIn("--want main=N", done.err)

    def test_postgresql(self):
        document = imported("postgresql", recorded("postgresql.json"), "--members", "n1,n2")
        self.assertEqual(("postgresql", 2, 1, "n1"), tuple(document["shards"][0][it] for it in ("name", "want", "cap", "listed")))
        self.assertEqual(["n1", "n2"], may_go(document))
        gone = imported("postgresql", '{"primary":"n1","standbys":[]}', "--members", "n1,n2")
        self.assertEqual(["n2"], may_go(gone))
        rows = [{"application_name": it, "state": state, "sent_lsn": "1/0", "replay_lsn": "0/FFF00000"} for it, state in (("n2", "streaming"), ("n3", "backup"), ("pg_receivewal", "streaming"))]
        for words, live in [((), ["n1", "n2"]), (("--lag", "1"), ["n1", "n2"]), (("--lag", "0.5"), ["n1"])]:
            found = imported("postgresql", json.dumps(rows), "--primary", "n1", *words, "--members", "n1,n2,n3")
            self.assertEqual(live, [it["server"] for it in found["shards"][0]["cells"]])
