"""`export kafka`: the batches of a plan, as kafka-reassign-partitions reads them."""
import json
import pathlib
import tempfile
import unittest
from typing import Any, List

from fixtures import example, load, tools, written

ROOM = {"limit": 1, "servers": [{"name": f"broker-{n}", "region": "r", "room": 10} for n in range(1, 5)]}


def shard(name: str, *servers: int, load_of: int = 5) -> Any:
    cells = [{"server": f"broker-{n}", "state": "secondary" if at else "primary"} for at, n in enumerate(servers)]
    return {"name": name, "load": load_of, "want": len(servers), "cap": 1, "spread": 1, "listed": f"broker-{servers[0]}", "cells": cells}


def handover(name: str, old: int, new: int) -> List[Any]:
    return [
        {"do": "prepare_add", "shard": name, "server": f"broker-{new}", "other": f"broker-{old}"}, {"do": "prepare_drop", "shard": name, "server": f"broker-{old}", "other": f"broker-{new}"},
        {"do": "add", "shard": name, "server": f"broker-{new}", "role": "primary"}, {"do": "publish", "shard": name}, {"do": "drop", "shard": name, "server": f"broker-{old}"},
    ]


def secondary(name: str, old: int, new: int) -> List[Any]:
    return [{"do": "add", "shard": name, "server": f"broker-{new}", "role": "secondary"}, {"do": "drop", "shard": name, "server": f"broker-{old}"}]


def exported(document: Any) -> List[Any]:
    """Returns of each batch the replicas of each partition."""
    with written(document) as path:
        done = tools("export", "kafka", path)
    if done.status:
        raise AssertionError(done.err)
    values = [json.loads(it) for it in done.out.splitlines()]
    return [{f"{it['topic']}/{it['partition']}": it["replicas"] for it in value["partitions"]} for value in values if value["version"] == 1]


def plan(*streams: List[Any], signals: int = 0) -> Any:
    return {"budget": 100, "signals": [{}] * signals, "streams": [{"budget": 50, "holds": {}, "code": it} for it in streams]}


class Batches(unittest.TestCase):
    def test_streams_go_beside_each_other(self):
        document = ROOM | {"shards": [shard("t-0", 1, 2), shard("t-1", 1, 3)], "plan": plan(handover("t-0", 1, 3), secondary("t-1", 3, 4))}
        self.assertEqual([{"t/0": [3, 2], "t/1": [1, 4]}], exported(document))

    def test_what_comes_behind_a_drop_waits(self):
        shards = [shard("a-b-0", 1, 2), shard("t-1", 3, 4)]
        self.assertEqual([{"a-b/0": [3, 2]}, {"t/1": [1, 4]}], exported(ROOM | {"shards": shards, "plan": plan(handover("a-b-0", 1, 3) + handover("t-1", 3, 1))}))
        signalled = plan([{"do": "wait", "signal": 0}, *handover("t-1", 3, 1)], handover("a-b-0", 1, 3) + [{"do": "signal", "signal": 0}], signals=1)
        self.assertEqual([{"a-b/0": [3, 2]}, {"t/1": [1, 4]}], exported(ROOM | {"shards": shards, "plan": signalled}))

    def test_a_new_primary_comes_first(self):
        change = [{"do": "change", "shard": "t-0", "server": "broker-1", "to": "secondary"}, {"do": "change", "shard": "t-0", "server": "broker-2", "to": "primary"}]
        self.assertEqual([{"t/0": [2, 1]}], exported(ROOM | {"shards": [shard("t-0", 1, 2)], "plan": plan(change)}))

    def test_two_moves_of_one_shard(self):
        code = secondary("t-0", 2, 3) + secondary("t-0", 3, 4)
        self.assertEqual([{"t/0": [1, 3]}, {"t/0": [1, 4]}], exported(ROOM | {"shards": [shard("t-0", 1, 2)], "plan": plan(code)}))

    def test_files(self):
        document = ROOM | {"shards": [shard("t-0", 1, 2), shard("t-1", 3, 4)], "plan": plan(handover("t-0", 1, 3) + handover("t-1", 3, 1))}
        with tempfile.TemporaryDirectory(prefix="smplan-kafka-") as folder, written(document) as path:
            done = tools("export", "kafka", "--folder", folder, path)
            self.assertEqual(0, done.status, done.err)
            self.assertEqual([f"{folder}/batch-1.json", f"{folder}/batch-2.json"], done.out.splitlines())
            self.assertEqual({"version": 1, "partitions": [{"topic": "t", "partition": 1, "replicas": [1, 4]}]}, load(pathlib.Path(folder) / "batch-2.json"))
        empty = ROOM | {"shards": [shard("t-0", 1, 2)], "plan": plan([])}
        with written(empty) as path:
            self.assertEqual("nothing is to be moved\n", tools("export", "kafka", path).out)

    def test_faults(self):
        self.assertEqual(1, tools("export", "kafka", str(example("placement"))).status)
        bad = [
            (ROOM | {"shards": [shard("t", 1, 2)], "plan": plan(handover("t", 1, 3))}, "TOPIC-PARTITION"),
            (ROOM | {"shards": [], "servers": [{"name": "a", "region": "r", "room": 1}], "plan": plan([])}, "broker's id"),
            (ROOM | {"shards": [], "servers": [{"name": f"{it}1", "region": "r", "room": 1} for it in "ab"], "plan": plan([])}, "would both be broker 1"),
            (ROOM | {"shards": [], "plan": plan([{"do": "wait", "signal": 0}, {"do": "signal", "signal": 0}], signals=1)}, "wait for each other"),
        ]
        for document, told in bad:
            with written(document) as path:
                done = tools("export", "kafka", path)
            self.assertIn(told, done.err)
            self.assertIn(done.status, (1, 2))
