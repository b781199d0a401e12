"""Reads Kubernetes' nodes, pods and disruption budgets, as `kubectl get nodes,pods,pdb -A -o json` prints them."""
from __future__ import annotations

import argparse
import math
from dataclasses import dataclass
from typing import Any, Dict, Iterator, List, Optional, Sequence, Set, Tuple

from .failure import Failure
from .import_groups import NO_REGION, Group, Imported, Machine, Member
from .model import Json

COMMAND = "kubectl get nodes,pods,pdb -A -o json"
ZONES = ("topology.kubernetes.io/zone", "failure-domain.beta.kubernetes.io/zone")
# The phases of a pod that runs no more.
FINISHED = ("Succeeded", "Failed")


@dataclass(frozen=True)
class PodName:
    """A pod's namespace and name."""

    namespace: str
    name: str


@dataclass(frozen=True)
class Cluster:
    """What was read: machines and groups, the node of each pod that runs, and the nodes that take no pods."""

    imported: Imported
    nodes: Dict[PodName, str]
    cordoned: Set[str]


def objects(values: Sequence[Any]) -> Iterator[Tuple[str, Json]]:
    """Gives each object with its kind; those of a list of one kind have none of their own."""
    for value in values:
        kind = value["kind"]
        if kind.endswith("List"):
            for it in value["items"] or []:
                yield it.get("kind", kind[:-len("List")]), it
        else:
            yield kind, value


def has_condition(it: Json, name: str) -> bool:
    return any(one["type"] == name and one["status"] == "True" for one in it.get("status", {}).get("conditions") or [])


def node_of(it: Json) -> Machine:
    labels = it["metadata"].get("labels") or {}
    zone = next((labels[name] for name in ZONES if labels.get(name)), NO_REGION)
    return Machine(it["metadata"]["name"], zone, not has_condition(it, "Ready"))


def is_finished(pod: Json) -> bool:
    return pod.get("status", {}).get("phase") in FINISHED


def is_live(pod: Json) -> bool:
    """Tells whether a pod counts as healthy, as Kubernetes' own controller counts: it is Ready, and nobody ends it."""
    return "deletionTimestamp" not in pod["metadata"] and not is_finished(pod) and has_condition(pod, "Ready")


def meets(labels: Dict[str, str], rule: Json) -> bool:
    """Tells whether labels meet one of a selector's expressions."""
    value, values = labels.get(rule["key"]), rule.get("values") or []
    met = {"In": value in values, "NotIn": value not in values, "Exists": value is not None, "DoesNotExist": value is None}
    if rule["operator"] not in met:
        raise ValueError(f"no operator of a selector is {rule['operator']}")
    return met[rule["operator"]]


def selects(selector: Optional[Json], pod: Json) -> bool:
    """Tells whether a budget's selector selects a pod. An empty one selects all, none at all selects none."""
    if selector is None:
        return False
    labels = pod["metadata"].get("labels") or {}
    pairs = selector.get("matchLabels") or {}
    return all(labels.get(name) == it for name, it in pairs.items()) and all(meets(labels, it) for it in selector.get("matchExpressions") or [])


def amount(value: Any, of: int) -> int:
    """Returns a budget's number, which may be a share in percent; Kubernetes rounds that up."""
    if isinstance(value, str):
        return math.ceil(int(value.rstrip("%")) * of / 100)
    return int(value)


def floor_of(budget: Json, expected: int) -> int:
    """Returns how many pods have to be healthy, by what the budget says."""
    spec = budget["spec"]
    if spec.get("maxUnavailable") is not None:
        return max(0, expected - amount(spec["maxUnavailable"], expected))
    return amount(spec["minAvailable"], expected) if spec.get("minAvailable") is not None else 1


def is_counted(budget: Json) -> bool:
    """Tells whether Kubernetes' controller has counted for the budget as it is; until then its status has zeros."""
    status = budget.get("status") or {}
    generation = budget["metadata"].get("generation")
    return "desiredHealthy" in status and generation is not None and status.get("observedGeneration") == generation


def primary_test(label: Optional[str]) -> Tuple[str, str]:
    name, _, value = (label or "").partition("=")
    return name, value


def group_of(budget: Json, pods: List[Json], nodes: Set[str], primary: Optional[str]) -> Group:
    """Returns the group of the pods that a budget protects. A pod on a node that is not Ready is not live."""
    meta = budget["metadata"]
    own = [it for it in pods if it["metadata"].get("namespace") == meta.get("namespace") and selects(budget["spec"].get("selector"), it)]
    status = budget.get("status") or {}
    expected = status["expectedPods"] if is_counted(budget) else sum(not is_finished(it) for it in own)
    floor = status["desiredHealthy"] if is_counted(budget) else floor_of(budget, expected)
    name, value = primary_test(primary)
    members = []
    for it in own:
        node = it.get("spec", {}).get("nodeName")
        is_primary = bool(name) and (it["metadata"].get("labels") or {}).get(name) == value
        members += [Member(node, "primary" if is_primary else "secondary")] if node in nodes and is_live(it) else []
    return Group(f"{meta.get('namespace', 'default')}.{meta['name']}", max(expected, floor), floor, tuple(members))


def read_cluster(values: Sequence[Any], primary: Optional[str] = None) -> Cluster:
    """Returns what a cluster's objects say."""
    found: Dict[str, List[Json]] = {"Node": [], "Pod": [], "PodDisruptionBudget": []}
    for kind, it in objects(values):
        found.get(kind, []).append(it)
    if not found["Node"]:
        raise Failure(f"there is no node; this reads what '{COMMAND}' prints")
    machines = tuple(node_of(it) for it in found["Node"])
    up = {it.name for it in machines if not it.is_down}
    groups = tuple(group_of(it, found["Pod"], up, primary) for it in found["PodDisruptionBudget"])
    running = {
        PodName(it["metadata"].get("namespace", "default"), it["metadata"]["name"]): it["spec"]["nodeName"]
        for it in found["Pod"] if it.get("spec", {}).get("nodeName") and not is_finished(it)
    }
    cordoned = {it["metadata"]["name"] for it in found["Node"] if it.get("spec", {}).get("unschedulable")}
    return Cluster(Imported(machines, groups), running, cordoned)


def read(values: List[Any], arguments: argparse.Namespace) -> Imported:
    return read_cluster(values, arguments.primary).imported


def add_options(parser: argparse.ArgumentParser) -> None:
    """Adds the importer's own options."""
    parser.add_argument("--primary", metavar="LABEL=VALUE", help="the label of a pod that is its group's primary, such as role=master")
