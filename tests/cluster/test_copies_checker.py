"""The checker of copies (cluster/checkers/copies.py) on histories written by hand: nothing is found in the right ones, and each wrong one is found out."""
import unittest

from cluster.checkers.copies import Copies, acknowledgements, told

BEGUN = (("a", "settle", {"base": 1, "slots": {"s": ["primary", 0]}}), ("b", "settle", {"base": 1, "slots": {"s": ["secondary", 0]}}),
         ("c", "settle", {"base": 1, "slots": {"s": ["secondary", 0]}}))


def write(place: int, *others: str) -> tuple:
    """The primary executes a write, and others have it."""
    return ("a", "execute", {"shard": "s", "position": place, "identity": f"w{place}"}), *((it, "applied", {"shard": "s", "position": place}) for it in others)


def acknowledged(place: int) -> tuple:
    """A client hears that a write is done."""
    return ("", "acknowledged", {"identity": f"w{place}"})


def drop(server: str, *replicas: str) -> tuple:
    """A server drops the shard."""
    return (server, "commit", {"shard": "s", "state": "absent", "position": 1, "replicas": [server, *replicas]})


def settled(base: int, **states: str) -> tuple:
    """Servers are settled, with one write each."""
    return tuple((name, "settle", {"base": base, "slots": {"s": [state, 1]}}) for name, state in states.items())


TOLD = ("", "told", {"shard": "s", "copies": 2})
RIGHT = {
    "two have it": (*write(1, "b"), acknowledged(1), TOLD),
    "two have what is acknowledged": (*write(1, "b"), acknowledged(1), *write(2), TOLD),
    "a drop that leaves two": (*write(1, "b", "c"), acknowledged(1), drop("c", "a", "b"), TOLD),
    "a drop of the last": (*write(1, "b"), acknowledged(1), ("a", "commit", {"shard": "s", "state": "absent", "position": 1, "replicas": ["a"]})),
    "one that is lost counts until it is given up": (*write(1, "b"), acknowledged(1), ("b", "lost", {}), TOLD),
    "who was given up comes back": (*write(1, "b", "c"), acknowledged(1), ("b", "lost", {}), *settled(2, a="primary", b="secondary"), TOLD),
    "what is gone is not needed": (*write(1, "b", "c"), *write(2, "b"), acknowledged(2), *settled(2, c="primary", b="secondary"), TOLD),
    "a write that nobody executed": (acknowledged(7),),
}
WRONG = {
    "w: a write is acknowledged, and write 1 is at a alone": (*write(1), acknowledged(1)),
    "copy: a write is acknowledged, and write 1 is at a alone": (
        *write(1), ("d", "copy", {"shard": "s", "position": 1}), ("d", "applied", {"shard": "s", "position": 1}), acknowledged(1)),
    "copies are told, and write 1 is at a alone": (*write(1, "b"), acknowledged(1), ("b", "start", {"copies": []}), TOLD),
    "given up: copies are told, and write 1 is at a alone": (*write(1, "b"), acknowledged(1), ("b", "lost", {}), *settled(2, a="primary"), TOLD),
    "c drops it, and write 1 is at a alone": (*write(1, "c"), acknowledged(1), drop("c", "a", "b")),
    "a drops it, and write 1 is at b alone": (*write(1, "b"), acknowledged(1), drop("a", "b", "c")),
}


def found(events: tuple) -> list[str]:
    """What the checker finds."""
    checker = Copies(2)
    checker.walk({"server": server, "t": time, "kind": kind, **more} for time, (server, kind, more) in enumerate((*BEGUN, *events)))
    return checker.faults


class CopiesTest(unittest.TestCase):
    """What the checker finds."""

    def test_right_histories(self):
        for what, events in RIGHT.items():
            with self.subTest(what):
                self.assertEqual(found(events), [])

    def test_wrong_histories(self):
        for what, events in WRONG.items():
            with self.subTest(what):
                faults = found(events)
                self.assertEqual(len(faults), 1, faults)
                self.assertIn(what.partition(": ")[2] if what.startswith(("w:", "copy:", "given up:")) else what, faults[0])

    def test_what_clients_hear(self):
        push = {"client": "c", "op": "push", "key": "s:k", "value": "v", "start": 1, "end": 2}
        lines = [push, push | {"reply": 1}, {**push, "op": "read", "reply": ["v"]}, {**push, "op": "cas", "identity": "i", "old": "x", "reply": "y"}]
        self.assertEqual(list(acknowledgements(lines)), [{"t": 2, "kind": "acknowledged", "identity": "v"}])

    def test_what_the_journal_tells(self):
        line = {"do": "copied", "shard": "s", "copies": 2}
        lines = [{"t": 1, "line": line, "reply": {}}, {"t": 2, "line": line, "reply": {"copied": {}}}, {"t": 3, "line": {"do": "settled"}, "reply": {}}]
        self.assertEqual(list(told(lines)), [{"t": 2, "kind": "told", "shard": "s", "copies": 2}])
