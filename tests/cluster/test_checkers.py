"""The two checkers of cluster/checkers on histories written by hand: nothing is found in the right ones, and each
wrong one is found out."""
from __future__ import annotations

import json
import tempfile
import unittest
from pathlib import Path

from cluster.checkers.clients import check
from cluster.checkers.servers import STEP, Checker
from cluster.checkers.truth import Past, Truth

# -- what clients saw: a line is (client, start, end, value or list, reply)


def client_lines(*told) -> list[dict]:
    """Lines of a history; a text is pushed, None is read, and the last read is the final one."""
    lines = []
    for client, start, end, value, reply in told:
        line = {"client": client, "op": "read" if value is None else "push", "shard": "s", "key": "s:k", "start": start, "end": end}
        lines.append(line | ({} if value is None else {"value": value}) | ({} if reply is None else {"reply": reply}))
    lines[-1]["final"] = True
    return lines


def found_by_clients(lines: list[dict], gone: list[dict] | None = None) -> list[str]:
    """What the clients' checker finds, if these writes are gone by name."""
    with tempfile.TemporaryDirectory() as folder:
        names = [str(Path(folder, it)) for it in ("clients.jsonl", "gone.jsonl")]
        for name, told in zip(names, (lines, gone or [])):
            Path(name).write_text("".join(json.dumps(it) + "\n" for it in told), encoding="utf-8")
        return check(names[:1], names[1:])[0]


PUSHES = (("a", 0, 2, "x", 1), ("b", 1, 4, "y", 2), ("a", 5, 6, "z", 3))
RIGHT_CLIENTS = {
    "pushes and reads": (*PUSHES, ("c", 3, 5, None, ["x", "y"]), ("c", 9, 9, None, ["x", "y", "z"])),
    "pushes at the same time, in either order": (("a", 0, 9, "x", 2), ("b", 0, 9, "y", 1), ("c", 10, 11, None, ["y", "x"])),
    "a push without reply that is there": (("a", 0, 9, "x", None), ("c", 20, 21, None, ["x"])),
    "a push without reply that is not there": (("a", 0, 9, "x", None), ("c", 20, 21, None, [])),
    "a push without reply that comes late": (("a", 0, 1, "x", None), ("b", 2, 3, "y", 1), ("c", 4, 5, None, ["y"]), ("c", 20, 21, None, ["y", "x"])),
    "a read that ran while a push did": (("a", 0, 5, "x", 1), ("c", 1, 9, None, []), ("c", 20, 21, None, ["x"])),
}
WRONG_CLIENTS = {
    "is lost": (*PUSHES, ("c", 9, 9, None, ["x", "y"])),
    "more than once": (*PUSHES, ("c", 9, 9, None, ["x", "y", "z", "x"])),
    "pushed by nobody": (*PUSHES, ("c", 9, 9, None, ["x", "y", "z", "w"])),
    "is number": (("a", 0, 5, "x", 1), ("b", 0, 5, "y", 2), ("c", 9, 9, None, ["y", "x"])),
    "no beginning": (*PUSHES, ("c", 7, 8, None, ["x", "z"]), ("c", 9, 9, None, ["x", "y", "z"])),
    "stands before": (("a", 0, 1, "x", None), ("b", 2, 3, "y", None), ("b", 5, 6, "z", None), ("c", 9, 9, None, ["z"])),
    "had been acknowledged": (*PUSHES, ("c", 7, 8, None, ["x", "y"]), ("c", 9, 9, None, ["x", "y", "z"])),
    "or read before": (("a", 0, 9, "x", 1), ("b", 1, 2, None, ["x"]), ("c", 3, 4, None, []), ("c", 20, 21, None, ["x"])),
    "before its push": (("a", 5, 6, "x", 1), ("b", 1, 2, None, ["x"]), ("c", 20, 21, None, ["x"])),
    "nobody could read": (("a", 0, 9, "x", 1),),
}
# (a push that had ended stands behind one that began later: both without the number that the reply told)
WRONG_CLIENTS["stands before"] = (("a", 0, 1, "x", 2), ("b", 5, 6, "y", 1), ("c", 9, 9, None, ["y", "x"]))


def text_lines(*told) -> list[dict]:
    """Lines of the history of a text: (start, end, number that is set, whether it is acknowledged) or (start, end, None, number that is read); the last is final."""
    lines = []
    for start, end, number, reply in told:
        line = {"client": "c", "op": "get" if number is None else "set", "shard": "s", "key": "s:text", "start": start, "end": end}
        lines.append(line | ({} if number is None else {"value": number}) | ({} if reply is None else {"reply": reply}))
    lines[-1]["final"] = True
    return lines


RIGHT_TEXTS = {
    "a text that is set twice": ((0, 1, 1, "OK"), (2, 3, None, 1), (4, 5, 2, "OK"), (6, 7, None, 2)),
    "a read while a text is set, with either": ((0, 1, 1, "OK"), (2, 9, 2, "OK"), (3, 4, None, 1), (5, 6, None, 2), (10, 11, None, 2)),
    "a set without reply that comes late": ((0, 1, 1, None), (2, 3, 2, "OK"), (4, 5, None, 2), (6, 7, None, 1)),
    "a read before anything was set": ((0, 1, None, 0), (0, 9, 1, "OK"), (10, 11, None, 1)),
}
WRONG_TEXTS = {
    "set by nobody": ((0, 1, 1, "OK"), (2, 3, None, 5)),
    "before it was set": ((0, 1, None, 1), (4, 5, 1, "OK"), (6, 7, None, 1)),
    "a later one had been acknowledged": ((0, 1, 1, "OK"), (2, 3, 2, "OK"), (4, 5, None, 1)),
    "or read before": ((0, 1, 1, "OK"), (2, 30, 2, None), (3, 4, None, 2), (5, 6, None, 1)),
    "text 0 was read": ((0, 1, 1, "OK"), (4, 5, None, 0)),
    "text: nobody could read": ((0, 1, 1, "OK"), (4, 5, None, None)),
}


def register_lines(*told) -> list[dict]:
    """Lines of the history of a register: (start, end, what is compared, what it is set to, what was there) or (start, end, None, None, what is read);
    "" is nothing. The last is final."""
    lines = []
    for start, end, old, value, reply in told:
        line = {"client": "c", "op": "look" if old is None else "cas", "shard": "s", "key": "s:r", "start": start, "end": end}
        lines.append(line | ({} if old is None else {"old": old, "value": value}) | ({} if reply is None else {"reply": reply}))
    lines[-1]["final"] = True
    return lines


SET_X, X_TO_Y, Y_GONE = (0, 1, "", "x", ""), (2, 3, "x", "y", "x"), (4, 5, "y", "", "y")
RIGHT_REGISTERS = {
    "a register that is set, and set again, and deleted": (SET_X, X_TO_Y, Y_GONE, (6, 7, None, None, "")),
    "two comparisons at the same time: one finds the other's value": (SET_X, (2, 9, "x", "y", "x"), (2, 9, "x", "z", "y"), (10, 11, None, None, "y")),
    "a comparison without reply that comes late": (SET_X, (2, 3, "x", "y", None), (4, 5, None, None, "x"), (6, 7, None, None, "y")),
    "a comparison without reply that is never done": (SET_X, (2, 3, "x", "y", None), X_TO_Y[:3] + ("z", "x"), (6, 7, None, None, "z")),
    "a deletion without reply, and a value behind it": (SET_X, (2, 3, "x", "", None), (4, 5, "", "z", ""), (6, 7, None, None, "z")),
    "values that follow nothing, in either order": (
        (0, 9, "", "x", ""), (0, 9, "", "y", ""), (0, 9, "y", "", "y"), (0, 9, None, None, ""), (10, 11, None, None, "x")),
    "nothing is found before, between and behind": (
        (0, 1, None, None, ""), (2, 3, "", "x", ""), (4, 5, "x", "", "x"), (6, 7, None, None, ""), (8, 9, "", "y", ""), (10, 11, None, None, "y")),
}
WRONG_REGISTERS = {
    "x was replaced twice": (SET_X, X_TO_Y, (4, 5, "x", "z", "x"), (6, 7, None, None, "z")),
    "x was deleted twice": (SET_X, (2, 3, "x", "", "x"), (4, 5, "x", "", "x"), (6, 7, None, None, "")),
    "z was set by nobody": (SET_X, (2, 3, None, None, "z")),
    "r: x was read before": ((0, 1, None, None, "x"), (4, 5, "", "x", ""), (6, 7, None, None, "x")),
    "when the next one had been found": (SET_X, X_TO_Y, (4, 5, None, None, "x")),
    "found or set when the next": (SET_X, (2, 30, "x", "y", None), (3, 4, None, None, "y"), (5, 6, None, None, "x")),
    "neither was deleted": (SET_X, (2, 3, "", "y", ""), (4, 5, None, None, "y")),
    "while there was a value": (SET_X, X_TO_Y, (4, 5, None, None, "")),
    "nothing was found while": (SET_X, (2, 3, "x", "", None), (4, 5, None, None, ""), (6, 7, None, None, "x")),
    "in a circle": (SET_X, (2, 3, "v", "w", "v"), (2, 3, "w", "v", "w"), (4, 5, None, None, "x")),
    "r: nobody could read": (SET_X, (4, 5, None, None, None)),
}


def gone(key: str, *names: str) -> list[dict]:
    """Writes of a key that are gone by name since moment 6: identities, or values without one."""
    return [{"t": 6, "shard": "s", "key": key, "identity": it if key != "r" else None, "value": it} for it in names]


# (each is found to be wrong without its list of writes that are gone)
GIVEN_UP = {
    "a push": (client_lines(*PUSHES[:2], ("c", 5, 5, None, ["x", "y"]), ("a", 7, 8, "z", 2), ("c", 9, 9, None, ["x", "z"])), gone("k", "y")),
    "a text": (text_lines((0, 1, 1, "OK"), (2, 3, 2, "OK"), (4, 5, None, 2), (7, 8, None, 1)), gone("text", "c-s:text-2")),
    "a value of a register": (register_lines(SET_X, X_TO_Y, (4, 5, "x", "w", "y"), (7, 8, "x", "z", "x"), (9, 10, None, None, "z")), gone("r", "y")),
}
# (what is lost beside them, or behind the moment in which they went, is found out all the same)
BESIDE_GIVEN_UP = {
    "x was acknowledged and is lost": (client_lines(*PUSHES, ("c", 9, 9, None, ["z"])), gone("k", "y")),
    "y was acknowledged and is lost": (client_lines(("a", 0, 2, "x", 1), ("b", 7, 8, "y", 2), ("c", 9, 9, None, ["x"])), gone("k", "y")),
    "text 1 was read, and a later one": (text_lines((0, 1, 1, "OK"), (2, 3, 2, "OK"), (7, 8, None, 2), (9, 10, None, 1)), gone("text", "c-s:text-2")),
}


# -- what servers did

class History:
    """A history of servers a and b, and of shard s, which is at a; each line is a moment later."""

    def __init__(self) -> None:
        self.lines: list[dict] = []
        for name in "ab":
            self.add(name, "start", loses_slots=False, known=False, at_work=0, nonce=f"n{name}")
            self.add(name, "fence", base=STEP, slots={}, at_work=0, nonce=f"m{name}")
        self.add("a", "settle", base=STEP, slots={"s": ["primary", 0]}, nonce="ma")
        self.add("b", "settle", base=STEP, slots={}, nonce="mb")
        self.number, self.position = STEP, 0

    def add(self, server: str, kind: str, **more) -> "History":
        """One line."""
        self.lines.append({"server": server, "t": len(self.lines), "kind": kind, **more})
        return self

    def write(self, server: str, position: int | None = None, identity: str | None = None, passed: str | None = None) -> "History":
        """A push."""
        self.position = self.position + 1 if position is None else position
        text = identity or f"i{len(self.lines)}"
        return self.add(server, "execute", shard="s", position=self.position, identity=text, command=["RPUSH", "k", text], passed=passed)

    def order(self, server: str, call: str, state: str, number: int | None = None, used: int = 1, position: int | None = None) -> "History":
        """An order that is begun and done."""
        self.number = self.number + 1 if number is None else number
        more = {"shard": "s", "number": self.number, "call": call, "plan": 0, "stream": 0}
        self.add(server, "begin", **more)
        return self.add(server, "commit", **more, state=state, position=self.position if position is None else position, used=used, room=9)

    def handover(self, old: str = "a", new: str = "b") -> "History":
        """Three orders of a handover, with a passed request, and the last."""
        self.order(new, "prepare_add", "prepared").write(old).order(old, "prepare_drop", "forwarding").write(new, passed=old)
        return self.order(new, "add", "primary").write(new).order(old, "drop", "absent")

    def checked(self, **data) -> Checker:
        """The servers' checker once it has walked through it."""
        checker = Checker({"s": 1}, data.get("loads"), data.get("named"))
        checker.walk(self.lines)
        return checker

    def found(self, **data) -> list[str]:
        """What the servers' checker finds."""
        checker = self.checked(**data)
        checker.look_at_data({"kind": "data", "shard": "s", "known": True, "base": STEP, **it} for it in data.get("data", ()))
        if "orders" in data:
            checker.look_at_orders(data["orders"], data["answered"])
        if "expected" in data:
            checker.look_at_end(data["expected"], [{"shard": "s", "known": True, "base": STEP, **it} for it in data["data"]])
        return checker.faults


def order_line(server: str, number: int) -> dict:
    """An order as it was sent."""
    return {"plan": 0, "stream": 0, "number": STEP + number, "server": server, "shard": "s", "call": "prepare_add"}


def fenced(it: History, **told: list) -> History:
    """Another fence at both, with what they tell of the shard."""
    for name in "ab":
        it.add(name, "fence", base=2 * STEP, slots={"s": told[name]} if name in told else {}, at_work=0, nonce=f"m{name}")
    return it


def settled(it: History, a: dict, b: dict) -> History:
    """Another settle at both."""
    return it.add("a", "settle", base=2 * STEP, slots=a, nonce=None).add("b", "settle", base=2 * STEP, slots=b, nonce=None)


def reopened_without_a(it: History, state: str = "secondary") -> History:
    """A reopening in which b alone is fenced and settled."""
    return it.add("b", "fence", base=2 * STEP, slots={}, at_work=0, nonce="mb").add("b", "settle", base=2 * STEP, slots={"s": [state, 0]}, nonce=None)


def given_up(it: History) -> History:
    """Server a is given up, and b takes over."""
    return reopened_without_a(with_secondary(it).add("a", "lost"), "primary")


def started(it: History, nonce: str) -> History:
    """A start of b without slots."""
    return it.add("b", "start", loses_slots=False, known=False, at_work=0, nonce=nonce)


def early(it: History) -> History:
    """The second order of a handover begins before the first one is done."""
    more = {"shard": "s", "plan": 0, "stream": 0}
    it.add("b", "begin", **more, number=STEP + 1, call="prepare_add").add("a", "begin", **more, number=STEP + 2, call="prepare_drop")
    return it.add("b", "commit", **more, number=STEP + 1, call="prepare_add", state="prepared", position=0, used=1, room=9).add(
        "a", "commit", **more, number=STEP + 2, call="prepare_drop", state="forwarding", position=0, used=1, room=9)


def replicas(*positions: int) -> list[dict]:
    """What a primary and a secondary have in the end, after the only write."""
    return [{"server": server, "state": state, "position": position, "values": {"k": ["x"]} if position else {}}
            for server, state, position in zip("ab", ("primary", "secondary"), positions)]


def with_secondary(it: History) -> History:
    """The shard has a secondary, before anything is written."""
    return it.order("b", "add", "secondary", position=0)


def deleted(it: History) -> History:
    """The key is deleted."""
    return it.add("a", "execute", shard="s", position=2, identity=None, command=["DEL", "k"], passed=None)


def inherited_less(it: History) -> History:
    """The third write is acknowledged while b is away, which becomes primary with the first two, and writes another one."""
    with_secondary(it).write("a", identity="x").write("a", identity="y").write("a", identity="z")
    it.add("a", "alone", shard="s", position=3, without={"b": 3.2})
    return settled(fenced(it), {"s": ["secondary", 3]}, {"s": ["primary", 2]}).write("b", 3, identity="w")


def inherited_back(it: History, joins: bool) -> History:
    """Then a becomes primary again with what it had at first, once it has followed b, or before."""
    if joins:
        it.add("b", "joined", shard="s", follower="a")
    for name, slot in (("a", ["primary", 2]), ("b", ["secondary", 3])):
        it.add(name, "fence", base=3 * STEP, slots={}, at_work=0, nonce=f"m{name}").add(name, "settle", base=3 * STEP, slots={"s": slot}, nonce=None)
    return it


def dropped(it: History, giver: str | None, question: int = 7) -> History:
    """Server b drops its replica, for which another one has given leave."""
    with_secondary(it)
    if giver is not None:
        it.add(giver, "leave", shard="s", to="b", question=question)
    it.order("b", "drop", "absent")
    it.lines[-1] |= {"leave": 7, "replicas": ["a", "b"]}
    return it


def untrue(it: History, line: dict, time: int, **reply: object) -> list[str]:
    """What is not true of a line that was seen at a moment."""
    truth = Truth(Past.of(it.lines), [order_line("b", 1)])
    truth.permits[7] = "b"
    truth.look(line, reply, time)
    return truth.faults


DONE = {"do": "answered", "plan": 0, "stream": 0, "number": STEP + 1}
TOLD = {"do": "fenced", "server": "a", "base": 2 * STEP, "slots": [{"shard": "s", "cell": "primary"}]}
UP = {"do": "restarted", "permit": 7, "base": STEP}


def fenced_with(it: History, state: str) -> History:
    """Another fence, at which a has the shard in some state."""
    return it.add("a", "fence", base=2 * STEP, slots={"s": [state, 0]}, at_work=0, nonce="ma")


RIGHT_TRUTHS = {
    "an answer behind the commit": lambda it: untrue(it.order("b", "prepare_add", "prepared"), DONE, 8),
    "an inventory that names what is absent": lambda it: untrue(
        fenced_with(it, "primary"), {**TOLD, "slots": [*TOLD["slots"], {"shard": "t", "cell": "absent"}]}, 9),
    "an inventory": lambda it: untrue(fenced_with(it, "primary"), TOLD, 9),
    "an inventory of an Unknown server": lambda it: untrue(it, {"do": "fenced", "server": "b", "base": STEP, "unknown": "mb"}, 9),
    "a settle that was taken": lambda it: untrue(it, {"do": "settled", "server": "b", "base": STEP}, 9),
    "a server that is up": lambda it: untrue(it, UP, 9, up="b"),
    "a server that asks for its slots": lambda it: untrue(it.add("b", "forget", nonce="k"), {"do": "restore", "server": "b", "nonce": "k"}, 9),
    "a restart that is refused": lambda it: untrue(it.add("b", "forget", nonce="k"), {**UP, "base": None}, 9, refused={}),
}
WRONG_TRUTHS = {
    "did prepare_add s": lambda it: untrue(it.order("b", "prepare_add", "prepared"), DONE, 6),
    "has not done prepare_add s": lambda it: untrue(it, DONE, 9),
    "was not fenced by then": lambda it: untrue(fenced_with(it, "primary"), TOLD, 5),
    "a had secondary of s, and not primary": lambda it: untrue(fenced_with(it, "secondary"), TOLD, 9),
    "had no such nonce": lambda it: untrue(it, {"do": "fenced", "server": "b", "base": STEP, "unknown": "k"}, 9),
    "had not taken the settle": lambda it: untrue(fenced_with(it, "primary"), {"do": "settled", "server": "a", "base": 2 * STEP}, 9),
    "had not the base": lambda it: untrue(it, {**UP, "base": STEP + 5}, 9, up="b"),
    "had made no such nonce": lambda it: untrue(it, {"do": "restore", "server": "b", "nonce": "k"}, 9),
}
ANSWERED = [{"plan": 0, "stream": 0, "number": STEP + 1}]
RIGHT_SERVERS = {
    "a drop with leave": lambda it: dropped(it, "a").found(),
    "a handover": lambda it: it.write("a").handover().write("b").found(),
    "a handover and back": lambda it: it.write("a").handover().handover("b", "a").write("a").found(),
    "the data of the end": lambda it: it.write("a", identity="x").found(data=[{"server": "a", "state": "primary", "position": 1, "values": {"k": ["x"]}}]),
    "a reopening amid a handover, in which a write is discarded": lambda it: settled(
        fenced(it.write("a").order("b", "prepare_add", "prepared").order("a", "prepare_drop", "forwarding").write("b", passed="a")),
        {"s": ["primary", 1]}, {}).write("a", 2).found(),
    "a reopening amid a handover that an older list does not inherit, however long it is": lambda it: settled(fenced(
        it.write("a").order("b", "prepare_add", "prepared").order("a", "prepare_drop", "forwarding").write("b", passed="a"),
        a=["forwarding", 1, 7], b=["prepared", 2, 6]), {"s": ["primary", 1]}, {}).found(),
    "answers": lambda it: it.order("b", "prepare_add", "prepared").found(orders=[order_line("b", 1)], answered=ANSWERED),
    "a restart of a server that has nothing": lambda it: it.add("b", "permit", down=True).add("b", "permit", down=False).found(),
    "a drop of the last replica, once a server was given up": lambda it: with_secondary(it).add("b", "lost").order("a", "drop", "absent").found(),
    "an Unknown server that starts, and meets the fence of before": lambda it: started(
        it.add("b", "forget", before=STEP, nonce="k").add("b", "fence", base=2 * STEP, slots={}, at_work=0, nonce="m"), "n")
        .add("b", "fence", base=2 * STEP, slots={}, at_work=0, nonce="o").found(),
    "a key that is deleted": lambda it: deleted(it.write("a", identity="x")).found(
        data=[{"server": "a", "state": "primary", "position": 2, "values": {}}]),
    "a server that is given up, and a drop of one of three replicas": lambda it: with_secondary(it).add("b", "lost").found(),
    "a reopening that leaves a replica": lambda it: settled(fenced(with_secondary(it)), {"s": ["primary", 0]}, {}).order(
        "b", "add", "secondary", number=2 * STEP + 1, position=0).found(),
    "a restart": lambda it: with_secondary(it).add("a", "permit", down=True).add("a", "permit", down=False).found(),
    "loads": lambda it: with_secondary(it).found(loads={"s": 1}),
    "a write without a member that is long gone": lambda it: it.write("a").add("a", "alone", shard="s", position=1, without={"b": 3.2}).found(),
    "a replica that has all": lambda it: with_secondary(it).write("a", identity="x").found(data=replicas(1, 1)),
    "a primary that is carried over a reopening, and serves before it hears of that": lambda it: reopened_without_a(
        with_secondary(it).add("a", "permit", down=True)).write("a").found(),
    "an order at a server that was given up": lambda it: given_up(it).order("a", "prepare_drop", "forwarding", number=STEP + 9).found(),
    "a restore": lambda it: it.add("b", "forget", before=STEP, nonce="k").add("b", "restore", base=STEP + 1, slots={}, nonce="k").found(),
    "a new primary that lacks what was acknowledged without it, by name": lambda it: inherited_less(it).found(named={"s": [2 * STEP]}),
}
WRONG_SERVERS = {
    "it drops s without leave": lambda it: dropped(it, None).found(),
    "b s at 10: it drops s without leave": lambda it: dropped(it, "a", 6).found(),
    "b has told a greater copy": lambda it: settled(fenced(
        it.write("a").order("b", "prepare_add", "prepared").order("a", "prepare_drop", "forwarding").write("b", passed="a"),
        a=["forwarding", 1, 7], b=["prepared", 2, 7]), {"s": ["primary", 1]}, {}).found(),
    "from write 2 of s, 3 were acknowledged, and nobody named it": lambda it: inherited_less(it).found(named={"s": [STEP]}),
    "executed by a server that is absent": lambda it: given_up(it).write("a").found(),
    "a request is executed by a server that is absent": lambda it: given_up(it.add("a", "permit", down=True)).write("a").found(),
    "has its effect again": lambda it: it.handover().order("b", "drop", "absent", number=STEP + 3).found(),
    "has its effect behind": lambda it: it.handover().order("b", "drop", "absent", number=STEP + 2).found(),
    "fenced or Unknown": lambda it: fenced(it).order("b", "prepare_add", "prepared", number=2 * STEP + 1).found(),
    "is refused": lambda it: it.add("b", "order-not-held", shard="s", number=STEP + 1, last=0).found(),
    "makes absent": lambda it: it.order("b", "prepare_drop", "forwarding").found(),
    "more than the room": lambda it: it.order("b", "prepare_add", "prepared", used=10).found(),
    "with 0 writes of 1": lambda it: it.write("a").order("b", "prepare_add", "prepared", position=0).found(),
    "has the primaries": lambda it: it.order("b", "prepare_add", "prepared").order("b", "add", "primary").found(),
    "has 0 replicas": lambda it: it.order("a", "drop", "absent").found(),
    "s has 0 replicas": lambda it: it.add("a", "permit", down=True).found(),
    "0 replicas": lambda it: it.order("a", "drop", "absent").add("b", "lost").found(),
    "b s at 10: s has 0 replicas": lambda it: settled(fenced(it), {}, {}).order("b", "prepare_add", "prepared", number=2 * STEP + 1).found(),
    "b  at 9: s has 0 replicas": lambda it: started(with_secondary(it).add("a", "permit", down=True).add("b", "permit", down=True), "n").add(
        "b", "permit", down=False).found(),
    "a  at 7: s has 0 replicas": lambda it: it.add("b", "lost").add("a", "permit", down=True).found(),
    "than the room": lambda it: with_secondary(it).found(loads={"s": 10}),
    "before order": lambda it: early(it).found(),
    "had been away for 0.2 s": lambda it: it.write("a").add("a", "alone", shard="s", position=1, without={"b": 0.2}).found(),
    "0 writes of 1": lambda it: with_secondary(it).write("a", identity="x").found(data=replicas(1, 0)),
    "by a server that is absent": lambda it: it.write("b").found(),
    "by a server that is prepared": lambda it: it.order("b", "prepare_add", "prepared").write("b").found(),
    "by a server that is forwarding": lambda it: it.order("b", "prepare_add", "prepared").order("a", "prepare_drop", "forwarding").write("a").found(),
    "at a fenced server": lambda it: fenced(it.order("b", "prepare_add", "prepared").order("a", "prepare_drop", "forwarding")).write("b", passed="a").found(),
    "its term overlaps": lambda it: it.write("a").order("b", "prepare_add", "prepared").write("b", passed="a").write("a").found(),
    "is executed behind": lambda it: it.write("a").write("a", 3).found(),
    "and was write": lambda it: it.write("a", identity="x").handover().write("b", identity="x").found(),
    "taken twice": lambda it: it.add("a", "settle", base=STEP, slots={"s": ["primary", 0]}, nonce=None).found(),
    "did not ask for": lambda it: it.add("b", "forget", before=STEP, nonce="k").add("b", "restore", base=STEP + 1, slots={}, nonce="old").found(),
    "a restore that it did not ask for": lambda it: started(it.add("b", "forget", before=STEP, nonce="k"), "n").add(
        "b", "restore", base=STEP + 1, slots={}, nonce="k").found(),
    "under the nonce of before": lambda it: started(it.add("b", "forget", before=STEP, nonce="k"), "k").found(),
    "at or below its base": lambda it: it.add("a", "fence", base=STEP, slots={}, at_work=0, nonce="m").found(),
    "k is not what the first 2": lambda it: deleted(it.write("a", identity="x")).found(
        data=[{"server": "a", "state": "primary", "position": 2, "values": {"k": ["x"]}}]),
    "is not what the first": lambda it: it.write("a", identity="x").found(data=[{"server": "a", "state": "primary", "position": 1, "values": {"k": []}}]),
    "writes of 1": lambda it: it.write("a").found(data=[{"server": "a", "state": "primary", "position": 2, "values": {}}]),
    "has not done it": lambda it: it.found(orders=[order_line("b", 1)], answered=ANSWERED),
    "nobody sent it": lambda it: it.order("b", "prepare_add", "prepared").found(orders=[order_line("b", 2)], answered=[]),
    "is to be at": lambda it: it.found(expected={"s": {"b": "primary"}}, data=[{"server": "a", "state": "primary", "position": 0, "values": {}}]),
}


class CheckersTest(unittest.TestCase):
    """Right histories, and wrong ones with a part of what is found in each."""

    def compare(self, find, right, wrong):
        """Wants nothing to be found in the right ones."""
        for name, told in right.items():
            with self.subTest(name):
                self.assertEqual(find(name, told), [])
        for text, told in wrong.items():
            with self.subTest(text):
                found = find(text, told)
                self.assertTrue(any(text in it for it in found), found)

    def test_what_clients_saw(self):
        def find(name, told):
            lines = client_lines(*told)
            if name == "nobody could read":
                del lines[-1]["final"]
            return found_by_clients(lines)
        self.compare(find, RIGHT_CLIENTS, WRONG_CLIENTS)

    def test_texts(self):
        self.compare(lambda _, told: found_by_clients(text_lines(*told)), RIGHT_TEXTS, WRONG_TEXTS)

    def test_registers(self):
        self.compare(lambda _, told: found_by_clients(register_lines(*told)), RIGHT_REGISTERS, WRONG_REGISTERS)

    def test_what_reopenings_gave_up_by_name(self):
        for name, (lines, writes) in GIVEN_UP.items():
            with self.subTest(name):
                self.assertEqual(found_by_clients(lines, writes), [])
                self.assertNotEqual(found_by_clients(lines), [])
        self.compare(lambda _, told: found_by_clients(*told), {}, BESIDE_GIVEN_UP)

    def test_what_is_gone_by_name(self):
        for what, it, named, names in (
            ("what was acknowledged while it was away", inherited_less(History()), {"s": [2 * STEP]}, ["z"]),
            ("nothing without a name", inherited_less(History()), {}, []),
            ("all, if it has not followed since", inherited_back(inherited_less(History()), False), {"s": [3 * STEP]}, ["w"]),
            ("nothing, once it has", inherited_back(inherited_less(History()), True), {"s": [3 * STEP]}, []),
        ):
            with self.subTest(what):
                self.assertEqual([line["identity"] for line in it.checked(named=named).gone], names)

    def test_what_servers_did(self):
        self.compare(lambda _, tell: tell(History()), RIGHT_SERVERS, WRONG_SERVERS)

    def test_what_is_true_of_the_past(self):
        self.compare(lambda _, tell: tell(History()), RIGHT_TRUTHS, WRONG_TRUTHS)
