"""Runs the port python/smplan/agent.py on the conformance vectors of standard input, whose format tests/agent/README.md has."""
import os
import re
import sys
from dataclasses import astuple

sys.path.insert(0, os.environ.get("PORT") or os.path.join(os.path.dirname(os.path.abspath(__file__)), "../../python"))
from smplan import agent  # noqa: E402  (the path comes first)

# How many numbers a value has, and how it is made of them.
PARTS = {"B": (5, agent.Base), "S": (8, agent.Slot), "O": (10, agent.Order), "R": (4, agent.Request), "C": (2, agent.ToldCopy), "V": (2, agent.ViewStart),
         "n": (1, int)}

# What goes into each function. A star stands behind a list, whose count comes first.
TAKES = {"judge": "BSnO", "commit": "BSOn", "route": "BSnR", "begin": "SO", "abandon": "S", "seal": "Snn", "may_delete": "BS",
         "has_reached_cut": "Sn", "fence": "Bnnn", "heed": "Bnnn", "publish": "Bnnnn",
         "compare": "CC", "resumes": "CV*n", "copied": "nCC*n", "acknowledged": "nCC*"}


def take_values(kind, count, left):
    """So many values of a kind, taken off the numbers that are left."""
    width, make = PARTS[kind]
    return [make(*(left.pop(0) for _ in range(width))) for _ in range(count)]


def values_of(kinds, numbers):
    """The values that the numbers of a line stand for."""
    values, left = [], [*numbers]
    for kind, star in re.findall(r"(\w)(\*?)", kinds):
        values += [take_values(kind, left.pop(0), left)] if star else take_values(kind, 1, left)
    if left:
        raise ValueError(f"{len(left)} numbers too many")
    return values


def assignment_of(kind, journal, fence, number, has_nonce, nonce):
    """The settle or restore that the numbers of a line stand for."""
    if kind == 1:
        return agent.Settlement(journal, number, nonce if has_nonce else None)
    return agent.Restoration(journal, fence, number, nonce)


def shards_of(numbers):
    """The slots of a server and those that it is brought, by their places in the line. Who has never had a shard has no slot of it."""
    slots, brought = {}, {}
    for place in range(0, len(numbers) // 12):
        row = numbers[12 * place:12 * place + 12]
        slots[place] = agent.Slot(*row[:8])
        if row[8]:
            cell, party, handover, load = row[8:]
            brought[place] = agent.Slot(cell=cell, party=party, handover=handover, load=load)
    return {place: slot for place, slot in slots.items() if slot != agent.VACANT}, brought


def taken(port, numbers):
    """What `take` answers to a line, as its numbers."""
    count = numbers[11]
    if len(numbers) != 12 + 12 * count:
        raise ValueError("another count of shards")
    slots, brought = shards_of(numbers[12:])
    answer, base, after = port.take(agent.Base(*numbers[:5]), assignment_of(*numbers[5:11]), slots, brought)
    if not {*after} <= {*slots, *brought}:
        raise ValueError("a slot of no shard")
    made = [answer, *astuple(base)]
    for place in range(count):
        made += astuple(after.get(place, agent.VACANT))
    return [int(it) for it in made]


def answer_of(port, name, numbers):
    """What a function of the port answers to a line, as its numbers."""
    if name == "take":
        return taken(port, numbers)
    return numbers_of(name, getattr(port, name)(*values_of(TAKES[name], numbers)))


def numbers_of(name, made):
    """A function's answer as the numbers of a line: those of a value, or an answer and a value."""
    if name == "commit":
        made = (agent.Answer.NOT_DONE,) if made is None else (agent.Answer.DONE, made)
    if isinstance(made, bool):
        made = agent.Answer.DONE if made else agent.Answer.NOT_DONE
    numbers = []
    for part in made if isinstance(made, tuple) else (made,):
        numbers += [int(part)] if isinstance(part, int) else [int(it) for it in astuple(part)]
    return numbers


def want(made, wanted):
    """Fails if an answer is another one."""
    if made != wanted:
        sys.exit(f"worked by hand: {made}, and not {wanted}")


def want_zeros():
    """Zeros are those of an Unknown server, at each function."""
    base, slot, order, known = agent.Base(), agent.Slot(), agent.Order(*[0] * 10), agent.Base(known=1)
    later = agent.Order(0, 0, 5, 0, 0, 0, agent.Call.ADD, agent.Role.PRIMARY, 0, 0)
    for it in (base, known):
        want([agent.judge(it, slot, 0, order), agent.judge(it, slot, 0, later)], [agent.Answer.NOT_READY] * 2)
        want([agent.commit(it, slot, order, 0), agent.commit(it, slot, later, 0)], [None, None])
        want(agent.route(it, slot, 0, agent.Request()), (agent.Answer.NOT_HERE, agent.Request()))
        want(agent.may_delete(it, slot), False)
    want(agent.judge(base, agent.VACANT, 0, later), agent.Answer.NOT_READY)
    want(agent.route(base, agent.Slot(cell=agent.Cell.PRIMARY), 0, agent.Request())[0], agent.Answer.NOT_HERE)
    want([agent.begin(slot, order), agent.begin(slot, later), agent.abandon(slot), agent.seal(slot, 0, 0)], [slot] * 4)
    want(agent.has_reached_cut(slot, 0), False)
    want([agent.forget(0), agent.heed(base, 0, 0, 0), agent.heed(base, 0, 5, 9)], [base] * 3)
    want([agent.fence(base, 0, 0, 0), agent.fence(base, 1, 5, 9)], [(agent.Answer.IGNORED, base), (agent.Answer.TAKEN, agent.Base(1, 5, 9, 0, 1))])
    for told in (agent.Settlement(0, 0), agent.Settlement(0, 0, 0), agent.Restoration(0, 0, 0, 0)):
        want(agent.take(base, told, {}, {}), (agent.Answer.IGNORED, base, {}))
    primary = agent.Slot(cell=agent.Cell.PRIMARY, load=4)
    want(agent.take(agent.forget(9), agent.Restoration(1, 0, 3, 9), {"s": slot}, {"t": primary}),
         (agent.Answer.TAKEN, agent.Base(1, 3, known=1), {"s": agent.VACANT, "t": primary}))
    want(agent.publish(base, 0, 0, 0, 0), agent.Answer.NOT_READY)


def main():
    count = 0
    for line in sys.stdin:
        before, after = line.split(" =")
        name, *words = before.split()
        made = answer_of(agent, name, [int(it) for it in words])
        if made != [int(it) for it in after.split()]:
            sys.exit(f"another answer: {line.strip()}: {made}")
        count += 1
    want_zeros()
    print(count, "vectors")
    return 0 if count else 1


if __name__ == "__main__":
    sys.exit(main())
