"""A controller and three servers in one process: what `smpland` sends, what servers do, and how its orders are answered.

    python3 examples/driver.py [DOCUMENT [PROGRAM..]]

DOCUMENT (examples/drain-berlin-1.json if none is named) has a `plan`, or a server to `drain`: for that the session asks smplan, which has to be built
(`make try`). PROGRAM is the session's command line, as build/smpland - with its dash; tools/smpland_model.py - if none is named.

The servers keep slots and data in dictionaries, and the journal is a list. Servers that keep them for good, and messages that get lost, late and
repeated, are in cluster/.
"""
import asyncio
import json
import os
import secrets
import sys

ROOT = os.path.dirname(os.path.dirname(os.path.abspath(__file__)))
sys.path.insert(0, os.path.join(ROOT, "python"))
from smplan import agent  # noqa: E402  (the path comes first)
from smplan.agent import VACANT, Answer, Call, Cell  # noqa: E402
from smplan.control import DONE, Controller, Session, SessionEnded  # noqa: E402
from smplan.control_agent import assignment_of, order_of, slots_of  # noqa: E402

DOCUMENT = os.path.join(ROOT, "examples", "drain-berlin-1.json")
PROGRAM = [sys.executable, os.path.join(ROOT, "tools", "smpland_model.py"), "-"]


class Servers:
    """The servers, by name, and the published map."""

    def __init__(self, document):
        self.numbers = {it["name"]: number for number, it in enumerate(document["servers"])}
        self.bases, self.slots = {}, {}
        for name in self.numbers:
            self.lose_slots(name)
        self.data = {(cell["server"], it["name"]): ["some data"] for it in document["shards"] for cell in it["cells"]}
        self.map = {it["name"]: (it.get("listed"), 0) for it in document["shards"]}

    def lose_slots(self, name):
        self.bases[name], self.slots[name] = agent.forget(secrets.randbits(63) | 1), {}

    async def base(self, name):
        base = self.bases[name]
        return base.number if base.known and not base.fenced else None

    async def restore(self, told):
        name, brought = told["server"], slots_of(told, self.numbers)
        _, self.bases[name], self.slots[name] = agent.take(self.bases[name], assignment_of(told), self.slots[name], brought)
        return DONE

    async def order(self, told):
        name, shard, order = told["server"], told["shard"], order_of(told, self.numbers)
        slots = self.slots[name]
        answer = agent.judge(self.bases[name], slots.get(shard, VACANT), sum(it.load for it in slots.values()), order)
        if answer == Answer.BEGIN:
            slot = agent.begin(slots.get(shard, VACANT), order)
            slots[shard] = self.work(name, shard, slot, order)
            print(f"order {order.number}: {name} {told['call']} {shard} -> {Cell(slots[shard].cell).name.lower()}")
        return DONE if answer in (Answer.BEGIN, Answer.AGAIN) else answer.name

    def work(self, name, shard, slot, order):
        """Copies or deletes the shard, and commits. Here no request runs, so the cut is reached at once."""
        if order.call == Call.DROP:
            self.data.pop((name, shard), None)
        elif slot.cell == Cell.ABSENT:
            self.data[name, shard] = list(next(self.data[it, shard] for it in self.numbers if (it, shard) in self.data))
        elif slot.cell == Cell.PREPARED:
            slot = agent.seal(slot, slot.handover, 0)
        return agent.commit(self.bases[name], slot, order, 0)

    async def publish(self, told):
        if told["version"] > self.map[told["shard"]][1]:
            self.map[told["shard"]] = (told["to"], told["version"])
            print(f"order {told['number']}: the map names {told['to']} for {told['shard']}")
        return DONE


def done(reply, word):
    """Returns what a reply says was done; ends the program with the reply if it was not."""
    if word not in reply:
        sys.exit(f"driver.py: the session did not answer `{word}`: {json.dumps(reply)}")
    return reply[word]


async def restart(controller, servers, name):
    """Restarts a server, if it may be, and has it lose its slots: it is up once it was restored, as its base tells."""
    told = await controller.do({"do": "approve", "server": name, "by": "restart"})
    if "approved" not in told:
        return print(f"{name} may not be restarted: {json.dumps(told)}")
    permit = told["approved"]["permit"]
    servers.lose_slots(name)
    print(f"{name} has lost its slots: {done(await controller.restarted(permit), 'refused')['kind']}")
    await controller.do({"do": "restore", "server": name, "nonce": f"{servers.bases[name].nonce:x}"})
    while controller.outgoing:
        await asyncio.sleep(0.01)
    print(f"{done(await controller.restarted(permit), 'up')} has them again, and is up")


async def main(path, program):
    try:
        with open(path, encoding="utf-8") as file:
            document = json.load(file)
    except OSError as why:
        sys.exit(f"driver.py: {path}: {why.strerror}")
    except ValueError as why:
        sys.exit(f"driver.py: {path} is no JSON: {why}")
    plan, drained = document.pop("plan", None), document.pop("drain", None)
    if plan is None and drained is None:
        sys.exit(f"driver.py: {path} has neither a plan nor a server to drain")
    servers, journal = Servers(document), []

    async def store(lines):
        journal.extend(lines)
        return lines

    session = await Session.start(program)
    controller = Controller(session, servers, store)
    await controller.lead()
    done(await controller.do({"do": "open", "document": document, "journal": secrets.token_hex(8), "epoch": 0}), "opened")
    for name in servers.numbers:
        await controller.do({"do": "restore", "server": name, "nonce": f"{servers.bases[name].nonce:x}"})
    plan = plan or done(await controller.ask({"do": "drain", "server": drained}), "plan")
    done(await controller.do({"do": "begin", "plan": plan, "name": "first"}), "begun")
    while controller.outgoing:
        await asyncio.sleep(0.01)
    await restart(controller, servers, drained or list(servers.numbers)[-1])
    await controller.rest()
    await session.close()
    for name in servers.numbers:
        held = {shard: Cell(slot.cell).name.lower() for shard, slot in sorted(servers.slots[name].items()) if slot.cell != Cell.ABSENT}
        assert {shard for at, shard in servers.data if at == name} == set(held), "data stand where slots say"
        print(f"{name}: {', '.join(f'{shard} {word}' for shard, word in held.items()) or 'nothing'}")
    print(f"{len(journal)} lines in the journal")


if __name__ == "__main__":
    if sys.argv[1:2] in (["-h"], ["--help"]):
        print(__doc__)
        sys.exit(0)
    words = sys.argv[2:] or PROGRAM
    try:
        asyncio.run(main(sys.argv[1] if len(sys.argv) > 1 else DOCUMENT, words))
    except (SessionEnded, OSError) as why:
        sys.exit(f"driver.py: {' '.join(words)}: {why}")
