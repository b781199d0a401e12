"""Random sessions of all lines: a client with dice, whose servers answer in any order, late, twice, or not at all.

It plays against the reference, from which it knows what may come next, and yields each line with the reply that is due.
"""
from __future__ import annotations

import random
from collections.abc import Iterator
from dataclasses import dataclass
from typing import Any

from driving_model.messages import LAST_EPOCH
from smpland_model.session import Session

from random_documents import Documents
from random_lines import as_bytes, spoilt
from random_plans import bent, random_plan
from random_questions import Questions
from random_reopening import Reopenings
from random_slots import Slots

Json = dict[str, Any]


@dataclass(frozen=True)
class Profile:
    """How often something happens at an open journal."""

    begin: float = 0.16
    answered: float = 0.32
    approve: float = 0.1
    restarted: float = 0.08
    restore: float = 0.06
    new_epoch: float = 0.04
    copied: float = 0.05
    reopen: float = 0.05
    ask: float = 0.19
    is_wide: bool = False


PROFILES = [
    Profile(), Profile(copied=0.4, reopen=0.15, begin=0.1), Profile(reopen=0.15, begin=0.2), Profile(approve=0.3, restarted=0.2, reopen=0.06),
    Profile(new_epoch=0.2), Profile(is_wide=True, begin=0.8, answered=0.02, approve=0.05, copied=0.01, reopen=0.01, ask=0.4),
]


class Client:
    """A client of one session. `spoils` says how often a line comes spoilt before it comes as it is."""

    def __init__(
        self, seed: int, program: str | None = None, plans_often: float = 0.1, spoils: float = 0.1, session: Session | None = None,
    ) -> None:
        self.dice = random.Random(seed)
        self.session = session or Session(program)
        self.profile, self.spoils = PROFILES[seed % len(PROFILES)], spoils
        self.documents = Documents(self.dice, self.profile.is_wide)
        self.slots = Slots(self.session, self.dice)
        self.questions = Questions(self.session, self.dice, self.slots, plans_often)
        self.reopenings = Reopenings(self.session, self.dice, self.slots, self.documents)
        self.known: list[Json] = []
        self.names: list[str] = []
        self.approvals: list[Json] = []
        self.permits = [1]
        self.nonces: dict[str, str] = {}

    def chance(self, probability: float) -> bool:
        """Returns true with this probability."""
        return self.dice.random() < probability

    def play(self, steps: int) -> Iterator[tuple[bytes, Json]]:
        """Yields lines, and the replies that are due. Some lines come spoilt before they come as they are."""
        for _ in range(steps):
            line = self.line()
            if self.chance(self.spoils):
                wrong = spoilt(line, self.dice)
                yield wrong, self.session.reply(wrong)
            text = as_bytes(line)
            reply = self.session.reply(text)
            self.learn(reply)
            yield text, reply

    def numbered(self, steps: int) -> Iterator[tuple[bytes, Json, bool]]:
        """Yields lines, none of them spoilt, whose `id` are numbers from 0; the replies that are due; and whether a line changes something."""
        for number in range(steps):
            text = as_bytes(self.line() | {"id": number})
            place = self.session.history.place
            reply = self.session.reply(text)
            self.learn(reply)
            yield text, reply, self.session.history.place > place

    def learn(self, reply: Json) -> None:
        """Notes orders and permits, to come back to them late."""
        self.known = (self.known + reply.get("orders", []))[-40:]
        for told in (reply.get("approved"), *reply.get("opened", {}).get("permits", [])):
            self.permits += [told["permit"]] if told else []

    def line(self) -> Json:
        """Returns the next line."""
        line = self.command()
        if self.chance(0.05):
            line["id"] = self.dice.choice([0, 7, 2**53 - 1, "a-1.b_2"])
        return line

    def command(self) -> Json:
        """Returns a command, by what is under way."""
        controller = self.session.controller
        if controller.journal is None and self.chance(0.85):
            return self.opening()
        if controller.reopening and self.chance(0.8):
            return self.reopenings.line()
        if controller.is_open and controller.unknown() and self.chance(0.6):
            return self.restore_unknown()
        kinds = ("begin", "answered", "approve", "restarted", "restore", "new_epoch", "copied", "reopen", "ask")
        kind = self.dice.choices(kinds, [getattr(self.profile, it) for it in kinds])[0]
        return getattr(self, kind)()

    # Openings.

    def opening(self) -> Json:
        """Opens a placement, or adopts a service."""
        epoch = self.dice.choice([0, 0, 1, 5, LAST_EPOCH - 1, LAST_EPOCH] if self.chance(0.3) else [0, 1, 2])
        document = self.documents.first()
        journal = f"{self.dice.choice([1, 0x9f2c, 2**64 - 1]):x}"
        if self.chance(0.25):
            return {"do": "reopen", "document": document, "journal": journal, "epoch": max(1, epoch)}
        return {"do": "open", "document": document, "journal": journal, "epoch": epoch}

    def new_epoch(self) -> Json:
        """Opens the next epoch; now and then another journal is to be opened."""
        return self.opening() if self.chance(0.1) else {"do": "new_epoch"}

    def copied(self) -> Json:
        """Says how many copies each write of a shard has: as many as are wanted mostly, or more, or of before."""
        controller = self.session.controller
        wants = {it.name: it.want for it in controller.document.shards.values()} if controller.document else {}
        several = [it for it, want in wants.items() if want > 1]
        others = list(wants) if wants and self.chance(0.9) else ["s9"]
        shard = self.dice.choice(several if several and self.chance(0.7) else others)
        want = wants.get(shard, 2)
        fence = controller.fence if self.chance(0.9) else self.dice.choice([0, controller.base, controller.fence + 1])
        journal = controller.journal if controller.journal and self.chance(0.95) else 1
        copies = self.dice.choice([want, want, want, 2, 2, 3, max(0, want - 1), want + 1])
        return {"do": "copied", "journal": f"{journal:x}", "fence": fence, "shard": shard, "copies": copies}

    def reopen(self) -> Json:
        """Begins a reopening."""
        return self.reopenings.reopen()

    def ask(self) -> Json:
        """Asks something."""
        return self.questions.line()

    # Plans.

    def begin(self) -> Json:
        """Begins a plan, now and then under a name that was given, and one that is wrong."""
        controller = self.session.controller
        plan = random_plan(controller, self.dice, self.profile.is_wide) if controller.is_open else {"any": "thing"}
        if plan is None:
            return self.answered()
        if self.chance(0.2) and "streams" in plan:
            plan = bent(plan, self.dice)
        if not self.names or self.chance(0.9):
            self.names.append(f"p{len(self.names)}")
        name = self.names[-1] if self.chance(0.9) else self.dice.choice(self.names)
        return {"do": "begin", "plan": plan, "name": name}

    def answered(self) -> Json:
        """Answers an order: a present one, one of those before, or none that was sent."""
        present = self.session.asking.orders({})["orders"]
        order = self.dice.choice(present if present and self.chance(0.85) else self.known or [self.no_order()])
        told = {it: order[it] for it in ("plan", "stream", "number")}
        if self.chance(0.06):
            member = self.dice.choice(list(told))
            told[member] = max(0, told[member] + self.dice.choice([-1, 1]))
        return {"do": "answered"} | told

    def no_order(self) -> Json:
        """Returns the numbers of an order that nobody has sent."""
        return {"plan": 0, "stream": 0, "number": self.session.controller.base + 1}

    # Restarts and restores.

    def server(self) -> str:
        """Returns a server that has a number, or one that has none."""
        names = list(self.session.controller.numbering.servers)
        return self.dice.choice(names) if names and self.chance(0.97) else "v9"

    def approve(self) -> Json:
        """Asks for leave, under a `by` that was given before now and then."""
        if self.approvals and self.chance(0.3):
            line = dict(self.dice.choice(self.approvals[-6:]))
            return line | ({"server": self.server()} if self.chance(0.3) else {})
        line = {"do": "approve", "server": self.server(), "by": f"by-{len(self.approvals)}"}
        self.approvals.append(line)
        return line

    def restarted(self) -> Json:
        """Ends a restart: one that is under way, or one that has ended. Some servers are Unknown or behind the fence."""
        controller = self.session.controller
        permits = list(controller.record.permits.values()) if controller.record else []
        permit = self.dice.choice(permits if permits and self.chance(0.7) else self.permits)
        base = self.dice.choice([controller.base, controller.fence, controller.fence, max(0, controller.fence - 1), None])
        return {"do": "restarted", "permit": permit, "base": base}

    def restore_unknown(self) -> Json:
        """Asks for the slots of a server that is not known yet, as each does at first."""
        controller = self.session.controller
        server = controller.server_name(self.dice.choice(controller.unknown()))
        self.nonces[server] = f"{self.dice.randrange(1, 2**64):x}"
        return {"do": "restore", "server": server, "nonce": self.nonces[server]}

    def restore(self) -> Json:
        """Asks for slots, under a new nonce or the last one."""
        server = self.server()
        if server not in self.nonces or self.chance(0.7):
            self.nonces[server] = f"{self.dice.randrange(1, 2**64):x}"
        return {"do": "restore", "server": server, "nonce": self.nonces[server]}
