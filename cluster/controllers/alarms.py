"""What is wrong with servers or with the journal, as a controller that leads finds out by itself, for its page and its figures."""
from __future__ import annotations

import math
import time
from collections.abc import Awaitable, Callable
from dataclasses import dataclass, field

from smplan.control import Line

# The seconds after which an alarm ends that nobody has given again.
OVER = 15.0


@dataclass
class Alarm:
    """Something wrong: about whom, since when, when it was seen last, and in words."""

    about: str
    what: str
    text: str
    since: float = field(default_factory=time.monotonic)
    last: float = field(default_factory=time.monotonic)


class Alarms:
    """All that is wrong now, by whom it is about and by what it is."""

    def __init__(self, log: Callable[[str], None]) -> None:
        self.log = log
        self.present: dict[tuple[str, str], Alarm] = {}
        # All that was ever given, in words.
        self.given: list[str] = []

    def give(self, about: str, what: str, text: str, lasts: bool = False) -> None:
        """Gives an alarm, or the same again. One that lasts is never over by itself."""
        known = self.present.get((about, what))
        if known is None or time.monotonic() - known.last > OVER:
            self.present[about, what] = Alarm(about, what, text)
            self.given.append(f"{about} {what}: {text}")
            self.log(self.given[-1])
        else:
            known.last, known.text = time.monotonic(), text
        if lasts:
            self.present[about, what].last = math.inf

    def end(self, about: str, *kinds: str) -> None:
        """What was wrong is so no longer."""
        for what in kinds:
            self.present.pop((about, what), None)

    def now(self) -> list[Alarm]:
        """Those that are not over."""
        return [it for it in self.present.values() if time.monotonic() - it.last <= OVER]


# What an audit says that is wrong, and what to do then.
AUDITS = {
    "ahead": "it has done orders that this journal has not sent: this is an older copy of the journal; find the whole one",
    "differs": "it has something else than is recorded: reopen",
}
# How a server turns a present order away, and the word for that in `failed`. (one that is not ready may be so for a moment)
TURNED_AWAY = {"Old": "old", "Foreign": "foreign", "Refused": "refused"}


class Auditor:
    """Audits one server after the other, and at once one that turns a present order away. What it finds counts only if it still leads then: one that was
    deposed has an older journal."""

    def __init__(self, alarms: Alarms, ask: Callable[[Line], Awaitable[Line]], slots: Callable[[str], Awaitable[Line | None]],
                 leads: Callable[[], bool]) -> None:
        self.alarms, self.ask, self.slots, self.leads = alarms, ask, slots, leads
        self.turn = 0

    def give(self, about: str, what: str, text: str) -> None:
        """Gives an alarm, if it leads."""
        if self.leads():
            self.alarms.give(about, what, text)

    async def audit_next(self) -> None:
        """Audits the server whose turn it is."""
        state = (await self.ask({"do": "state"})).get("state", {})
        names = sorted(it["server"] for it in state.get("servers", []) if it["permit"] is None)
        if state.get("is") == "open" and names:
            self.turn += 1
            await self.audit(names[self.turn % len(names)])

    async def audit(self, server: str) -> str | None:
        """Audits a server; what is said of it, none if it does not tell its slots."""
        state = (await self.ask({"do": "state"})).get("state", {})
        told = await self.slots(server)
        if told is None or state.get("is") != "open":
            return None
        for it in told["lacks"]:
            text = f"it leads {it['shard']} with {it['lacks']} writes less than {it['of']} has: acknowledged writes may be lost"
            self.give(server, "lacks writes", text)
        audit = (await self.ask({"do": "audit", "server": server, "place": state["place"], "slots": told["slots"]})).get("audit", {})
        said = audit.get("is")
        if said in AUDITS:
            shards = ", ".join(it["shard"] for it in audit.get("slots", []))
            self.give(server, said, AUDITS[said] + (f" ({shards})" if shards else ""))
        elif said == "agrees":
            self.alarms.end(server, *AUDITS)
        return said

    async def look_at(self, order: Line, said: str) -> None:
        """Asks what is to be done with a present order that its server turned away, and audits the server."""
        answer = TURNED_AWAY.get(said.partition(":")[0])
        if answer is None or order.get("server") is None:
            return
        line = {"do": "failed", "plan": order["plan"], "stream": order["stream"], "number": order["number"], "answer": answer}
        failed = (await self.ask(line)).get("failed")
        if failed is not None:
            self.give(order["server"], answer, f"it says {said} to the present order {order['number']} for {order['shard']}: {failed['then']}")
            await self.audit(order["server"])
