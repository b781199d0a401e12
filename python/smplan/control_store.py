"""A test of a store of your own for `smplan.control`: `faults = await check(Trial(..))`. A store adds lines behind all others, by these rules:

- Lines of others that came between are handed on first, then these, each once.
- If its answer is lost, look whether the lines are there: then they went through.
- `StoreRefused`: these lines were not stored, nor will they be. The controller leads on.
- `StoreLost`, or any other exception: it leads no longer. Before it leads again, `follow` all lines that are new.
"""
from __future__ import annotations

from dataclasses import dataclass
from typing import Awaitable, Callable, List, Optional, Protocol, Sequence

from .control import StoreRefused

__all__ = ["Handle", "Trial", "check"]


class Handle(Protocol):
    """A controller's way to the journal. Its `append` is the store that a controller takes, its `read` gives what `follow` feeds."""

    async def read(self) -> Sequence[str]:
        """Returns the lines that it has not handed on yet, and hands them on."""

    async def append(self, lines: Sequence[str]) -> Sequence[str]:
        """Stores lines behind all others, and hands on lines of others that came between, then these."""


@dataclass(frozen=True)
class Trial:
    """A store on trial, whose journal is empty. `open` begins a handle of a controller, and behind `lead` this handle alone may append. Behind
    `lose_answer` the next append goes through, and its answer is lost; `too_long` is a line that is refused. What is left out stays untried."""

    open: Callable[[str], Awaitable[Handle]]
    lead: Callable[[Handle], Awaitable[None]]
    lose_answer: Optional[Callable[[Handle], None]] = None
    too_long: Optional[str] = None


async def check(trial: Trial) -> List[str]:
    """Tries each rule, and returns those that are broken."""
    return await Check(trial).run()


class Check:
    """The course of a trial: what was to be stored, and the faults that were found."""

    def __init__(self, trial: Trial) -> None:
        self.trial, self.stored = trial, []
        self.faults: List[str] = []

    async def want(self, rule: str, doing: Awaitable[Sequence[str]], wanted: List[str]) -> None:
        """Notes a fault if a call hands on other lines."""
        try:
            found = list(await doing)
        except Exception as why:  # pylint: disable=broad-exception-caught  (a store is others' code)
            self.faults.append(f"{rule}: {type(why).__name__} {why}")
            return
        if found != wanted:
            self.faults.append(f"{rule}: {found}, and not {wanted}")

    async def run(self) -> List[str]:
        """Tries all."""
        a, b = [await self.trial.open(it) for it in ("a", "b")]
        await self.trial.lead(a)
        await self.want("an empty journal has no lines", a.read(), [])
        await self.want("lines are handed on in their order", a.append(["1", "2"]), ["1", "2"])
        await self.want("who follows reads each line", b.read(), ["1", "2"])
        await self.want("a line is handed on once", b.read(), [])
        await self.trial.lead(b)
        await self.want("the next one that leads appends", b.append(["3"]), ["3"])
        await self.deposed(a)
        await self.trial.lead(a)
        await self.want("lines of others that came between are handed on first", a.append(["4"]), ["3", "4"])
        self.stored = ["1", "2", "3", "4"]
        await self.unanswered(a)
        await self.refused(a)
        await self.want("a new one reads all that was stored, and nothing else", (await self.trial.open("c")).read(), self.stored)
        return self.faults

    async def deposed(self, handle: Handle) -> None:
        """Appends by one that leads no longer."""
        rule = "who does not lead stores nothing, and is told by an exception that is no StoreRefused"
        try:
            self.faults.append(f"{rule}: it hands on {list(await handle.append(['late']))}")
        except StoreRefused as why:
            self.faults.append(f"{rule}: {why}")
        except Exception:  # pylint: disable=broad-exception-caught  (that is as it should be)
            pass

    async def unanswered(self, handle: Handle) -> None:
        """Appends a line that goes through although the answer is lost."""
        if self.trial.lose_answer is None:
            return
        self.trial.lose_answer(handle)
        self.stored.append("5")
        rule = "a line that went through unanswered is found and handed on, or an exception that is no StoreRefused ends leading"
        try:
            found = list(await handle.append(["5"]))
            if found != ["5"]:
                self.faults.append(f"{rule}: {found}")
        except StoreRefused as why:
            self.faults.append(f"{rule}: {why}")
        except Exception:  # pylint: disable=broad-exception-caught  (it reads again before it leads)
            await self.want("behind a lost answer the line is read", handle.read(), ["5"])

    async def refused(self, handle: Handle) -> None:
        """Appends a line that is too long, and then another one."""
        if self.trial.too_long is None:
            return
        try:
            await handle.append([self.trial.too_long])
            self.faults.append("a line that is too long is refused: it is taken")
        except StoreRefused:
            pass
        except Exception as why:  # pylint: disable=broad-exception-caught  (a store is others' code)
            self.faults.append(f"a line that is too long is refused by StoreRefused: {type(why).__name__} {why}")
        self.stored.append("6")
        await self.want("behind a line that is refused others are stored", handle.append(["6"]), ["6"])
