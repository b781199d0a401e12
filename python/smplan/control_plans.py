"""Plans that a command has begun, and how they end."""
from __future__ import annotations

from dataclasses import dataclass
from typing import Any, Callable, Dict, Optional

Line = Dict[str, Any]
Ask = Callable[[Line], Line]


@dataclass(frozen=True)
class Begun:
    """A plan that has begun: its number, its epoch, and the last reopening before it (none if a later epoch was open when somebody looked)."""

    plan: int
    epoch: int
    fence: Optional[int]

    def has_ended(self, ask: Ask) -> Optional[bool]:
        """Whether the plan has ended: false if a reopening has broken it off, none as long as it runs."""
        told = ask({"do": "state", "plan": self.plan}).get("state", {}).get("plan", {}).get("is")
        if ask({"do": "hello"})["hello"]["epoch"] == self.epoch:
            return {"ended": True, "broken_off": False}.get(told)
        # (without a reopening the next epoch opens only once all plans have ended)
        return ask({"do": "state"}).get("state", {}).get("fence") == self.fence


def begun_as(ask: Ask, begun: Line) -> Begun:
    """The plan that has begun with this number in this epoch, as `begun` in a reply tells."""
    state = ask({"do": "state"}).get("state", {})
    return Begun(begun["plan"], begun["epoch"], state.get("fence") if state.get("epoch") == begun["epoch"] else None)
