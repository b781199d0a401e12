"""A worked play: with the rule that it shows to be needed, and without it."""
from __future__ import annotations

from collections.abc import Callable
from dataclasses import dataclass

from driving_model.laws import Violation

from .rules import Rules, SOUND


@dataclass(frozen=True, slots=True)
class Worked:
    """A play with the rule that it shows to be needed: it breaks a law without the rule, and none with it. The rules
    `beside` are taken away in both cases."""

    play: Callable[[Rules], None]
    rule: str
    beside: tuple[str, ...] = ()

    @property
    def name(self) -> str:
        """The play's name."""
        return self.play.__name__


def played(worked: Worked, with_rule: bool, rules: Rules = SOUND) -> Violation | None:
    """What a play comes to, with its rule or without it."""
    away = worked.beside if with_rule else (*worked.beside, worked.rule)
    try:
        worked.play(rules.without(*away))
    except Violation as violation:
        return violation
    return None


def must(condition: bool, what: str) -> None:
    """What has to happen so that the service goes on."""
    if not condition:
        raise Violation("goes_on", what)
