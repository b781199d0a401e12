"""The worked plays of `driving_model`, staged over data. Some need other steps here, and stand in `plays_restaged`."""
from __future__ import annotations

from collections.abc import Callable
from types import FunctionType

from driving_model import plays as driving

from .play import Play
from .plays_restaged import PLAYS as RESTAGED
from .rules import REPLACED, Rules
from .worked import Worked


def over_data(play: Callable[[Rules], None]) -> Callable[[Rules], None]:
    """The same play with a shard whose data are explicit."""
    return FunctionType(play.__code__, play.__globals__ | {"Play": Play}, play.__name__)


PLAYS = tuple(
    Worked(over_data(it.play), it.rule, it.beside) for it in driving.PLAYS
    if it.rule not in REPLACED | {at.rule for at in RESTAGED}
)
