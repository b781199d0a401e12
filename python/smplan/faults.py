"""What may be wrong with a document, each thing with its place."""
from dataclasses import dataclass
from enum import Enum
from typing import Iterable, List, Optional


class FaultKind(Enum):
    """The kinds of faults, with their numbers and the words of a report (docs/FORMATS.md, "Faults")."""

    NOT_JSON = (2, "NotJson")
    SHAPE = (3, "Shape")
    UNKNOWN_NAME = (4, "UnknownName")
    TOO_MANY = (5, "TooMany")
    NUMBER = (6, "Number")
    TOO_LONG = (7, "TooLong")

    @property
    def number(self) -> int:
        return self.value[0]

    @property
    def word(self) -> str:
        return self.value[1]


@dataclass(frozen=True)
class Fault:
    """One fault: its kind, the member that a report names, where it is, and what is wrong there."""

    kind: FaultKind
    member: Optional[str]
    place: str
    what: str

    @property
    def line(self) -> str:
        """The line of a report that names this fault."""
        member = "" if self.member is None else f" {self.member}"
        return f"bad input: {self.kind.number} {self.kind.word}{member}"


def answered(faults: Iterable[Fault]) -> Optional[Fault]:
    """Returns the fault that the program names: of those of the lowest number the first."""
    found: List[Fault] = sorted(faults, key=lambda it: it.kind.number)
    return found[0] if found else None
