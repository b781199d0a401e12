"""Reads documents, plans and reports from files or from standard input."""
import sys
from dataclasses import dataclass
from typing import Any, List, Optional

from .failure import Failure
from .faults import answered
from .model import Document, Json, document_of
from .reading import document_faults, plan_faults, read_text

STANDARD_INPUT = "-"


def read_bytes(path: str) -> bytes:
    """Returns the bytes of a file, or of standard input."""
    try:
        if path == STANDARD_INPUT:
            if sys.stdin.isatty():
                print("smplan-tools: reads standard input; end it with Ctrl-D", file=sys.stderr)
            return sys.stdin.buffer.read()
        with open(path, "rb") as file:
            return file.read()
    except OSError as why:
        raise Failure(f"{path}: {why.strerror}") from None


def read_value(path: str) -> Any:
    """Returns the JSON value of a file. If there is none, a first line that says why no plan was made is told."""
    return value_of(read_bytes(path), path)


def read_values(path: str) -> List[Any]:
    """Returns the JSON values of a file: one for each line, or one in all."""
    data = read_bytes(path)
    lines = data.splitlines()
    if len(lines) < 2 or read_text(lines[0]).fault:
        return [value_of(data, path)]
    return [value_of(it, f"{name_of(path)}, line {number}") for number, it in enumerate(lines, 1) if it]


def value_of(data: bytes, path: str) -> Any:
    """Returns the JSON value of what was read. If there is none, a first line that says why no plan was made is told."""
    text = read_text(data)
    if text.fault is None:
        return text.value
    first = data.split(b"\n", 1)[0].decode(errors="replace")
    if first.startswith(("no plan: ", "bad input: ", "placement refused: ", "log refused: ")):
        raise Failure(f"there is no plan, as smplan says: {first}", 1)
    if not data:
        raise Failure(f"{name_of(path)} is empty")
    raise Failure(f"{name_of(path)}: {text.fault.line}: {text.fault.place}: {text.fault.what}")


def name_of(path: str) -> str:
    return "standard input" if path == STANDARD_INPUT else path


def document_from(value: Any, path: str) -> Document:
    """Returns what a JSON value says that is to be a document, or fails with the fault that the program names."""
    fault = answered(document_faults(value))
    if fault:
        raise Failure(f"{name_of(path)}: {fault.line}: {fault.place}: {fault.what}\n  'smplan-tools explain' shows all faults")
    return document_of(value)


def read_document(path: str) -> Document:
    return document_from(read_value(path), path)


def is_plan(value: Any) -> bool:
    return isinstance(value, dict) and "streams" in value and "servers" not in value


@dataclass(frozen=True)
class PlanText:
    """A JSON value that is a document, or a plan by itself."""

    value: Json
    document: Optional[Document]


def plan_or_document(value: Any, path: str) -> PlanText:
    """Returns what a JSON value says that is to be a document, or a plan by itself."""
    if not is_plan(value):
        return PlanText(value, document_from(value, path))
    fault = answered(plan_faults(value))
    if fault:
        raise Failure(f"{name_of(path)}: {fault.line}: {fault.place}: {fault.what}")
    return PlanText(value, None)


def read_plan_or_document(path: str) -> PlanText:
    """Reads a document, or a plan by itself."""
    return plan_or_document(read_value(path), path)


def read_plans_or_documents(path: str) -> List[PlanText]:
    """Reads one of them, or several, one a line."""
    return [plan_or_document(it, path) for it in read_values(path)]
