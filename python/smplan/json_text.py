"""JSON texts as the program reads them, which is stricter than Python's reader."""
import json
import re
from typing import Any, List, Tuple, Union

from .limits import MOST_BYTES, MOST_DEPTH

# What matters for how deep values nest: a string as a whole, or a bracket.
PIECE = re.compile(r'"(?:[^"\\]|\\.)*"|[\[\]{}]', re.DOTALL)


class NotWhole(float):
    """A number that is not written as a whole one, such as 10.0, 1e1 or -0."""

    text: str

    def __new__(cls, text: str) -> "NotWhole":
        number = super().__new__(cls, text)
        number.text = text
        return number


class BadText(Exception):
    """A text that is no JSON document: where, and what is wrong there."""

    def __init__(self, place: str, what: str, is_too_long: bool = False) -> None:
        super().__init__(what)
        self.place = place
        self.what = what
        self.is_too_long = is_too_long


def place_in(text: str, at: int) -> str:
    """Returns the line and the column of a position in a text."""
    line = text.count("\n", 0, at) + 1
    column = at - (text.rfind("\n", 0, at) + 1) + 1
    return f"line {line}, column {column}"


def _check_depth(text: str) -> None:
    depth = 0
    for found in PIECE.finditer(text):
        piece = found.group()
        if piece in "[{":
            depth += 1
            if depth > MOST_DEPTH:
                raise BadText(place_in(text, found.start()), f"lists and objects are nested deeper than {MOST_DEPTH} levels")
        elif piece in "]}":
            depth -= 1


def _whole(text: str) -> Union[int, NotWhole]:
    _float(text)
    return NotWhole(text) if text == "-0" else int(text)


def _float(text: str) -> NotWhole:
    number = NotWhole(text)
    if number in (float("inf"), float("-inf")):
        raise BadText("document", f"the number {text[:20]} is too large")
    return number


def _constant(text: str) -> Any:
    raise BadText("document", f"{text} is no JSON value")


def _check_string(text: str) -> None:
    if any("\ud800" <= it <= "\udfff" for it in text):
        raise BadText("document", f"the text {text[:20]!r} has half a surrogate pair")


def _object(pairs: List[Tuple[str, Any]]) -> Any:
    for name, value in pairs:
        _check_string(name)
        if isinstance(value, str):
            _check_string(value)
        elif isinstance(value, list):
            _check_strings(value)
    return dict(pairs)


def _check_strings(values: List[Any]) -> None:
    for value in values:
        if isinstance(value, str):
            _check_string(value)
        elif isinstance(value, list):
            _check_strings(value)


def read(data: bytes) -> Any:
    """Returns the JSON value of the bytes. Numbers that are not whole come as `NotWhole`. Raises `BadText` if there is no value."""
    if len(data) > MOST_BYTES:
        raise BadText("document", f"more than {MOST_BYTES:,} bytes", is_too_long=True)
    try:
        text = data.decode("utf-8")
    except UnicodeDecodeError as why:
        raise BadText(f"byte {why.start}", "the bytes are not UTF-8") from None
    if not text.strip():
        raise BadText("document", "the input is empty")
    if text.startswith("\ufeff"):
        raise BadText("line 1, column 1", "a byte order mark stands in front")
    _check_depth(text)
    try:
        value = json.loads(text, parse_int=_whole, parse_float=_float, parse_constant=_constant, object_pairs_hook=_object)
    except json.JSONDecodeError as why:
        is_comment = text.startswith(("//", "/*", "#"), why.pos)
        raise BadText(place_in(text, why.pos), f"no JSON: {'a comment, which JSON has not' if is_comment else why.msg}") from None
    except (ValueError, RecursionError) as why:
        raise BadText("document", f"no JSON: {why}") from None
    _check_strings([value])
    return value
