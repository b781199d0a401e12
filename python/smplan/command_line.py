"""A parser of command lines that suggests what may have been meant."""
import argparse
import re
import sys
from typing import Any, Iterator, NoReturn, Optional, Sequence

from .reading import did_you_mean

# What argparse says of a word that is none of several.
NO_CHOICE = re.compile(r"invalid choice: '(?P<word>[^']*)' \(choose from (?P<words>.*)\)")


def options_of(parser: argparse.ArgumentParser) -> Iterator[str]:
    """The options of a parser and of its commands."""
    for action in parser._actions:  # pylint: disable=protected-access
        yield from action.option_strings
        for it in action.choices.values() if isinstance(action.choices, dict) else ():
            yield from options_of(it)


def chosen(parser: argparse.ArgumentParser, words: Sequence[str]) -> argparse.ArgumentParser:
    """The parser of the command that words name."""
    commands = next((it.choices for it in parser._actions if isinstance(it.choices, dict)), {})  # pylint: disable=protected-access
    at = next((at for at, word in enumerate(words) if word in commands), None)
    return parser if at is None else chosen(commands[words[at]], words[at + 1:])


class Parser(argparse.ArgumentParser):
    """A parser that names the nearest command or option of a word that is none. The parsers of its commands are such, too."""

    def parse_args(self, args: Optional[Sequence[str]] = None, namespace: Any = None) -> Any:
        found, rest = self.parse_known_args(args, namespace)
        if rest:
            options = set(options_of(chosen(self, sys.argv[1:] if args is None else args)))
            hint = did_you_mean(rest[0].partition("=")[0], options) if rest[0].startswith("--") else ""
            self.error(f"unrecognized arguments: {' '.join(rest)}{hint}")
        return found

    def error(self, message: str) -> NoReturn:
        found = NO_CHOICE.search(message)
        hint = did_you_mean(found["word"], re.findall(r"[\w-]+", found["words"])) if found else ""
        super().error(message + hint)
