"""The controllers that a command asks: it finds the one that leads, and goes on through a failover."""
from __future__ import annotations

import argparse
import os
import sys
import time
from typing import Any, Callable, Dict, List, Optional

from .control_http import NotThere, fetch, leads
from .failure import Failure

Line = Dict[str, Any]

# The controllers that are asked if none is named.
VARIABLE = "SMPLAN_CONTROLLER"
DEFAULT = "http://127.0.0.1:9200"


def told(text: str) -> None:
    """Tells on standard error."""
    print(f"smplan-control: {text}", file=sys.stderr, flush=True)


class Refused(Failure):
    """A line was refused, or bad."""

    def __init__(self, reply: Line) -> None:
        told = reply.get("refused") or reply.get("bad") or {}
        super().__init__(told.get("text") or str(reply), 1)
        self.kind, self.reply = told.get("kind"), reply


class NobodyLeads(NotThere):
    """A controller answers, and none leads."""


class Controllers:
    """One or more controllers, of which one leads. A line that may be said again is said again until one answers."""

    def __init__(self, urls: List[str], token: Optional[str] = None, patience: float = 60.0, sleep: Callable[[float], None] = time.sleep) -> None:
        self.urls, self.token, self.patience, self.sleep = [it.rstrip("/") for it in urls], token, patience, sleep
        self.leader: Optional[str] = None

    def find(self) -> str:
        """Returns the controller that leads, or fails with why there is none."""
        faults: List[Failure] = []
        for url in self.urls:
            try:
                if leads(url, self.token):
                    return url
                faults.append(NobodyLeads(f"{url}: this controller does not lead"))
            except NotThere as why:
                faults.append(why)
        text = "; ".join(map(str, faults))
        raise NobodyLeads(text) if any(isinstance(it, NobodyLeads) for it in faults) else NotThere(text)

    def once(self, path: str, line: Optional[Line] = None) -> Any:
        """Asks the leader once."""
        if self.leader is None:
            self.leader = self.find()
        try:
            return fetch(self.leader + path, line, token=self.token)
        except NotThere:
            self.leader = None
            raise

    def post(self, path: str, line: Optional[Line] = None) -> Any:
        """Asks the leader, and whoever leads next, until one answers."""
        waited = 0.0
        while True:
            try:
                return self.once(path, line)
            except NotThere as why:
                if waited >= self.patience:
                    raise
                if not waited:
                    told(f"{why}; waits for one that leads")
                self.sleep(0.5)
                waited += 0.5

    def ask(self, line: Line) -> Line:
        """Asks the session, which changes nothing."""
        return self.post("/ask", line)

    def do(self, line: Line) -> Line:
        """Says a line that may be said again, and returns the reply; fails if it is refused."""
        reply = self.post("/do", line)
        if "refused" in reply or "bad" in reply:
            raise Refused(reply)
        return reply

    def state(self) -> Line:
        """What the leader has recorded."""
        return self.ask({"do": "state"}).get("state", {})


def add_options(parser: argparse.ArgumentParser) -> None:
    """Adds the options that say whom to ask."""
    parser.add_argument(
        "--controller", action="append", metavar="URL",
        help=f"a controller's HTTP port; may be given again, then the one that leads is found (${VARIABLE}, or {DEFAULT})",
    )
    parser.add_argument("--token", metavar="FILE", help="the file of the token that the controller asks for")


def token_of(arguments: argparse.Namespace) -> Optional[str]:
    """Reads the token, if a file is named."""
    if arguments.token is None:
        return None
    try:
        with open(arguments.token, encoding="utf-8") as file:
            return file.read().strip()
    except (OSError, ValueError) as why:
        raise Failure(f"{arguments.token}: {why}") from None


def urls_of(arguments: argparse.Namespace) -> List[str]:
    """Returns the controllers that are asked."""
    return arguments.controller or os.environ.get(VARIABLE, DEFAULT).split(",")


def controllers_of(arguments: argparse.Namespace, patience: float = 60.0) -> Controllers:
    """Returns whom to ask. If one is named, it has to lead now; of several one has to answer, as another one may just be going to lead."""
    found = Controllers(urls_of(arguments), token_of(arguments), patience)
    try:
        found.leader = found.find()
    except NobodyLeads:
        if len(found.urls) == 1:
            raise
    return found


def agrees(question: str, is_yes: bool) -> bool:
    """Asks whoever sits there; without a terminal only --yes is a yes."""
    if is_yes:
        return True
    if not sys.stdin.isatty():
        raise Failure(f"{question} There is no terminal to answer at: say --yes", 1)
    return input(f"{question} [y/N] ").strip().lower() in ("y", "yes")
