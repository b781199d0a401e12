"""A run of plans of 64 streams under `smpland JOURNAL`: a client with many lines under way, whose process is killed."""
from __future__ import annotations

import json
import os
import random
import subprocess
from pathlib import Path
from typing import Any

from crashes import Disk

Json = dict[str, Any]
STREAMS = 64
SERVERS = [f"v{it}" for it in range(8)]
# Servers that have nothing, to be restarted and restored meanwhile.
IDLE = [f"x{it}" for it in range(3)]
MOST_UNDER_WAY = 64
# How many copies there may be of each write of the shard that nobody has.
MOST_COPIES = 1_000


def owner(shard: int, plan: int) -> str:
    """Returns who is the shard's primary before a plan."""
    return SERVERS[(shard + 3 * plan) % len(SERVERS)]


def document() -> Json:
    """Returns a document of a shard for each stream."""
    servers = [{"name": it, "region": "r", "room": 1_000} for it in SERVERS + IDLE]
    shards = [
        {
            "name": f"s{it}", "load": 1, "want": 1, "cap": 0, "spread": 0, "listed": owner(it, 0),
            "cells": [{"server": owner(it, 0), "state": "primary"}],
        }
        for it in range(STREAMS)
    ]
    shards.append({"name": "unserved", "load": 1, "want": MOST_COPIES, "cap": MOST_COPIES, "spread": 0, "cells": []})
    return {"limit": 3, "log": 4_096, "servers": servers, "shards": shards}


def stream(shard: int, plan: int) -> Json:
    """Returns a stream that hands a shard over. Each eighth one waits for the stream before it."""
    name, old, new = f"s{shard}", owner(shard, plan), owner(shard, plan + 1)
    holds = {
        "cells": [{"shard": name, "server": new, "state": "absent"}], "room": [{"server": new, "amount": 1}],
        "crowns": [{"shard": name, "lead": "at", "server": old, "listed": old}],
    }
    code: list[Json] = [
        {"do": "prepare_add", "shard": name, "server": new, "other": old},
        {"do": "prepare_drop", "shard": name, "server": old, "other": new},
        {"do": "add", "shard": name, "server": new, "role": "primary"},
        {"do": "publish", "shard": name},
        {"do": "drop", "shard": name, "server": old},
    ]
    if shard % 8 == 6:
        code.insert(2, {"do": "signal", "signal": shard // 8})
    elif shard % 8 == 7:
        code.insert(0, {"do": "wait", "signal": shard // 8})
    return {"budget": 4, "holds": holds, "code": code}


def plan_of(number: int) -> Json:
    """Returns a plan that hands all shards over."""
    streams = [stream(it, number) for it in range(STREAMS)]
    return {"format": 2, "budget": 4 * STREAMS, "signals": [{}] * (STREAMS // 8), "streams": streams}


def settled_at(plan: int) -> Json:
    """Returns a plan that does nothing, and may begin if all shards are where they are to be before a plan."""
    owners = {f"s{it}": owner(it, plan) for it in range(STREAMS)}
    crowns = [{"shard": it, "lead": "at", "server": server, "listed": server} for it, server in owners.items()]
    cells = [
        {"shard": it, "server": server, "state": "absent"}
        for it, primary in owners.items() for server in SERVERS if server != primary
    ]
    return {"budget": 0, "streams": [{"budget": 0, "holds": {"crowns": crowns, "cells": cells}, "code": []}]}


class Ended(Exception):
    """The process has ended, in the middle of what was asked of it."""


class Process:
    """A process of the program with a journal. With `notes` it is told to note what it does to the file."""

    def __init__(self, words: list[str], folder: Path, library: Path | None, kill_at: int) -> None:
        journal, notes = folder / "journal", folder / "notes"
        told = dict(os.environ)
        if library:
            notes.write_bytes(b"")
            told |= {"NOTES": str(notes), "NOTED_FILE": str(journal), "NOTED_FOLDER": str(folder)}
            told |= {"LD_PRELOAD": str(library)} | ({"KILL_AT": str(kill_at)} if kill_at else {})
        pipe = subprocess.PIPE
        self.process = subprocess.Popen([*words, str(journal)], stdin=pipe, stdout=pipe, stderr=pipe, env=told)

    def send(self, lines: list[bytes]) -> None:
        """Writes lines."""
        try:
            self.process.stdin.write(b"".join(it + b"\n" for it in lines))
            self.process.stdin.flush()
        except BrokenPipeError:
            raise Ended from None

    def reply(self) -> Json:
        """Reads a reply."""
        text = self.process.stdout.readline()
        if not text.endswith(b"\n"):
            raise Ended
        return json.loads(text)

    def kill(self) -> list[Json]:
        """Kills the process, and returns the replies that it had written."""
        self.process.kill()
        rest = self.process.stdout.read().split(b"\n")
        self.process.wait()
        why = self.process.stderr.read().decode(errors="replace")
        if self.process.returncode != -9:
            raise AssertionError(f"it ended with {self.process.returncode}: {why}")
        for pipe in (self.process.stdin, self.process.stdout, self.process.stderr):
            try:
                pipe.close()
            except BrokenPipeError:
                pass
        return [json.loads(it) for it in rest[:-1]]


class Run:
    """A run over one journal, to the ends of its plans. `does` are the commands that the program knows."""

    def __init__(self, dice: random.Random, does: set[str], plans: int = 2) -> None:
        self.dice, self.does, self.plans = dice, does, plans
        self.sent: list[bytes] = []
        self.under_way: list[Json] = []
        # Lines whose replies have told that they changed something.
        self.told: list[int] = []
        self.plan = -1
        self.present: dict[tuple[int, int], Json] = {}
        self.before: list[Json] = []
        self.permits: list[int] = []
        self.is_over = self.is_open = False

    # Lines.

    def line(self, do: str, **members: Any) -> bytes:
        """Returns a line of its own, whose `id` is its number, and notes it as sent."""
        command = {"id": len(self.sent), "do": do} | members
        self.sent.append(json.dumps(command, separators=(",", ":")).encode())
        self.under_way.append(command)
        return self.sent[-1]

    def next_lines(self) -> list[bytes]:
        """Returns lines to send now: what begins something, or answers in any order, some of them twice."""
        if not self.is_open:
            return [self.line("open", document=document(), journal="9f2c", epoch=0)]
        if self.plan < 0 or not (self.present or self.under_way):
            return self.next_plan()
        lines = []
        for _ in range(self.dice.randint(1, max(1, MOST_UNDER_WAY - len(self.under_way)))):
            lines += self.beside() if self.dice.random() < 0.1 else self.answer()
        return lines

    def next_plan(self) -> list[bytes]:
        """Begins the next plan, or ends the run if there is none."""
        if self.plan + 1 == self.plans:
            self.is_over = True
            return []
        self.plan += 1
        return [*self.restores(), self.line("begin", plan=plan_of(self.plan), name=f"plan-{self.plan}")]

    def restores(self) -> list[bytes]:
        """Restores all servers that plans call, before the first: it is not begun otherwise. Under new nonces, so that each line changes something."""
        if self.plan > 0 or "restore" not in self.does:
            return []
        return [self.line("restore", server=it, nonce=f"{len(self.sent) + 1:x}") for it in SERVERS]

    def answer(self) -> list[bytes]:
        """Answers a present order, or one that was answered."""
        orders = list(self.present.values())
        is_late = self.before and (not orders or self.dice.random() < 0.2)
        order = self.dice.choice(self.before if is_late else orders or [None])
        if order is None:
            return []
        return [self.line("answered", **{it: order[it] for it in ("plan", "stream", "number")})]

    def beside(self) -> list[bytes]:
        """Returns a line about a server or a shard that no plan names, or a question."""
        can = [it for it in ("approve", "restarted", "restore", "copied", "hello", "orders", "map") if it in self.does]
        match self.dice.choice(can):
            case "approve":
                return [self.line("approve", server=self.dice.choice(IDLE), by=f"by-{len(self.sent)}")]
            case "restarted":
                base = self.dice.choice([0, 0, 7, None])
                return [self.line("restarted", permit=self.dice.choice(self.permits), base=base)] if self.permits else []
            case "restore":
                return [self.line("restore", server=self.dice.choice(IDLE), nonce=f"{len(self.sent) + 1:x}")]
            case "copied":
                copies = self.dice.randint(1, MOST_COPIES + 10)
                return [self.line("copied", journal="9f2c", fence=0, shard="unserved", copies=copies)]
            case do:
                return [self.line(do)]

    # Replies.

    def take(self, reply: Json) -> None:
        """Takes the reply to the line that was sent first of those under way."""
        command = self.under_way.pop(0)
        if reply.pop("id", None) != command["id"]:
            raise AssertionError(f"{command} has the reply {reply}")
        word = next(iter(reply))
        if word == "bad":
            raise AssertionError(f"{command} is bad: {reply}")
        if word in ("opened", "begun", "moved", "approved", "up", "restore", "copied") and "again" not in reply:
            self.told.append(command["id"])
        self.is_open = self.is_open or word == "opened" or reply.get("refused", {}).get("kind") == "AlreadyOpened"
        if word == "approved":
            self.permits.append(reply[word]["permit"])
        if word == "moved":
            order = self.present.pop((command["plan"], command["stream"]), None)
            self.before += [order] if order else []
        for order in reply.get("orders", []) if word in ("begun", "moved") else []:
            self.present[order["plan"], order["stream"]] = order

    def start_anew(self, process: Process) -> None:
        """Asks a process that was started again where it is."""
        self.under_way = []
        process.send([self.line("hello"), self.line("orders")])
        hello, orders = self.asked(process), self.asked(process)
        place = hello["hello"]["place"]
        if place < len(self.told):
            raise AssertionError(f"{len(self.told)} entries were told, and the journal has {place}")
        self.is_open = hello["hello"]["journal"] is not None
        self.present = {(it["plan"], it["stream"]): it for it in orders.get("orders", [])}
        if not self.present:
            # (the plan has ended, or was not begun: the same name begins it once)
            self.plan = max(-1, self.plan - 1)

    def asked(self, process: Process) -> Json:
        """Reads the reply to the line that was sent first of those under way."""
        reply = process.reply()
        self.under_way.pop(0)
        return reply


class Lives:
    """A run, or a script, in one folder: killed until all kills were made, or it has ended."""

    def __init__(self, words: list[str], folder: Path, library: Path, run: Any) -> None:
        self.words, self.folder, self.library, self.run = words, folder, library, run
        self.dice = run.dice
        self.disk = Disk(b"", False)

    def live(self, kills: int) -> int:
        """Makes a number of kills, fewer if the run ends first, and then lets it come to its end. Returns how many it made."""
        made = 0
        while True:
            is_killed = made < kills
            kill_at = self.dice.randint(1, 60) if is_killed and self.dice.random() < 0.5 else 0
            process = Process(self.words, self.folder, self.library, kill_at)
            try:
                self.run.start_anew(process)
                self.go_on(process, self.dice.choice([1, 4, 15, 40]) if is_killed else 1 << 30)
            except Ended:
                pass
            if self.run.is_over:
                process.process.stdin.close()
                if process.process.wait() != 0:
                    raise AssertionError(f"it ended with {process.process.returncode}")
                return made
            for reply in process.kill():
                if self.run.under_way:
                    self.run.take(reply)
            made += 1
            self.crash()

    def go_on(self, process: Process, turns: int) -> None:
        """Sends lines and reads replies in turns. At the last turn, replies are left unread."""
        run = self.run
        for _ in range(turns):
            process.send(run.next_lines())
            if run.is_over:
                return
            for _ in range(self.dice.randint(0, len(run.under_way)) if turns < 1 << 30 else len(run.under_way)):
                run.take(process.reply())

    def crash(self) -> None:
        """Leaves the file as the process left it, or as a crash of the machine may."""
        journal = self.folder / "journal"
        self.disk.take((self.folder / "notes").read_bytes())
        if self.dice.random() < 0.3:
            self.disk.keep(journal.read_bytes() if journal.exists() else b"")
            return
        left = self.disk.left(self.dice)
        if left is None:
            journal.unlink(missing_ok=True)
        else:
            journal.write_bytes(left)
        self.disk = Disk(left or b"", left is not None)
