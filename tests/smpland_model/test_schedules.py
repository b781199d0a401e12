"""Commands of random schedules of the model of the network, as lines: each reply is what the model says."""
from __future__ import annotations

import json
import unittest
from collections import Counter
from dataclasses import replace

from driving_model import commands
from driving_model.controller import Controller
from driving_model.rules import SOUND
from driving_model.schedule import PROFILES, Schedule
from smpland_model.messages import owner_of
from smpland_model.session import Session

from plain_commands import (
    command_json, has_two_primaries, line_form, present, reply_form, shard_name, with_own_cells, without,
)

SEEDS = range(1, 41)
# What only lines are refused for: the model does not look whether replicas come or go.
STRICTER = ("Moved", "NoPrimary")
REPLIES = (
    "begun", "moved", "approved", "up", "restore", "fence", "waiting", "proposal", "settle", "opened", "ignored",
)


class Divergence(Exception):
    """The line was refused for a reason that the model does not have, so the two go apart from here."""


class Pair:
    """The model and a session that are given the same commands."""

    def __init__(self, coverage: Counter[str], session: Session | None = None) -> None:
        self.model, self.session, self.coverage = Controller(), session or Session(), coverage
        self.permits: dict[int, int] = {}

    def do(self, case: unittest.TestCase, command: commands.Command) -> None:
        """Gives both a command, and compares what comes of it."""
        if isinstance(command, (commands.Open, commands.Reopen)):
            command = replace(command, document=with_own_cells(command.document))
            if has_two_primaries(command.document):
                return
        versions = self.model.record.versions if self.model.record else []
        outcome = self.model.apply(command)
        if isinstance(command, commands.NewEpoch) and outcome.has_changed:
            # (there versions go on)
            self.model.record.versions = versions
        line = command_json(command)
        if isinstance(command, commands.Confirm) and (reopening := self.session.controller.reopening):
            line["lost"] = [shard_name(it) for it in reopening.propose().lost]
        if isinstance(command, commands.Restarted):
            line["permit"] = self.permits.get(command.permit, command.permit)
        told = self.session.reply(json.dumps(line).encode())
        expected, found = reply_form(outcome.reply), line_form(told)
        if "approved" in expected:
            expected["approved"]["unserved"] = self.unserved(outcome.reply.server)
            found.get("approved", {}).get("unserved", []).sort()
        self.coverage[" ".join(map(str, [next(iter(found)), found.get("refused", "")]))] += 1
        if found.get("refused") in STRICTER and "settle" in expected:
            raise Divergence
        if "refused" in expected and (isinstance(command, commands.Confirm) or found.get("refused") == "UnknownServer"):
            # (there the two look at faults in another order)
            case.assertIn("refused", found)
            expected = found
        if self.has_other_primary(expected, found):
            raise Divergence
        self.leave_open(expected, found)
        what = f"{command} -> {outcome.reply}; {json.dumps(line)} -> {told}"
        case.assertEqual(expected, self.same_permit(found), what)
        numbers = [it["number"] for it in told.get("orders", [])]
        case.assertEqual([] if "again" in told else numbers, [it.number for it in outcome.orders])
        self.note_permits(outcome.reply, told)
        orders = self.session.reply(b'{"do":"orders"}')["orders"]
        case.assertEqual([without(it, "primary", "replicas") for it in orders], present(self.model))

    def unserved(self, server: int) -> list[str]:
        """Returns the shards that nobody serves while a server is down: it has their data."""
        record = self.model.record
        return sorted(shard_name(it) for it in range(len(record.cells)) if owner_of(record.lead(it)) == server)

    def has_other_primary(self, expected: dict, found: dict) -> bool:
        """Returns whether the model makes a secondary the primary of a shard that lines leave without one: nobody has
        told, or is recorded with, a part in its lead."""
        if "proposal" not in expected or "proposal" not in found:
            return False
        rows = list(zip(expected["proposal"]["cells"], found["proposal"]["cells"]))
        controller = self.session.controller
        numbers = [controller.numbering.shard_numbers[shard_name(it)] for it in range(len(rows))]
        return any(ours != theirs and not controller.reopening.is_led(it) for it, (ours, theirs) in zip(numbers, rows))

    def leave_open(self, expected: dict, found: dict) -> None:
        """Takes shards for which both propose no primary out of those that are lost: the model names them, though a
        secondary is left that has all."""
        if "proposal" not in expected or "proposal" not in found:
            return
        rows = [[cell["state"] for cell in row] for row in expected["proposal"]["cells"]]
        bare = {shard_name(it) for it, row in enumerate(rows) if "primary" not in row}
        for proposal in (expected["proposal"], found["proposal"]):
            self.coverage["without primary"] += len(bare)
            proposal["lost"] = [it for it in proposal["lost"] if it not in bare]

    def same_permit(self, found: dict) -> dict:
        """Returns a reply with the model's number of a permit."""
        back = {theirs: ours for ours, theirs in self.permits.items()}
        for word in ("approved", "ended"):
            if word in found:
                return {word: found[word] | {"permit": back.get(found[word]["permit"], found[word]["permit"])}}
        return found

    def note_permits(self, reply: object, told: dict) -> None:
        """Notes the permits of an opening, which depend on the numbers of servers."""
        if "opened" in told:
            self.permits |= {ours: it["permit"] for (_, ours), it in zip(reply.permits, told["opened"]["permits"])}


class Schedules(unittest.TestCase):
    """Random schedules."""

    def test_the_session_says_what_the_model_says(self) -> None:
        """Each profile has schedules; the two go apart in few of them, and each kind of reply comes."""
        coverage: Counter[str] = Counter()
        for seed in SEEDS:
            with self.subTest(seed=seed):
                self.play(seed, coverage)
        for word in REPLIES:
            self.assertGreater(coverage[f"{word} "], 20, coverage)
        self.assertLess(coverage["apart"], len(SEEDS) / 10, coverage)

    def play(self, seed: int, coverage: Counter[str]) -> None:
        """Plays the commands of a schedule."""
        schedule = Schedule(seed, SOUND, 400, ["", *PROFILES][seed % (len(PROFILES) + 1)])
        schedule.run()
        pair = Pair(coverage)
        try:
            for command, _ in schedule.world.session:
                is_opening = isinstance(command, (commands.Open, commands.Reopen))
                if is_opening and command.journal is not None and pair.model.journal is not None:
                    pair = Pair(coverage)
                pair.do(self, command)
        except Divergence:
            coverage["apart"] += 1
