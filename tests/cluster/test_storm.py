"""Waits that come to nothing: runs, and their parts, end all the same."""
import asyncio
import contextlib
import io
import tempfile
import time
import unittest
from pathlib import Path
from types import SimpleNamespace
from unittest.mock import AsyncMock, MagicMock, patch

from scripted import until

from cluster.faults.leaders import LeaderStory
from cluster.launch.moving import Mover
from cluster.launch.operator import NoLeader
from cluster.launch.shape import Shape
from cluster.run import NO_VERDICT, Run
from cluster.storm import main


class Standing:
    """A run that stands still, though for itself it knows where."""

    def __init__(self, settings):
        (settings.directory / "story.txt").write_text("   1.0 s  kill -9 a\n")

    async def run(self):
        await asyncio.Event().wait()

    def where(self):
        return "under way: crash_server at 3 s for 9 s; told last: 1.0 s  kill -9 a"


class StormTest(unittest.TestCase):
    """What a storm says of its runs."""

    def test_a_run_that_stands_still_ends_without_a_verdict(self):
        with tempfile.TemporaryDirectory() as folder:
            kept, printed = Path(folder) / "kept", io.StringIO()
            words = ["storm", "1", "--seed", "7", "--seconds", "0.1", "--longest", "0.1", "--dir", folder, "--keep", str(kept), "--program", "true"]
            with patch("cluster.storm.Run", Standing), patch("sys.argv", words), contextlib.redirect_stdout(printed):
                self.assertEqual(main(), NO_VERDICT)
            lines = printed.getvalue().splitlines()
            self.assertRegex(lines[0], r"^seed 7: no verdict: TimeoutError after \d+ s, for \d+ s of which others had the processors; under way: crash_server at 3 s for 9 s; told last: 1.0 s  kill -9 a$")
            self.assertEqual((lines[1], lines[-1]), ("0 runs, 0 with violations; 1 more without a verdict", lines[0]))
            self.assertEqual((kept / "7" / "story.txt").read_text(), "   1.0 s  kill -9 a\n")



class PartsTest(unittest.IsolatedAsyncioTestCase):
    """Parts of a story that do not come to what they wait for."""

    async def test_a_run_tells_which_parts_it_is_at(self):
        ends = [asyncio.Event(), asyncio.Event()]
        run, left = object.__new__(Run), list(ends)
        run.doing, run.told, run.story = [], "   3.0 s  kill -9 a", SimpleNamespace(crash_server=lambda: left.pop(0).wait())
        now = time.monotonic()
        tasks = [asyncio.create_task(run.do_at(now, "crash_server", ())) for _ in ends]
        await until(lambda: not left)
        self.assertRegex(run.where(), r"^under way: crash_server for \d+ s, crash_server for \d+ s; told last: 3.0 s  kill -9 a$")
        for end in ends:
            end.set()
        await asyncio.gather(*tasks)
        run.told = ""
        self.assertEqual(run.where(), "under way: no part; told last: nothing")

    async def test_a_drain_waits_for_a_plan_no_longer_than_it_may(self):
        cells = [{"server": "a", "state": "primary"}]
        servers = [{"server": it, "room": 9, "load": 0, "held": 0, "permit": None} for it in "ab"]
        state = {"is": "open", "epoch": 1, "servers": servers, "shards": [{"shard": "s", "load": 3, "listed": "a", "cells": cells}]}
        plan = {"plan": 0, "name": "moves-1", "is": "running", "streams": [{"is": "ordered"}]}
        operator = SimpleNamespace(do=AsyncMock(return_value={"begun": {"plan": 0, "epoch": 1}}), ask=AsyncMock(return_value={"state": {**state, "plan": plan}}))
        mover = Mover(operator, 1)
        self.assertFalse(await asyncio.wait_for(mover.empty("a", 1.0), 240))
        self.assertEqual((mover.busy, mover.counts["drains"]), (set(), 0))

    async def test_who_was_killed_starts_again_though_nobody_leads(self):
        processes = MagicMock()
        process = processes.__getitem__.return_value
        process.kill, process.start = AsyncMock(), AsyncMock()
        operator = SimpleNamespace(patience=0.3, find_leader=AsyncMock(return_value=None), state=AsyncMock(return_value={"name": "k0", "orders": [], "counts": {}}))
        story = LeaderStory(SimpleNamespace(shape=Shape(), processes=processes), operator, None, 1, lambda text: None)
        with self.assertRaisesRegex(NoLeader, "no other controller leads 0.3 s after k0 was killed"):
            await story.kill_at_once()
        self.assertEqual((process.kill.await_count, process.start.await_count), (1, 1))
