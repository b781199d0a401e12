"""The proxies, and the figures of a run."""
import asyncio
import gc
import io
import json
import logging
import tempfile
import time
import unittest
from argparse import Namespace
from collections import Counter
from pathlib import Path
from random import Random
from types import SimpleNamespace
from unittest.mock import AsyncMock, MagicMock, patch

from scripted import until, until_at_rest

from cluster.catch import LEFT_OUT, NO_END, PARTS, PARTS_OF, RULE_OF, is_late, most_telling, try_once
from cluster.clients.__main__ import load_of
from cluster.clients.load import LONGEST_TEXT, Generator, Load, text_sizes, told_of
from cluster.controllers.bugs import BUGS as CONTROLLER_BUGS
from cluster.faults.__main__ import release, release_orders
from cluster.faults.dice import Dice, Rates
from cluster.faults.handovers import HandoverStory
from cluster.faults.leaders import LeaderStory
from cluster.faults.parts import EVERY, LOSSES, OF_THREE, OUTSIDE, drawn, of_rule, storm_of
from cluster.faults.proxies import Link, open_proxy, send_late
from cluster.launch.figures import order_waits, unacknowledged
from cluster.launch.moving import HANDOVERS, Mover, is_handover
from cluster.launch.operator import Operator
from cluster.launch.processes import Ports, Process
from cluster.launch.shape import Shape, document_of
from cluster.launch.situations import SITUATIONS, situations_of
from cluster.servers.bugs import BUGS as SERVER_BUGS
from cluster.servers.following import BrokenOff, Following
from cluster.servers.shard import Shard
from cluster.servers.work import Orders
from cluster.wire import Cluster, Failed
from smplan.agent import Cell, Slot


async def echo(reader, writer):
    """Answers each line with itself."""
    while line := await reader.readline():
        writer.write(line)
    writer.close()


async def let_pass():
    """Lets the loop run so often, whatever time that takes, that all that is on its way has come."""
    for _ in range(30):
        await asyncio.sleep(0.01)


# (asyncio tells in its debug mode of each step that a busy machine made slow)
logging.getLogger("asyncio").setLevel(logging.ERROR)

class ProxyTest(unittest.IsolatedAsyncioTestCase):
    """Lines through a proxy."""

    def setUp(self):
        ports = Ports()
        self.addCleanup(ports.end)
        self.far, self.near = ports.take(2)

    async def serve(self, handle):
        """Listens at the far end, and handles each connection by this."""
        self.end_behind((await asyncio.start_server(handle, "127.0.0.1", self.far)).close)

    async def connect(self, relay, link):
        """Opens the proxy of a link, and connects to it."""
        self.end_behind((await open_proxy(self.near, relay, link)).close)
        reader, writer = await asyncio.open_connection("127.0.0.1", self.near)
        self.end_behind(writer.close)
        return reader, writer

    def end_behind(self, close):
        """Closes something once the test has ended, before all that was to be closed until now, and waits until its connections have ended."""
        self.addAsyncCleanup(until_at_rest)
        self.addCleanup(close)

    def link(self, name, rates=Rates(), counts=None, **more):
        """A link to the far end."""
        return Link(name, Dice(1, name, rates, Counter() if counts is None else counts), "127.0.0.1", self.far, **more)

    async def test_late_at_least(self):
        dice = Dice(1, "peer a b", Rates(delay=1.0, longest=0.5, shortest=2.0), Counter())
        late = [dice.lateness() for _ in range(100)]
        self.assertTrue(all(2.0 <= it <= 2.5 for it in late))

    def test_held(self):
        link = self.link("order k a", held=(b'"order"',))
        self.assertEqual([link.holds(it) for it in (b'{"id":1,"order":{}}', b'{"id":2,"fence":{}}')], [True, False])

    async def test_kept_copies_come_when_they_are_released(self):
        found = []

        async def take(reader, writer):
            """Takes all lines of a connection."""
            while line := await reader.readline():
                found.append(line)
            writer.close()

        await self.serve(take)
        link = self.link("order k a", copies=[], orders=[])
        _, writer = await self.connect("lines", link)
        lines = [b'{"id":1,"restore":{}}\n', b'{"id":2,"order":{}}\n', b'{"id":3,"audit":{}}\n']
        writer.writelines(lines)
        await until(lambda: len(found) == 3)
        self.assertEqual((link.copies, link.orders), (lines[:1], lines[1:2]))
        writer.close()
        for place, act in enumerate((release, release_orders)):
            act(link)
            await until(lambda: len(found) == 4 + place)
            self.assertEqual(found[3 + place], lines[place])
        self.assertEqual((link.copies, link.orders), (None, None))

    async def test_copy_outlives_connection(self):
        found, has_ended = [], asyncio.Event()

        async def once(reader, writer):
            """Takes one line, and ends the connection."""
            found.append(await reader.readline())
            writer.close()

        async def send_behind(writer, line, seconds, link):
            """Sends a late line once the connection has ended."""
            await has_ended.wait()
            await send_late(writer, line, 0.0, link)

        await self.serve(once)
        with patch("cluster.faults.proxies.send_late", send_behind):
            reader, writer = await self.connect("lines", self.link("order k a", Rates(repeat=1.0, longest=0.02)))
            writer.write(b"one\n")
            await reader.read()
            self.assertEqual(found, [b"one\n"])
            has_ended.set()
            await until(lambda: len(found) == 2)
        self.assertEqual(found, [b"one\n", b"one\n"])

    async def test_held_request_arrives_though_nobody_waits_for_its_answer(self):
        asked, counts = [], Counter()
        answers = asyncio.Event()

        async def answer(reader, writer):
            """Answers one request once it may."""
            asked.append(await reader.readuntil(b"\r\n\r\n"))
            await answers.wait()
            text = b'{"succeeded":true}'
            writer.write(b"HTTP/1.1 200 OK\r\nContent-Length: %d\r\n\r\n%b" % (len(text), text))
            writer.close()

        await self.serve(answer)
        link = self.link("etcd k a", counts=counts, held=(b"/v3",))
        _, writer = await self.connect("http", link)
        writer.write(b"POST /v3/kv/txn HTTP/1.1\r\n\r\n")
        await until(lambda: counts["etcd held"])
        writer.close()
        await let_pass()
        link.held = ()
        await until(lambda: asked)
        gc.collect()
        answers.set()
        await until(lambda: counts["etcd held and then done"])

    async def lines_through(self, rates, count=200):
        """What comes back of some lines: each that is not lost, with its copies, and nothing behind them."""
        counts, found = Counter(), []
        await self.serve(echo)
        reader, writer = await self.connect("lines", self.link("order k a", rates, counts))
        for it in range(count):
            writer.write(b"%d\n" % it)
        while len(found) < count + counts["order repeated"] - counts["order dropped"]:
            found.append(int(await asyncio.wait_for(reader.readline(), 60)))
        more = asyncio.create_task(reader.readline())
        await let_pass()
        self.assertFalse(more.done())
        writer.close()
        await more
        return found, counts

    async def test_calm(self):
        found, counts = await self.lines_through(Rates())
        self.assertEqual((found, counts), (list(range(200)), Counter()))

    async def test_drops(self):
        found, counts = await self.lines_through(Rates(drop=0.1))
        self.assertEqual(len(set(found)), 200 - counts["order dropped"])
        self.assertTrue(10 < counts["order dropped"] < 80)

    async def test_repeats_and_delays_reorder(self):
        found, counts = await self.lines_through(Rates(repeat=0.2, delay=0.3, longest=0.05))
        self.assertEqual(set(found), set(range(200)))
        self.assertGreater(len(found), 200 + 20)
        self.assertNotEqual(found, sorted(found))
        self.assertTrue(counts["order repeated"] and counts["order delayed"])

    async def answers_through(self, relay):
        """A proxy that is mute for a while: what came to the far end, and what came back, before and after the end of that."""
        found, back = [], []

        async def answer(reader, writer):
            """Answers each line."""
            while line := await reader.readline():
                found.append(line)
                writer.write(b"answer to " + line)
            writer.close()

        async def take(reader):
            """Takes what comes back."""
            while line := await reader.readline():
                back.append(line)

        await self.serve(answer)
        link = self.link("peer a b", is_mute=True)
        reader, writer = await self.connect(relay, link)
        taking = asyncio.create_task(take(reader))
        writer.write(b"one\n")
        await until(lambda: found)
        await let_pass()
        self.assertEqual(back, [])
        link.is_mute = False
        writer.write(b"two\n")
        await until(lambda: b"answer to two\n" in back)
        writer.close()
        await taking
        return found, back

    async def test_answers_in_lines_are_lost_on_a_mute_link(self):
        self.assertEqual(await self.answers_through("lines"), ([b"one\n", b"two\n"], [b"answer to two\n"]))

    async def test_bytes_come_once_a_link_is_mute_no_more(self):
        self.assertEqual(await self.answers_through("bytes"), ([b"one\n", b"two\n"], [b"answer to one\n", b"answer to two\n"]))

    def test_dice_of_one_seed_roll_the_same(self):
        def rolls(seed):
            dice = Dice(seed, "order k a", Rates(drop=0.5), Counter())
            return [dice.drops() for _ in range(50)]

        self.assertEqual(rolls(1), rolls(1))
        self.assertNotEqual(rolls(1), rolls(2))


class ShapeTest(unittest.TestCase):
    """The document that a cluster begins with, and moves."""

    def test_document(self):
        for shape in (Shape(), Shape(servers=8, shards=64), Shape(servers=1, shards=3, want=1)):
            document = document_of(shape)
            loads = Counter()
            for shard in document["shards"]:
                servers = [it["server"] for it in shard["cells"]]
                self.assertEqual(len(set(servers)), shape.want)
                loads.update({it: shard["load"] for it in servers})
            self.assertTrue(all(loads[it["name"]] <= it["room"] for it in document["servers"]))

    def test_moves_fit(self):
        mover = Mover(None, 1)
        servers = [{"server": it, "room": 10, "load": 6, "held": 0, "permit": None} for it in "abc"] + [{"server": "d", "room": 99, "load": 0, "held": 0, "permit": 5}]
        shards = [{"shard": f"s{it}", "load": 3, "listed": "a", "cells": [{"server": "a", "state": "primary"}]} for it in range(4)]
        chosen = mover.choose({"servers": servers, "shards": shards}, 4)
        targets = Counter(it["holds"]["room"][0]["server"] for it in chosen.values())
        self.assertEqual(targets, Counter({"b": 1, "c": 1}))


    def test_few_primaries_are_handed_over_at_once(self):
        mover = Mover(None, 1, swaps=0.0)
        servers = [{"server": it, "room": 99, "load": 0, "held": 0, "permit": None} for it in "abc"]
        cells = [{"server": "a", "state": "primary"}, {"server": "b", "state": "secondary"}]
        shards = [{"shard": f"s{it}", "load": 3, "listed": "a", "cells": cells} for it in range(40)]
        chosen = mover.choose({"servers": servers, "shards": shards}, 40)
        self.assertEqual(sum(map(is_handover, chosen.values())), HANDOVERS)
        self.assertGreater(len(chosen), HANDOVERS)
        mover.busy, mover.passed = {"s1", "s2", "s3", "s4"}, {"s4"}
        again = mover.choose({"servers": servers, "shards": shards}, 40)
        self.assertEqual(sum(map(is_handover, again.values())), 0)


class PortsTest(unittest.TestCase):
    """Ports of several runs."""

    def test_ports_of_two_runs(self):
        one, other = Ports(), Ports()
        self.addCleanup(one.end)
        self.addCleanup(other.end)
        found, others = one.take(600), other.take(600)
        self.assertEqual(len({*found, *others}), 1200)
        guards = [it.getsockname()[1] for it in one.guards]
        one.end()
        self.assertEqual(len(guards), 2)
        self.assertFalse(set(guards) & set(others))


class ProcessTest(unittest.IsolatedAsyncioTestCase):
    """A process that two parts of a story start."""

    async def test_it_is_started_once(self):
        with tempfile.TemporaryDirectory() as folder:
            process = Process("p", ["sh", "-c", "echo ready; sleep 600"], Path(folder))
            await asyncio.gather(process.start(), process.start())
            running = process.running
            await process.start()
            self.assertEqual((process.starts, process.running), (1, running))
            await process.kill()
            await process.start()
            self.assertEqual(process.starts, 2)
            await process.kill()

    async def test_controllers_are_not_started_while_one_is_stopped(self):
        done = []
        processes = MagicMock(start=AsyncMock())
        processes.__getitem__.return_value.kill = AsyncMock(side_effect=lambda: done.append("killed"))
        story = LeaderStory(SimpleNamespace(shape=Shape(controllers=1), processes=processes), None, None, 1, lambda text: None)
        async with story.stopping:
            killing = asyncio.create_task(story.kill_controllers())
            await asyncio.sleep(0.05)
            done.append("goes on")
        await killing
        self.assertEqual(done, ["goes on", "killed"])


class LoadTest(unittest.TestCase):
    """How much is asked for."""

    def test_each_word_says_what_it_names(self):
        words = "--cluster f --history h --shards s,t --clients 3 --keys 4 --reads 0.5 --stray 0.25 --pause 0.75 --hot-clients 2 --moving m --largest 900 --seed 1001"
        words += " --open-clients 5 --rate 7 --comparers 6"
        _, load = load_of(words.split())
        self.assertEqual(load, Load(shards=("s", "t"), clients=3, keys=4, reads=0.5, stray=0.25, pause=0.75, hot_clients=2, moving="m", largest=900,
                                    seed=1001, open_clients=5, rate=7, comparers=6))


    def test_sizes_go_from_some_bytes_to_the_largest(self):
        sizes = text_sizes(("s", "t", "u", "v", "w"), 5_000_000, Random(1))
        self.assertEqual([len(it) for it in sizes.values()], [25, 8, 2, 1, 1])
        self.assertTrue(all(it <= LONGEST_TEXT for its in sizes.values() for it in its))

    def test_what_a_comparison_that_was_made_again_tells(self):
        line = {"op": "cas", "old": "x", "value": "y", "identity": None}
        told = [told_of(line, reply, tries) for reply, tries in ((b"x", 2), (b"y", 2), (b"z", 1), (b"z", 2), (None, 2))]
        self.assertEqual(told, ["x", "x", "z", None, None])
        self.assertEqual(told_of({**line, "identity": "i"}, b"z", 2), "z")


class MovingTest(unittest.IsolatedAsyncioTestCase):
    """Clients that use what is being moved."""

    async def test_clients_read_what_the_mover_names(self):
        with tempfile.TemporaryDirectory() as folder:
            path = Path(folder) / "moving"
            mover, generator = Mover(None, 1), Generator(Cluster(), Load(("s", "t", "u"), moving=str(path)), io.StringIO())
            tasks = [asyncio.create_task(mover.tell_moves(path)), asyncio.create_task(generator.follow_moves())]
            try:
                for busy in ({"t", "s"}, {"u"}, set()):
                    mover.busy = busy
                    await until(lambda: generator.moving == tuple(sorted(busy)))
            finally:
                for task in tasks:
                    task.cancel()
                await asyncio.gather(*tasks, return_exceptions=True)


class LastReadsTest(unittest.IsolatedAsyncioTestCase):
    """What clients read at the end."""

    async def test_a_shard_that_nobody_serves_is_given_up_at_its_first_read(self):
        generator, asked = Generator(Cluster(), Load(("s", "t"), keys=1, largest=900), io.StringIO()), []

        async def request(shard, identity, *command, **more):
            asked.append(command[1])
            if shard == "s":
                raise TimeoutError
            return {"LRANGE": [], "GET": b"1:x" if "text" in command[1] else None}[command[0]]

        generator.router = lambda dice: SimpleNamespace(request=request, figures=SimpleNamespace(sent=0), close=lambda: None)
        await generator.read_all()
        self.assertEqual(sorted(asked), ["s:k0", "t:k0", "t:r", "t:text0"])
        self.assertEqual(generator.failures, 1)


class OperatorTest(unittest.IsolatedAsyncioTestCase):
    """Three controllers: k0 follows, k1 is stopped, and k2 leads."""

    def operator(self, leader):
        """An operator that speaks with this one, and for whom others find k2 while k1 does not answer. The lines that it sends are noted."""
        operator, posted = Operator({"k0": 1, "k1": 2, "k2": 3}, 60.0), []

        async def post(name, path, line, timeout=2.5):
            posted.append((name, path))
            if name == "k1":
                operator.leader = "k2"
                return None
            return {"leads": name == "k2"} if path == "/leads" else {"done": name} if name == "k2" else None

        operator.post, operator.leader = post, leader
        return operator, posted

    async def test_a_leader_that_others_found_is_not_passed_over(self):
        operator, posted = self.operator("k1")
        self.assertEqual(await operator.do({"do": "approve"}), {"done": "k2"})
        self.assertEqual(posted, [("k1", "/do"), ("k2", "/do")])

    async def test_a_reopening_goes_to_who_leads(self):
        operator, posted = self.operator("k0")
        self.assertEqual(await operator.reopen({"do": "reopen"}), {"done": "k2"})
        self.assertEqual([it for it in posted if it[1] == "/do"], [("k2", "/do")])


class PartsTest(unittest.TestCase):
    """What happens in runs."""

    def test_there_is_something_to_do_each(self):
        rules = [of_rule(it, 1) for it in RULE_OF.values()]
        for parts in (PARTS, *PARTS_OF.values(), *rules, *(storm_of(seed) for seed in range(6)), tuple((0.0, it) for it in (*EVERY, *OUTSIDE))):
            self.assertEqual([name for _, name in parts if name != "drain" and not hasattr(HandoverStory, name)], [])

    def test_storms_draw_each_part_and_none_that_the_rules_do_not_survive(self):
        names = [[name for _, name in storm_of(seed)] for seed in range(200)]
        runs = Counter(name for it in names for name in set(it))
        self.assertEqual(set(runs), set(EVERY))
        self.assertGreater(min(runs.values()), 20)
        self.assertLessEqual(max(sum(name in (*LOSSES, *OF_THREE) for name in it) for it in names), 2)
        self.assertEqual(storm_of(7), storm_of(7))

    def test_a_run_for_a_bug_draws_from_what_its_rule_names(self):
        for bug, names in RULE_OF.items():
            for seed in range(20):
                drawn_names = [name for _, name in of_rule(names, seed)]
                self.assertLessEqual(set(drawn_names), set(names), bug)
                self.assertLessEqual(sum(it in LOSSES for it in drawn_names), 2, bug)
                self.assertEqual(len(set(drawn_names)), min(len(names), len(drawn_names)), bug)
        self.assertLessEqual(set(RULE_OF), {*CONTROLLER_BUGS, *SERVER_BUGS})

    def test_a_draw_is_by_its_seed(self):
        self.assertEqual(drawn(5, 4), drawn(5, 4))
        for seed in range(50):
            names = [name for _, name in drawn(seed, 4)]
            self.assertEqual((len(set(names)), [it in LOSSES for it in names]), (4, [False, False, False, True]))
        self.assertEqual(len({drawn(seed, 4) for seed in range(20)}), 20)

    def test_what_a_checker_found_is_told_first(self):
        slow = ["plans that have not come to their end: p", "the map names a for s, and is to name b"]
        self.assertEqual([most_telling(it) for it in ([*slow, "servers: a"], slow, [])], ["servers: a", slow[1], None])
        late = ["servers: b s00 in the end: it has 13 writes of 16", "clients: s:k0: nobody could read it at the end", *slow]
        self.assertEqual(most_telling([*late, "a has another state than the journal"]), "a has another state than the journal")
        self.assertEqual([is_late(it) for it in (late[0], 'the audit of a: {"audit": {"is": "differs"}}', "the audit of a: null")], [True, False, True])

    def test_what_is_late_counts_if_it_is_not_without_the_bug(self):
        late, told = "plans that have not come to their end: p", Namespace(sound=False)
        for runs, found in (((late, None), late), ((late, LEFT_OUT), late), ((late, late), f"{NO_END}: {late}; without the bug: {late}"),
                            (("servers: a",), "servers: a"), ((LEFT_OUT,), LEFT_OUT), ((None,), None)):
            with patch("cluster.catch.first_violation", AsyncMock(side_effect=runs)) as run:
                self.assertEqual(try_once("bug", 1, told), found)
                self.assertEqual([it.args[2].sound for it in run.await_args_list], [False, True][:len(runs)])

    def test_servers_restarted_without_leave_lose_their_slots(self):
        names = [name for _, name in PARTS_OF["restart-without-approval"]]
        self.assertEqual((names.count("forget"), names.count("restart_server")), (3, 0))


class ForgettingTest(unittest.IsolatedAsyncioTestCase):
    """Servers that are restarted and lose their slots."""

    async def test_each_time_another_one(self):
        story, names = HandoverStory(SimpleNamespace(shape=Shape(servers=3)), SimpleNamespace(), None, 1, lambda text: None), []

        async def restart_server(lose_slots, server):
            names.append(server)

        story.restart_server = restart_server
        for _ in range(4):
            await story.forget()
        self.assertEqual((sorted(names[:3]), len(names)), (["a", "b", "c"], 4))


class SourceTest(unittest.TestCase):
    """Whom a secondary asks for its shard's writes."""

    def asked(self, hint, tries):
        following = object.__new__(Following)
        following.server, following.hint = SimpleNamespace(name="b", cluster=SimpleNamespace(servers=dict.fromkeys("abcd"))), hint
        following.shard, following.beside = SimpleNamespace(slot=Slot(cell=Cell.SECONDARY)), ""
        found = []
        for following.tries in range(tries):
            found.append(following.source())
        return "".join(found)

    def test_each_of_the_others_is_asked_in_turn(self):
        self.assertEqual((self.asked(None, 6), self.asked("b", 6)), ("acdacd", "acdacd"))
        self.assertEqual(self.asked("c", 6), "cacccd")


class CopyTest(unittest.IsolatedAsyncioTestCase):
    """Copies that do not come."""

    async def test_a_copy_that_broke_off(self):
        following = object.__new__(Following)
        for following.is_fresh, is_broken in ((True, True), (False, False)):
            reader = asyncio.StreamReader()
            reader.feed_eof()
            if is_broken:
                with self.assertRaises(BrokenOff):
                    await following.first_message(reader)
            else:
                self.assertIsNone(await following.first_message(reader))

    def test_the_next_one_is_asked_for_later_each_time(self):
        shard = Shard("s", Slot())
        for rest in (0.25, 0.5, 1.0, 2.0, 4.0, 8.0, 16.0, 16.0, 16.0):
            begun = time.monotonic()
            shard.copy_failed("too large")
            self.assertTrue(begun + rest <= shard.next_copy <= time.monotonic() + rest)
        shard.copy_came()
        self.assertEqual((shard.rest_before_copy, shard.refusal), (0.0, ""))

    def test_work_is_given_up_while_a_refusal_stands(self):
        orders, shard = object.__new__(Orders), Shard("s", Slot())
        orders.refuse(shard)
        for _ in range(6):  # (so that the refusal stands for seconds)
            shard.copy_failed()
            orders.refuse(shard)
        shard.copy_failed("too large")
        with self.assertRaisesRegex(Failed, "GivenUp: too large; it is asked for again in"):
            orders.refuse(shard)


class LossTest(unittest.IsolatedAsyncioTestCase):
    """A server that is killed for good, a, which is the primary of a shard or was it until now, and has executed three writes of it."""

    def story(self, positions, state="primary"):
        """A story in which a is in this state, and the secondary b tells one of these positions after the other, and is silent if it is None. What is done is
        noted."""
        done, left = [], list(positions)

        async def tell_proxies(links, cut):
            done.append((links, cut))

        async def kill():
            done.append("kill")

        async def tell_server(name, audit):
            position = 3 if name == "a" else left.pop(0) if len(left) > 1 else left[0]
            slot = {"shard": "s", "state": state if name == "a" else "secondary", "position": position}
            return {} if position is None else {"audit": {"slots": [slot]}}

        cluster = SimpleNamespace(shape=Shape(servers=2), processes={"a": SimpleNamespace(kill=kill)}, tell_proxies=tell_proxies)
        story = HandoverStory(cluster, SimpleNamespace(), None, 1, lambda text: None)
        story.tell_server = tell_server
        return story, done

    async def test_none_is_lost_that_has_what_others_lack(self):
        for state in ("primary", "secondary"):
            story, done = self.story([2], state)
            self.assertFalse(await story.kill_for_good("a", 0.5))
            self.assertNotIn("kill", done)

    async def test_it_acknowledges_nothing_while_others_are_waited_for(self):
        story, done = self.story([None, 2, 3])
        self.assertTrue(await story.kill_for_good("a", 60.0))
        links = ("client clients a",)
        self.assertEqual(done, [(links, True), "kill", (links, False)])


class SituationsTest(unittest.TestCase):
    """What is counted from histories."""

    def event(self, t, kind, **more):
        return {"t": t, "server": "a", "kind": kind, "shard": "s", **more}

    def test_situations(self):
        order = {"number": 5, "plan": 0, "stream": 0}
        events = [
            self.event(1, "begin", call="prepare_drop", **order), self.event(3, "commit", call="prepare_drop", state="forwarding", **order),
            self.event(4, "seal"), self.event(5, "order-again", number=5),
            self.event(6, "begin", call="drop", **{**order, "number": 7}), self.event(8, "commit", call="drop", state="absent", **{**order, "number": 7}),
            self.event(9, "order-again", number=5), self.event(10, "begin", call="add", number=9), self.event(11, "fence", nonce="0000", base=1),
            self.event(12, "begin", call="add", number=11), self.event(13, "start", nonce="7", known=False), self.event(14, "order-old", number=5),
            self.event(15, "forget", nonce="8"), self.event(16, "restore-ignored", nonce="0007", known=False), self.event(17, "restore-ignored", nonce="8", known=True),
            self.event(18, "order-at-work", call="add", number=13), self.event(19, "order-at-work", call="drop", number=15),
            self.event(20, "fence", nonce="9", base=2), self.event(21, "settle", base=2), self.event(22, "restore", nonce="0"),
            self.event(23, "forget", nonce="a"), self.event(24, "fence", nonce="b", base=3), self.event(25, "restore", nonce="b"),
            self.event(26, "restore-ignored", nonce="a", known=True), self.event(27, "start", nonce="c", known=False), self.event(28, "restore-ignored", nonce="b", known=False),
        ]
        found = situations_of(events, Counter({"restarted: ignored": 2}), Counter())
        self.assertEqual(found["an order answered again after its stream went on"], 1)
        self.assertEqual(found["a fence that meets an order at work"], 1)
        self.assertEqual(found["a crash while at work"], 1)
        self.assertEqual(found["an order answered old"], 1)
        self.assertEqual((found["a second restarted"], found["a restore behind a late fence"]), (2, 1))
        self.assertEqual((found["a restore that comes late"], found["a restore of an earlier restart that comes late"]), (4, 2))
        self.assertEqual((found["a repetition while work runs"], found["a repetition while a copy runs"]), (2, 1))
        self.assertLessEqual(set(found), set(SITUATIONS))

    def test_a_restart_amid_a_reopening(self):
        fence, settle = self.event(1, "fence", nonce="0", base=5), self.event(9, "settle", base=5)
        found = [situations_of([fence, self.event(t, "start", nonce="7", known=False), settle], Counter(), Counter())["a restart amid a reopening"] for t in (0, 4, 10)]
        self.assertEqual(found, [0, 1, 0])

    def test_a_new_owner_that_is_lost_behind_the_cut(self):
        order = {"number": 3, "plan": 0, "stream": 0}
        begun = [self.event(1, "commit", call="prepare_add", state="prepared", **order), self.event(2, "execute", passed="b")]
        taken = self.event(3, "commit", call="add", state="primary", **order)
        ends = ([], [taken], [taken, self.event(4, "execute", passed="b")], [self.event(3, "settle", base=5)], [self.event(3, "read")])
        found = [situations_of([*begun, *it], Counter(), Counter())["a new owner lost behind the cut"] for it in ends]
        self.assertEqual((found, situations_of(begun[:1], Counter(), Counter())["a new owner lost behind the cut"]), ([1, 0, 0, 0, 1], 0))

    def test_what_the_story_counts(self):
        found = situations_of([], Counter(), Counter({"disks replaced": 1, "servers stopped": 2}))
        self.assertEqual(found, Counter({"a disk replaced": 1, "a server stopped": 2}))

    def test_orders_after_a_death(self):
        events = [{"kind": "begin", "t": it * 10**9} for it in (1, 3, 8)]
        self.assertEqual(order_waits(events, [25 * 10**8, 9 * 10**9]), [5.5])

    def test_requests_without_a_reply(self):
        lines = [{"shard": "s0", "reply": 1, "end": 5}, {"shard": "s0", "end": 5}, {"shard": "s1", "end": 5}, {"shard": "s1", "end": 9}]
        self.assertEqual([unacknowledged(lines, it) for it in ({"s1": 8}, {"s1": 4}, {})], [2, 1, 3])

    def test_situations_are_json(self):
        self.assertEqual(json.loads(json.dumps(situations_of([], Counter(), Counter()))), {})
