"""The journal, the lease and the map in etcd, over an etcd in memory that fails when it is told to."""
import asyncio
import json
import logging
import unittest
from unittest.mock import AsyncMock

from smplan.control import DONE, StoreLost

from cluster.controllers.etcd import Entry, EtcdFault, decoded, end_of
from cluster.controllers.fleet import from_wire
from cluster.controllers.journal import LEADER, EtcdJournal, key_of
from cluster.controllers.lease import Lease
from cluster.controllers.map_owner import BASE, MapOwner
from cluster.controllers.member import Member
from cluster.wire import Failed


# (asyncio tells in its debug mode of each step that a busy machine made slow)
logging.getLogger("asyncio").setLevel(logging.ERROR)

class FakeEtcd:
    """Keys in a dictionary. `faults` says of the next transactions whether they fail, and whether they went through all the same."""

    def __init__(self):
        self.keys, self.revision, self.faults, self.leases, self.before = {}, 0, [], set(), None

    def put(self, key, value):
        self.revision += 1
        version = self.keys[key].version + 1 if key in self.keys else 1
        self.keys[key] = Entry(key, value, version, self.revision)

    def holds(self, guard):
        entry = self.keys.get(decoded(guard["key"]))
        if guard["target"] == "CREATE":
            return entry is None
        if guard["target"] == "MOD":
            return (entry.revision if entry else 0) == int(guard["mod_revision"])
        return entry is not None and entry.value == decoded(guard["value"])

    async def range(self, first, end=None, limit=0, may_lag=False):
        found = [self.keys[it] for it in sorted(self.keys) if first <= it and (it == first if end is None else it < end)]
        return found[:limit] if limit else found

    async def get(self, key, may_lag=False):
        return self.keys.get(key)

    async def transact(self, guards, writes):
        if self.before is not None:
            before, self.before = self.before, None
            before()
        fault = self.faults.pop(0) if self.faults else None
        is_done = fault != "lost" and all(map(self.holds, guards))
        for write in writes if is_done else []:
            self.put(decoded(write["request_put"]["key"]), decoded(write["request_put"]["value"]))
        if fault:
            raise EtcdFault(fault)
        return is_done

    async def grant(self, seconds):
        self.leases.add(str(len(self.leases) + 1))
        return str(len(self.leases))

    async def keep_alive(self, lease):
        return lease in self.leases

    async def revoke(self, lease):
        self.leases.discard(lease)


class JournalTest(unittest.IsolatedAsyncioTestCase):
    """Appends, and what may go wrong with them."""

    def setUp(self):
        self.etcd = FakeEtcd()
        self.etcd.put(LEADER, "k0")
        self.journal = EtcdJournal(self.etcd, "k0")

    def lines(self):
        return [self.etcd.keys[it].value for it in sorted(self.etcd.keys) if it != LEADER]

    async def test_append_and_read(self):
        self.assertEqual(await self.journal.append(["a", "b"]), ["a", "b"])
        self.assertEqual(await self.journal.append(["c"]), ["c"])
        self.assertEqual(self.lines(), ["a", "b", "c"])
        other = EtcdJournal(self.etcd, "k1")
        self.assertEqual(await other.read(), ["a", "b", "c"])
        self.assertEqual(await other.read(), [])

    async def test_lines_of_others_come_first(self):
        self.etcd.before = lambda: self.etcd.put(key_of(1), "x")
        self.assertEqual(await self.journal.append(["a"]), ["x", "a"])
        self.assertEqual(self.lines(), ["x", "a"])
        self.assertEqual(self.journal.place, 2)

    async def test_append_that_went_through_unanswered(self):
        self.etcd.faults = ["unanswered"]
        self.assertEqual(await self.journal.append(["a", "b"]), ["a", "b"])
        self.assertEqual(self.lines(), ["a", "b"])
        self.assertEqual(self.journal.counts["appends that went through unanswered"], 1)

    async def test_append_that_was_lost_goes_again(self):
        self.etcd.faults = ["lost", "lost"]
        self.assertEqual(await self.journal.append(["a"]), ["a"])
        self.assertEqual(self.lines(), ["a"])

    async def test_went_through_behind_a_line_of_another(self):
        self.etcd.before = lambda: self.etcd.put(key_of(1), "x")
        self.etcd.faults = [None, "unanswered"]
        self.assertEqual(await self.journal.append(["a"]), ["x", "a"])
        self.assertEqual(self.lines(), ["x", "a"])

    async def test_deposed_writer_stores_nothing(self):
        self.etcd.put(LEADER, "k1")
        self.etcd.put(key_of(1), "x")
        with self.assertRaises(StoreLost):
            await self.journal.append(["a"])
        self.assertEqual(self.lines(), ["x"])
        self.assertEqual(await self.journal.read(), ["x"])

    async def test_out_of_reach(self):
        self.etcd.faults = ["lost"] * 20
        with self.assertRaises(StoreLost):
            await self.journal.append(["a"])
        self.assertEqual(self.journal.place, 0)


class SlotTest(unittest.TestCase):
    """What a server tells of a slot."""

    def test_a_session_reads_what_it_knows(self):
        told = {"shard": "s", "state": "prepared", "other": "a", "handover": 1, "load": 2, "position": 3, "reached": False, "chain": "c", "cut": None}
        wanted = {"shard": "s", "cell": "prepared", "party": "a", "handover": 1, "load": 2, "position": 3, "reached": False}
        self.assertEqual((from_wire(told), from_wire({**told, "view": 9})), (wanted, {**wanted, "view": 9}))


class LeaseTest(unittest.IsolatedAsyncioTestCase):
    """Who leads."""

    async def test_one_leads(self):
        etcd = FakeEtcd()
        first, second = (Lease(etcd, name, seconds=60) for name in ("k0", "k1"))
        self.assertTrue(await first.campaign())
        self.assertFalse(await second.campaign())
        self.assertEqual((first.is_leader, second.is_leader), (True, False))
        self.assertEqual(etcd.keys[LEADER].value, "k0")

    async def test_lost_lease_ends_leadership(self):
        etcd = FakeEtcd()
        lease = Lease(etcd, "k0", seconds=0.2)
        await lease.campaign()
        etcd.leases.clear()
        await asyncio.wait_for(lease.keep(), 60)
        self.assertFalse(lease.is_leader)


class MapTest(unittest.IsolatedAsyncioTestCase):
    """The published map."""

    def setUp(self):
        self.etcd = FakeEtcd()
        self.owner = MapOwner(self.etcd)

    def publication(self, version, to="b", journal="9f2c", fence=0):
        return {"journal": journal, "fence": fence, "shard": "s", "to": to, "version": version}

    def shown(self):
        entry = self.etcd.keys.get("/map/s")
        return json.loads(entry.value) if entry else None

    async def settle(self, base):
        self.assertEqual(await self.owner.fence({"journal": "9f2c", "base": base}), {})
        settle = {"journal": "9f2c", "base": base, "entries": [{"shard": "s", "to": "a", "version": base}]}
        self.assertEqual(await self.owner.settle(settle), DONE)

    async def test_newer_entries_alone_are_shown(self):
        await self.settle(100)
        self.assertEqual(self.shown(), {"to": "a", "version": 100})
        self.assertEqual(await self.owner.publish(self.publication(102, fence=100)), DONE)
        self.assertEqual(await self.owner.publish(self.publication(101, "c", fence=100)), DONE)
        self.assertEqual(self.shown(), {"to": "b", "version": 102})

    async def test_old_and_foreign_publications(self):
        await self.settle(100)
        self.assertEqual(await self.owner.publish(self.publication(100, "c")), "old")
        self.assertEqual(await self.owner.publish(self.publication(101, "c", journal="1")), "foreign")
        self.assertEqual(self.shown()["to"], "a")

    async def test_fenced_map_takes_nothing(self):
        await self.settle(100)
        await self.owner.fence({"journal": "9f2c", "base": 200})
        self.assertEqual(await self.owner.publish(self.publication(101, fence=100)), "not_ready")
        self.assertIsNone(await self.owner.fence({"journal": "9f2c", "base": 150}))
        self.assertEqual(self.shown()["to"], "a")

    async def test_settle_is_taken_once(self):
        await self.settle(100)
        await self.owner.publish(self.publication(101, fence=100))
        again = {"journal": "9f2c", "base": 100, "entries": [{"shard": "s", "to": "a", "version": 100}]}
        self.assertEqual(await self.owner.settle(again), DONE)
        self.assertEqual(self.shown()["to"], "b")

    async def test_write_loses_against_one_that_came_between(self):
        await self.settle(100)
        self.etcd.before = lambda: self.etcd.put("/map/s", '{"to":"c","version":103}')
        self.assertNotEqual(await self.owner.publish(self.publication(102, fence=100)), DONE)
        self.assertEqual(self.shown()["to"], "c")
        self.etcd.before = lambda: self.etcd.put(BASE, '{"journal":"9f2c","number":200,"fenced":1}')
        self.assertNotEqual(await self.owner.publish(self.publication(104, fence=100)), DONE)
        self.assertEqual(self.shown()["to"], "c")

    async def test_fault_is_no_answer(self):
        await self.settle(100)
        self.etcd.faults = ["unanswered"]
        self.assertNotEqual(await self.owner.publish(self.publication(101, fence=100)), DONE)
        self.assertEqual(await self.owner.publish(self.publication(101, fence=100)), DONE)


class KeysTest(unittest.TestCase):
    """The order of keys."""

    def test_places_are_ordered_as_texts(self):
        keys = [key_of(it) for it in (1, 9, 10, 99, 100, 999_999_999)]
        self.assertEqual(keys, sorted(keys))
        self.assertTrue(all(it < end_of("smplan/journal/") for it in keys))


class CopiesTest(unittest.IsolatedAsyncioTestCase):
    """What a controller does whose server tells of copies."""

    TOLD = {"journal": "7", "fence": 9, "shard": "s", "copies": 2}

    def member(self, *copies, fence=9, word="open", reply=None):
        """A controller that leads, and knows of so many copies each time it is asked."""
        member = object.__new__(Member)
        states = [{"state": {"is": word, "fence": fence, "shards": [{"shard": "s", "copies": it}]}} for it in copies]
        member.ask, member.command = AsyncMock(side_effect=states), AsyncMock(return_value=reply or {"copied": {}})
        return member

    async def test_it_is_written_once(self):
        for copies, written in (((1, 2), 1), ((2,), 0)):
            member = self.member(*copies)
            self.assertEqual(await member.take_copied(self.TOLD), {"copied": self.TOLD})
            self.assertEqual(member.command.await_count, written)

    async def test_it_is_told_again_unless_it_is_written(self):
        refused = {"refused": {"kind": "AboveWant"}}
        for member in (self.member(1, 1, reply={"ignored": "old"}), self.member(1, fence=8), self.member(1, word="reopening"), self.member(1, reply=refused)):
            with self.assertRaises(Failed):
                await member.take_copied(self.TOLD)
