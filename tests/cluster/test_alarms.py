"""What a controller finds out by itself, and whom it lets serve."""
import time
import unittest

from cluster.controllers.alarms import Alarms, Auditor
from cluster.controllers.lost import CLOCKS, GivenUp

ORDER = {"plan": 0, "stream": 1, "number": 7, "server": "a", "shard": "s", "call": "drop"}


class Session:
    """A session in epoch 1 whose audits say what they are to."""

    def __init__(self, audit="agrees", then="audit"):
        self.audit, self.then, self.asked = audit, then, []

    async def ask(self, line):
        self.asked.append(line)
        if line["do"] == "state":
            return {"state": {"is": "open", "place": 5, "servers": [{"server": it, "permit": None} for it in "ab"]}}
        if line["do"] == "failed":
            return {"failed": {"cause": "ahead", "then": self.then}} if self.then else {"ignored": "old"}
        return {"audit": {"server": line["server"], "is": self.audit, "slots": [{"shard": "s"}]}}


class AuditorTest(unittest.IsolatedAsyncioTestCase):
    """Audits, and orders that are turned away."""

    def auditor(self, session, lacks=()):
        """An auditor of servers that tell no slots."""
        async def slots(server):
            return {"slots": [], "lacks": list(lacks)} if server in "ab" else None

        self.alarms = Alarms(lambda text: None)
        self.leads = True
        return Auditor(self.alarms, session.ask, slots, lambda: self.leads)

    def given(self):
        """The alarms that stand."""
        return sorted((it.about, it.what) for it in self.alarms.now())

    async def test_each_server_has_its_turn(self):
        auditor = self.auditor(Session("ahead"))
        for _ in "ab":
            await auditor.audit_next()
        self.assertEqual(self.given(), [("a", "ahead"), ("b", "ahead")])

    async def test_an_alarm_is_over_once_the_audit_agrees(self):
        session = Session("differs")
        auditor = self.auditor(session)
        await auditor.audit("a")
        self.assertEqual(self.given(), [("a", "differs")])
        session.audit = "agrees"
        await auditor.audit("a")
        self.assertEqual(self.given(), [])

    async def test_who_turns_a_present_order_away_is_audited(self):
        auditor = self.auditor(Session("ahead"))
        await auditor.look_at(ORDER, "Old: behind 9")
        self.assertEqual(self.given(), [("a", "ahead"), ("a", "old")])

    async def test_one_that_leads_no_longer_gives_no_alarm(self):
        auditor = self.auditor(Session("ahead"))
        self.leads = False
        await auditor.look_at(ORDER, "Old")
        await auditor.audit_next()
        self.assertEqual(self.given(), [])

    async def test_an_order_that_is_present_no_longer_is_no_alarm(self):
        session = Session(then=None)
        await self.auditor(session).look_at(ORDER, "Old")
        self.assertEqual((self.given(), [it["do"] for it in session.asked]), ([], ["failed"]))

    async def test_other_words_are_none_either(self):
        session = Session("ahead")
        auditor = self.auditor(session)
        for said in ("", "GivenUp: it took too long", "NotReady", "Late: a"):
            await auditor.look_at(ORDER, said)
        self.assertEqual((self.given(), session.asked), ([], []))

    async def test_writes_that_a_follower_has_and_its_source_lacks(self):
        await self.auditor(Session(), [{"shard": "s", "lacks": 3, "of": "b"}]).audit("a")
        self.assertEqual(self.given(), [("a", "lacks writes")])

    async def test_the_place_is_read_before_the_slots(self):
        session = Session()
        await self.auditor(session).audit("a")
        self.assertEqual([it["do"] for it in session.asked], ["state", "audit"])
        self.assertEqual(session.asked[1]["place"], 5)


class LastingTest(unittest.TestCase):
    """Which alarms are over."""

    def test_one_that_is_not_given_again_is_over_unless_it_lasts(self):
        alarms, lines = Alarms(lambda text: lines.append(text)), []
        alarms.give("a", "old", "x")
        alarms.give("the journal", "lost", "y", lasts=True)
        for it in alarms.present.values():
            it.last -= 100
        self.assertEqual([it.about for it in alarms.now()], ["the journal"])
        alarms.give("a", "old", "x")
        self.assertEqual((len(alarms.now()), len(lines)), (2, 3))


class GivenUpTest(unittest.TestCase):
    """Who may serve while a reopening gives servers up."""

    def setUp(self):
        self.given_up = GivenUp(lease=10.0)
        self.state = {"servers": [{"server": it} for it in "abc"]}
        self.given_up.heed({"fence": [{"server": None}, {"server": "b"}, {"server": "c"}]})

    def test_all_but_those_that_are_given_up(self):
        self.assertEqual([it for it in "abcd" if self.given_up.may_serve(it, self.state)], ["b", "c"])
        self.given_up.heed({"opened": {}})
        self.assertEqual([it for it in "abcd" if self.given_up.may_serve(it, self.state)], ["a", "b", "c"])

    def test_nothing_is_confirmed_before_the_lease_is_over_by_the_slowest_clock(self):
        names, seconds = self.given_up.may_still_serve(self.state, 0.0)
        self.assertEqual(names, {"a"})
        self.assertGreater(time.monotonic() + seconds, self.given_up.since + 10.0 * CLOCKS)
        self.given_up.since -= 10.0 * CLOCKS + 1
        self.assertEqual(self.given_up.may_still_serve(self.state, 0.0), (set(), 0.0))

    def test_who_leads_since_a_moment_ago_waits_anew(self):
        self.given_up.since -= 100
        self.assertEqual(self.given_up.may_still_serve(self.state, time.monotonic())[0], {"a"})

    def test_one_that_is_off_is_not_waited_for(self):
        self.given_up.off = {"a"}
        self.assertEqual(self.given_up.may_still_serve(self.state, 0.0), (set(), 0.0))

    def test_without_leases_nobody_waits(self):
        self.given_up.lease = 0.0
        self.assertEqual(self.given_up.may_still_serve(self.state, 0.0), (set(), 0.0))
