"""What a walk finds: times in which nobody serves a shard, and whether they may be."""
import unittest

from cluster.launch.unserved import Gap, gaps_of
from cluster.walk import Chapter

SECOND = 10**9


def settle(server, t, **slots):
    return {"server": server, "t": t, "kind": "settle", "slots": {shard: [state, 0] for shard, state in slots.items()}}


def commit(server, t, call, state, stream=0):
    return {"server": server, "t": t, "kind": "commit", "shard": "s", "call": call, "state": state, "number": 5 + t, "plan": 1, "stream": stream}


def permit(server, t, is_down):
    return {"server": server, "t": t, "kind": "permit", "down": is_down}


OPENED = [settle("a", 1, s="primary"), settle("b", 2, s="secondary")]


class GapsTest(unittest.TestCase):
    """Histories with and without a server for a shard."""

    def test_a_change_of_roles(self):
        events = [*OPENED, commit("a", 10, "change", "secondary"), commit("b", 14, "change", "primary")]
        self.assertEqual([Gap("s", 10, 14, True)], gaps_of(events[::-1]))

    def test_changes_of_two_streams_are_no_change_of_roles(self):
        events = [*OPENED, commit("a", 10, "change", "secondary", 0), commit("b", 14, "change", "primary", 1)]
        self.assertEqual([Gap("s", 10, 14, False)], gaps_of(events))

    def test_a_handover(self):
        events = [commit("c", 10, "prepare_add", "prepared"), commit("a", 11, "prepare_drop", "forwarding")]
        events += [commit("c", 12, "add", "primary"), commit("a", 13, "drop", "absent")]
        self.assertEqual([], gaps_of([*OPENED, *events]))

    def test_a_server_that_is_down(self):
        events = [*OPENED, permit("b", 10, True), permit("b", 11, False), permit("a", 12, True), permit("a", 15, False)]
        self.assertEqual([Gap("s", 12, 15, False)], gaps_of(events))

    def test_a_shard_that_is_lost_in_a_settle(self):
        self.assertEqual([Gap("s", 5, 9, False)], gaps_of([*OPENED, settle("a", 5), settle("b", 9, s="primary")]))


class ChapterTest(unittest.TestCase):
    """Which of them may be."""

    def chapter(self, *texts, **more):
        return Chapter("x", begin=0, end=100 * SECOND, told=[(1, it) for it in texts], **more)

    def test_what_was_told_beforehand(self):
        change = Gap("s", 10 * SECOND, 11 * SECOND, True)
        for text in ("for one call each nobody is the primary of r, s", "for one call each nobody is the primary of a, b and 3 more"):
            self.assertEqual([], self.chapter(text).faults([change]))
        for chapter in (self.chapter("for one call each nobody is the primary of r, t"), self.chapter()):
            self.assertEqual(["x: nobody served s for one call, which was not told beforehand"], chapter.faults([change]))
        late = Chapter("x", begin=0, end=100 * SECOND, told=[(12 * SECOND, "for one call each nobody is the primary of s")])
        self.assertEqual(1, len(late.faults([change])))

    def test_servers_that_go_down_while_they_lead(self):
        gap = Gap("s", 10 * SECOND, 12 * SECOND, False)
        self.assertEqual(["x: nobody served s for 2.0 s"], self.chapter().faults([gap]))
        self.assertEqual([], self.chapter(leads_when_down=True).faults([gap]))

    def test_handovers_leave_no_gap(self):
        told = "for one call each nobody is the primary of s"
        chapter = self.chapter(told, changes_roles=False)
        self.assertEqual(["x: roles changed by two calls in s"], chapter.faults([Gap("s", 1 * SECOND, 2 * SECOND, True)]))

    def test_other_chapters(self):
        self.assertEqual([], self.chapter().faults([Gap("s", 100 * SECOND, 101 * SECOND, False)]))

    def test_commands_that_failed(self):
        chapter = self.chapter()
        chapter.failed.append("drain a ended with 1")
        self.assertEqual(["x: drain a ended with 1"], chapter.faults([]))
