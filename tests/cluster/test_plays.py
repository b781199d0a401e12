"""Plays of real servers, of all in plays.py those of two bugs: the checkers find nothing, and with the bug they find something."""
from plays import tried
from scripted import ServersTest

NAMES = ("execute-prepared", "commit-before-copy")


class PlaysTest(ServersTest):
    """Plays with a bug, and without it."""

    def test_without_a_bug_nothing_is_found(self):
        for name in NAMES:
            with self.subTest(name):
                servers, clients, figures = tried(name, None)
                self.assertEqual((servers, clients), ([], []))
                self.assertFalse(figures["end"])
                self.assertEqual(figures["failures"], 0)

    def test_with_a_bug_something_is_found(self):
        for name in NAMES:
            with self.subTest(name):
                servers, clients, _ = tried(name, name)
                self.assertTrue(servers or clients)
