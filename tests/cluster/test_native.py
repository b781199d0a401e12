"""cluster/servers/native.py, which calls the proved library build/libsm_agent.so, on the vectors of `make vectors` (tests/agent/README.md)."""
import unittest
from pathlib import Path

from vectors import answer_of

from cluster.servers.native import Agent

BUILD = Path(__file__).resolve().parents[2] / "build"
LIBRARY, VECTORS = BUILD / "libsm_agent.so", BUILD / "agent-vectors.txt"


@unittest.skipUnless(LIBRARY.exists() and VECTORS.exists(), "make agent vectors has not built the library and the vectors")
class NativeTest(unittest.TestCase):
    """The functions that servers call: `publish` is none."""

    def test_each_vector_has_its_answer(self):
        agent, count = Agent(LIBRARY), 0
        for line in VECTORS.read_text(encoding="ascii").splitlines():
            before, after = line.split(" =")
            name, *words = before.split()
            if hasattr(agent, name):
                self.assertEqual(answer_of(agent, name, [int(it) for it in words]), [int(it) for it in after.split()], line)
                count += 1
        self.assertGreater(count, 0)
