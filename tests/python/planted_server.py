"""examples/kv_http.py with a bug, for control_storm.py and test_data_processes.py: planted_server.py BUG [--native] ..,
with what that takes behind it. --native has it call the proved agent that the environment's SM_AGENT names, in place of
its port."""
import sys
import threading
import time
from pathlib import Path

ROOT = Path(__file__).resolve().parents[2]
sys.path[:0] = [str(ROOT / "examples"), str(ROOT)]
from kv_http import Texts  # noqa: E402  (the path comes first)
from smplan import agent, server  # noqa: E402
from smplan.agent import Cell  # noqa: E402


class AnswersEarly(server.Orders):
    """Answers an order before it commits it."""

    def take(self, line):
        threading.Thread(target=super().take, args=(line,), daemon=True).start()
        return {"done": True}

    def commit(self, shard, order, offer):
        time.sleep(2.0)
        super().commit(shard, order, offer)


class ServesWithoutData(server.Whole):
    """Takes a restore as primary of a shard whose data it has lost."""

    def lost(self, line):
        return ""


class TellsTooMuch(server.Whole):
    """Tells of more writes than its copies have."""

    def told_slots(self, it):
        return [{**told, "position": told["position"] + 1_000_000} for told in super().told_slots(it)]


class KeepsTheRest(server.Whole):
    """Keeps what a settle does not bring."""

    def store(self, it, shard, slot, view):
        if slot.cell != Cell.ABSENT:
            super().store(it, shard, slot, view)


class AcknowledgesAlone(server.Streams):
    """Takes each write for one that enough servers have."""

    def replicate(self, *words, **rest):
        return True

    def are_enough(self, *words):
        return True


BUGS = {
    "none": {}, "answers-early": {"Orders": AnswersEarly}, "serves-without-data": {"Whole": ServesWithoutData}, "tells-too-much": {"Whole": TellsTooMuch},
    "acknowledges-alone": {"Streams": AcknowledgesAlone}, "keeps-the-rest-and-acknowledges-alone": {"Whole": KeepsTheRest, "Streams": AcknowledgesAlone}}


def call_native():
    """Has the functions of the library in place of those of the port."""
    from cluster.servers import agent as chosen  # pylint: disable=import-outside-toplevel
    if chosen.LIBRARY is None:
        sys.exit("SM_AGENT names no library")
    for name in chosen.__all__:
        setattr(agent, name, getattr(chosen, name))


if __name__ == "__main__":
    for part, kind in BUGS[sys.argv.pop(1)].items():
        setattr(server, part, kind)
    if sys.argv[1] == "--native":
        del sys.argv[1]
        call_native()
    server.main(Texts(), __doc__)
