"""What becomes of acknowledged writes, as in test_data.py, over processes: servers of the frame with a store on disk,
driven by `smplan-control run` over smpland, are killed, get new disks, come back stale, or hear of an old handover,
while clients write. At the end the present primary has each acknowledged write once; or a proposal named its shard as
lost, before it was confirmed. Servers with a planted bug, and one that goes on from an older copy of its disk, are
found.

The servers call the port of the agent; in Go that of the frame there; with SM_AGENT=build/libsm_agent.so (`make agent`)
in Python also the proved agent.
"""
import json
import tempfile
import threading
import time
import unittest

from between import Between
from server_fleet import HAS_GO, LIBRARY, Client, Fleet, handover, primary_of, swap


class Lossy:
    """What happens between an old owner and the new one: the cut is lost, and a request that is passed on comes
    late."""

    def __init__(self):
        self.is_over, self.held, self.answers = threading.Event(), 0, []

    def tell(self, path, line, ask):
        """The answer to a message."""
        if path == "/peer/follow" and line["cut"] is not None:
            raise OSError("it is lost")
        if path != "/peer/pass":
            return ask()
        self.held += 1
        self.is_over.wait(60)
        answer = ask()
        self.answers.append((line["request"], answer))
        return answer


class Schedules:
    """The schedules, over servers of one kind."""

    kind = "python"

    def begin(self, copies, bugs=(), names="abc"):
        """A fleet, with clients that write."""
        folder = tempfile.TemporaryDirectory(prefix="data-processes-")
        self.addCleanup(folder.cleanup)
        fleet = Fleet(folder.name, dict.fromkeys(names, self.kind), copies, bugs=bugs)
        self.addCleanup(fleet.end)
        self.named, self.clients = 0.0, [Client(fleet, it, 0.05) for it in range(2)]
        if "d" in names:
            self.stand_between(fleet)
        fleet.start_controller()
        fleet.start_servers()
        self.addCleanup(self.end_clients)
        for it in self.clients:
            it.start()
        self.more_words(fleet)
        return fleet

    def end_clients(self):
        """The clients write no more."""
        for it in self.clients:
            it.is_over = True
            it.join(30)

    def stand_between(self, fleet):
        """What a sends d goes through a place of this test: a is told another address of d."""
        def told(path, _, ask):
            answer = ask()
            if path == "/fleet":
                answer["servers"]["d"]["url"] = to_d.url
            return answer

        self.lossy = Lossy()
        to_d, to_controller = Between(fleet.urls["d"], self.lossy.tell), Between(fleet.controller, told)
        for it in (to_d, to_controller):
            self.addCleanup(it.close)
        self.addCleanup(self.lossy.is_over.set)
        fleet.controllers["a"] = to_controller.url

    def more_words(self, fleet, count=3):
        """Waits until each client has so many words more."""
        wanted = [len(it.words) + count for it in self.clients]
        fleet.until(lambda: all(len(it.words) >= many for it, many in zip(self.clients, wanted)), "more words")

    def again(self, fleet, *names):
        """Servers start again, with what is on their disks, and are up once they have slots."""
        for it in names:
            fleet.start_server(it)
        for it in names:
            fleet.until(lambda it=it: fleet.is_up(it), it)

    def leave(self, fleet, name):
        """A server gets leave for a restart, and goes down. The permit."""
        permit = fleet.do(do="approve", server=name, by=f"by-{name}")["approved"]["permit"]
        fleet.kill(name)
        return permit

    def give_up(self, fleet, name):
        """A server is given up. Without --accept-loss the command confirms nothing that names a shard as lost."""
        told, at = fleet.reopen("--lost", name, "--yes", "--json"), time.monotonic()
        if told.returncode == 1 and "only --accept-loss says yes to that" in told.stderr:
            told = fleet.reopen("--go-on", "--accept-loss", "--yes", "--json")
        lost, primary = self.confirmed(told)
        self.named = at if lost else self.named
        return lost, primary

    def confirmed(self, told):
        """What a command has confirmed: which shards it named as lost, and who is primary."""
        self.assertEqual(told.returncode, 0, told.stdout + told.stderr)
        proposal = json.loads(told.stdout)["proposal"]
        return proposal["lost"], primary_of(proposal)

    def missing(self, fleet):
        """What was acknowledged and is not read once at the present primary: each word with when that was."""
        self.end_clients()
        found = []
        for it in self.clients:
            value = fleet.value(it.key)
            found += [(it.key, word, at) for word, at in zip(it.words, it.times) if value.count(word) != 1]
        return found

    def unnamed(self, missing):
        """Which of them are behind the last proposal that named the shard before it was confirmed."""
        return [it for it in missing if it[2] > self.named]

    # -- a new disk

    def new_disk(self, copies):
        """A primary gets a new disk, and asks for its slots; then it is given up."""
        fleet = self.begin(copies)
        fleet.kill("a")
        fleet.replace_disk("a")
        fleet.start_server("a")
        fleet.until(lambda: "has lost the data" in fleet.log("a"), "a asks for its slots")
        self.assertEqual((fleet.slots("a"), fleet.ask(f"{fleet.urls['a']}/request", {"shard": "s", "request": "r", "command": ["get", "k0"]})),
                         ([], {"said": "not_here"}))
        fleet.kill("a")
        lost, primary = self.give_up(fleet, "a")
        self.assertIn(primary, ("b", "c"))
        self.more_words(fleet)
        return lost, self.unnamed(self.missing(fleet))

    def test_a_primary_with_a_new_disk_is_given_up_with_a_name(self):
        self.assertEqual(self.new_disk(1), (["s"], []))

    def test_a_primary_with_a_new_disk_is_given_up_without_a_name_as_two_have_all(self):
        self.assertEqual(self.new_disk(2), ([], []))

    def new_disk_of_a_secondary(self, bugs=()):
        """A secondary gets a new disk, and has its slots again, but nobody from whom to copy, when the primary is
        lost."""
        fleet = self.begin(2, bugs)
        fleet.kill("b")
        fleet.replace_disk("b")
        self.more_words(fleet)
        fleet.kill("a")
        self.again(fleet, "b")
        found = self.give_up(fleet, "a")
        self.more_words(fleet)
        return found, self.missing(fleet)

    def test_a_secondary_with_a_new_disk_is_not_chosen(self):
        self.assertEqual(self.new_disk_of_a_secondary(), ((["s"], "c"), []))

    # -- a stale secondary

    def stale(self, copies, is_back, bugs=(), is_moving=False, has_led=False):
        """A secondary, which may have led the shard for a while, comes back from a restart, and lacks what the other
        one has, when the primary is lost, which may be handing the shard over. That one goes down then, and may be
        back."""
        fleet = self.begin(copies, bugs, "abcd" if is_moving else "abc")
        for old, new in ("ab", "ba") if has_led else ():
            fleet.move(f"to-{new}", old, new, swap("s", old, new))
        permit = self.leave(fleet, "b")
        self.more_words(fleet)
        if is_moving:
            self.hand_over(fleet)
        fleet.kill("a")
        self.again(fleet, "b")
        self.assertEqual(fleet.ask(f"{fleet.controller}/restarted", {"permit": permit})["up"], "b")
        self.leave(fleet, "c")
        if is_back:
            self.again(fleet, "c")
        found = self.give_up(fleet, "a")
        if not is_back:
            fleet.start_server("c")
        self.more_words(fleet)
        missing = self.missing(fleet)
        return found, missing != [], self.unnamed(missing)

    def test_a_stale_secondary_is_chosen_with_a_name(self):
        self.assertEqual(self.stale(1, False), ((["s"], "b"), True, []))

    def test_a_stale_secondary_is_chosen_with_a_name_as_two_are_gone(self):
        self.assertEqual(self.stale(2, False), ((["s"], "b"), True, []))

    def test_a_stale_secondary_is_not_chosen_beside_one_that_has_more(self):
        self.assertEqual(self.stale(2, True), (([], "c"), False, []))

    def test_a_stale_secondary_is_chosen_beside_a_new_owner_with_a_name(self):
        self.assertEqual(self.stale(1, False, is_moving=True), ((["s"], "b"), True, []))

    def test_a_stale_secondary_is_not_chosen_beside_a_new_owner_that_has_more_in_a_view(self):
        self.assertEqual(self.stale(1, False, is_moving=True, has_led=True), ((["s"], "d"), False, []))

    def test_a_secondary_from_a_backup_is_not_chosen_beside_one_that_has_more(self):
        fleet = self.begin(2)
        fleet.kill("b")
        fleet.copy_disk("b")
        self.again(fleet, "b")
        self.more_words(fleet)
        fleet.kill("b")
        self.more_words(fleet)
        fleet.put_copy_back("b")
        fleet.kill("a")
        self.again(fleet, "b")
        self.assertEqual(self.give_up(fleet, "a"), ([], "c"))
        self.more_words(fleet)
        self.assertEqual(self.missing(fleet), [])

    def alone(self, bugs=()):
        """A primary is without its secondaries, and is lost; then they come back."""
        fleet = self.begin(2, bugs)
        fleet.until(lambda: all(it["s"][1] > 0 for it in fleet.marks().values()), "copies")
        for it in "bc":
            fleet.kill(it)
        if bugs:
            self.more_words(fleet)
        else:
            time.sleep(0.5)
        fleet.kill("a")
        self.again(fleet, *"bc")
        lost, _ = self.give_up(fleet, "a")
        self.more_words(fleet)
        return lost, self.missing(fleet)

    def test_a_primary_alone_acknowledges_nothing(self):
        self.assertEqual(self.alone(), ([], []))

    # -- a newcomer's schedule

    @staticmethod
    def hand_over(fleet):
        """Server a has ended its writes, and hands the shard over to d, which does not hear of it."""
        fleet.begin("move", handover("s", 4, "a", "d"))
        fleet.until(lambda: [it["cell"] for it in fleet.slots("a")] == ["forwarding"], "the cut")

    def late(self, bugs=()):
        """A new owner hears of no cut, when a reopening ends the handover; then requests come that the old one had
        passed on. What is acknowledged and missing, what the new owner answers, and what an audit finds."""
        fleet = self.begin(1, bugs, "abcd")
        self.hand_over(fleet)
        late = threading.Thread(target=self.send, args=(fleet, "a", "late", ["append", "late", "<1>"]), daemon=True)
        late.start()
        fleet.until(lambda: self.lossy.held > len(self.clients), "requests are passed on")
        self.assertIn("fence", fleet.do(do="reopen", document=fleet.ask(f"{fleet.controller}/document"), lost=[], why="it"))
        self.assertEqual(self.confirmed(fleet.reopen("--go-on", "--yes", "--json")), ([], "a"))
        self.lossy.is_over.set()
        fleet.until(lambda: "late" in dict(self.lossy.answers), "the late request")
        self.more_words(fleet)
        late.join(20)
        missing, answer = self.missing(fleet), dict(self.lossy.answers)["late"]
        missing += [("late", "<1>", time.monotonic())] if "reply" in answer and fleet.value("late") != "<1>" else []
        return missing, answer, self.audits(fleet)

    @staticmethod
    def send(fleet, server, identity, command):
        """Sends a request once."""
        try:
            fleet.ask(f"{fleet.urls[server]}/request", {"shard": "s", "request": identity, "command": command})
        except OSError:
            pass

    @staticmethod
    def audits(fleet):
        """What audits say of the servers."""
        ask = f"{fleet.controller}/ask"
        place = fleet.ask(ask, {"do": "hello"})["hello"]["place"]
        told = {name: [{key: it for key, it in slot.items() if key not in ("position", "reached", "view")} for slot in fleet.slots(name)] for name in fleet.urls}
        return {name: fleet.ask(ask, {"do": "audit", "server": name, "place": place, "slots": slots})["audit"]["is"] for name, slots in told.items()}

    def test_what_a_settle_does_not_bring_serves_nobody(self):
        self.assertEqual(self.late(), ([], {"said": "not_here"}, dict.fromkeys("abcd", "agrees")))

    # -- a disk that is older than it may be

    def test_a_primary_that_goes_on_from_an_older_copy_is_found(self):
        fleet = self.begin(1)
        fleet.kill("a")
        fleet.copy_disk("a")
        self.again(fleet, "a")
        self.more_words(fleet)
        fleet.kill("a")
        fleet.put_copy_back("a")
        self.again(fleet, "a")
        self.assertNotEqual(self.unnamed(self.missing(fleet)), [])


class PortTest(Schedules, unittest.TestCase):
    """Servers in Python, which call the port of the agent, or have a bug."""

    def test_who_serves_without_its_data_is_found(self):
        fleet = self.begin(1, {"a": "serves-without-data"})
        fleet.kill("a")
        fleet.replace_disk("a")
        self.again(fleet, "a")
        self.assertNotEqual(self.unnamed(self.missing(fleet)), [])

    def test_who_tells_more_than_its_new_disk_has_is_found(self):
        (lost, primary), missing = self.new_disk_of_a_secondary({"b": "tells-too-much"})
        self.assertEqual((lost, primary, missing != []), ([], "b", True))

    def test_who_tells_more_than_its_stale_copy_has_is_found(self):
        found, _, unnamed = self.stale(2, True, {"b": "tells-too-much"})
        self.assertEqual((found, unnamed != []), (([], "b"), True))

    def test_who_acknowledges_alone_is_found(self):
        lost, missing = self.alone({"a": "acknowledges-alone"})
        self.assertEqual((lost, missing != []), ([], True))

    def test_who_keeps_what_a_settle_does_not_bring_is_found(self):
        missing, answer, audits = self.late({"d": "keeps-the-rest-and-acknowledges-alone"})
        self.assertEqual((("late", "<1>") in [it[:2] for it in missing], "reply" in answer, audits),
                         (True, True, {**dict.fromkeys("abc", "agrees"), "d": "differs"}))


@unittest.skipUnless(HAS_GO, "there is no go")
class GoTest(Schedules, unittest.TestCase):
    """Servers in Go."""

    kind = "go"


@unittest.skipUnless(LIBRARY, "SM_AGENT names no library")
class NativeTest(Schedules, unittest.TestCase):
    """Servers in Python, which call the proved agent."""

    kind = "native"


if __name__ == "__main__":
    unittest.main()
