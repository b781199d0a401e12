"""Wrong versions of smplan-pg, each of which breaks a rule: `wrong.py BUG COMMAND ..` runs one, `wrong.py` alone tries that each is found by a run.

    wrong.py [--seeds 3] [--first 1] [--jobs 1] [--results FILE] [--only BUG ..]

Each bug in a run whose harm brings the situation that its rule is about, and sound runs with the same seeds and harm, which are clean. A table tells which check
found it, and how soon; called again, it makes the runs alone that FILE does not have.
"""
import argparse
import dataclasses
import sys
import tempfile
import time
from pathlib import Path

HERE = Path(__file__).resolve().parent
sys.path[:0] = [str(HERE.parents[1] / "python"), str(HERE.parents[1] / "ports/postgresql")]


def edit(old, new):
    """Another text of the extension."""
    from smplan_pg import adopt
    text = adopt.EXTENSION.read_text()
    if text.count(old) != 1:
        sys.exit(f"wrong.py: the extension has this {text.count(old)} times: {old}")
    with tempfile.NamedTemporaryFile("w", suffix=".sql", delete=False) as file:
        file.write(text.replace(old, new))
    adopt.EXTENSION = Path(file.name)


def no_lock():
    """An old owner cuts while requests run."""
    from smplan_pg.orders import Orders
    Orders.hold = lambda *_: None


def identities():
    """A request that comes again is executed again."""
    edit("IF n = 0 THEN\n      answer := 11;", "IF false THEN\n      answer := 11;")


def no_place():
    """A follower joins a new owner without the place at which its own writes begin."""
    from smplan_pg import streams
    streams.begin_behind = lambda tx, name, _: streams.enable(tx, name)


def no_followers():
    """Writes are acknowledged before any follower has them."""
    edit("IF NOT served OR (lacking = '{}' AND sm.has_copies(in_shard, until)) THEN RETURN served; END IF;", "RETURN served;")


def sequences():
    """Sequences stay behind."""
    edit("  SELECT setval(format('%I.%I', in_shard, key)::regclass, value::bigint) FROM jsonb_each_text(told)\n", "  SELECT\n")
    edit("IF last > coalesce(told, 0) THEN", "IF false THEN")


def ddl():
    """A schema is changed while it moves."""
    edit("IF current_setting('sm.own', true) = 'on' OR in_schema IS NULL THEN RETURN; END IF;", "RETURN;")


def guard():
    """Clients that know nothing of shards write anywhere."""
    edit("IF sm.route(b.known, b.fenced, s, 0, false, 0, 0, 0) <> 12 THEN", "IF false THEN")


def mark():
    """A follower joins a new primary whatever its own copy has, and takes what comes."""
    edit('IF (view, "position") <> (NEW.view, NEW.position) AND', "IF false AND")
    from smplan_pg.records import Mark
    Mark.__eq__ = lambda *_: True
    Mark.__ne__ = lambda *_: False


def early():
    """A copy is taken for whole before it is."""
    from smplan_pg import copies
    sound = copies.rows_of
    copies.rows_of = lambda reach, snapshot, what, check_on: sound(reach, snapshot, what, check_on) if ".sm_" in what else (it for it in ())


def seal_early():
    """A new owner takes over before the last writes have come to it."""
    from smplan_pg.following import Following
    from smplan_pg.records import Cut, Records
    sound, mark_of, cuts = Following.prepare, Records.mark, {}

    def prepare(self, shard, told):
        row = self.server.peer(told.slot.party).row(f"SELECT handover, position, party, sequences FROM {shard}.sm_cut")
        if row is not None:
            cuts[shard] = Cut(**row)
            told = dataclasses.replace(told, cut=cuts[shard])
        return sound(self, shard, told)

    def mark(self, shard):
        told = mark_of(self, shard)
        return dataclasses.replace(told, position=max(told.position, cuts[shard].position)) if shard in cuts else told
    Following.prepare, Records.mark = prepare, mark


def slot_first():
    """The slot of an old owner is committed before its cut."""
    from smplan.agent import Call
    from smplan_pg.orders import Orders
    store, once, deferred = Orders.store, Orders.once, {}

    def store_later(self, tx, shard, order, *rest):
        if order.call == Call.PREPARE_DROP:
            deferred[shard] = (order, *rest)
        else:
            store(self, tx, shard, order, *rest)

    def once_and_then(self, shard, order, line):
        once(self, shard, order, line)
        if shard in deferred:
            time.sleep(0.5)
            with self.server.database.transaction() as tx:
                store(self, tx, shard, *deferred.pop(shard))
    Orders.store, Orders.once = store_later, once_and_then


def left():
    """An old owner counts no more once it has leave to drop its copy."""
    from smplan_pg.leave import Leave
    edit("WHERE server = $1 AND NOT was_owner'", "WHERE server = $1'")
    sound = Leave.keep

    def keep_late(*words):
        time.sleep(0.5)
        sound(*words)
    Leave.keep = keep_late


def copied():
    """Writes are acknowledged, and told to be at two servers, though the primary alone has them."""
    from smplan_pg.keeping import Keeping
    edit("RETURN others + 1 >= b.copies;", "RETURN true;")
    sound = Keeping.is_dead
    Keeping.is_dead = lambda self, name, row, _=False: sound(self, name, row)


# The runs, by what comes in them, and the harm of a sound one. Harm that waits for a moment brings the situation in each run, not by chance. A run with a bug
# has to come to rest in time, as the sound one with its seed did.
RUNS = {
    "moves": (["--seconds", "3", "--drains", "1", "--each", "1", "--at-one", "--roles", "0", "--plain", "0.05", "--late", "5"], ["ddl", "late stream", "late copy", "late commit"]),
    "loss": (["--servers", "4", "--wide", "--at-one", "--lose", "1", "--lose-at", "0", "--no-disk", "--frozen", "4", "--seconds", "1"], []),
    "cuts": (["--seconds", "3", "--drains", "1", "--each", "1", "--at-one", "--roles", "0", "--most", "3"], ["cut"]),
    "leave": (["--servers", "4", "--seconds", "3", "--each", "1", "--at-one", "--roles", "0", "--most", "1"], ["leave"]),
    "alone": (["--at-one", "--lose", "1", "--lose-at", "0", "--no-disk", "--alone", "--copies", "2", "--seconds", "1", "--least", "30"], []),
    "back": (["--seconds", "3", "--drains", "1", "--at-one", "--back", "1", "--dead", "30", "--option=--stalled=300"], []),
}

# Each bug with its run, and the harm that it is about.
BUGS = {
    "no_lock": (no_lock, "moves", "late commit"), "identities": (identities, "moves"), "sequences": (sequences, "moves"), "ddl": (ddl, "moves", "ddl"),
    "guard": (guard, "moves"), "early": (early, "moves", "late copy"), "seal_early": (seal_early, "moves", "late stream"), "no_followers": (no_followers, "loss"),
    "mark": (mark, "loss"), "slot_first": (slot_first, "cuts", "cut"), "no_place": (no_place, "back"),
    "left": (left, "leave", "leave"), "copied": (copied, "alone"),
}


def plant(name):
    """Breaks a rule."""
    BUGS[name][0]()


def words_of(kind, bug, seed, told):
    """The words of a run."""
    harm = BUGS[bug][2:] if bug else RUNS[kind][1]
    return ["--quiet", "--seed", str(seed), "--patience", str(told.patience), "--servers", "3", "--shards", "3", "--rows", str(told.rows), "--writers", "1",
            "--rest", "0.06", "--every", "0.5", "--copies", "1", "--bug", bug, *(["--strict"] if bug else []), *RUNS[kind][0], "--harm", *harm]


def runs_of(told):
    """All runs that are asked for, seed by seed: kind, bug and seed. The sound run of a kind and seed is that of all bugs of this kind."""
    for seed in range(told.first, told.first + told.seeds):
        for kind in dict.fromkeys(BUGS[it][1] for it in told.only):
            if not told.without_sound:
                yield kind, "", seed
            yield from ((kind, bug, seed) for bug in told.only if BUGS[bug][1] == kind)


def main():
    if len(sys.argv) > 1 and sys.argv[1] in BUGS:
        plant(sys.argv[1])
        from smplan_pg.command_line import main as command
        sys.exit(command(sys.argv[2:]))
    import trials
    parser = argparse.ArgumentParser()
    parser.add_argument("--seeds", type=int, default=3)
    parser.add_argument("--first", type=int, default=1, help="the first seed")
    parser.add_argument("--jobs", type=int, default=1, help="so many runs at once")
    parser.add_argument("--results", type=Path, default=Path("/tmp/wrong-results.jsonl"), help="the file of results: what stands there is not run again")
    parser.add_argument("--kept", type=Path, help="where logs of runs that did not end as they should are kept")
    parser.add_argument("--patience", type=float, default=60)
    parser.add_argument("--longest", type=float, default=600, help="a run that has not ended within so many seconds has no verdict")
    parser.add_argument("--rows", type=int, default=1000)
    parser.add_argument("--without-sound", action="store_true", help="do not make the sound runs")
    parser.add_argument("--only", nargs="*", default=list(BUGS))
    told = parser.parse_args()
    its, results = [trials.Trial(*it) for it in runs_of(told)], trials.Results(told.results, trials.text_of(HERE.parents[1] / "ports/postgresql"))
    trials.make_all(its, results, lambda it: words_of(it.kind, it.bug, it.seed, told), told.jobs, told.longest, told.kept)
    print(*trials.table_of(its, results), sep="\n", flush=True)
    sys.exit(0 if trials.is_good(its, results) else 1)


if __name__ == "__main__":
    main()
