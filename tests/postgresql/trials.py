"""Runs with planted bugs and without: which check found each, and how soon. Their results stand in a file, a line each: a run that stands there is not made again
while ports/postgresql is the same."""
import hashlib
import json
import os
import re
import shutil
import signal
import subprocess
import tempfile
import threading
import time
from concurrent.futures import ThreadPoolExecutor
from contextlib import suppress
from dataclasses import asdict, dataclass
from pathlib import Path

from servers import BIN, as_postgres

HERE = Path(__file__).resolve().parent

# What a run that is not clean says first, what the table calls that, and its letter there.
CHECKS = (
    (r"was acknowledged and is lost", "an acknowledged write is lost", "L"),
    (r"was executed \d+ times|: other reply", "a request was executed twice", "X"),
    (r"was told .* stored is", "another reply is stored", "R"),
    (r"what it has came to it again", "a follower got writes twice", "T"),
    (r"replicas differ", "replicas differ", "D"),
    (r"accounts of \d|not the sum of their history", "balances and histories differ", "B"),
    (r"statements were committed and are lost", "a plain write is lost", "P"),
    (r"a plain write, and", "a plain write is taken elsewhere", "G"),
    (r"the schema of .* was changed", "a schema was changed while it moved", "S"),
    (r"fault UniqueViolation", "a number was given out twice", "U"),
    (r": fault ", "a client had a fault", "F"),
    (r"subscriptions for|streams for|: schemas ", "something is left over", "O"),
    (r", listed at", "a shard is not where it should be", "M"),
    (r"^not within|: not served|next to nothing", "it did not come to rest in time", "W"),
)
OTHER = ("something else", "?")


def check_of(said):
    """The check that found what a run says, and its letter."""
    return next(((name, letter) for pattern, name, letter in CHECKS if re.search(pattern, said)), OTHER)


@dataclass(frozen=True)
class Trial:
    """A run: its kind, bug and seed. The sound one has no bug."""

    kind: str
    bug: str
    seed: int

    @property
    def name(self):
        return self.bug or f"sound {self.kind}"

    def is_good(self, verdict):
        """Whether a verdict is as it should be."""
        return verdict == ("found" if self.bug else "clean")


@dataclass(frozen=True)
class Result:
    """What became of a run: `found`, `clean` or `none` if it has no verdict; what it said, for how long it ran, and under what load."""

    verdict: str
    said: str
    seconds: float
    load: float

    def cell(self):
        """How the table shows it."""
        word = {"clean": "ok", "none": "none"}.get(self.verdict) or check_of(self.said)[1]
        return f"{word} {self.seconds:.0f}"


def text_of(folder):
    """The digest of the text that runs."""
    digest = hashlib.sha256()
    for path in sorted(it for it in folder.rglob("*") if it.suffix in (".py", ".sql")):
        digest.update(path.read_bytes())
    return digest.hexdigest()[:12]


class Results:
    """Results by run, of one text, from a file and onto it."""

    def __init__(self, path, text):
        self.path, self.text, self.lock, self.found = path, text, threading.Lock(), {}
        for line in path.read_text().splitlines() if path.exists() else ():
            with suppress(ValueError, TypeError):  # (the last line, if it was cut off)
                row = json.loads(line)
                if row["text"] == text:
                    self.found[Trial(**row["trial"])] = Result(**row["result"])

    def put(self, trial, result):
        """Adds a result."""
        with self.lock:
            self.found[trial] = result
            with self.path.open("a") as file:
                file.write(json.dumps({"text": self.text, "trial": asdict(trial), "result": asdict(result)}) + "\n")


def verdict_of(status, said):
    """The verdict of a run that has ended, and its first words."""
    lines = said.strip().splitlines()
    at = next((n for n, it in enumerate(lines) if it.startswith("verdict")), None)
    words = " ".join(it.strip() for it in lines[at + 1:at + 3]) if at is not None else said.strip()[-300:]
    if at is None or status not in (0, 1) or "secondaries are copied" in words:
        return "none", words[:300]
    return ("clean" if status == 0 else "found"), words[:300]


class Runner:
    """Makes runs, several at once."""

    def __init__(self, words_of, patience, templates, kept=None):
        self.words_of, self.patience, self.kept, self.running, self.lock = words_of, patience, kept, set(), threading.Lock()
        self.environment = {"PG_RETRY": "100ms", **os.environ, "PG_TEMPLATES": str(templates), "PYTHONPYCACHEPREFIX": str(templates.parent / "pycache")}
        self.environment.pop("PYTHONDONTWRITEBYTECODE", None)  # (each of many processes would compile its modules)

    def run(self, trial):
        """One run, and its result."""
        begun = time.monotonic()
        with tempfile.TemporaryDirectory(prefix="pg-wrong-", dir="/dev/shm", ignore_cleanup_errors=True) as folder:
            os.chmod(folder, 0o711)
            words = ["/usr/bin/python3", str(HERE / "run.py"), f"{folder}/run", *self.words_of(trial)]
            with subprocess.Popen(words, stdout=subprocess.PIPE, stderr=subprocess.STDOUT, text=True, env=self.environment) as process:
                with self.lock:
                    self.running.add(process)
                try:
                    all_said = process.communicate(timeout=self.patience)[0]
                    verdict, said = verdict_of(process.returncode, all_said)
                except subprocess.TimeoutExpired:
                    process.terminate()  # (it ends what it has started)
                    all_said = process.communicate()[0]
                    verdict, said = "none", f"no end within {self.patience:g} s"
                with self.lock:
                    self.running.discard(process)
            if self.kept and not trial.is_good(verdict):
                self.keep(Path(folder) / "run", trial, all_said)
        return Result(verdict, said, round(time.monotonic() - begun, 1), round(os.getloadavg()[0], 1))

    def keep(self, folder, trial, said):
        """Keeps the logs of a run that did not end as it should."""
        kept = self.kept / f"{trial.name.replace(' ', '-')}-{trial.seed}"
        kept.mkdir(parents=True, exist_ok=True)
        (kept / "said").write_text(said)
        for it in folder.glob("*.*"):
            if it.suffix in (".log", ".json", ".jsonl"):
                shutil.copy(it, kept)

    def end(self):
        """Ends all runs."""
        with self.lock:
            for it in self.running:
                it.terminate()


def make_templates(folder, count=5):
    """Makes empty clusters that runs copy: so many are in one run at most."""
    os.chmod(folder, 0o777)
    words = [str(BIN / "initdb"), "-A", "trust", "-U", "postgres", "-E", "UTF8", "--locale=C.UTF-8", "-N", "-D"]
    made = [subprocess.Popen([*words, str(folder / str(it))], stdout=subprocess.DEVNULL, cwd=folder, **as_postgres()) for it in range(count)]
    if any(it.wait() for it in made):
        raise SystemExit("initdb failed")


def make_all(trials, results, words_of, jobs, patience, kept=None):
    """Makes all runs that have no result yet, so many at once, and tells of each."""
    todo = [it for it in trials if it not in results.found]
    with tempfile.TemporaryDirectory(prefix="pg-wrong-", dir="/dev/shm", ignore_cleanup_errors=True) as folder, ThreadPoolExecutor(jobs) as pool:
        templates = Path(folder) / "templates"
        templates.mkdir()
        os.chmod(folder, 0o711)
        if todo:
            make_templates(templates)
        runner = Runner(words_of, patience, templates, kept)

        def make(trial):
            result = runner.run(trial)
            results.put(trial, result)
            print(f"{'ok  ' if trial.is_good(result.verdict) else 'BAD '} {trial.name}, seed {trial.seed}: {result.verdict} in {result.seconds:.0f} s, load {result.load:.0f}: {result.said[:200]}", flush=True)

        def end(*_):
            runner.end()
            os._exit(143)
        signal.signal(signal.SIGTERM, end)
        signal.signal(signal.SIGINT, end)
        list(pool.map(make, todo))


def table_of(trials, results):
    """Lines: of each bug and each kind of sound run a row with the results by seed; and what the letters mean."""
    rows, seeds = {}, sorted({it.seed for it in trials})
    for it in trials:
        rows.setdefault(it.name, {})[it.seed] = it
    width, lines = max(map(len, rows)), []
    for some in (seeds[it:it + 10] for it in range(0, len(seeds), 10)):
        lines.append(" ".join([" " * width, *(f"{it:>8}" for it in some)]))
        for name, its in rows.items():
            made = {seed: results.found[its[seed]] for seed in some if its.get(seed) in results.found}
            good = sum(its[seed].is_good(it.verdict) for seed, it in made.items())
            lines.append(" ".join([f"{name:{width}}", *(f"{made[it].cell() if it in made else '-':>8}" for it in some), f"  {good} of {len(made)}"]))
    used = {check_of(results.found[it].said) for it in trials if it in results.found and results.found[it].verdict == "found"}
    return [*lines, "; ".join([*(f"{letter}: {name}" for name, letter in sorted(used, key=lambda it: it[1])), "then seconds"])]


def is_good(trials, results):
    """Whether nine of ten runs found each bug, and all sound runs were clean; a run without a verdict has found nothing, and is not clean."""
    by = {}
    for it in trials:
        told = results.found.get(it)
        by.setdefault(it.name, []).append(told is not None and it.is_good(told.verdict))
    return all(all(its) if name.startswith("sound ") else 10 * sum(its) >= 9 * len(its) for name, its in by.items())
