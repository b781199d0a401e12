"""storms.py [--seeds 40] [--first 1] [--jobs 1] [--seconds 60] [--results FILE] [--kept FOLDER]: storms with all kinds of harm, a loss for good, messages that are
late, lost and repeated, and two controllers. Exit status 0: all are clean. Called again, it makes the runs alone that FILE does not have.
"""
import argparse
import sys
from pathlib import Path

import trials

ROOT = Path(__file__).resolve().parents[2]

# The words of a storm: it drains until two servers are empty, and loses one for good.
WORDS = ["--quiet", "--servers", "4", "--shards", "4", "--rows", "2000", "--messages", "0.1", "--lose", "1", "--writers", "1", "--rest", "0.2", "--plain", "0.05",
         "--back", "0.1", "--every", "3", "--drains", "2", "--at-one", "--controllers", "2", "--patience", "240"]


def main():
    parser = argparse.ArgumentParser()
    parser.add_argument("--seeds", type=int, default=40)
    parser.add_argument("--first", type=int, default=1, help="the first seed")
    parser.add_argument("--jobs", type=int, default=1, help="so many storms at once")
    parser.add_argument("--seconds", type=float, default=60)
    parser.add_argument("--results", type=Path, default=Path("/tmp/storm-results.jsonl"), help="the file of results: what stands there is not run again")
    parser.add_argument("--kept", type=Path, help="where logs of storms that are not clean are kept")
    told = parser.parse_args()
    its = [trials.Trial("storm", "", seed) for seed in range(told.first, told.first + told.seeds)]
    results = trials.Results(told.results, trials.text_of(ROOT / "ports/postgresql"))
    trials.make_all(its, results, lambda it: [*WORDS, "--seconds", str(told.seconds), "--seed", str(it.seed)], told.jobs, 600 + told.seconds, told.kept)
    print(*trials.table_of(its, results), sep="\n", flush=True)
    sys.exit(0 if trials.is_good(its, results) else 1)


if __name__ == "__main__":
    main()
