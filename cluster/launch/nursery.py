"""`python3 -m cluster.launch.nursery`: begins servers and controllers as copies of itself, which has read their modules already: a new Python takes a quarter
of a second of a processor for that. It reads the words of one in each line, `["LOG","MODULE",..]`, and writes its process id."""
from __future__ import annotations

import gc
import json
import os
import random
import runpy
import signal
import sys
import traceback

import cluster.controllers.member
import cluster.controllers.page
import cluster.servers.server
import cluster.servers.store
import smplan.control_serve  # noqa: F401  (all of these are there for the copies)

from .processes import die_with_parent


def become(parent: int, log: str, module: str, words: list[str]) -> int:
    """Runs a module in the copy, whose output goes to a log, and returns its exit status."""
    os.setsid()
    die_with_parent(parent)
    signal.signal(signal.SIGCHLD, signal.SIG_DFL)
    random.seed()
    for path, way, at in ((os.devnull, os.O_RDONLY, 0), (log, os.O_WRONLY | os.O_APPEND | os.O_CREAT, 1), (log, os.O_WRONLY | os.O_APPEND, 2)):
        os.dup2(os.open(path, way, 0o644), at)
    sys.argv = [module, *words]
    try:
        runpy.run_module(module, run_name="__main__", alter_sys=True)
        return 0
    except SystemExit as ended:
        return ended.code if isinstance(ended.code, int) else 1
    except BaseException:
        traceback.print_exc()
        return 1


def main() -> None:
    """Begins what it is told to, until its input ends."""
    signal.signal(signal.SIGCHLD, signal.SIG_IGN)
    gc.freeze()
    nursery = os.getpid()
    for line in sys.stdin:
        log, module, *words = json.loads(line)
        child = os.fork()
        if not child:
            status = become(nursery, log, module, words)
            sys.stdout.flush()
            os._exit(status)
        print(child, flush=True)


if __name__ == "__main__":
    main()
