"""Runs a server of the cluster that waits so many times as long for one that is gone or silent: `python3 patient.py TIMES --name a ..`."""
import runpy
import sys

from cluster.servers import limits

if __name__ == "__main__":
    times = float(sys.argv.pop(1))
    limits.DEAD_AFTER *= times
    limits.SILENT_AFTER *= times
    limits.ACKNOWLEDGING *= times
    runpy.run_module("cluster.servers", run_name="__main__", alter_sys=True)
