"""For how long other work on the machine kept a process from running."""
from __future__ import annotations

from pathlib import Path


def waited_for_processor() -> float:
    """For how many seconds this process was ready to run while others had the processors, as the kernel counts it; 0 if it does not."""
    try:
        return int(Path("/proc/self/schedstat").read_text().split()[1]) / 1e9
    except (OSError, ValueError, IndexError):
        return 0.0
