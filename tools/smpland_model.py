#!/usr/bin/env python3
"""smpland_model.py: the reference of `smpland -`, a JSON object a line in, and one out (see --help, and docs/SMPLAND.md)."""
import sys
from pathlib import Path

sys.path.insert(0, str(Path(__file__).resolve().parents[1] / "python"))

from smpland_model.command_line import main  # noqa: E402

if __name__ == "__main__":
    sys.exit(main())
