#!/usr/bin/env python3
"""data_model.py: the model of what servers have to do so that no acknowledged write is lost unnamed (see --help, and
data_model/SMALL.md)."""
import sys

from data_model.command_line import main

if __name__ == "__main__":
    sys.exit(main())
