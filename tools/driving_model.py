#!/usr/bin/env python3
"""driving_model.py: the model of the controller, real servers and the network (see --help, and docs/MODEL.md)."""
import sys

from driving_model.command_line import main

if __name__ == "__main__":
    sys.exit(main())
