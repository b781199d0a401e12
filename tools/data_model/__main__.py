"""Lets `python3 -m data_model` run the command."""
import sys

from .command_line import main

sys.exit(main())
