"""smplan-pg: PostgreSQL servers whose schemas are shards (docs/POSTGRESQL.md)."""
import sys

from .command_line import main

sys.exit(main())
