"""PostgreSQL servers whose schemas are shards, moved by `smplan-control run`: docs/POSTGRESQL.md."""
