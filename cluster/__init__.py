"""A real cluster: servers with a redis-server each, controllers over etcd, clients, faults, and checkers."""
