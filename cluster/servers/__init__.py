"""A server of the cluster: a process with a redis-server of its own, which moves its shards by the agent of smplan."""
