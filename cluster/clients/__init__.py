"""Clients of the cluster: a router that follows the published map, and a load generator."""
