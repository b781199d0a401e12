"""The client of etcd, which is that of `smplan-control run`."""
from smplan.control_etcd import (
    Entry, Etcd, EtcdFault, EtcdRefused, decoded, drop, encoded, end_of, entries_of, exchange, has_value, is_absent, is_unchanged, members_of, put,
)

__all__ = ["Entry", "Etcd", "EtcdFault", "EtcdRefused", "decoded", "drop", "encoded", "end_of", "entries_of", "exchange", "has_value", "is_absent", "is_unchanged",
           "members_of", "put"]
