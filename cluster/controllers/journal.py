"""The journal in etcd, which is that of `smplan-control run`."""
from smplan.control_etcd_journal import MOST_BYTES, EtcdJournal, JournalLost, Keys

__all__ = ["LEADER", "MOST_BYTES", "PREFIX", "EtcdJournal", "JournalLost", "key_of"]

KEYS = Keys()
PREFIX, LEADER, key_of = KEYS.journal, KEYS.leader, KEYS.line
