"""Who leads, as with `smplan-control run`."""
from smplan.control_etcd_lease import Lease

__all__ = ["Lease"]
