"""A server's side if sizes change: which of its loads count against an order."""
from __future__ import annotations

from .cells import Kind
from .server import Commit, Server, Shown
from .sizes import Order

# The journal of another service.
OTHER_JOURNAL = 99


class SizedServer(Server):
    """A server's base and slots. `sized` is the latest number, of all orders that had an effect, since which sizes are
    as they are: it is only needed for changes beside running plans."""

    sized = 0

    def begin_elsewhere(self) -> None:
        """It has the slots of another service from then on."""
        self.forget()
        self.journal, self.is_known = OTHER_JOURNAL, True

    def base_for(self, journal: int | None) -> int | None:
        """The base that it tells a controller of this journal at the end of its restart, if it has one."""
        is_own = self.journal == journal or not self.rules.own_base_told
        return self.settled_base() if is_own else None

    def counted(self, order: Order) -> int:
        """The load that counts: that of slots whose load was brought, by an order, a restore or a settle, since sizes
        are as they are."""
        if not self.rules.old_loads_left:
            return self.load
        since = max(order.sized, self.sized) if self.rules.sizes_heeded else order.sized
        present = (it for it in self.slots if it.cell.kind is not Kind.ABSENT and max(it.last, self.base) >= since)
        return sum(it.load for it in present)

    def commit(self, order: Order, shown: Shown) -> Commit:
        """Ends the work of an order, and keeps its number of sizes."""
        commit = super().commit(order, shown)
        if commit is Commit.DONE:
            self.sized = max(self.sized, order.sized)
        return commit

    def forget(self) -> None:
        """It loses its slots and its base."""
        super().forget()
        self.sized = 0
