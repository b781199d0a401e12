"""Time that stands still while this process does: who was stopped for minutes, or got no processor, has waited for nobody meanwhile."""
import threading
import time

# No more than so much counts between two looks at the clock, and how often one looks at least, in seconds.
STEP, TICK = 5.0, 1.0


class Clock:
    """A clock that counts the time between each two looks, up to a step."""

    def __init__(self, read=time.monotonic):
        self.read, self.lock = read, threading.Lock()
        self.seen, self.told = read(), 0.0

    def now(self):
        """The time since it was made, in seconds, without that in which nobody could look."""
        with self.lock:
            seen, self.seen = self.seen, self.read()
            self.told += min(self.seen - seen, STEP)
            return self.told

    def tick(self):
        """Looks for ever."""
        while True:
            time.sleep(TICK)
            self.now()


def begun():
    """A clock that somebody looks at."""
    it = Clock()
    threading.Thread(target=it.tick, daemon=True).start()
    return it


now = begun().now
