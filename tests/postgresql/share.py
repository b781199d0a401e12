"""Which share of a processor this process gets. `share.py TEST ..` runs tests: exit status 0: all passed; 1: not so; 4: not so, and the machine is too slow for
a verdict."""
import sys
import threading
import time
import unittest

# Who gets a smaller share of a processor is too slow for a verdict on what comes too late.
SLOW = 0.3


class Share(threading.Thread):
    """Which share of a processor a thread gets that wants it all, looked at each second."""

    def __init__(self):
        super().__init__(daemon=True)
        self.shares = []

    def run(self):
        while True:
            begun, used = time.monotonic(), time.thread_time()
            while time.thread_time() < used + 0.01:
                pass
            self.shares.append(0.01 / max(0.01, time.monotonic() - begun))
            time.sleep(1.0)

    def mean(self):
        return sum(self.shares) / max(1, len(self.shares))

    def is_slow(self):
        """Whether it was too little for a verdict on what comes too late."""
        return self.mean() < SLOW


def main():
    share = Share()
    share.start()
    told = unittest.main(module=None, exit=False).result
    sys.exit(0 if told.wasSuccessful() else 4 if share.is_slow() else 1)


if __name__ == "__main__":
    main()
