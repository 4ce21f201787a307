"""Whether the store can be written: a program that couldn't write ends, so it isn't asked for changes then."""

import os
import signal
import time

# The status of a program whose files failed, and of one that wrote more than it may.
FAILED = (5, -signal.SIGXFSZ)
# With less room than so many bytes no change is asked, and after a failure none for so long, in seconds.
LEAST, PAUSE = 1 << 20, 10.0


class Disk:
    """The disk of a store."""

    def __init__(self, store):
        self.place, self.until = os.path.dirname(os.path.abspath(store)), 0.0

    def failed(self, status):
        """The program ended within a change."""
        if status in FAILED:
            self.until = time.monotonic() + PAUSE

    def is_full(self):
        """Whether no change is to be asked now."""
        if time.monotonic() < self.until:
            return True
        try:
            told = os.statvfs(self.place)
        except OSError:
            return False
        return told.f_bavail * told.f_frsize < LEAST

    def left(self, seconds):
        """How long until it is looked again, where it is full; else what is given."""
        if not self.is_full():
            return seconds
        wait = max(1.0, self.until - time.monotonic())
        return wait if seconds is None else max(seconds, wait)
