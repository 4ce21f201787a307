"""The lines that the bridge says, on standard error."""

import os
import sys
import time
import traceback

from adsd_tools.shown import shown

# So many letters of a line are said, and so many lines a second of what anybody may bring about.
LONGEST, MOST = 1000, 10


def one_line(text):
    """A text as one line, of which a very long one is cut."""
    text = shown(text)
    return text if len(text) <= LONGEST else text[:LONGEST] + ".."


def place_of(fault):
    """The kind of a fault of the bridge and where it came, without what it was about, which may be a secret."""
    last = traceback.extract_tb(fault.__traceback__)[-1]
    return f"{type(fault).__name__} at {os.path.basename(last.filename)}:{last.lineno}"


class Log:
    """Says what an administrator has to know; with `changes` also each change, and what upkeep did."""

    def __init__(self, changes=False, name="adsd-ldap"):
        self.changes, self.name = changes, name
        self.second, self.said = 0, 0

    def say(self, text):
        try:
            print(f"{self.name}: {one_line(text)}", file=sys.stderr, flush=True)
        except (OSError, ValueError):
            pass  # Where nobody takes the lines, clients are served all the same.

    def timed(self, text):
        self.say(f"{time.strftime('%Y-%m-%dT%H:%M:%SZ', time.gmtime())} {text}")

    def seldom(self, text):
        """Says what anybody may bring about, a few times a second; how much was left out is said before the next."""
        now = int(time.monotonic())
        if now != self.second:
            if self.said > MOST:
                self.timed(f"{self.said - MOST} lines like the last ones were left out")
            self.second, self.said = now, 0
        self.said += 1
        if self.said <= MOST:
            self.timed(text)

    def change(self, text):
        if self.changes:
            self.timed(text)
