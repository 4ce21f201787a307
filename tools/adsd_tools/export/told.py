"""What an export says: faults with their statuses, how far it is, and what the account may not read."""

import os
import sys
import time

from adsd_tools.shown import shown

# How long nothing is told at first, and between two lines at most, as of the program's long work.
FIRST, LONGEST = 2, 30
# What an account has, so that answers about it don't mislead; each by the class that it is looked for at.
OF_ACCOUNTS = {"user": ("objectSid", "sAMAccountName", "primaryGroupID", "userAccountControl"),
               "group": ("objectSid", "sAMAccountName", "groupType")}
DESCRIPTORS, CLASSES, OBJECTS, PARENTS, VALUES = (
    "descriptors", "classes", "listed objects that can't be read", "parents", "values behind a range")


class Fault(Exception):
    """Why nothing is exported, in one line, with the status that it ends with."""

    def __init__(self, status, why):
        super().__init__(why)
        self.status = status


def say(line):
    sys.stderr.write(f"adsd-export: {shown(line)}\n")
    sys.stderr.flush()


def clock(seconds):
    return f"{int(seconds) // 60}:{int(seconds) % 60:02d}"


class Progress:
    """Tells now and then how far it is, where standard error is a terminal or ADSD_PROGRESS=1 asks."""

    def __init__(self):
        asked = os.environ.get("ADSD_PROGRESS")
        self.tells = asked != "0" and (asked == "1" or sys.stderr.isatty())
        self.begun, self.pause = time.monotonic(), FIRST
        self.next, self.listed, self.read = self.begun + FIRST, 0, 0

    def step(self, listed=0, read=0):
        """So many more were listed, and read."""
        self.listed, self.read, now = self.listed + listed, self.read + read, time.monotonic()
        if not self.tells or now < self.next:
            return
        self.pause = min(LONGEST, 2 * self.pause)
        self.next = now + self.pause
        gone = clock(now - self.begun)
        if self.read:
            say(f"{self.read:,} of {self.listed:,} objects read; {gone} gone")
        else:
            say(f"{self.listed:,} objects listed; {gone} gone")


class Lacks:
    """What the account may not read: of each sort how many, and of what the first is."""

    def __init__(self):
        self.sorts = {}

    def add(self, sort, dn):
        first = self.sorts.setdefault(sort, [0, dn])
        first[0] += 1

    def look(self, dn, held):
        """Looks at an object as it was read."""
        low = {name.partition(";")[0].lower() for name, values in held.items() if values}
        classes = {value.decode("utf-8", "replace").lower()
                   for name, values in held.items() if name.lower() == "objectclass" for value in values}
        if "ntsecuritydescriptor" not in low:
            self.add(DESCRIPTORS, dn)
        if not classes:
            self.add(CLASSES, dn)
        for of_class, wanted in OF_ACCOUNTS.items():
            for name in wanted if of_class in classes else ():
                if name.lower() not in low:
                    self.add(f"{name} of a {of_class}", dn)

    def lines(self):
        return [f"{sort}: {count} ({dn}{', ..' if count > 1 else ''})" for sort, (count, dn) in self.sorts.items()]
