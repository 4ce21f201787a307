"""Clients that change a directory at random replicas while these and etcd fail, and clients that read there.

Each change has a mark of its own, by which it is found in the log; what was answered is noted."""

import random
import threading
import time

from ldap_client import Closed
from replica_world import MANY

OPEN = "D:(A;CI;GA;;;SY)(A;CI;GA;;;BA)(A;CI;RPLCLORC;;;WD)"
LISTS = [f"{OPEN}(A;CI;{rights};;;S-1-5-21-1-2-3-{number})" for rights in ("RP", "WP", "CC") for number in (1001, 1002)]
# What a replica answers where it can't say: unavailable, busy.
UNKNOWN, BUSY = 52, 51
# How often a value is large.
LARGE = 0.02


class Notes:
    """What was answered: by mark the code, or None where it isn't known; and of each writer the last number that was
    written, and the last that anybody read. `lost` has the marks that were answered by nothing, or by 51 or 52."""

    def __init__(self):
        self.lock, self.answers, self.faults = threading.Lock(), {}, []
        self.written, self.read, self.reads, self.lost = {}, {}, 0, set()

    def fault(self, what):
        with self.lock:
            self.faults.append(what)


def code_of(said):
    """The code of a result's line."""
    line = said.rpartition("\n")[2]
    return int(line.split(": ", 1)[1].split(" ")[0].rstrip(","))


class Worker(threading.Thread):
    """A client of some world, at one replica after the other."""

    def __init__(self, world, notes, number):
        super().__init__(daemon=True)
        self.world, self.notes, self.number, self.client = world, notes, number, None
        self.draw, self.ends = random.Random(number), threading.Event()

    def connected(self):
        """A client of some replica, which is bound."""
        while self.client is None and not self.ends.is_set():
            try:
                self.client = self.draw.choice(self.world.replicas).client()
            except (OSError, Closed, AssertionError):
                time.sleep(0.05)
        return self.client

    def leave(self):
        if self.client is not None:
            self.client.close()
            self.client = None

    def ask(self, line):
        """What is answered; None where it isn't known. Now and then another replica is asked next."""
        try:
            said = self.client.ask(line)
        except (OSError, Closed, AssertionError):
            self.leave()
            return None
        if self.draw.random() < 0.2:
            self.leave()
        return said

    def run(self):
        while not self.ends.is_set():
            try:
                if self.connected():
                    self.turn()
            except Exception as fault:
                self.notes.fault(f"{type(self).__name__} {self.number}: {fault!r}")
                self.leave()
        self.leave()


class Writer(Worker):
    """Writes numbers that rise into an object of its own, and makes, renames and deletes others."""

    def __init__(self, world, notes, number, pause=0.0):
        super().__init__(world, notes, number)
        self.at, self.made, self.pause = 0, [], pause
        self.own = f"CN=w{number},{MANY}"

    def turn(self):
        self.at += 1
        mark = f"w{self.number}-{self.at}."
        if self.at == 1:
            self.change(mark, f"add dn='{self.own}' objectClass=user description={mark}")
            return
        kinds = ("write", "write", "add", "add", "rename", "delete", "list")
        getattr(self, "large" if self.draw.random() < LARGE else self.draw.choice(kinds))(mark)
        time.sleep(self.pause)

    def change(self, mark, line, wanted=(0,)):
        """Asks for a change, and notes the answer."""
        said = self.ask(line)
        code = None if said is None else code_of(said)
        with self.notes.lock:
            self.notes.answers[mark] = None if code in (UNKNOWN, BUSY) else code
            if code in (None, UNKNOWN, BUSY):
                self.notes.lost.add(mark)
        if code not in (None, UNKNOWN, BUSY, *wanted) and self.at > 1:
            self.notes.fault(f"{line}: {said}")
        return code

    def large(self, mark):
        """A value that lets the stores grow, so that they are rewritten now and then."""
        self.change(mark, f"modify dn='{self.own}' replace:description='{100_000 * 'x'} {mark}'", (0, 32))

    def add(self, mark):
        name = f"CN=o{mark},{MANY}"
        code = self.change(mark, f"add dn='{name}' objectClass=user description={mark}")
        if code == 0:
            self.made.append(name)

    def rename(self, mark):
        if not self.made:
            return self.add(mark)
        old = self.made.pop(self.draw.randrange(len(self.made)))
        if self.change(mark, f"rename dn='{old}' rdn=CN=r{mark}", (0, 32)) == 0:
            self.made.append(f"CN=r{mark},{MANY}")

    def delete(self, mark):
        """A deletion has no mark of its own in its message, so it isn't looked for in the log."""
        if not self.made:
            return self.add(mark)
        self.ask(f"delete dn='{self.made.pop(self.draw.randrange(len(self.made)))}'")

    def list(self, mark):
        """Now and then a list that is passed down."""
        if self.draw.random() < 0.8:
            return self.write(mark)
        self.ask(f"modify dn='{MANY}' sd=dacl replace:nTSecurityDescriptor='sddl:{self.draw.choice(LISTS)}'")

    def write(self, mark):
        at, line = self.at, f"modify dn='{self.own}' replace:telephoneNumber={mark}{self.at}"
        if self.change(mark, line, (0, 32)) == 0:
            with self.notes.lock:
                self.notes.written[self.own] = max(at, self.notes.written.get(self.own, 0))


class Reader(Worker):
    """Reads what writers wrote. Where reads are linear, none gives less than what was written, or read, before it
    began."""

    def turn(self):
        with self.notes.lock:
            names = list(self.notes.written)
            if not names:
                return time.sleep(0.05)
            name = self.draw.choice(names)
            least = max(self.notes.written[name], self.notes.read.get(name, 0))
        said = self.ask(f"search base='{name}' attrs=telephoneNumber")
        if said is None or not said.endswith("0 success"):
            return time.sleep(0.02)
        found = [int(line.rpartition(".")[2]) for line in said.split("\n") if line.startswith("telephoneNumber: ")]
        with self.notes.lock:
            self.notes.reads += 1
            self.notes.read[name] = max([self.notes.read.get(name, 0), *found])
        if not found or found[0] < least:
            self.notes.fault(f"{name} was read as {found}, behind {least}")
        time.sleep(0.02)
