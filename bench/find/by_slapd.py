"""What OpenLDAP's slapd takes for the requests of `run`, over one connection by a socket of this machine.

It gets the same LDAP messages as the program, and its entries have the same values. Time is that of a processor of all its threads, user's and
system's, by the clock of the process. Instructions are counted by callgrind over a whole life of it, without those of a life that only opens."""
import atexit
import os
import re
import shutil
import socket
import subprocess
import sys
import threading
import time

import slapd
from adsd_tools.ask import requests
from adsd_tools.forms import ber

PATH = os.environ.get("PATH", "") + ":/usr/sbin"
SLAPD = os.environ.get("SLAPD") or shutil.which("slapd", path=PATH)
SLAPADD = os.environ.get("SLAPADD") or shutil.which("slapadd", path=PATH)
ENTRY, MOST, TRIES = 0x64, 100_000, 15
# The words that are in front of a program whose instructions are counted, and the line that tells them.
COUNTING = ["valgrind", "--tool=callgrind", "--callgrind-out-file=/dev/null"]
COUNTED = re.compile(rb"Collected : (\d+)")


def processor(pid):
    """The microseconds of a processor that a process has had, all its threads together."""
    return time.clock_gettime_ns(~pid << 3 | 2) / 1000


class Connection:
    """A client that has bound as the user whose process it is (SASL EXTERNAL)."""

    def __init__(self, path):
        self.socket, self.data, self.at = socket.socket(socket.AF_UNIX), b"", 0
        for _ in range(6_000):
            try:
                self.socket.connect(path)
                break
            except OSError:
                time.sleep(0.01)
        way = ber.sequence(ber.octets(b"EXTERNAL"), ber.octets(b""), tag=0xA3)
        self.asked([requests.message(1, ber.sequence(ber.number(3), ber.octets(b""), way, tag=0x60), [])])

    def message(self):
        """The operation of the next message: its tag and its body."""
        while True:
            if len(self.data) - self.at >= 6:
                size, start = self.data[self.at + 1], self.at + 2
                if size & 0x80:
                    start += size & 0x7F
                    size = int.from_bytes(self.data[self.at + 2 : start], "big")
                if start + size <= len(self.data):
                    self.at = start + size
                    return ber.parts(self.data[start : start + size])[1]
            self.data, self.at = self.data[self.at :] + self.socket.recv(1 << 20), 0

    def asked(self, messages):
        """Sends all messages at once, and gives how many entries came before the last of their results, each of which has to be a success."""
        sender = threading.Thread(target=self.socket.sendall, args=(b"".join(messages),))
        sender.start()
        left, entries = len(messages), 0
        while left:
            tag, body = self.message()
            if tag == ENTRY:
                entries += 1
                continue
            left -= 1
            if body[:3] != b"\x0a\x01\x00":
                sys.exit(f"bench/find: slapd answers {body!r}")
        sender.join()
        return entries


def messages(lines):
    """The LDAP messages of the frames of these lines."""
    return [frame[7:] for frame in requests.frames(lines)]


class Served:
    """A slapd that serves the database of a slapd.conf, and a connection to it."""

    def __init__(self, config, before=()):
        path = os.path.join(os.path.dirname(config), "socket")
        if os.path.exists(path):
            os.remove(path)
        called = [*before, SLAPD, "-d", "0", "-f", config, "-h", "ldapi://" + path.replace("/", "%2F")]
        self.running = subprocess.Popen(called, stdout=subprocess.DEVNULL, stderr=subprocess.PIPE)
        atexit.register(self.running.terminate)
        self.connection = Connection(path)

    def ended(self):
        self.running.terminate()
        return self.running.communicate()[1]


class Timer:
    """Microseconds of a processor."""

    def __init__(self, config):
        self.served = Served(config)
        self.opened = processor(self.served.running.pid)

    def taken(self, sent, alone=False):
        """What so many messages take: all at once, or each after the answer to the one before."""
        before = processor(self.served.running.pid)
        for part in [[one] for one in sent] if alone else [sent]:
            self.served.connection.asked(part)
        return processor(self.served.running.pid) - before

    def entries(self, lines):
        return self.served.connection.asked(messages(lines))

    def each(self, lines, times, alone=False):
        """The least of some tries for so many requests, or as many as take a tenth of a second."""
        sent = messages(max(1, min(times, int(MOST / self.taken(messages(lines), alone)))) * lines)
        return min(self.taken(sent, alone) for _ in range(TRIES)) / len(sent)

    def ended(self):
        self.served.ended()


class Counter:
    """Instructions beyond opening, of a tenth of the requests."""

    def __init__(self, config):
        self.config = config
        self.opened = self.count([])

    def count(self, sent):
        served = Served(self.config, COUNTING)
        served.connection.asked(sent)
        return int(COUNTED.search(served.ended()).group(1))

    def entries(self, lines):
        return None

    def each(self, lines, times, alone=False):
        sent = messages(max(1, times // 10) * lines)
        return (self.count(sent) - self.opened) / len(sent)

    def ended(self):
        pass


def database(place, export, indexes, schema=None):
    """Makes a database of the export with these indexes, and gives the path of its slapd.conf and the words that slapadd is called with."""
    config = slapd.config(place, True, ["objectClass", *indexes][:slapd.MOST_INDEXES], slapd.RIGHTS, schema)
    return config, [SLAPADD, "-q", "-f", config, "-l", export]
