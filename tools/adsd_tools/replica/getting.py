"""Takes a copy of a store from a replica on another machine, which has the same secret (giving.py).

What comes is written whole or not at all: a copy that broke off leaves nothing, and is begun anew."""

import hashlib
import json
import os
import socket
from dataclasses import replace
from urllib.parse import urlsplit

from adsd_tools.files import write
from adsd_tools.rows import store as rows
from adsd_tools.shown import text_of

from . import answers, channel, giving
from .position import SUFFIX, Positions, read_line
from .slots import SLOTS, Unfit

SCHEME = "replica"
# So long one waits for the other side, in seconds: it may give a copy to somebody else.
CONNECT, SILENT = 10.0, 600.0


class Broke(Unfit):
    """The connection ended before the copy was whole."""

    def __init__(self, why):
        super().__init__(f"the copy broke off: {why}; nothing is left of it: ask again")


def address_of(url):
    """The host and the port of replica://HOST:PORT; None where it is something else, or has no port."""
    if not url.startswith(SCHEME + "://"):
        return None
    parts = urlsplit(url)
    return (parts.hostname, parts.port) if parts.hostname and parts.port and not parts.path.strip("/") else None


class Getting:
    """One connection to a replica that gives copies."""

    def __init__(self, address, secret, name):
        self.socket = socket.create_connection(address, CONNECT)
        self.socket.settimeout(SILENT)
        self.sums, self.answers = hashlib.sha256(), []
        first = os.urandom(channel.DRAWN)
        self.socket.sendall(channel.HELLO + first)
        self.asks, self.way = channel.ways(secret, first, self.exactly(channel.DRAWN))
        self.socket.sendall(self.asks.closed(json.dumps({"name": name}).encode()))

    def exactly(self, size):
        made = bytearray()
        while len(made) < size:
            piece = self.socket.recv(min(1 << 20, size - len(made)))
            if not piece:
                raise Broke("the other side has ended the connection, or hasn't this secret")
            made += piece
        return bytes(made)

    def piece(self):
        """The kind of the next piece, and what it has."""
        made = self.way.opened(self.exactly(channel.size_of(self.exactly(channel.LENGTH))))
        if made[:1] == giving.NONE:
            raise Unfit(f"the replica gives no copy: {text_of(made[1:])}")
        return made[:1], made[1:]

    def position(self):
        kind, line = self.piece()
        found = read_line(line) if kind == giving.POSITION else None
        if found is None:
            raise channel.Foreign("what came is no position")
        return found

    def pieces(self):
        """The bytes of the store; the answers are kept meanwhile."""
        while True:
            kind, data = self.piece()
            if kind == giving.STORE:
                self.sums.update(data)
                yield data
            elif kind == giving.ANSWERS:
                self.answers.append(data)
            elif kind == giving.END and data == self.sums.digest():
                return
            else:
                raise channel.Foreign("what came isn't what was sent")

    def has_all(self):
        """Says that the copy is whole and on the disk: the log is kept for it."""
        self.socket.sendall(self.asks.closed(giving.END))

    def close(self):
        self.socket.close()


def got(address, new, name, secret):
    """Makes a store of the copy that a replica gives, for a new replica of a name; its position, and how many rows it
    holds."""
    for path in (new + one for one in (*SLOTS, SUFFIX, answers.SUFFIX)):
        if os.path.exists(path):
            raise Unfit(f"{path} exists")
    try:
        one = Getting(address, secret, name)
    except OSError as why:
        raise Unfit(f"{address[0]}, port {address[1]}: {why.strerror or why}") from None
    made = []
    try:
        position = replace(one.position(), name=name)
        for end, pieces in ((SLOTS[0], one.pieces()), (SLOTS[1], b"\0"), (answers.SUFFIX, one.answers)):
            if pieces:
                write(new + end, pieces, new=True)
                made.append(new + end)
        count = len(rows.table(new))
        Positions(new).make(position)
        made.append(new + SUFFIX)
        one.has_all()
        return position, count
    except BaseException as why:
        for path in made:
            os.remove(path)
        if isinstance(why, (channel.Foreign, rows.Broken)):
            raise Unfit(str(why)) from None
        if isinstance(why, OSError) and why.filename is None:
            raise Broke(why) from None
        raise
    finally:
        one.close()
