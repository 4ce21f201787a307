"""The connections of the server: what each may take, for how long, and which goes where there is no room.

A connection is a stranger until a request on it carried the secret. Of a stranger at most the head of one request is
kept, and it has a few seconds for it, however it drips. Strangers have places of their own, and where these are full
the oldest goes; so they never take the place of a connection that carried the secret, nor do those of other users of
the machine take that of a stranger of this one. One thread waits for all heads; each request that carried the secret
is answered in a thread of its own."""

import queue
import selectors
import socket
import threading
import time

from . import heads
from .peers import Peers

MOST_STRANGERS, MOST_KNOWN = 64, 32
# How long a head may take, how long a connection that carried the secret may be silent, and one that is ended be open.
SECONDS_HEAD, SECONDS_SILENT, SECONDS_ENDING = 5, 120, 1
MOST_ACCEPTED = 32
HEAD, ANSWERED, ENDING = "waits for a head", "is being answered", "is ended"


class Connection:
    """One connection: its bytes that aren't looked at yet, and until when it may stay as it is."""

    def __init__(self, opened, own):
        self.socket, self.own, self.known, self.looked = opened, own, False, 0
        self.data, self.state, self.until = bytearray(), HEAD, time.monotonic() + SECONDS_HEAD

    def more(self):
        """Takes in what came, a head at most; whether there was anything."""
        piece = self.socket.recv(heads.MOST_HEAD - len(self.data))
        self.data += piece
        return bool(piece)

    def head(self):
        """Takes out the bytes of a head, where it is whole; None where it isn't yet. No byte is looked at again."""
        at = self.data.find(heads.END, max(0, self.looked - len(heads.END)))
        if at < 0:
            self.looked = len(self.data)
            return None
        made, self.looked = bytes(self.data[:at]), 0
        del self.data[: at + len(heads.END)]
        return made

    def body(self, size, seconds):
        """So many bytes behind the head, which have to come within some seconds; TimeoutError, or None where they end."""
        made, until = bytearray(self.data[:size]), time.monotonic() + seconds
        del self.data[:size]
        while len(made) < size:
            self.socket.settimeout(max(0.001, until - time.monotonic()))
            piece = self.socket.recv(min(65_536, size - len(made)))
            if not piece:
                return None
            made += piece
        return bytes(made)


class Places:
    """Waits for heads and gives each to `server`: it says by `stranger(head)` whether the secret isn't in it, and answers
    by `answer(connection, head)`, which gives whether the connection goes on."""

    def __init__(self, listening, server):
        self.listening, self.server, self.peers = listening, server, Peers(listening)
        self.connections, self.back, self.stopped = {}, queue.SimpleQueue(), False
        self.waits, self.wakes = socket.socketpair()
        self.selector = selectors.DefaultSelector()
        for one in (self.listening, self.waits):
            one.setblocking(False)
            self.selector.register(one, selectors.EVENT_READ)

    # ---- the loop

    def run(self):
        """Serves until `stop`."""
        while not self.stopped:
            ready = [key.fileobj for key, _ in self.selector.select(self.pause())]
            for one in ready:
                if one in self.connections:
                    self.guarded(self.connections[one])
            if self.waits in ready:
                self.waits.recv(4096)
            self.take_back()
            if self.listening in ready:
                self.accept()
            now = time.monotonic()
            for one in [one for one in self.connections.values() if one.until <= now]:
                self.drop(one)
        for one in [one for one in self.connections.values() if one.state != ANSWERED]:
            self.drop(one)
        self.selector.close()
        self.peers.close()

    def pause(self):
        """Until when nothing has to be done; none where connections stay as they are."""
        until = min((one.until for one in self.connections.values()), default=None)
        return None if until is None or until == float("inf") else max(0.0, until - time.monotonic())

    def wake(self):
        try:
            self.wakes.send(b"\0")
        except OSError:
            pass

    def stop(self):
        self.stopped = True
        self.wake()

    # ---- who comes and goes

    def accept(self):
        """Takes some of those who wait, so that those who are there come to their turn in between."""
        for _ in range(MOST_ACCEPTED):
            try:
                opened, address = self.listening.accept()
            except OSError:
                return
            self.make_room(one := Connection(opened, self.peers.is_own(address)))
            opened.setblocking(False)
            opened.setsockopt(socket.IPPROTO_TCP, socket.TCP_NODELAY, 1)
            self.connections[opened] = one
            self.selector.register(opened, selectors.EVENT_READ)

    def make_room(self, one):
        """Drops the oldest stranger of the same user where their places are full."""
        alike = [other for other in self.connections.values() if not other.known and other.own == one.own]
        for other in alike[: max(0, len(alike) + 1 - MOST_STRANGERS)]:
            self.drop(other)

    def admit(self, one):
        """Gives a connection that carried the secret a place among those that did: that of the one that is silent longest
        where they are full. Whether there is one."""
        if not one.known:
            known = [other for other in self.connections.values() if other.known]
            silent = sorted((other for other in known if other.state != ANSWERED), key=lambda other: other.until)
            if len(known) >= MOST_KNOWN and not silent:
                return False
            for other in silent[: max(0, len(known) + 1 - MOST_KNOWN)]:
                self.drop(other)
        one.known = True
        return True

    def drop(self, one):
        """Closes a connection that isn't being answered."""
        self.connections.pop(one.socket, None)
        self.selector.unregister(one.socket)
        one.socket.close()

    # ---- what comes

    def guarded(self, one):
        """Looks at what came on a connection; it alone goes where that fails."""
        try:
            if one.state == ENDING:
                if not one.socket.recv(65_536):
                    self.drop(one)
            elif one.more():
                self.look(one)
            else:
                self.drop(one)
        except BlockingIOError:
            pass
        except Exception as why:  # noqa: BLE001 (a fault of this script: the other connections go on)
            self.fault(why)
            self.drop(one)

    def fault(self, why):
        """Tells what went wrong; a connection that went away is none of ours."""
        if not isinstance(why, OSError):
            self.server.tell(f"fault: {type(why).__name__}: {why}")

    def look(self, one):
        """Goes on where a head is whole, and refuses what can't become one."""
        data = one.head()
        if data is None:
            one.until = min(one.until, time.monotonic() + SECONDS_HEAD)
            if len(one.data) >= heads.MOST_HEAD:
                self.refuse(one, 431)
            return
        try:
            head = heads.read(data)
        except heads.Bad:
            return self.refuse(one, 400)
        if self.server.is_strange(head):
            self.refuse(one, 404)
        elif not self.admit(one):
            self.refuse(one, 503)
        else:
            self.begin(one, head)

    def refuse(self, one, status):
        """Answers with a status alone, and ends the connection."""
        one.socket.send(self.server.bare(status))
        self.end(one)

    def end(self, one):
        """Ends a connection: what was answered is to be read there, so what still comes is thrown away for a moment."""
        one.socket.shutdown(socket.SHUT_WR)
        one.data, one.state, one.until = bytearray(), ENDING, time.monotonic() + SECONDS_ENDING

    # ---- answers

    def begin(self, one, head):
        """Answers a request in a thread."""
        self.selector.unregister(one.socket)
        one.state, one.until = ANSWERED, float("inf")
        try:
            threading.Thread(target=self.answered, args=(one, head), daemon=True).start()
        except RuntimeError:
            self.back.put((one, False))

    def answered(self, one, head):
        goes_on = False
        try:
            goes_on = self.server.answer(one, head)
        except Exception as why:  # noqa: BLE001 (a fault of this script: the other connections go on)
            self.fault(why)
        finally:
            self.back.put((one, goes_on))
            self.wake()

    def take_back(self):
        """Waits again on the connections that were answered."""
        while not self.back.empty():
            one, goes_on = self.back.get()
            one.state, one.until = HEAD, time.monotonic() + SECONDS_SILENT
            one.socket.setblocking(False)
            self.selector.register(one.socket, selectors.EVENT_READ)
            try:
                if not goes_on:
                    self.end(one)
                elif one.data:
                    self.look(one)
            except Exception as why:  # noqa: BLE001 (a fault of this script: the other connections go on)
                self.fault(why)
                self.drop(one)
