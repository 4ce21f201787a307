"""Wrong passwords: they close an account for a while to the peer that they came from, and after more of them to all.
No other account waits for that, on whichever connection.

The first few cost nothing; each further one closes the account for twice as long, up to the longest delay. A bind
meanwhile is refused without a look at its password. What is counted is kept beside the store, so that it survives a
restart; names aren't in it."""

import asyncio
import hashlib
import json
import os
import time

from adsd_tools import files

from .names import key_of

# So many wrong passwords of one peer, and of all, close nothing; and so many are kept.
FREE, FREE_OF_ALL, MOST = 3, 20, 20_000
# How long the first one closes that does, in seconds; and after how long without one all is forgotten.
FIRST, QUIET = 0.25, 900.0
EVERYBODY = ""
# The name of the file beside the store.
ENDING = ".guesses"
MOST_BYTES = 16 << 20


def mark_of(account, peer):
    """What stands for an account and a peer."""
    return hashlib.sha256(f"{key_of(account)}\0{peer}".encode("utf-8", "surrogatepass")).hexdigest()[:32]


def read(path):
    """What was kept, by mark: how many, until when it is closed, and when the last one was; and what is wrong with the
    file."""
    try:
        with open(os.open(path, os.O_RDONLY | os.O_NOFOLLOW | os.O_NONBLOCK | os.O_CLOEXEC), "rb") as file:
            held = json.loads(file.read(MOST_BYTES))
        found = {str(mark): (int(count), float(until), float(last)) for mark, (count, until, last) in held.items()}
        return dict(list(found.items())[:MOST]), ""
    except FileNotFoundError:
        return {}, ""
    except (OSError, ValueError, AttributeError, TypeError) as why:
        return {}, f"{path}: {why.__class__.__name__}: counts of wrong passwords begin anew"


class Guesses:
    """The wrong passwords of all accounts. Without a longest delay nothing is counted."""

    def __init__(self, store, longest):
        self.path, self.longest, self.writing, self.again = store + ENDING, longest, None, False
        self.held, self.fault = read(self.path) if longest else ({}, "")

    def closed(self, account, peer, now=None):
        """Whether an account is closed to a peer."""
        now = time.time() if now is None else now
        return any(now < self.held.get(mark_of(account, who), (0, 0.0, 0.0))[1] for who in (peer, EVERYBODY))

    def wrong(self, account, peer, now=None):
        """One wrong password more."""
        if not self.longest:
            return
        now = time.time() if now is None else now
        for who, free in ((peer, FREE), (EVERYBODY, FREE_OF_ALL)):
            mark = mark_of(account, who)
            count, _, last = self.held.pop(mark, (0, 0.0, now))
            count = 1 if now - last > QUIET else count + 1
            closes = min(FIRST * 2 ** min(count - free - 1, 40), self.longest) if count > free else 0.0
            self.held[mark] = count, now + closes, now
        self.held = {mark: told for mark, told in self.held.items() if now - told[2] <= QUIET}
        while len(self.held) > MOST:
            del self.held[next(iter(self.held))]
        self.keep()

    def right(self, account, peer):
        """The password was right: what the peer tried before is forgotten."""
        if self.held.pop(mark_of(account, peer), None):
            self.keep()

    def keep(self):
        """Writes it, beside all else; what is counted meanwhile is written after."""
        if self.writing is not None:
            self.again = True
            return
        data = json.dumps(self.held).encode()
        self.writing = asyncio.get_running_loop().run_in_executor(None, files.write, self.path, data)
        self.writing.add_done_callback(self.written)

    def written(self, done):
        self.writing = None
        self.fault = str(done.exception()) if not done.cancelled() and done.exception() else ""
        if self.again and not done.cancelled():
            self.again = False
            self.keep()

    async def close(self):
        """Waits until all is written."""
        while self.writing is not None:
            await asyncio.wait({self.writing})
            await asyncio.sleep(0)
