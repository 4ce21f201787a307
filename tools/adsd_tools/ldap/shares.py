"""How the program's time is shared: among accounts, and of each account among its connections.

Each has what it was given so far, in seconds. Whoever had least is next, so a frame that took long costs its sender the
place, and who asks little waits for the frame in work alone. Who was away saves up no more than a moment."""

import contextvars

# A frame costs so much at least, in seconds, so that those who ask the same take turns.
LEAST = 0.00005
# So much at most is saved up by who asks for nothing, in seconds.
SAVED = 0.25
# So many accounts are remembered before those are forgotten that owe nothing.
MOST = 4096
# Who pays for what is asked of the program: of each client's task the client.
PAYER = contextvars.ContextVar("payer", default=None)


class Share:
    """What somebody was given, where those stand who share in it, and how many of its frames wait."""

    __slots__ = ("given", "now", "waiting")

    def __init__(self):
        self.given, self.now, self.waiting = 0.0, 0.0, 0

    def begins(self, now):
        """One frame more waits. What wasn't used long before is gone."""
        if not self.waiting:
            self.given = max(self.given, now - SAVED)
        self.waiting += 1


class Payer:
    """A connection of an account."""

    __slots__ = ("account", "own")

    def __init__(self, account):
        self.account, self.own = account, Share()

    def place(self):
        return self.account.given, self.own.given


class Shares:
    """The shares of all."""

    def __init__(self):
        self.accounts, self.now, self.bridge = {}, 0.0, Payer(Share())

    def account(self, key):
        """The share of an account."""
        if key not in self.accounts:
            if len(self.accounts) >= MOST:
                self.accounts = {name: one for name, one in self.accounts.items()
                                 if one.waiting or one.given > self.now}
            self.accounts[key] = Share()
        return self.accounts[key]

    def begins(self, payer):
        """A frame of somebody waits."""
        payer.account.begins(self.now)
        payer.own.begins(payer.account.now)

    def served(self, payer):
        """It is somebody's turn."""
        self.now = max(self.now, payer.account.given)
        payer.account.now = max(payer.account.now, payer.own.given)

    def ends(self, payer, seconds):
        """A frame has its answer, after so many seconds."""
        for share in (payer.account, payer.own):
            share.waiting -= 1
            share.given += max(seconds, LEAST)

    def rest(self, payer):
        """Nobody waits: whoever had the last turn owes nothing."""
        self.now, payer.account.now = max(self.now, payer.account.given), max(payer.account.now, payer.own.given)


def charge(seconds):
    """Charges who asks for work beside the program."""
    payer = PAYER.get()
    if payer is not None:
        payer.account.given += seconds
        payer.own.given += seconds
