"""How many bytes of changes each user puts into the log: so many a minute, whatever the program answers to them."""

import time

MINUTE = 60.0
# So many users are kept in mind; those whose bytes have come back are forgotten.
MOST = 10_000


class Rates:
    """For each user the bytes that it may put just now. 0 is no bound."""

    def __init__(self, most):
        self.most, self.left = most, {}

    def over(self, user, size, now=None):
        """Why a user may not put so many bytes more now, or nothing; then they are counted."""
        if not self.most:
            return ""
        now = time.monotonic() if now is None else now
        left, since = self.left.pop(user, (self.most, now))
        left = min(self.most, left + (now - since) * self.most / MINUTE)
        # (one entry is taken whole by who has all that a minute gives)
        if size > left and left < self.most:
            self.left[user] = left, now
            wait = (min(size, self.most) - left) * MINUTE / self.most
            return (f"this user has changed {self.most} bytes a minute; in {wait:.0f} seconds more are taken; nothing "
                    "was changed")
        self.left[user] = left - size, now
        if len(self.left) > MOST:
            self.trim(now)
        return ""

    def trim(self, now):
        """Forgets whose bytes have come back, and else who came longest ago."""
        for user, (left, since) in list(self.left.items()):
            if left + (now - since) * self.most / MINUTE >= self.most:
                del self.left[user]
        while len(self.left) > MOST:
            del self.left[next(iter(self.left))]
