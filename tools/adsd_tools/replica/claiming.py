"""The claim of a replica to the place behind the log's head, where others were faster too often.

Some changes are judged by what the replica reads before (that a login isn't taken), and have to stand directly behind
the last entry that it has taken. Whoever is overtaken with one puts the key `claim` in etcd, in a transaction that
reads the head too. While the key stands nobody else puts anything: each transaction wants that there is none, or the
own one, which goes with the entry that is put. So the change is judged by a head that stays.

A claim goes with the lease of the replica that has it; and one that others see for too long they remove."""

import asyncio
import os
import time

from .etcd import Away, Denied
from .lane import Lane
from .roster import absent, gone

# So often it is looked whether another one's claim stands still, in seconds, and after so long it is removed.
LOOK, STALE = 0.01, 3.0


class Claims:
    """What one replica knows of claims. `lease` gives the number of its lease, or None."""

    def __init__(self, log, name, lease):
        self.lane, self.name, self.lease, self.own, self.seen = Lane(log), name, lease, None, (None, 0.0)

    def more(self, asked, puts):
        """What has to be so where an entry is put, and what is done besides."""
        key = self.lane.log.key(b"claim")
        if self.own is None:
            return [*asked, absent(key)], puts
        return [*asked, self.lane.log.is_value(key, self.own)], [*puts, gone(key)]

    async def claim(self):
        """Claims the place behind the head, once nobody else does; the head, or None where there is no lease."""
        own = self.name + b" " + os.urandom(8).hex().encode()
        while True:
            lease = self.lease()
            if lease is None:
                return None
            head = await self.lane.call(lambda log: log.claim(own, lease))
            if head is not None:
                self.own = own
                return head
            await self.wait()

    async def wait(self):
        """Waits a little for the end of another one's claim, or removes it where it has stood for too long."""
        found = await self.lane.call(lambda log: log.claimed())
        if found is None:
            return
        if found != self.seen[0]:
            self.seen = found, time.monotonic()
        if time.monotonic() - self.seen[1] >= STALE:
            await self.lane.call(lambda log: log.unclaim(found))
        else:
            await asyncio.sleep(LOOK)

    async def end(self):
        """Gives the own claim up, where nothing was put by it."""
        own, self.own = self.own, None
        if own is not None:
            try:
                await self.lane.call(lambda log: log.unclaim(own))
            except (Away, Denied):
                pass  # (others remove it)

    def close(self):
        self.lane.close()
