"""That a replica runs: a key of etcd under a lease that it renews. A second one of the same name, with another store,
is refused as long as the first one runs; the same store's takes the key of the one before at once."""

import asyncio
import hashlib
import os
import socket
import time

from .etcd import Away, Denied
from .lane import Lane
from .ordered import Other

# A lease lasts so long where nobody renews it, in seconds, and is renewed so often. So long another one's is waited for
# at a start: it may just have ended elsewhere.
LEASE, BEAT, WAITS = 5, 1.5, 8.0


class Twice(Other):
    """Another replica of the name runs."""

    def __init__(self, name, other):
        where = f"{other.get('host', '?')}, {other.get('store', '?')}"
        super().__init__(f"replica {name} runs already, at {where}: two stores would tell of themselves by one name; "
                         "end that one, or make this one's copy anew under a name of its own: adsd-replica copy")


def id_of(store):
    """What tells a store from another one: the machine, and the file."""
    try:
        with open("/etc/machine-id", encoding="ascii") as file:
            machine = file.read().strip()
    except OSError:
        machine = ""
    found = os.stat(store)
    told = f"{machine} {socket.gethostname()} {os.path.realpath(store)} {found.st_dev} {found.st_ino}"
    return hashlib.sha256(told.encode("utf-8", "surrogateescape")).hexdigest()[:32]


class Presence:
    """The lease of one replica."""

    def __init__(self, log, options, position, release):
        self.lane, self.lease, self.renewed, self.name = Lane(log), None, 0.0, position.name
        self.told = {"id": id_of(options.store), "host": socket.gethostname(), "pid": os.getpid(),
                     "store": os.path.realpath(options.store), "reads": options.reads,
                     "release": release.decode("ascii", "replace"), "since": int(time.time())}
        self.ends = False

    async def first(self):
        """Takes the name, where etcd answers; Twice where another one has it still after a while."""
        end = time.monotonic() + WAITS
        while True:
            try:
                return await self.beat()
            except Twice:
                if time.monotonic() >= end:
                    raise
            except (Away, Denied):
                return None
            await asyncio.sleep(0.5)

    async def work(self):
        """Renews the lease, until it is cancelled; Twice where another one has taken the name meanwhile."""
        while not self.ends:
            try:
                await self.beat()
            except (Away, Denied):
                pass
            await asyncio.sleep(BEAT)

    async def beat(self):
        """Renews the lease, or takes a new one."""
        asked = time.monotonic()
        if self.lease is not None:
            if await self.lane.call(lambda log: log.renew(self.lease)):
                self.renewed = asked
                return
            self.lease = None
        lease = await self.lane.call(lambda log: log.lease(LEASE))
        other = await self.lane.call(lambda log: log.appear(self.name.encode(), self.told, lease))
        if other is not None:
            await self.lane.call(lambda log: log.revoke(lease))
            raise Twice(self.name, other)
        self.lease, self.renewed = lease, asked

    async def close(self):
        """Gives the name back."""
        self.ends = True
        lease, self.lease = self.lease, None
        if lease is not None:
            try:
                await asyncio.wait_for(self.lane.call(lambda log: log.revoke(lease)), 1)
            except (Away, Denied, asyncio.TimeoutError):
                pass
        self.lane.close()
