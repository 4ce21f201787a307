"""What a directory needs besides clients' requests: steps of propagation and protection runs, put by whoever holds a
lease of etcd; and that the log doesn't grow without end."""

import asyncio
import struct
import time

from adsd_tools.ldap.program import STEPS

from . import entries
from .appending import NotPut
from .cutting import Cutter
from .etcd import Away, Denied
from .lane import Lane
from .ordered import Other

# A lease lasts so long where nobody renews it, in seconds, and is renewed so often.
LEASE, BEAT = 5, 1.5
# While clients change something, steps are put so often at most; so often a replica tells how far it is, and says that
# it is there where nothing is new.
PACE, REPORT, STILL = 0.2, 2.0, 20.0


class Keeper:
    """One replica's part in it. Each knows by the answers what is pending; the one with the lease acts."""

    def __init__(self, log, applying, appender, options, say, room):
        self.lane, self.applying, self.appender, self.options = Lane(log), applying, appender, options
        self.lease, self.holds, self.say, self.renewed = None, asyncio.Event(), say, 0.0
        self.pending, self.dirty, self.leaves = True, asyncio.Event(), False
        self.dirty.set()
        self.next_run, self.reported, self.room = None, (-1, 0.0), room
        self.cutter = Cutter(log, applying, options, room, say)
        room.is_keeper = self.is_keeper
        applying.tells.append(self.applied)

    def applied(self, entry, reply, changed):
        """Notes whether steps may be pending."""
        kind = entry.frames[-1][0] if entry.frames else None
        if kind == STEPS and reply:
            self.pending = struct.unpack(">II", reply)[1] > 0
        elif changed or (kind == STEPS and reply is None):
            self.pending = True
        if self.pending:
            self.dirty.set()
        else:
            self.dirty.clear()

    def is_keeper(self):
        return self.holds.is_set() and time.monotonic() - self.renewed < LEASE

    # ---- the lease

    async def hold(self):
        """Takes the lease where nobody has it, and renews it."""
        while not self.leaves:
            try:
                await self.held()
            except (Away, Denied):
                pass
            if self.lease is None or time.monotonic() - self.renewed >= LEASE:
                self.lose()
            await asyncio.sleep(BEAT)

    async def held(self):
        asked = time.monotonic()
        if self.lease is not None:
            if not await self.lane.call(lambda log: log.renew(self.lease) and log.keeper() == self.own()):
                self.lose()
                return
            self.renewed = asked
            return
        if await self.lane.call(lambda log: log.keeper()) is not None:
            return
        lease = await self.lane.call(lambda log: log.lease(LEASE))
        if not self.leaves and await self.lane.call(lambda log: log.keep(self.own(), lease)):
            self.lease, self.renewed = lease, asked
            self.next_run = time.monotonic() + self.options.run_every if self.options.run_every else None
            self.say("keeps the directory: puts steps and runs")
            self.cutter.begins()
            self.holds.set()
        else:
            await self.lane.call(lambda log: log.revoke(lease))

    def own(self):
        return self.applying.position.name.encode()

    def lose(self):
        if self.holds.is_set():
            self.say("keeps the directory no longer")
        self.lease = None
        self.holds.clear()

    async def hand_on(self):
        """Gives the lease back for good, so that another replica takes it."""
        self.leaves, lease = True, self.lease
        self.lose()
        if lease is not None:
            try:
                await asyncio.wait_for(self.lane.call(lambda log: log.revoke(lease)), 1)
            except (Away, Denied, asyncio.TimeoutError):
                pass

    # ---- steps and runs

    async def steps(self):
        """Puts steps while some may be pending."""
        while self.options.steps:
            await self.holds.wait()
            await self.dirty.wait()
            if self.is_keeper() and self.pending:
                made = await self.put(entries.of_steps(self.options.steps))
                if made and struct.unpack(">II", made)[1]:
                    continue
            await asyncio.sleep(PACE)

    async def runs(self):
        """Puts a protection run now and then."""
        while self.options.run_every:
            await self.holds.wait()
            await asyncio.sleep(min(1.0, self.options.run_every))
            if self.is_keeper() and time.monotonic() >= self.next_run:
                self.next_run = time.monotonic() + self.options.run_every
                await self.put(entries.of_run())

    async def put(self, data):
        """The answer to an entry; None where there is none."""
        if self.room.full():
            return None
        try:
            return await self.appender.put(data)
        except NotPut:
            return None

    # ---- the log's length

    async def report(self):
        """Tells how far the replica is, and as the keeper removes what all have taken."""
        while True:
            more = False
            try:
                await self.told()
            except (Away, Denied):
                pass  # (a full etcd takes nothing that is told, and is to be cut all the more)
            try:
                if self.is_keeper() or await self.room.is_forsaken():
                    more = await self.cutter.work()
            except (Away, Denied):
                pass
            await asyncio.sleep(PACE if more else REPORT)

    async def told(self):
        number, now = self.applying.noted(), time.monotonic()
        if number != self.reported[0] or now - self.reported[1] >= STILL:
            state = self.applying.digests.known.get(number)
            await self.lane.call(lambda log: log.register(self.own(), number, state))
            self.reported = number, now

    def tasks(self):
        return [asyncio.ensure_future(one) for one in (self.hold(), self.steps(), self.runs(), self.report())]

    async def close(self):
        """Gives the lease back, so that another one takes it at once."""
        try:
            await asyncio.wait_for(self.told(), 1)
        except (Away, Denied, Other, asyncio.TimeoutError):
            pass
        await self.hand_on()
        self.lane.close()
        self.cutter.close()
