"""How long the log is: the keeper removes what all replicas have taken but for the newest bytes, in pieces, and forgets
replicas that have told nothing for long."""

import time
from collections import deque

from .etcd import Denied
from .lane import Lane
from .ordered import MANY
from .together import size_of

# Of so many entries the sizes are kept in mind. Etcd forgets what it had before as often as this, in seconds.
KNOWN, FORGETS = 200_000, 300.0
# The part of etcd's quota that the log keeps at most for nobody, and as much more has to be there before it is cut.
SHARE, TENTH = 0.25, 10
# So long the keeper has to have seen nothing of a replica by itself, in seconds, whatever the times say that were told.
SEEN = 300.0


class Cutter:
    """What the keeper does about the log's length."""

    def __init__(self, log, applying, options, room, say):
        self.lane, self.applying, self.options, self.room, self.say = Lane(log), applying, options, room, say
        self.sizes, self.last, self.forgot, self.seen = {}, deque(), 0.0, {}
        applying.tells.append(self.applied)

    def begins(self):
        """The replica keeps the directory from now on: what it has seen of others before doesn't count."""
        self.seen, self.forgot = {}, time.monotonic()

    def applied(self, entry, reply, changed):
        self.known(entry.number, size_of(entry))

    def known(self, number, size):
        self.sizes[number] = size
        self.last.append(number)
        if len(self.last) > KNOWN:
            self.sizes.pop(self.last.popleft(), None)

    async def work(self):
        """One piece of it; whether there is more to do at once."""
        return await self.lane.call(self.cut, self.applying.position.name.encode(), self.applying.noted())

    def cut(self, log, own, number):
        """The same, by the replica of this name, which has noted the entry of this number. It may not have told so: a
        full etcd takes nothing that is told."""
        self.forget(log)
        found, revision = log.replicas()
        part = log.read(0, 0)
        taken = min((max(at, number) if name == own else at for name, at in found.items()), default=0)
        wanted, below = self.wanted(log, part.first, taken), part.first
        if wanted > part.first:
            below = self.compacted(log, part.first, wanted, revision)
        if time.monotonic() - self.forgot >= FORGETS:
            self.forgot = time.monotonic()
            log.forgets(part.revision)
        return log.sweep(below)

    def compacted(self, log, first, wanted, revision):
        """Has the log begin at a later entry; where it begins then. An etcd that is full takes nothing that is put:
        what all have taken is removed nevertheless, and where the log begins is put once there is room."""
        try:
            return wanted if log.compact(wanted, revision) else first
        except Denied as why:
            if not why.is_full():
                raise
            return wanted

    def kept(self):
        """How many bytes are kept that all have taken: none where etcd is half full."""
        quota = min((one.quota for one in self.room.members), default=None)
        if self.room.is_half():
            return 0
        return self.options.keep if quota is None else min(self.options.keep, int(SHARE * quota))

    def wanted(self, log, first, taken):
        """The number of the first entry that is kept. The log is cut where a tenth more has come together."""
        keep = self.kept()
        if taken < first or (self.room.members and self.room.used() <= keep):
            return first
        at, size, begins = taken, 0, None
        while at >= first:
            size += self.size(log, at)
            if begins is None and size > keep:
                begins = at + 1
            if size >= keep + keep // TENTH and begins is not None:
                return begins
            at -= 1
        return first

    def size(self, log, number):
        """How many bytes an entry has; those that aren't known are read, some at once."""
        if number not in self.sizes:
            begin = max(1, number - MANY // 8 + 1)
            for place, data in log.read(begin, number - begin + 1).found:
                self.known(place, len(data))
            for place in range(begin, number + 1):
                self.sizes.setdefault(place, 0)  # (what was removed already)
        return self.sizes.get(number, 0)

    def forget(self, log):
        """Forgets replicas that have told nothing for long, by their own clocks and by what is seen here."""
        if not self.options.forget_after:
            return
        now, told = time.monotonic(), log.told()
        for name, (value, since) in list(self.seen.items()):
            if told.get(name) != value:
                del self.seen[name]
        for name, value in told.items():
            _, since = self.seen.setdefault(name, (value, now))
            after = self.options.forget_after
            if time.time() - value >= after and now - since >= min(after, SEEN):
                self.say(f"forgets replica {name.decode('ascii', 'replace')}, which has told nothing for {after} "
                         "seconds: the log is no longer kept for it, and it needs a new copy")
                log.forget(name)

    def close(self):
        self.lane.close()
