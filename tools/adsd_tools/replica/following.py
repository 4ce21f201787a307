"""Follows the log: what stands there is read, and then etcd tells of each new entry as it is put.

Each entry has to name the one that was taken before it, and is taken only where the entry after it, or the log's head,
names it too. So what was put in the place of another is noticed before it is taken. Now and then what the log keeps is
looked through again, also where nothing is put."""

import asyncio

from . import entries
from .etcd import LONGEST, PATIENCE, Away, Denied, Waits
from .lane import Lane
from .ordered import Other, Parted

# So long one waits where no member answers, the first time and at most, in seconds.
PAUSE, PAUSED = 0.25, 2.0
# So long one waits between two parts of the log that is looked through, so that it doesn't hold up others.
BETWEEN = 0.05
# The log's head is asked for so often, and where it isn't reached for so long, another member is followed.
LOOK, LATE = 2.0, 1.5


def changes(count):
    return "one change" if count == 1 else f"{count} changes"


class NotTaken(Other):
    """An entry that isn't taken here, whatever came before it."""

    def __init__(self, number, own, before, why):
        super().__init__(f"{why} (its id is {own.hex()}): nothing after it is taken; where no replica takes it, an "
                         f"operator lets all pass it over: adsd-replica skip {number}: docs/replicas.md, Entries that "
                         "aren't taken")
        self.number, self.own, self.before = number, own, before


class Follower:
    """Gives each entry after a number, in order, none twice, to `push`."""

    def __init__(self, log, applying, heads, every=3600):
        self.log, self.applying, self.heads, self.every = log, applying, heads, every
        # `at` is the last entry that was pushed.
        self.lane, self.at, self.open = Lane(log), applying.position.head(), None
        self.beside, self.patience, self.pause = Lane(log), Waits(PATIENCE, LONGEST), Waits(PAUSE, PAUSED)
        # Whether entries are being taken, so that own ones aren't; and the ids of own ones that weren't told yet.
        self.is_busy, self.untold = True, {}

    async def work(self):
        """Follows until it is cancelled; Other where the log doesn't go with the replica."""
        await self.same()
        while True:
            try:
                patience = self.patience.now
                part = await self.lane.call(lambda log: log.some(self.at.number + 1, patience))
                self.answered()
                await self.take(part)
                if self.at.number >= part.head.number:
                    await self.told(part.revision)
            except (Away, Denied, OSError) as why:
                await self.missed(why)

    def answered(self):
        self.patience.again()
        self.pause.again()

    async def missed(self, why):
        """Waits a while, each time longer, and asks the next member then, which is given more time."""
        self.heads.missed(why)
        self.lane.log.etcd.next()
        self.patience.grow()
        await asyncio.sleep(self.pause.grow())

    async def same(self):
        """Looks whether the log has the entry that the replica stands at, where it is still kept."""
        while True:
            try:
                part = await self.lane.call(lambda log: log.read(max(self.at.number, 1), 1, self.patience.now))
                self.answered()
                self.goes_on(part)
                held = [entries.id_of(data) for number, data in part.found if number == self.at.number]
                if held not in ([], [self.at.id]):
                    raise Parted(f"entry {self.at.number} of the log is {held[0].hex()}, and the replica has taken "
                                 f"{self.at.id.hex()}")
                return
            except (Away, Denied) as why:
                await self.missed(why)

    def goes_on(self, part):
        """Looks whether the log ends with what the replica has taken, or after it."""
        if part.head.number <= self.at.number and part.head != self.at:
            raise Parted(f"the log ends at {part.head.told()}, and the replica has taken {self.at.told()}")
        if part.head == self.at and self.applying.ahead:
            more = changes(self.applying.lacking())
            raise Parted(f"the log ends at {self.at.told()}, and the store has taken {more} more")

    async def take(self, part):
        """Takes what was read, as far as something names it."""
        self.goes_on(part)
        first = self.at.number + 1
        if part.head.number >= first and part.first > first:
            raise Other(f"the log begins at {part.first}, and the replica wants {first}: take a new copy")
        if part.head.number >= first and not part.found:
            raise Other(f"entry {first} isn't in the log, which ends at {part.head.told()}")
        await self.push(await self.joined(part.found, part.head))

    def entry(self, number, data, at, skips):
        """The entry of some bytes behind another one. One that isn't taken here is passed over where an operator has
        said so."""
        try:
            return entries.read(number, data, self.log.own, self.log.keys)
        except entries.Broken as why:
            own = entries.id_of(data)
            if (number, own, at.id) in skips:
                self.heads.say(f"entry {number} is passed over, as an operator has said: {why}")
                return entries.skipped(number, data)
            raise NotTaken(number, own, at.id, str(why)) from None

    async def joined(self, found, head):
        """The same, with what operators have said of entries that aren't taken here."""
        skips = set()
        while True:
            try:
                return self.chained(found, head, skips)
            except NotTaken as why:
                known = why.number, why.own, why.before
                if known in skips or not await self.beside.call(lambda log: log.is_skipped(*known)):
                    raise
                skips.add(known)

    def chained(self, found, head, skips=()):
        """The entries of these bytes behind the last that was taken, up to the head; without the last one where nothing
        names it yet."""
        made, at = [], self.at
        for number, data in found:
            if number > head.number:
                break
            if number != at.number + 1:
                raise Other(f"entry {number} stands after {at.number}")
            one = self.entry(number, data, at, skips)
            if one.frames and one.before != at.id:
                other = "the replica has taken" if at == self.at else "the log has before it"
                raise Parted(f"entry {number} of the log follows {one.before.hex()}, and {other} {at.told()}")
            made.append(one)
            at = entries.Head(number, one.id)
        if made and at.number == head.number and at != head:
            raise Parted(f"entry {at.number} of the log is {at.id.hex()}, and the log's head names {head.id.hex()}")
        if made and at.number < head.number:
            made.pop()
            if not made:
                raise Other(f"entry {at.number + 1} isn't in the log, which ends at {head.told()}")
        return made

    async def push(self, made):
        if made and self.applying.ahead:
            made = await self.behind_taken(made)
        for one in made:
            await self.applying.room.wait()
            self.applying.push(one)
            self.at = entries.Head(one.number, one.id)
            self.heads.seen(self.at)

    async def behind_taken(self, made):
        """The entries behind those that the store has taken before a crash."""
        found = self.applying.lacking(), self.at.told()
        count = await self.applying.took(made)
        if count is None:
            one = f"{made[0].number}, {made[0].id.hex()}"
            isnt = f"and it isn't entry {one}" if found[0] == 1 else f"and they aren't those from entry {one}, on"
            raise Parted(f"the store has taken {changes(found[0])} after {found[1]}, {isnt}")
        if count:
            self.at = entries.Head(made[count - 1].number, made[count - 1].id)
            self.heads.seen(self.at)
        return made[count:]

    # ---- news

    async def told(self, revision):
        """Takes each entry that is put from now on, until the connection ends."""
        loop = asyncio.get_running_loop()
        look = asyncio.ensure_future(self.look())
        self.is_busy = False
        try:
            await loop.run_in_executor(self.lane.pool, self.listen, revision + 1, loop)
            if look.done():
                look.result()
        finally:
            self.is_busy = True
            self.untold.clear()
            look.cancel()

    def listen(self, revision, loop):
        """Reads lines in the lane's thread, and has each taken before the next one is read."""
        self.open = opened = self.lane.log.watch(revision)
        try:
            for result in opened:
                # (a part of what one transaction put: it is read then, bounded in bytes)
                if result.get("canceled") or result.get("fragment"):
                    return
                events = [one["kv"] for one in result.get("events", ()) if one.get("type", "PUT") == "PUT"]
                new, head = self.lane.log.news(events)
                if new and not asyncio.run_coroutine_threadsafe(self.hear(new, head), loop).result():
                    return
        except (OSError, ValueError):
            return
        finally:
            self.open = None
            opened.close()

    async def hear(self, new, head):
        """Takes entries that were told, with the head that came with them; whether that was all."""
        new = [one for one in new if not self.is_known(*one)]
        if not new:
            return True
        if new[0][0] <= self.at.number:
            raise Parted(f"entry {new[0][0]} was put once more, and the replica stands at {self.at.told()}")
        if new[0][0] != self.at.number + 1 or head is None or head.number != new[-1][0]:
            return False
        self.is_busy = True
        try:
            await self.push(await self.joined(new, head))
        finally:
            self.is_busy = False
        return True

    def is_known(self, number, data):
        """Whether an entry that is told was taken already, since this replica has put it."""
        return number in self.untold and self.untold.pop(number) == entries.id_of(data)

    def own(self, head, data):
        """Takes entries at once that this replica has put behind a head, where that is what it has taken. What etcd
        tells of them comes later."""
        if self.is_busy or self.at != head or not self.applying.room.is_set():
            return
        own, keys = self.log.own, self.log.keys
        made = [entries.read(number, one, own, keys) for number, one in enumerate(data, head.number + 1)]
        for one in made:
            self.untold[one.number] = one.id
            self.applying.push(one)
        self.at = entries.Head(made[-1].number, made[-1].id)

    async def look(self):
        """Ends the connection where the log goes on and nothing is told of it."""
        while True:
            await asyncio.sleep(LOOK)
            try:
                head = await self.heads.now()
            except (Away, Denied):
                continue
            except Other:
                self.end()
                raise
            if head.number > self.at.number and self.applying.room.is_set():
                at = self.at
                await asyncio.sleep(LATE)
                if self.at == at:
                    self.end()

    def end(self):
        """Ends the connection that tells of news."""
        opened = self.open
        if opened is not None:
            self.lane.log.etcd.next()
            opened.shut()

    def close(self):
        self.end()
        self.lane.close()
        self.beside.close()

    # ---- what is kept

    async def checks(self):
        """Looks through the whole log now and then, whether something is put or not."""
        while self.every:
            await asyncio.sleep(self.every)
            try:
                await self.check()
            except (Away, Denied):
                pass

    async def check(self):
        """Looks whether each entry that is kept names the one before it, up to the one that was taken last here."""
        part = await self.beside.call(lambda log: log.read(0, 0))
        at, end = None, self.at
        number = max(part.first, await self.beside.call(lambda log: log.lowest()) or part.first)
        while number <= end.number:
            part = await self.beside.call(lambda log: log.some(number))
            if part.first > number or number < (await self.beside.call(lambda log: log.lowest()) or end.number):
                return  # It was cut meanwhile.
            for place, data in part.found:
                if place > end.number:
                    break
                own = entries.id_of(data)
                if place != number:
                    raise Other(f"entry {number} isn't in the log, which ends at {part.head.told()}")
                skip = at is not None and entries.before_of(data) != at
                if skip and not await self.beside.call(lambda log: log.is_skipped(place, own, at)):
                    raise Parted(f"entry {place} of the log follows {entries.before_of(data).hex()}, and the one "
                                 f"before it is {at.hex()}")
                at, number = own, number + 1
            if not part.found:
                raise Other(f"entry {number} isn't in the log, which ends at {part.head.told()}")
            await asyncio.sleep(BETWEEN)
        if at is not None and at != end.id:
            raise Parted(f"entry {end.number} of the log is {at.hex()}, and the replica has taken {end.id.hex()}")
