"""Whether all replicas hold the same rows, while they run: each tells its running hash (digests.py) as it goes, and,
where it is asked, a sum of its rows as its store has them at one entry. Each looks at what the others tell.

Which entry that is stands in etcd under a mark that whoever asks has drawn: an operator, or the keeper now and then. A
replica cuts what its store was then, as for a copy, and sums the rows of that."""

import asyncio
import hashlib
import time

from adsd_tools.rows import store as rows
from adsd_tools.shown import text_of

from .copying import cut_to, removed
from .digests import is_of_one_entry, judged, sum_of, told
from .etcd import Away, Denied
from .lane import Lane
from .slots import Unfit

SUFFIX = ".sum"
LOOK = 2.0
# So many sums are kept in mind; and so long a replica that was seen to run counts, in seconds.
KEPT, RUNS = 100, 60.0
# So long the keeper waits for what the others tell, where it asks by itself, in seconds.
LONG = 60


class At:
    """A place in a store's life, as `cut_to` takes it."""

    def __init__(self, generation, records):
        self.generation, self.records = generation, records


class Sums:
    """What one replica tells, and makes of what others tell: Differs where it has something else than most."""

    def __init__(self, log, applying, listing, every, is_keeper, say):
        self.listing = listing
        self.lane, self.applying, self.said, self.every = Lane(log), applying, set(), every
        self.is_keeper, self.say, self.beside, self.named = is_keeper, say, Lane(log), set()
        # The last sums that were made here, of the file and of the program, by the numbers of the entries; and when
        # each replica was seen to run.
        self.sums, self.listed, self.seen = {}, {}, {}

    async def work(self):
        while True:
            try:
                await self.turn()
            except (Away, Denied):
                pass
            await asyncio.sleep(LOOK)

    async def checks(self):
        """As the keeper asks all for their sums now and then, also where nothing is put."""
        while self.every:
            await asyncio.sleep(self.every)
            try:
                if self.is_keeper():
                    await self.beside.call(lambda log: compared(log, LONG))
            except (Away, Denied):
                pass

    async def turn(self):
        """Tells the sums that are asked for, of entries that the store has taken, and looks at what others told."""
        asked, _ = await self.lane.call(lambda log: log.asked_sums())
        self.said &= set(asked)
        for mark, number in asked.items():
            if mark not in self.said and number <= self.applying.number():
                self.said.add(mark)
                made = await self.lane.call(lambda log: self.made(number))
                await self.lane.call(lambda log: log.tell_sum(mark, self.own(), made.encode()))
                await self.leaves(b"sum/", number, self.sums)
                await self.lists(number)
        now = time.monotonic()
        self.seen.update((name, now) for name in await self.lane.call(lambda log: log.alive()))
        for what, kind, known in (("the running hash", b"state/", self.applying.digests.known),
                                  ("the sum of the rows", b"sum/", self.sums),
                                  ("what the program lists", b"listed/", self.listed)):
            self.look(what, known, await self.lane.call(lambda log: log.last(kind)))

    async def lists(self, number):
        """Tells what the program lists after an entry, where it stands there still."""
        found = await self.listing.sum_at(number)
        if found is not None:
            self.listed[number] = told(self.applying.digests.ids[number], found)
            await self.leaves(b"listed/", number, self.listed)

    async def leaves(self, kind, number, known):
        """Leaves for the others what is known here after an entry."""
        if number in known:
            await self.lane.call(lambda log: log.tell_last(kind, self.own(), number, known[number]))

    def own(self):
        return self.applying.position.name.encode()

    def look(self, what, known, others):
        """Looks at what others told, after entries of which it is known here. Who runs and isn't at such an entry just
        now counts as one that may be alike."""
        others = {name: (number, value) for name, (number, value) in others.items()
                  if name != self.own() and number in known and is_of_one_entry(value, known[number])}
        alike = {text_of(name): value == known[number] for name, (number, value) in others.items()}
        least = min((number for number, value in others.values() if value != known[number]), default=0)
        run = {name for name, since in self.seen.items() if time.monotonic() - since < RUNS}
        count = len({self.own(), *others, *run})
        for name in set(judged(f"{what} after entry {least}", alike, count)) - self.named:
            self.named.add(name)
            self.say(f"warning: {what} after entry {least} is another one at replica {name}, and most have this one's")

    def made(self, number):
        """The number of an entry and the sum of the rows behind it, or why there is none."""
        place, store = self.applying.places.get(number), self.applying.slots.store
        if place is None:
            return f"{number} - this replica doesn't know any more where its store was then"
        copy = store + SUFFIX
        try:
            removed(copy)
            cut_to(store, copy, At(*place))
            made = sum_of(rows.table(copy))
            self.sums[number] = told(self.applying.digests.ids[number], made)
            for some in (self.sums, self.listed):
                some.pop(min(some) if len(some) > KEPT else None, None)
            return f"{number} {made}"
        except (OSError, rows.Broken, Unfit) as why:
            return f"{number} - {why}"
        finally:
            removed(copy)

    def close(self):
        self.lane.close()
        self.beside.close()


def compared(log, seconds):
    """The number of the entry at which all replicas that run were asked, and what each told: None where it told
    nothing in time."""
    mark = hashlib.sha256(f"{time.time_ns()} {log.own!r}".encode()).hexdigest()[:16].encode()
    names = set(log.alive())
    while not log.ask_sums(mark, log.head_line()):
        pass
    try:
        end, told = time.monotonic() + seconds, {}
        while time.monotonic() < end and set(told) != names:
            time.sleep(0.2)
            told = {name: value for (one, name), value in log.asked_sums()[1].items() if one == mark}
        return {name: told.get(name) for name in names}
    finally:
        log.forget_sums(mark)
