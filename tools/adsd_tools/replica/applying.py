"""Gives the entries of the log to the program, one after the other, and notes where the replica stands.

It stands in the place of a bridge's upkeep (ldap/upkeep.py): an entry has its turn once the position after the one
before is noted. Meanwhile clients' frames have theirs."""

import asyncio
import time
from collections import deque
from concurrent.futures import ThreadPoolExecutor

from adsd_tools.ldap.program import DROP, MESSAGE, TOKEN, Ended
from adsd_tools.ldap.turns import refuse

from . import replay
from .answers import Answer
from .digests import Digests
from .entries import is_named
from .noting import Noting
from .position import taken
from .slots import Unfit

# The connection at the program that entries have; clients have those below.
CONNECTION = 1023
# As many entries, and as many bytes, wait here before no more are taken.
MOST, MOST_BYTES = 1000, 16 << 20
# What the program ends with where a frame isn't one, and of so many entries it is kept in mind where they stand.
NO_FRAME, LAST = 1, 20_000


class Spoilt(Ended):
    """The store isn't what the log makes of it, or where it stands can't be noted: nothing more is done with it."""

    def __init__(self, why):
        super().__init__(0, why)

    def __str__(self):
        return self.said


class Unsuited(Ended):
    """An entry whose frames the program doesn't take, whatever the directory is."""

    def __init__(self, entry):
        super().__init__(NO_FRAME, f"entry {entry.number} has a frame that the program doesn't take")
        self.entry = entry


def size_of(entry):
    return sum(len(body) for _, body in entry.frames)


class Applying:
    """The entries that wait for the program, and the position."""

    def __init__(self):
        self.slots, self.positions, self.position, self.place = None, None, None, None
        # How many changes the store has taken since its position, before a crash; and what looks which entries these
        # were, with what it has found.
        self.ahead, self.program, self.again, self.redone = 0, None, None, []
        self.queue, self.bytes, self.room, self.news = deque(), 0, None, None
        self.lane, self.noting = ThreadPoolExecutor(1), None
        # Who waits until an entry is answered, by rising numbers; and who is told of each entry with its answer.
        self.waiting, self.tells = deque(), []
        # What named requests were answered; where the last entries left the store, by their numbers; when entries came
        # that wait; and what is asked of an entry that the program doesn't take.
        self.answers, self.places, self.came, self.may_skip = None, {}, deque(), None
        self.digests = Digests()

    def open(self, slots, positions, answers, news, program):
        """Finds out where the store stands, which the program has opened and synced by now."""
        self.slots, self.positions, self.news, self.room = slots, positions, news, asyncio.Event()
        self.program, self.answers = program, answers
        self.position, self.place = positions.read(), slots.look()
        if self.position is None:
            raise Unfit(f"{slots.store} isn't a replica's store: {positions.path} isn't there")
        self.ahead = slots.since(self.position.generation, self.position.records)
        answers.open(self.position.entry)
        positions.open()
        self.noting = Noting(positions, answers, self.position, news)
        self.places = {self.position.entry: (self.position.generation, self.position.records)}
        self.digests.add(self.position.entry, self.position.id, self.position.digest)
        self.room.set()

    def number(self):
        """The number of the last entry that was answered."""
        return self.position.entry

    def noted(self):
        """The number of the last entry after which the position is on the disk, whatever comes."""
        return self.noting.synced.entry

    async def took(self, some):
        """How many of the next entries were taken before a crash; None where the changes that the store has taken
        aren't theirs. Nothing is noted of them before it is known of all."""
        loop = asyncio.get_running_loop()
        if self.again is None:
            given = self.program, self.slots.store, self.position, self.ahead
            self.again = await loop.run_in_executor(self.lane, replay.Replay, *given)
        made = await loop.run_in_executor(self.lane, self.again.take, some)
        self.redone += made or ()
        if made is not None and self.again.left:
            return len(made)
        if made is not None:
            self.ahead, last = 0, self.redone[-1]
            for one in self.redone:
                self.note(one.entry, one.reply, one.changed, self.place if one is last else one.place, one.body)
        await self.forgotten()
        return None if made is None else len(made)

    def lacking(self):
        """How many of the changes that the store has taken aren't known yet."""
        return self.again.left if self.again is not None else self.ahead

    async def forgotten(self):
        """Removes what looked which entries were taken."""
        again, self.again, self.redone = self.again, None, []
        if again is not None:
            await asyncio.get_running_loop().run_in_executor(self.lane, again.close)

    # ---- as an upkeep

    def is_due(self):
        return bool(self.noting.fault) or (bool(self.queue) and not self.noting.must_wait())

    presses = is_due

    def seconds_left(self):
        return None

    def changed(self):
        """Whatever changes something is an entry."""

    async def turn(self, program):
        """One entry; whether it changed the directory."""
        if self.noting.fault:
            raise Spoilt(self.noting.fault)
        entry = self.pulled()
        try:
            reply, changed = await self.done(program, entry)
            body = self.slots.body() if changed else b""
        except (Unfit, OSError) as why:
            raise Spoilt(f"{self.slots.store}: {why}") from None
        self.note(entry, reply, changed, self.place, body)
        return changed

    async def done(self, program, entry):
        """The program's answer to an entry, and whether it changed the directory."""
        self.look(0)
        try:
            reply = await self.given(program, entry)
        except Ended as why:
            if why.status != NO_FRAME:
                raise
            if not await self.may_skip(entry):
                raise Unsuited(entry) from None
            await program.anew()
            reply = b""
        return reply, self.look(1)

    def note(self, entry, reply, changed, place, body):
        """Notes where an entry left the store, and tells what it was answered."""
        self.position = self.position.behind(entry, place, body)
        self.places[entry.number] = self.position.generation, self.position.records
        self.places.pop(entry.number - LAST, None)
        self.digests.add(self.position.entry, self.position.id, self.position.digest)
        made = None
        if is_named(entry.request) and reply and entry.frames:
            made = Answer(entry.number, entry.request, reply)
            self.answers.note(made)
        self.noting.note(self.position, made, size_of(entry))
        self.tell(entry, reply, changed)

    def look(self, most):
        """Whether the store has taken a change since the last look, of so many that it may have."""
        before, self.place = self.place, self.slots.look()
        found = taken(before, self.place)
        if found > most:
            raise Unfit("the store was changed by something that isn't in the log")
        return found > 0

    async def given(self, program, entry):
        """The program's answer to the last frame of an entry; nothing where it is passed over."""
        if not entry.frames:
            return b""
        held = program.tokens.get(CONNECTION, b"")
        frames = dict(entry.frames)
        wanted = frames.pop(TOKEN, b"")
        if MESSAGE in frames and wanted != held:
            await program.ask(*((TOKEN, CONNECTION, wanted) if wanted else (MESSAGE, CONNECTION, DROP)))
        ((kind, body),) = frames.items()
        return await program.ask(kind, CONNECTION, body)

    # ---- the queue

    def push(self, entry):
        """Takes an entry, the one after the last that was taken."""
        self.queue.append(entry)
        self.came.append(time.monotonic())
        self.bytes += size_of(entry)
        if len(self.queue) >= MOST or self.bytes >= MOST_BYTES:
            self.room.clear()
        self.news.set()

    def pulled(self):
        entry = self.queue.popleft()
        self.came.popleft()
        self.bytes -= size_of(entry)
        if len(self.queue) < MOST // 2 and self.bytes < MOST_BYTES // 2:
            self.room.set()
        return entry

    # ---- after an answer

    def tell(self, entry, reply, changed):
        for one in self.tells:
            one(entry, reply, changed)
        while self.waiting and self.waiting[0][0] <= entry.number:
            done = self.waiting.popleft()[1]
            if not done.done():
                done.set_result(None)

    def refuse(self):
        """Nobody waits any more."""
        while self.waiting:
            refuse(self.waiting.popleft()[1])

    async def reaches(self, number):
        """Waits until the entry of a number has been answered. Who comes later may not ask for less."""
        if self.number() < number:
            done = asyncio.get_running_loop().create_future()
            self.waiting.append((number, done))
            await done

    async def close(self):
        """Waits until the position is synced."""
        if self.noting is not None:
            await self.noting.close()
        await self.forgotten()
        self.lane.shutdown()
        if self.slots:
            self.slots.close()

    def delay(self):
        """For how long the entry whose turn is next has been here, in seconds."""
        return time.monotonic() - self.came[0] if self.came else 0.0
