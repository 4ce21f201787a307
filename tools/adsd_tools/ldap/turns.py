"""Whose frame is next (docs/clients.md#turns), and upkeep while none waits.

One frame is asked at a time, since the program answers one after the other. Whoever had least of its time is next
(shares.py). A change is judged by several frames before it is asked; meanwhile no other change is, nor upkeep, but
others read on."""

import asyncio
import contextlib
import time
from dataclasses import dataclass, field
from typing import Any

from . import messages
from .disk import Disk
from .program import MESSAGE, Ended
from .searches import Refused
from .shares import PAYER, Payer, Shares

# A frame that is nobody's change is asked again where the program ended within it, so often in all.
TRIES = 2
# So often the program may end within so many seconds before that is the bridge's end.
MOST_ENDS, WITHIN = 5, 60.0
LOST = "the program ended within this request: whether it was done isn't known"
FULL = "the store can't be written just now: nothing was changed"


class Stopped(Exception):
    """The bridge is stopping, or the program ended: nothing more is asked."""


@dataclass(eq=False)
class Waiting:
    """A frame that waits for its turn, or a change that waits until it alone may change something."""

    payer: Payer
    arrival: int
    connection: int
    answer: Any
    frame: tuple = ()
    changes: bool = False
    tries: int = field(default=0)

    def place(self):
        return (*self.payer.place(), self.arrival)


class Turns:
    """The frames that wait for the program. A client that goes meanwhile leaves its frame, and only the answer is
    lost. `revives` says that a program which ended by itself is started again, `say` what is said of that."""

    def __init__(self, program, upkeep, revives=False, say=None, clock=time.monotonic):
        self.program, self.upkeep, self.revives, self.say = program, upkeep, revives, say or (lambda _: None)
        self.waiting, self.holders, self.news, self.closed = [], [], asyncio.Event(), False
        self.shares, self.arrivals, self.ends = Shares(), 0, []
        self.disk, self.clock = Disk(program.words[-1]) if revives else None, clock
        # How often the directory may have changed; and who alone may change it, where somebody is judging a change.
        self.changes, self.alone = 0, None

    def payer(self, key):
        """Who pays as a connection of some account."""
        return Payer(self.shares.account(key))

    def entered(self, kind, line, **told):
        """Something that waits from now on."""
        if self.closed:
            raise Stopped
        self.arrivals += 1
        one = Waiting(PAYER.get() or self.shares.bridge, self.arrivals, line,
                      asyncio.get_running_loop().create_future(), **told)
        kind.append(one)
        self.news.set()
        return one

    async def ask(self, kind, connection, body, changes=False):
        """The body of the answer; Stopped where there is none any more. What `changes` something is asked alone, and
        refused while the store can't be written; steps may be pending then."""
        if changes and self.disk is not None and self.disk.is_full():
            raise Refused(messages.BUSY, FULL)
        if changes and self.alone != connection:
            async with self.held(connection):
                return await self.asked((kind, connection, body), changes)
        return await self.asked((kind, connection, body), changes)

    async def unread(self, connection, body):
        """The answer to what isn't read as a message here. The program may read a change in it, so it is asked alone
        where changes are asked here; where they go another way, it is for `ask` to say what becomes of it."""
        return await self.ask(MESSAGE, connection, body, self.revives)

    async def asked(self, frame, changes):
        one = self.entered(self.waiting, frame[1], frame=frame, changes=changes)
        self.shares.begins(one.payer)
        return await one.answer

    @contextlib.asynccontextmanager
    async def held(self, connection):
        """Until the end nothing changes but by one connection: others' changes wait, and upkeep does."""
        one = self.entered(self.holders, connection)
        try:
            await one.answer
            yield
        finally:
            if one in self.holders:
                self.holders.remove(one)
            elif self.alone == connection:
                self.alone = None
            self.news.set()

    async def judged(self, connection, judge, send, exact):
        """The reply to a change: what `judge` makes of it is sent before anything else changes. `exact` says that what
        was read meanwhile has to be so still when the change is made."""
        async with self.held(connection):
            return await send(*await judge())

    async def fresh(self):
        """Waits until what is read is as new as it has to be; why it can't be, or nothing."""
        return ""

    def grant(self):
        """Lets the change whose turn it is be judged, where none is."""
        while self.holders and self.alone is None:
            one = min(self.holders, key=Waiting.place)
            self.holders.remove(one)
            if not one.answer.done():
                self.alone = one.connection
                one.answer.set_result(None)

    def next(self):
        """The frame whose turn it is among those that wait, or None."""
        if not self.waiting:
            return None
        found = min(self.waiting, key=Waiting.place)
        self.waiting.remove(found)
        return found

    def writes(self):
        """Whether upkeep may change something now."""
        return self.alone is None and not (self.disk is not None and self.disk.is_full())

    async def work(self):
        """Asks frame by frame until it is closed, or raises Ended where the program ends for good."""
        try:
            while not self.closed:
                try:
                    await self.turn()
                except Ended as why:
                    await self.revived(why)
        finally:
            self.close()
            for one in (*self.waiting, *self.holders):
                refuse(one.answer)
            self.waiting.clear()
            self.holders.clear()

    async def turn(self):
        """One frame, or the wait for one."""
        if self.writes() and self.upkeep.presses():
            return await self.keep_up()
        self.grant()
        one = self.next()
        if one:
            await self.request(one)
        elif self.writes() and self.upkeep.is_due():
            await self.keep_up()
        else:
            await self.idle()

    async def keep_up(self):
        try:
            self.changes += await self.upkeep.turn(self.program)
        except Ended as why:
            self.changes += 1
            if self.disk is not None:
                self.disk.failed(why.status)
            raise

    async def request(self, one):
        begun = self.clock()
        self.shares.served(one.payer)
        try:
            made = await self.program.ask(*one.frame)
        except Ended as why:
            self.shares.ends(one.payer, self.clock() - begun)
            self.lost(one, why)
            raise
        self.shares.ends(one.payer, self.clock() - begun)
        if one.changes:
            self.changes += 1
            self.upkeep.changed()
        if not one.answer.done():
            one.answer.set_result(made)
        if not self.waiting:
            self.shares.rest(one.payer)

    def lost(self, one, why):
        """What becomes of the frame within which the program ended: what changes nothing is asked again."""
        one.tries += 1
        if one.changes:
            self.changes += 1
            if self.disk is not None:
                self.disk.failed(why.status)
        if not self.revives or self.closed:
            refuse(one.answer)
        elif one.changes or one.tries >= TRIES:
            refuse(one.answer, Refused(messages.UNAVAILABLE, LOST))
        else:
            self.waiting.append(one)
            self.shares.begins(one.payer)

    async def revived(self, why):
        """Starts the program again, where it is to be; it raises what ended it where it doesn't come back."""
        now = time.monotonic()
        self.ends = [at for at in self.ends if now - at < WITHIN] + [now]
        if not self.revives or self.closed or len(self.ends) > MOST_ENDS:
            raise why
        self.say(f"{why}; what was answered stands, and it is started again")
        await self.program.revive()
        self.say(f"adsd serve is back after {time.monotonic() - now:.1f} seconds")

    async def idle(self):
        """Waits until there is something to do, or the program ends."""
        self.news.clear()
        news = asyncio.ensure_future(self.news.wait())
        left = self.upkeep.seconds_left() if self.alone is None else None
        if self.disk is not None:
            left = self.disk.left(left)
        await asyncio.wait({news, self.program.gone}, timeout=left, return_when=asyncio.FIRST_COMPLETED)
        news.cancel()
        if self.program.gone.done():
            raise await self.program.ended()

    def close(self):
        """Nothing more is asked behind the frame in work."""
        self.closed = True
        self.news.set()


def refuse(answer, why=None):
    if not answer.done():
        answer.set_exception(why or Stopped())
        answer.exception()  # It counts as seen, also where its client has gone.
