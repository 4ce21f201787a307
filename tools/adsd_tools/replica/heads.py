"""The log's head, and how old it is what the replica's store has."""

import asyncio
import time
from collections import deque

from adsd_tools.ldap.turns import refuse

from .lane import Lane
from .ordered import Other, Parted

# So many questions whose head isn't reached yet are kept in mind.
MOST = 1000


class Heads:
    """The log's head, as of a question: who asks while one is under way waits for the next one. `known` is the last
    entry that the log is known to have behind those that were taken here."""

    def __init__(self, log, at, say, ends, age=0.0):
        self.lane, self.asked, self.running, self.known = Lane(log), None, None, at
        self.say, self.ends, self.is_away = say, ends, False
        # When the head was asked for, and which entry it was; and the last such moment whose head was reached.
        self.times, self.level, self.numbers = deque(maxlen=MOST), time.monotonic() - age, at.number

    def seen(self, head):
        """An entry is in the log, behind those that were taken here."""
        if head.number > self.known.number:
            self.known = head
        self.answers()

    def answers(self):
        if self.is_away:
            self.is_away = False
            self.say("the log answers again")

    def missed(self, why):
        """The log didn't answer. It is said once, until it answers again."""
        if not self.is_away:
            self.is_away = True
            self.say(f"the log doesn't answer: {why}")

    def age(self, number):
        """How old it is at most, in seconds, what a store has that stands at an entry."""
        while self.times and self.times[0][1] <= number:
            self.level = self.times.popleft()[0]
        return time.monotonic() - self.level

    async def now(self):
        """The last entry; Away where no member tells it, Other where the log isn't the one that was taken here."""
        if self.asked is None:
            self.asked = asyncio.get_running_loop().create_future()
            if self.running is None or self.running.done():
                self.running = asyncio.ensure_future(self.work())
        return await asyncio.shield(self.asked)

    async def work(self):
        while self.asked is not None:
            # Whoever asks from here on isn't helped by this answer.
            asked, self.asked = self.asked, None
            try:
                known, at = self.known, time.monotonic()
                head = await self.lane.call(lambda log: log.head())
                self.answers()
                if head.number <= known.number and head != known:
                    raise Parted(f"the log ends at {head.told()}, and the replica knows {known.told()}")
                self.times.append((at, head.number))
                self.numbers = max(self.numbers, head.number)
                if not asked.done():
                    asked.set_result(head)
            except Exception as fault:
                if isinstance(fault, Other):
                    self.ends(fault)
                else:
                    self.missed(fault)
                if not asked.done():
                    asked.set_exception(fault)
                    asked.exception()

    def refuse(self):
        """Nobody waits any more."""
        if self.asked is not None:
            asked, self.asked = self.asked, None
            refuse(asked)

    def close(self):
        self.lane.close()
