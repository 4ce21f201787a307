"""The appender over a log that loses answers, by a plain list in etcd's place: each entry stands there once, in
whatever way a try came to nothing, was made without an answer, or is made only when the next one comes; and what
somebody else put there that is no entry is passed over, and not taken for another log."""

import asyncio
import random

from adsd_tools.replica import appending, entries
from adsd_tools.replica.etcd import Away
from adsd_tools.replica.seal import PLAIN

CHANGES, CLIENTS = 400, 8
START = entries.beginning(b"a log")
NONE = b"what is no entry, and names none before it"


class Fickle:
    """A log that says now and then nothing of what was asked, and into which others put entries too."""

    own, keys = b"a log", PLAIN

    def __init__(self, draw):
        self.draw, self.held, self.late, self.tries, self.head = draw, [], [], 0, START

    def other(self):
        return self

    def made(self, head, data, then):
        """What etcd does: whether the head is the one that is known."""
        if self.head != head:
            behind = self.held[head.number] if head.number < len(self.held) else None
            return False, self.head, behind
        self.held += data
        self.head = then
        return True, then, None

    def put(self, head, data, then, more=((), ())):
        self.tries += 1
        for one in self.late:
            self.made(*one)
        self.late = []
        if self.draw.random() < 0.2:
            self.made(self.head, *entries.chained(self.head, [entries.of_message(b"", b"another one's")]))
        if self.draw.random() < 0.05:
            self.made(self.head, [NONE], entries.Head(self.head.number + 1, entries.id_of(NONE)))
        way = self.draw.choice(("made", "made", "made", "lost", "never", "late"))
        if way == "made":
            return self.made(head, data, then)
        if way == "lost":
            self.made(head, data, then)
        elif way == "late":
            self.late.append((head, data, then))
        raise Away("nothing is said")


class Taking:
    """A replica that takes what stands in the log, a little later."""

    def __init__(self, log, known):
        self.log, self.tells, self.at, self.known = log, [], 0, known

    async def work(self):
        while True:
            for data in self.log.held[self.at :]:
                self.at += 1
                self.known.seen(entries.Head(self.at, entries.id_of(data)))
                if data == NONE:
                    continue
                entry = entries.read(self.at, data)
                for one in self.tells:
                    one(entry, entry.frames[-1][1], True)
            await asyncio.sleep(0.001)


class Known:
    """The head as far as it is known."""

    def __init__(self):
        self.known = START

    def seen(self, head):
        self.known = max(self.known, head, key=lambda one: one.number)

    def missed(self, why):
        pass


async def run(draw):
    log, wrong = Fickle(draw), []
    known = Known()
    taking = Taking(log, known)
    appender = appending.Appender(log, taking, known, 60)
    tasks = [asyncio.ensure_future(one.work()) for one in (taking, appender)]

    async def client(number):
        for at in range(CHANGES // CLIENTS):
            body = b"%d-%d" % (number, at)
            behind = known.known.number if draw.random() < 0.2 else None
            try:
                answer = await appender.put(entries.of_message(b"", body), behind)
            except appending.Overtaken:
                answer = await appender.put(entries.of_message(b"", body))
            if answer != body:
                wrong.append(f"{body} was answered by {answer}")

    await asyncio.gather(*map(client, range(CLIENTS)))
    for one in tasks:
        one.cancel()
    appender.close()
    held = [data for data in log.held if data != NONE]
    wrong += [] if len(held) < len(log.held) else ["nothing was put that is no entry"]
    bodies = [entries.read(1, data).frames[-1][1] for data in held]
    for number in range(CLIENTS):
        own = [one for one in bodies if one.startswith(b"%d-" % number)]
        if own != [b"%d-%d" % (number, at) for at in range(CHANGES // CLIENTS)]:
            wrong.append(f"client {number}: {len(own)} entries, out of order or not each once")
    requests = [entries.read(1, data).request for data in held]
    wrong += ["an entry stands twice"] if len(set(requests)) < len(requests) else []
    befores = [START.id, *map(entries.id_of, log.held)]
    chain = [(data, before) for data, before in zip(log.held, befores) if data != NONE]
    return wrong + (["the chain is broken"] if any(entries.before_of(data) != before for data, before in chain) else [])


def tried(seed=46):
    appending.PAUSE = appending.PAUSED = 0.001
    return asyncio.run(run(random.Random(seed)))
