"""Parts of adsd-replica that need neither etcd nor a program: bounds, the log's length, kept answers, keys, entries."""

import argparse
import asyncio
import os
import tempfile
import time

from replica_cases import same
from adsd_tools.ask.words import Wrong
from adsd_tools.replica import answers, cutting, entries, following, rates, room, seal
from adsd_tools.replica.etcd import NO_SPACE, Denied, Waits, decoded, encoded
from adsd_tools.replica.ordered import Ordered, line_of

OWN = b"the log"


def bounds():
    """A user's bytes come back in a minute; what is more than a minute gives is taken from who has all of it."""
    some, given = rates.Rates(600), ((500, 0), (200, 1), (100, 1), (700, 61), (1, 61), (1, 122))
    wrong = same([bool(some.over(b"u", size, now)) for size, now in given], [False, True, False, False, True, False])
    wrong += same(rates.Rates(0).over(b"u", 10**9, 0), "")
    waits = Waits(1, 5)
    wrong += same([waits.grow() for _ in range(4)], [1, 2, 4, 5])
    waits.again()
    return wrong + same(waits.now, 1)


class Told:
    """A log whose replicas have told something, and whose entries have a thousand bytes each."""

    def __init__(self):
        self.times, self.gone = {b"a": int(time.time()), b"b": int(time.time()) - 100}, []

    def told(self):
        return {name: value for name, value in self.times.items() if name not in self.gone}

    def forget(self, name):
        self.gone.append(name)


class Room:
    """Etcd's room as it is told to a cutter."""

    def __init__(self, used, quota, half=False):
        member = argparse.Namespace(quota=quota)
        self.members, self.used, self.is_half = [member], lambda: used, lambda: half


def cutter(room, **options):
    made = cutting.Cutter.__new__(cutting.Cutter)
    made.options = argparse.Namespace(**{"keep": 10_000, "forget_after": 50, **options})
    made.room, made.say, made.seen = room, lambda _: None, {}
    made.sizes = {number: 1000 for number in range(1, 101)}
    return made


def lengths():
    """How much of the log is kept, and who is forgotten."""
    wrong, log = [], Told()
    for room, keep, wanted in ((Room(50_000, 10**6), 10_000, 91), (Room(9_000, 10**6), 10_000, 1),
                               (Room(50_000, 20_000), 10_000, 96), (Room(50_000, 10**6, True), 10_000, 101),
                               (Room(50_000, 10**6), 0, 101), (Room(500_000, 10**6), 200_000, 1)):
        wrong += same(cutter(room, keep=keep).wanted(log, 1, 100), wanted)
    one, kept = cutter(Room(1, 1)), cutting.SEEN
    one.forget(log)
    wrong += same(log.gone, [])
    cutting.SEEN = 0
    one.forget(log)
    cutting.SEEN = kept
    cutter(Room(1, 1), forget_after=0).forget(log)
    return wrong + same(log.gone, [b"b"])


class Full:
    """A log in a full etcd: what replicas told last is old, and nothing is put any more. As its member it tells of
    nothing free until its file is written anew."""

    url, size, used, quota, leads = "http://member", 95, 95, 100, True

    def __init__(self):
        self.etcd, self.below, self.done = self, 0, []

    def other(self):
        return self

    def replicas(self):
        return {b"a": 24, b"c": 40}, 1

    def read(self, number, many):
        return argparse.Namespace(first=1, revision=1, found=())

    def compact(self, first, revision):
        raise Denied(NO_SPACE)

    def forgets(self, revision):
        pass

    def sweep(self, below):
        self.below = below

    def fullness(self):
        return self.size / self.quota

    def freed(self):
        return 0.0

    def only(self, url):
        return self

    def call(self, path, asked, patience=0):
        self.done.append(path)
        self.size = 20


def full():
    """In a full etcd a replica counts itself as far as it is, though it can't tell so."""
    wrong, log, one = [], Full(), cutter(Room(95, 100, True), forget_after=0, keep=0)
    one.forgot = time.monotonic()
    for name, number, wanted in ((b"a", 33, 34), (b"a", 12, 25), (b"a", 50, 41), (b"b", 33, 25)):
        one.cut(log, name, number)
        wrong += same(log.below, wanted)
    return wrong + asyncio.run(silent(log))


async def silent(log):
    """A member that is full and tells of nothing free is written anew nevertheless, once a while has gone; then the
    alarm is taken away."""
    it, wrong = room.Room(log, argparse.Namespace(etcd_upkeep="keeper"), lambda _: None), []
    it.members, it.alarms = [log], [("1", room.NO_SPACE)]
    for ahead, wanted in ((True, []), (True, []), (False, ["maintenance/defragment"]),
                          (True, ["maintenance/defragment", "maintenance/alarm"])):
        it.untold = it.untold if ahead else 0.0
        await it.act()
        wrong += same(log.done, wanted)
    it.close()
    return wrong + same(it.untold, None)


def remembered():
    """Answers are read again, up to an entry, and as far as they are whole; the newest are kept."""
    wrong, bounds_kept = [], (answers.KEPT, answers.MOST)
    with tempfile.TemporaryDirectory() as place:
        store = os.path.join(place, "S")
        some = answers.Answers(store)
        some.open(0)
        ones = [answers.Answer(number, b"%016d" % number, b"reply %d" % number) for number in range(1, 41)]
        for one in ones:
            some.note(one)
            some.write([one])
        some.close()
        with open(store + answers.SUFFIX, "ab") as file:
            file.write(ones[0].record()[:-1])
        again = answers.Answers(store)
        again.open(39)
        wrong += same(list(again.known.values()), ones[:39])
        size = len(ones[9].record())
        answers.KEPT, answers.MOST = 10 * size, 20 * size
        again.note(ones[39])
        again.write([ones[39]])
        again.close()
        answers.KEPT, answers.MOST = bounds_kept
        last = answers.Answers(store)
        last.open(100)
        wrong += same(list(last.known.values()), ones[30:])
    return wrong


def refused(work):
    try:
        work()
    except (entries.Broken, Wrong) as why:
        return str(why)
    return "nothing is wrong"


def by_keys():
    """An entry is signed for its place in its log, and read by who has the keys alone."""
    try:
        import cryptography  # noqa: F401
    except ImportError:
        print("replicas: python3-cryptography isn't installed: keys aren't tried")
        return []
    wrong, content = [], entries.of_message(b"token", b"a secret")
    with tempfile.TemporaryDirectory() as place:
        own, other, box, known = (os.path.join(place, one) for one in ("own", "other", "box", "known"))
        line = seal.make_key(own, "a")
        seal.make_key(other, "b")
        seal.make_key(box)
        with open(known, "w", encoding="ascii") as file:
            file.write(line + "\n")
        both, bare = seal.Keys(own, known, box), seal.Keys(None, known, box)
        head = entries.beginning(OWN)
        ((data,), _), ((plain,), _) = entries.chained(head, [content], OWN, both), entries.chained(head, [content])
        wrong += same(entries.read(1, data, OWN, bare).frames[-1][1], b"a secret") + same(b"secret" in data, False)
        for keys, log, held, told in ((bare, b"another", data, "isn't signed by a"), (bare, OWN, plain, "isn't signed"),
                                      (seal.Keys(None, None, box), OWN, plain, "isn't sealed"),
                                      (seal.PLAIN, OWN, data, "there are no keys here"),
                                      (bare, OWN, data[:-1] + b"\0", "isn't signed by a"),
                                      (bare, OWN, data[:60], "isn't signed by a")):
            said = refused(lambda: entries.read(1, held, log, keys))
            wrong += [] if told in said or "signed by a key" in said else [f"{said}, expected {told}"]
        wrong += same("no replica would take" in refused(lambda: seal.Keys(other, known)), True)
        os.chmod(own, 0o640)
        wrong += same("chmod 600" in refused(lambda: seal.Keys(own)), True)
    return wrong


def hand_made():
    """Bytes that somebody wrote are an entry or none, and nothing else comes of them."""
    good, frame = entries.chained(entries.beginning(OWN), [entries.of_steps(1)])[0][0], entries.FRONT
    front = good[:frame]
    cases = [b"", b"\x02", b"\x09" + good[1:], good[:-1], good + b"\0", front, front + b"\x03\0\0\0\0\0\4\0\0\0\0",
             front + b"\x04\0\0\0\0\0\1x", front + b"\x02\0\1\0\0\0\0", b"\x03" + front[1:], 60 * b"\x03"]
    return [f"{data[:60]} is taken" for data in cases if refused(lambda: entries.read(1, data)) == "nothing is wrong"]


class Growing:
    """An etcd with a log that grows between any two questions."""

    def __init__(self, count):
        self.held, self.head = [], entries.beginning(OWN)
        for _ in range(count):
            self.put()

    def put(self):
        made, self.head = entries.chained(self.head, [entries.of_steps(1)])
        self.held += made

    def ranged(self, asked):
        first, end = (int(decoded(asked[one])[-16:]) for one in ("key", "range_end"))
        return {"kvs": [{"key": encoded(b"/adsd/x/entry/%016d" % number), "value": encoded(self.held[number - 1]),
                         "mod_revision": str(number)} for number in range(max(first, 1), min(end, len(self.held) + 1))]}

    def call(self, path, asked, patience=0):
        if path == "kv/range":
            found = self.ranged(asked)
            self.put()
            return found
        keys = [{"kvs": [{"value": encoded(value)}]} for value in (line_of(self.head), b"1")]
        answers = [*keys, self.ranged(asked["success"][2]["request_range"])]
        found = [{"response_range": one} for one in answers]
        return {"succeeded": True, "responses": found, "header": {"revision": "1"}}


def growing():
    """Where an entry is put between the two questions for a part of the log, the part has what names the one before."""
    wrong = []
    for count in range(4):
        etcd = Growing(count)
        follower = following.Follower.__new__(following.Follower)
        follower.log, follower.at = Ordered(etcd, "x", OWN), entries.beginning(OWN)
        part = follower.log.some(1)
        made = follower.chained(part.found, part.head)
        wrong += same(len(made) >= max(count, 1), True) + same(part.head.number, count + 1)
    return wrong


def tried():
    return growing() + bounds() + lengths() + full() + remembered() + by_keys() + hand_made()
