"""Logs that go on otherwise than a replica has them: etcd that is set back while one is cut off, entries and releases
that are replaced, and logs of before. Each time the replica ends with 6, says why, and answers nothing from then on."""

import hashlib
import os
import shutil
import subprocess
import tempfile
import time
import zlib

from ldap_client import PROGRAM, TOP, Closed
from replica_cases import DONE, READ, WRITE, alike, has, in_world, resting, same, shown
from replica_checks import differences
from replica_world import SECONDS, Late
from adsd_tools.ask.words import Wrong
from adsd_tools.rows import store as rows
from adsd_tools.replica import entries
from adsd_tools.replica.etcd import decoded, encoded, whole
from adsd_tools.replica.ordered import put_of
from adsd_tools.replica.position import BLOCK, Positions
from adsd_tools.replica.release import release_of
from adsd_tools.replica.slots import SLOTS

ETCDCTL = shutil.which("etcdctl")
FILES = (*SLOTS, ".position")
ALL = b"/adsd/"
TOLD = "docs/replicas.md, Parted"
# How long the word upgrade waits until all have told that they are at the head.
PATIENT = "--wait", str(SECONDS)


class Snapshot:
    """What etcd's only member has, by etcd's own snapshot."""

    def __init__(self, world):
        self.world, (self.member,) = world, world.members
        self.path = os.path.join(world.place, "snapshot")
        self.ctl("--endpoints", self.member.client, "snapshot", "save", self.path)

    def ctl(self, *words):
        bounds = f"--dial-timeout={SECONDS}s", f"--command-timeout={SECONDS}s"
        own = {**os.environ, "ETCDCTL_API": "3"}
        subprocess.run([ETCDCTL, *bounds, *words], check=True, capture_output=True, env=own)

    def restore(self):
        """etcd is what it was then."""
        one, data = self.member, os.path.join(self.world.place, self.member.name + ".data")
        one.kill()
        shutil.rmtree(data)
        self.ctl("snapshot", "restore", self.path, "--name", one.name, "--data-dir", data, "--initial-cluster",
                 f"{one.name}={one.peer}", "--initial-advertise-peer-urls", one.peer)
        one.begin()
        self.world.wait("a leader of etcd", self.world.leader)


class Keys:
    """The same by its keys, which are written back by hand."""

    def __init__(self, world):
        self.etcd = world.log().etcd
        found = self.etcd.call("kv/range", whole(ALL))["kvs"]
        self.kept = [(decoded(one["key"]), decoded(one["value"])) for one in found if not one["key"].endswith("keeper")]

    def restore(self):
        self.etcd.call("kv/deleterange", whole(ALL))
        self.etcd.call("kv/txn", {"success": [put_of(key, value) for key, value in self.kept]})


class Backup:
    """The files of some replicas, which are ended for it and go on."""

    def __init__(self, world, ones):
        self.world, self.ones = world, ones
        for one in ones:
            self.copied(one, one.store, one.store + "-kept")
            world.serves(one)

    def copied(self, one, source, to):
        one.kill()
        for end in FILES:
            shutil.copyfile(source + end, to + end)

    def restore(self):
        for one in self.ones:
            self.copied(one, one.store + "-kept", one.store)
            one.begin()
        for one in self.ones:
            self.world.serves(one)


def stops(replica, *told, begin=False):
    """The replica ends with 6, and says all this."""
    if begin:
        open(replica.log, "w").close()
        replica.begin()
    try:
        status = replica.running.wait(timeout=SECONDS)
    except subprocess.TimeoutExpired:
        raise Late(f"replica {replica.name} goes on: {replica.said()[-500:]}") from None
    return same(status, 6) + [wrong for one in told for wrong in has(replica.said(), one)]


def renewed(world, source, replica):
    """What an operator does: the three files go, and a copy of a replica that follows the log comes."""
    for end in FILES:
        os.remove(replica.store + end)
    world.command("copy", source.store, replica.store, "--name", replica.name, *world.etcd_words())
    world.serves(replica)
    world.wait("level", world.is_level)


def wrote(replica, *values):
    """What was answered otherwise than by 0, to some changes of one value."""
    client = replica.client()
    return [wrong for value in values for wrong in same(client.ask(WRITE + str(value)), DONE)]


def goes_on(world, number, more):
    """The log that was set back goes on: beyond the entry that the lost one had, or to just that number."""
    a, wrong = world.replicas[0], []
    while more and world.head() < number + more:
        wrong += wrote(a, f"other{world.head()}")
    if not more:
        resting(world)
    while not more and world.head() < number:
        log = world.log()
        head = log.head()
        log.put(head, *entries.chained(head, [entries.of_steps(1)] * (number - head.number)))
    return wrong


def set_back(kind, more):
    """etcd is set back with two replicas of three, while the third is cut off; so many changes more than it has are
    made then."""

    def case(world):
        a, b, c = world.replicas
        wrong = wrote(a, "before")
        world.wait("level", world.is_level)
        kept, etcd = Backup(world, (a, b)), kind(world)
        wrong += wrote(b, *(f"gone{at}" for at in range(6)))
        resting(world)
        world.wait("level", world.is_level)
        c.cut()
        time.sleep(1)  # (it takes what it had by then)
        number = c.position()
        for one in (a, b):
            one.kill()
        etcd.restore()
        kept.restore()
        wrong += goes_on(world, number, more)
        return wrong + comes_back(world, c, number)

    return in_world(case, members=1)


def comes_back(world, c, number):
    """The one that was cut off reaches etcd again: it answers nothing any more, and ends, and so when it is started."""
    a, b, _ = world.replicas
    wrong, ends = [], time.monotonic() + 60
    c.join()
    while c.is_running() and time.monotonic() < ends:
        try:
            said = c.client().ask(READ)
            wrong += [] if said.startswith("# search: 52") else [f"it answered {said!r}"]
        except (OSError, Closed, AssertionError):
            time.sleep(0.05)
    wrong = wrong[:3] + stops(c, TOLD, str(number)) + stops(c, TOLD, str(number), begin=True)
    world.wait("the two are level", lambda: a.position() == b.position() == world.head())
    renewed(world, a, c)
    alike(world, a, c)
    return wrong


def rows_of(replica):
    return rows.table(replica.store), replica.position()


def replaced(world):
    """Entries are replaced and removed by hand: one that a replica still wants, the last one, one that all have."""
    a, b = world.replicas
    wrong = wrote(a, 1)
    world.wait("level", world.is_level)
    b.kill()
    wrong += wrote(a, 2, 3)
    resting(world)
    a.kill()
    log, before, kept = world.log(), Positions(b.store).read().head(), rows_of(b)
    found = dict(log.read(before.number + 1).found)
    last = max(found)
    for number, told in ((before.number + 1, f"entry {before.number + 2} of the log follows"),
                         (last - 1, f"entry {last} of the log follows"), (last, "the log's head names")):
        then = entries.Head(number - 1, entries.before_of(found[number]))
        ((other,), _) = entries.chained(then, [entries.of_run()])
        log.etcd.call("kv/put", put_of(log.entry(number), other)["request_put"])
        wrong += [f"entry {number}: {one}" for one in stops(b, told, TOLD, begin=True)]
        log.etcd.call("kv/put", put_of(log.entry(number), found[number])["request_put"])
        if number == before.number + 1:
            wrong += same(rows_of(b) == kept, True)
    log.etcd.call("kv/deleterange", {"key": encoded(log.entry(before.number + 1))})
    wrong += stops(b, f"entry {before.number + 2} stands after {before.number}", begin=True)
    log.etcd.call("kv/put", put_of(log.entry(before.number + 1), found[before.number + 1])["request_put"])
    for one in world.replicas:
        world.serves(one)
    wrong += differences(world)
    return wrong + put_again(world, log)


def put_again(world, log):
    """What is put once more is noticed by who is told of it; who asks anew just then isn't, so it is put until all have
    ended."""
    first, end = put_of(log.entry(1), log.read(1, 1).found[0][1])["request_put"], time.monotonic() + SECONDS
    while any(one.is_running() for one in world.replicas) and time.monotonic() < end:
        log.etcd.call("kv/put", first)
        time.sleep(0.5)
    return [one for replica in world.replicas for one in stops(replica, "entry 1 was put once more", TOLD)]


def of_release(world, number, name="other"):
    """A program of another release, as its launcher tells it."""
    path = os.path.join(world.place, name)
    with open(os.open(path, os.O_WRONLY | os.O_CREAT | os.O_TRUNC, 0o700), "w", encoding="ascii") as file:
        file.write(f"""#!/bin/sh
[ "$1" != --version ] || {{ echo "adsd, the release, proved and built with x, of sources {number:064x}"; exit; }}
exec '{PROGRAM}' "$@"
""")
    return path, f"sources {number:064x}"


def released(world):
    """A program of another release doesn't join; the log is taken to it once all have taken the whole log, and whoever
    runs the old one ends then."""
    (a, b, c), words = world.replicas, world.etcd_words()
    other, told = of_release(world, 7)
    wrong = wrote(a, 1)
    world.wait("level", world.is_level)
    c.kill()
    c.adsd = other
    wrong += stops(c, told, "upgrade", "docs/replicas-upgrade.md", begin=True)
    wrong += wrote(a, 2)
    status, said = world.command("upgrade", "--wait", "3", *words, good=False, adsd=other)
    wrong += same(status, 1) + has(said, "c at ") + has(said, "nothing was changed")
    status, said = world.command("upgrade", *words, good=False)
    wrong += same(status, 1) + has(said, "already")
    c.adsd = PROGRAM
    world.serves(c)
    backup = Backup(world, (c,))
    wrong += wrote(a, 3)
    resting(world)
    wrong += has(world.command("upgrade", *PATIENT, *words, adsd=other), f"is of {told} from entry ")
    for one in world.replicas:
        wrong += stops(one, f"of the release {told}")
        one.adsd = other
    for one in world.replicas:
        world.serves(one)
    wrong += wrote(b, 4)
    world.wait("level", world.is_level)
    wrong += same(a.client().ask(READ), shown(4)) + has(world.command("status", *words), told)
    for one in (b, c):
        alike(world, a, one)
    backup.copied(c, c.store + "-kept", c.store)
    return wrong + stops(c, "take a new copy", begin=True)


def of_programs():
    """What tells one program from another: of a release its sources, while its bytes are those of its checksum; else
    the bytes; of one that was installed by hand those of what the launcher runs."""
    wrong = []
    with tempfile.TemporaryDirectory() as place:
        path = os.path.join(place, "adsd")

        def write(name, data):
            with open(os.open(os.path.join(place, name), os.O_WRONLY | os.O_CREAT | os.O_TRUNC, 0o700), "wb") as file:
                file.write(data)

        def sums(data):
            return hashlib.sha256(data).hexdigest().encode()

        write("adsd", b"some bytes")
        wrong += same(release_of(path), b"program " + sums(b"some bytes"))
        write("made-of", b"toolchain x\nsources " + b"5" * 64 + b"\n")
        write("SHA256SUMS", sums(b"some bytes") + b"  adsd\n")
        wrong += same(release_of(path), b"sources " + b"5" * 64)
        write("adsd", b"other bytes")
        wrong += same(release_of(path), b"program " + sums(b"other bytes"))
        shutil.copy(os.path.join(TOP, "tools/installed"), path)
        for data in (b"one", b"two"):
            write("program", data)
            wrong += same(release_of(path), b"program " + sums(data))
        write("wrapped", b"#!/bin/sh\nexit 2\n")
        try:
            wrong.append(f"a script is {release_of(os.path.join(place, 'wrapped'))}")
        except Wrong as why:
            wrong += has(str(why), "is a script")
    return wrong


def swapped(world):
    """A program that is exchanged while a replica runs doesn't take the old one's place."""
    (a,), (other, told) = world.replicas, of_release(world, 7)
    wrong = wrote(a, 1)
    resting(world)
    world.command("upgrade", *PATIENT, *world.etcd_words(), adsd=other)
    wrong += stops(a, f"of the release {told}")
    a.adsd, a.words = other, ("--frames", "40")
    world.serves(a)
    client, (_, new) = a.client(), of_release(world, 8)
    try:
        for _ in range(80):
            client.ask(READ)
        wrong.append("it goes on after 80 reads")
    except (OSError, Closed, AssertionError):
        pass
    wrong += same(a.running.wait(timeout=SECONDS), 5) + has(a.said(), f"is of {new} by now")
    return wrong + stops(a, f"the program here of {new}", begin=True)


def of_before(world):
    """A log and a position as they were before entries named the ones before them are refused, and a new log begins."""
    (a,), words, log = world.replicas, world.etcd_words(), world.log()
    wrong = wrote(a, 1)
    world.wait("level", world.is_level)
    position = Positions(a.store).read()
    log.etcd.call("kv/deleterange", {"key": encoded(log.key(b"release"))})
    wrong += stops(a, "of no release", "Logs of before")
    for name, value in ((b"id", position.own), (b"head", b"3"), (b"first", b"1")):
        log.etcd.call("kv/put", put_of(b"/adsd/old/" + name, value)["request_put"])
    status, said = world.command("status", "--log", "old", *words, good=False)
    wrong += same(status, 1) + has(said, "Logs of before")
    line = b"adsd-replica 1 log=old own=%s name=a entry=3 id=%s generation=%d records=%d" % (
        position.own, b"00" * 16, position.generation, position.records)
    with open(Positions(a.store).path, "wb") as file:
        file.write((line + b" sum=%08x\n" % zlib.crc32(line)).ljust(BLOCK, b"\0") + bytes(BLOCK))
    wrong += stops(a, "begin a new one", begin=True)
    world.command("begin", a.store, "--name", "a", "--log", "new", *words)
    world.serves(a)
    return wrong + wrote(a, 2) + has(world.command("status", "--log", "new", *words), "replica a at ")


CASES = {"rewritten": set_back(Keys, 5), "replaced": in_world(replaced, members=1, replicas=("a", "b")),
         "released": in_world(released, members=1), "of_programs": of_programs,
         "swapped": in_world(swapped, members=1, replicas=("a",)),
         "of_before": in_world(of_before, members=1, replicas=("a",))}
if ETCDCTL:
    CASES.update(restored=set_back(Snapshot, 5), restored_alike=set_back(Snapshot, 0))
