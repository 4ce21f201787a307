"""Replicas of which one holds another directory than the log makes: bytes of its store are others than were written."""

import os

from replica_cases import DONE, LINEAR, alike, has, in_world, resting, same
from replica_checks import DIFFER
from replica_parted import renewed, stops
from replica_world import ROOT
from adsd_tools.replica import digests
from adsd_tools.replica.slots import SLOTS

GOOD, ROTTEN = b"as it was written", b"as it was writteN"
BOB = f"CN=bob,OU=staff,{ROOT}"
VALUE, OTHER = f"modify dn='{BOB}' replace:description=", f"modify dn='{BOB}' replace:telephoneNumber="
LOOK = f"search base='{BOB}' attrs=description"


def rots(replica):
    """A value in the files of a store, which nobody has open, is another one from now on."""
    count = 0
    for path in (replica.store + one for one in SLOTS):
        with open(path, "r+b") as file:
            data = file.read()
            count += data.count(GOOD)
            file.seek(0)
            file.write(data.replace(GOOD, ROTTEN))
    assert count, f"{os.path.basename(replica.store)} hasn't the value"


def written_and_rotten(world, replica):
    """All have written a value, and one of them has lost a bit of it when it begins again."""
    wrong = same(world.replicas[0].client().ask(f"{VALUE}'{GOOD.decode()}'"), DONE)
    resting(world)
    world.wait("level", world.is_level)
    replica.kill()
    rots(replica)
    return wrong


def of_one_hash(world):
    """Whether all tell one hash at one entry."""
    found = world.log().last(b"state/")
    return len(found) == len(world.replicas) and len(set(found.values())) == 1


def touched(world):
    """The next change of an object whose row has rotten at one of three stops that one, and no other; a copy of another
    one goes on by the same hash."""
    a, b, c = world.replicas
    world.wait("all tell one hash", lambda: of_one_hash(world))
    wrong = written_and_rotten(world, c)
    world.serves(c)
    wrong += same(a.client().ask(OTHER + "1"), DONE)
    wrong += stops(c, "the running hash after entry ", "is another one at a, b: ", DIFFER)
    wrong += same([a.is_running(), b.is_running()], [True, True]) + has(b.client().ask(LOOK), GOOD.decode())
    renewed(world, a, c)
    wrong += same(c.client().ask(OTHER + "2"), DONE)
    alike(world, a, c)
    world.wait("all tell one hash again", lambda: of_one_hash(world))
    return wrong


def idle(world):
    """Where nothing touches what has rotten, and nothing is put, the stores are compared. Of two that differ nobody can
    tell which one is right: both stop."""
    a, b = world.replicas
    wrong = written_and_rotten(world, b)
    b.begin()
    for one in (a, b):
        wrong += stops(one, "the sum of the rows after entry ", DIFFER)
    return wrong


def turns_a_bit(replica):
    """A value in the memory of a replica's program is another one from now on."""
    pid, count = replica.program(), 0
    with open(f"/proc/{pid}/maps", encoding="ascii") as file:
        spans = [line.split(" ")[0].split("-") for line in file if line.split(" ")[1].startswith("rw")]
    with open(f"/proc/{pid}/mem", "r+b", buffering=0) as memory:
        for first, last in ((int(one, 16), int(other, 16)) for one, other in spans):
            memory.seek(first)
            try:
                held = memory.read(last - first)
            except OSError:
                continue
            at = held.find(GOOD)
            while at >= 0:
                memory.seek(first + at)
                count += memory.write(ROTTEN)
                at = held.find(GOOD, at + 1)
    assert count, "the program hasn't the value in its memory"


def in_memory(world):
    """A bit turns in the memory of one of three programs, and nothing touches it: what they list is compared."""
    a, b, c = world.replicas
    wrong = same(a.client().ask(f"{VALUE}'{GOOD.decode()}'"), DONE)
    resting(world)
    world.wait("level", world.is_level)
    turns_a_bit(c)
    wrong += stops(c, "what the program lists after entry ", "is another one at a, b: ", DIFFER)
    return wrong + same([a.is_running(), b.is_running()], [True, True])


def judged():
    """Who has to end, of those that differ: whoever can't have more than half on its side."""
    wrong = []
    for told, count, ends in (({}, 1, False), ({"b": True}, 2, False), ({"b": False}, 2, True),
                              ({"b": False}, 3, False),
                              ({"b": True, "c": False}, 3, False), ({"b": False, "c": False}, 3, True),
                              ({"b": True, "c": False, "d": False}, 4, True),
                              ({"b": True, "c": True, "d": False}, 4, False)):
        try:
            others = digests.judged("it", told, count)
            wrong += same((others, ends), (sorted(name for name, is_alike in told.items() if not is_alike), False))
        except digests.Differs as why:
            wrong += same(ends, True) + has(str(why), "it is another one at ")
    return wrong


def differing():
    return judged() + in_world(touched, members=1)()


CASES = {"differing": differing, "in_memory": in_world(in_memory, members=1, words=(*LINEAR, "--check-every", "3")),
         "rotten": in_world(idle, members=1, replicas=("a", "b"), words=(*LINEAR, "--check-every", "3"))}
