"""What befalls replicas and etcd while clients go on: each is a break, a while, and what makes it good again."""

import os
import random
import signal
import time

from replica_checks import differences
from replica_world import SECONDS, Late, is_apart
from replica_writers import Notes, Reader, Writer


class Faults:
    """The faults of a world. `draw` chooses, and `long` is how long a stop lasts."""

    def __init__(self, world, draw, long=1.5):
        self.world, self.draw, self.long = world, draw, long

    def pause(self, least=0.3):
        time.sleep(self.draw.uniform(least, self.long))

    def some_replica(self):
        return self.draw.choice(self.world.replicas)

    def some_member(self):
        return self.draw.choice(self.world.members)

    # ---- replicas

    def kill_replica(self):
        """kill -9 of a replica: of its script, of its program, or of both at once."""
        one, which = self.some_replica(), self.draw.choice(("script", "program", "both"))
        program = one.program()
        if which != "script" and program:
            try:
                os.kill(program, signal.SIGKILL)
            except ProcessLookupError:
                pass
        if which != "program":
            one.kill()
        self.pause(0.0)
        self.world.serves(one)

    def kill_two_replicas(self):
        for one in self.draw.sample(self.world.replicas, 2):
            one.kill()
        self.pause(0.0)
        for one in self.world.replicas:
            self.world.serves(one)

    def stop_replica(self):
        one = self.some_replica()
        one.stop()
        self.pause()
        one.go_on()

    def stop_program(self):
        """Its program alone is stopped."""
        program = self.some_replica().program()
        if program:
            try:
                os.kill(program, signal.SIGSTOP)
                self.pause()
                os.kill(program, signal.SIGCONT)
            except ProcessLookupError:
                pass

    def restart_replica(self):
        """As an operator stops it."""
        one = self.some_replica()
        one.signal(signal.SIGTERM)
        if one.running.wait(timeout=SECONDS) not in (0, 5):
            raise AssertionError(f"{one.name} ended with {one.running.returncode}: {one.said()[-500:]}")
        self.world.serves(one)

    def cut_replica(self):
        one = self.some_replica()
        one.cut()
        self.pause()
        one.join()

    def fill_disk(self):
        """A replica's disk is full, and gets room again."""
        one = self.some_replica()
        one.fill()
        self.pause()
        one.empty()
        if not is_apart():
            one.kill()  # A limit of its files' sizes would stay.
        self.world.serves(one)

    # ---- etcd

    def kill_leader(self):
        one = self.world.leader() or self.some_member()
        one.kill()
        self.pause(0.0)
        one.begin()

    def kill_member(self):
        one = self.some_member()
        one.kill()
        self.pause(0.0)
        one.begin()

    def stop_leader(self):
        one = self.world.leader() or self.some_member()
        one.stop()
        self.pause()
        one.go_on()

    def cut_leader(self):
        one = self.world.leader() or self.some_member()
        one.cut()
        self.pause()
        one.join()

    def cut_member(self):
        one = self.some_member()
        one.cut()
        self.pause()
        one.join()

    def cut_most(self):
        """Two of three members are away: nothing is put, until one is back."""
        cut = self.draw.sample(self.world.members, 2)
        for one in cut:
            one.cut()
        self.pause()
        for one in cut:
            one.join()

    def kill_all_members(self):
        for one in self.world.members:
            one.kill()
        self.pause(0.0)
        for one in self.world.members:
            one.begin()

    # ---- both

    def leader_and_replica(self):
        one, leader = self.some_replica(), self.world.leader() or self.some_member()
        one.kill()
        leader.kill()
        self.pause(0.0)
        leader.begin()
        self.world.serves(one)


NAMES = [name for name in vars(Faults) if not name.startswith(("_", "some_")) and name != "pause"]


def begun(world, writers, readers, pause=0.0):
    """Clients that work until they are ended."""
    notes = Notes()
    workers = [Writer(world, notes, at, pause) for at in range(writers)]
    workers += [Reader(world, notes, 100 + at) for at in range(readers)]
    for one in workers:
        one.start()
    return notes, workers


def ended(workers):
    for one in workers:
        one.ends.set()
    for one in workers:
        one.join(SECONDS)
        if one.is_alive():
            raise Late(f"{type(one).__name__} {one.number} doesn't end")


def rest(world, notes):
    """Waits until all replicas serve, and tells what is wrong."""
    for one in world.replicas:
        world.serves(one)
    return differences(world, notes)


def rounds(world, count, writers, names=None, seed=None, every=20, say=print, pause=0.0, within=None):
    """So many faults, drawn, under some writers, as far as they begin within so many seconds; what is wrong then."""
    seed = seed if seed is not None else random.SystemRandom().randrange(10**6)
    draw = random.Random(seed)
    faults = Faults(world, draw)
    notes, workers = begun(world, writers, 3, pause)
    begun_at, counts = time.monotonic(), {}
    try:
        for at in range(1, count + 1):
            name = draw.choice(names or NAMES)
            counts[name] = counts.get(name, 0) + 1
            getattr(faults, name)()
            time.sleep(draw.uniform(0.1, 0.8))
            if notes.faults or (within and time.monotonic() - begun_at > within):
                break
            if at % every == 0:
                answered = sum(code is not None for code in notes.answers.values())
                say(f"round {at}: {len(notes.answers)} changes, {answered} answered, {notes.reads} linear reads, "
                    f"log at {world.head()}, {time.monotonic() - begun_at:.0f} s")
    finally:
        ended(workers)
    wrong = rest(world, notes)
    told = ", ".join(f"{name} {n}" for name, n in sorted(counts.items()))
    say(f"{sum(counts.values())} faults (seed {seed}): {told}")
    answered = sum(code is not None for code in notes.answers.values())
    say(f"{len(notes.answers)} changes, {answered} answered, {notes.reads} linear reads, {world.head()} entries, "
        f"{time.monotonic() - begun_at:.0f} s")
    return wrong
