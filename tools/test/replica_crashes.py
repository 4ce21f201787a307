"""What a replica does that begins anew after a crash, at each place where one may come: its store and its position are
made as the crash would leave them."""

import os
import subprocess

from ldap_client import PROGRAM
from replica_cases import resting
from replica_checks import all_entries, frames_of, same_rows
from replica_world import MANY, SECONDS, Late, World
from adsd_tools.replica.entries import beginning, chained, of_run
from adsd_tools.replica.ordered import line_of, put_of
from adsd_tools.replica.position import BLOCK, Position, Positions
from adsd_tools.replica.slots import SLOTS, Slots

OPEN = "D:(A;CI;GA;;;SY)(A;CI;GA;;;BA)(A;CI;RPLCLORC;;;WD)"


def large(at):
    return f"modify dn='CN=big,{MANY}' replace:description='{at}{400_000 * 'x'}'"


# The changes of the log: one that is refused, one that asks for what stands there, and one that wants a snapshot.
CHANGES = [f"add dn='CN=big,{MANY}' objectClass=user", f"add dn='CN=two,{MANY}' objectClass=user description=1",
           f"modify dn='CN=nobody,{MANY}' replace:description=2", f"modify dn='CN=two,{MANY}' replace:description=1",
           f"modify dn='{MANY}' sd=dacl replace:nTSecurityDescriptor='sddl:{OPEN}'", large(1), large(2), large(3),
           f"modify dn='CN=two,{MANY}' replace:description=3", f"rename dn='CN=two,{MANY}' rdn=CN=three",
           f"delete dn='CN=three,{MANY}'"]


class Crashes:
    """One replica over a log that is there, whose store is put where a case wants it."""

    def __init__(self, world):
        self.world, (self.replica,) = world, world.replicas
        self.replica.begin()
        world.serves(self.replica)
        client = self.replica.client()
        for line in CHANGES:
            client.ask(line)
        client.close()
        resting(world)  # (steps that came later would change rows)
        world.wait("level", world.is_level)
        self.replica.kill()
        self.entries = all_entries(world)
        self.head = len(self.entries)
        self.first = Positions(self.replica.store).read()
        self.places = [self.made(n) for n in range(self.head + 1)]

    def made(self, n):
        """The bytes of a store after n entries, with its place."""
        held = []
        for slot in SLOTS:
            with open(self.world.base + slot, "rb") as file:
                held.append(file.read())
        return self.served(held, self.entries[:n])

    def served(self, held, some):
        """The bytes of a store that took some entries after it was this, with its place."""
        path = os.path.join(self.world.place, "made")
        for slot, data in zip(SLOTS, held):
            with open(path + slot, "wb") as file:
                file.write(data)
        given = b"".join(map(frames_of, some))
        subprocess.run([PROGRAM, "serve", path], input=given, stdout=subprocess.DEVNULL, check=True)
        slots = Slots(path)
        place = slots.look()
        slots.close()
        held = []
        for slot in SLOTS:
            with open(path + slot, "rb") as file:
                held.append(file.read())
        return tuple(held), place

    def position(self, n):
        place, own = self.places[n][1], self.entries[n - 1].id if n else beginning(self.first.own).id
        return Position(self.first.log, self.first.own, self.first.name, n, own, place.generation, place.records)

    def put(self, held, *positions):
        """Makes the store hold this, and the position these blocks, each a position or bytes."""
        for slot, data in zip(SLOTS, held):
            with open(self.replica.store + slot, "wb") as file:
                file.write(data)
        blocks = [one.line() if isinstance(one, Position) else one for one in (*positions, b"")[:2]]
        with open(Positions(self.replica.store).path, "wb") as file:
            file.write(b"".join(one.ljust(BLOCK, b"\0") for one in blocks))

    def goes_on(self, what):
        """The replica begins, comes to the log's end, and holds what a plain run makes of it."""
        self.replica.begin()

        def is_level():
            if not self.replica.is_running():
                raise AssertionError(f"{what}: the replica has ended: {self.replica.said()[-500:]}")
            return self.world.is_level()

        self.world.wait(f"{what}: the replica is level", is_level)
        self.replica.kill()
        plain = os.path.join(self.world.place, "plain")
        for slot, data in zip(SLOTS, self.places[self.head][0]):
            with open(plain + slot, "wb") as file:
                file.write(data)
        count = same_rows(plain, self.replica.store)
        return [f"{what}: {count} rows differ"] if count else []

    def ends(self, what, status, told):
        """The replica doesn't begin, and says why."""
        open(self.replica.log, "w").close()
        self.replica.begin()
        try:
            found = self.replica.running.wait(timeout=SECONDS)
        except subprocess.TimeoutExpired:
            raise Late(f"{what}: it goes on") from None
        if found != status or told not in self.replica.said():
            return [f"{what}: it ended with {found}, expected {status}: {self.replica.said()[-300:]}"]
        return []

    def changing(self, n):
        """Whether entry n + 1 changes something."""
        return self.places[n][1] != self.places[n + 1][1]

    # ---- the cases

    def between(self):
        """A crash before the next entry is taken, after that, and between its snapshot and its change."""
        wrong, kinds = [], set()
        for n in range(self.head):
            now, then = self.places[n][1], self.places[n + 1][1]
            kind = (self.entries[n].frames[-1][0], self.changing(n), then.generation > now.generation)
            if kind in kinds:
                continue
            kinds.add(kind)
            self.put(self.places[n][0], self.position(n))
            wrong += self.goes_on(f"entry {n + 1} {kind} isn't taken")
            self.put(self.places[n + 1][0], self.position(n))
            wrong += self.goes_on(f"entry {n + 1} {kind} is taken")
            if then.generation > now.generation:
                self.put(self.snapshot_alone(n), self.position(n))
                wrong += self.goes_on(f"a snapshot is made and entry {n + 1} isn't taken")
        if not any(snapshot for _, _, snapshot in kinds) or {True, False} != {changes for _, changes, _ in kinds}:
            wrong.append(f"between: the log has too few kinds of entries: {kinds}")
        return wrong

    def snapshot_alone(self, n):
        """The store after n entries, with the snapshot that entry n + 1 wants, and without its change."""
        path = os.path.join(self.world.place, "made")
        held, place = self.places[n + 1]
        for slot, data in zip(SLOTS, held):
            with open(path + slot, "wb") as file:
                file.write(data)
        slots, made = Slots(path), list(self.places[n][0])
        made[place.slot] = b"".join(slots.cut(place.generation, 1))
        slots.close()
        return made

    def torn(self):
        """A crash while a position is written: of the newest block any bytes are left, also none of a first write."""
        wrong = []
        for n in (1, 4):
            line = self.position(n).line()
            for left in (b"", line[: len(line) // 2], line.replace(b"entry=", b"entry=9"), os.urandom(BLOCK)):
                self.put(self.places[n][0], self.position(n - 1), left)
                wrong += self.goes_on(f"the position at {n} is torn ({left[:20]!r})")
        return wrong

    def others(self):
        """What isn't the store of the position, or not of the log, is refused."""
        at = next(n for n in range(1, self.head - 1) if self.changing(n) and self.changing(n + 1))
        held, wrong = self.places[at][0], []
        self.put(self.places[at][0], self.position(at + 1))
        wrong += self.ends("a change fewer", 3, "something else has written to it")
        self.put(held, b"", b"nothing")
        wrong += self.ends("no position", 3, "holds no position")
        position = self.position(at)
        self.put(held, Position(position.log, b"0" * 32, *list(vars(position).values())[2:]))
        wrong += self.ends("another log", 6, "etcd has no log")
        self.put(held, Position(*list(vars(position).values())[:4], bytes(32), position.generation, position.records))
        wrong += self.ends("another entry", 6, "and the replica has taken 0000")
        end = len(all_entries(self.world))
        self.put(held, Position(*list(vars(position).values())[:3], end + 5, *list(vars(position).values())[4:]))
        wrong += self.ends("after the end", 6, "the log ends at")
        os.remove(Positions(self.replica.store).path)
        wrong += self.ends("no file of a position", 3, "isn't a replica's store")
        self.put(held, position)
        log = self.world.log()
        found, revision = log.replicas()
        log.forget(b"a")
        log.compact(at + 3, revision + 10)
        wrong += self.ends("a log that begins later", 6, f"the log begins at {at + 3}")
        return wrong


    def strange(self):
        """The change that a store has taken after its position isn't the one of the log: another one wrote it, or the
        log was set back meanwhile."""
        at = next(n for n in range(1, self.head - 1) if self.changing(n) and self.changing(n + 1))
        log, held, wrong = self.world.log(), self.places[at + 1][0], []
        kept, entry = line_of(log.head()), log.read(at + 1, 1).found[0][1]
        self.put(self.stranger(at), self.position(at))
        wrong += self.ends("a stranger's change", 6, f"and it isn't entry {at + 1}")
        self.put(held, self.position(at))
        wrong += self.goes_on("the same position, and the log's change")
        then = self.position(at).head()
        self.put(held, self.position(at))
        log.etcd.call("kv/put", put_of(log.key(b"head"), line_of(then))["request_put"])
        wrong += self.ends("the entry is gone", 6, "and the store has taken one change more")
        log.put(then, *chained(then, [of_run()]))
        wrong += self.ends("another entry came", 6, f"and it isn't entry {at + 1}")
        for key, value in ((log.entry(at + 1), entry), (log.key(b"head"), kept)):
            log.etcd.call("kv/put", put_of(key, value)["request_put"])
        left = [one for one in os.listdir(self.replica.folder) if "replay" in one]
        return wrong + ([f"{left} are left"] if left else [])

    def stranger(self, at):
        """The store after so many entries, and a change that is in no log."""
        before, (wanted, _) = self.places[at], self.places[at + 1]
        for other in self.entries:
            held, place = self.served(before[0], [other])
            if place != before[1] and held != wanted:
                return held
        raise AssertionError("no entry changes the store otherwise")


def tried():
    """What is wrong."""
    with World(members=1, replicas=("a",), words=()) as world:
        crashes = Crashes(world)
        return crashes.between() + crashes.torn() + crashes.strange() + crashes.others()
