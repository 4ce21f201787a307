"""The program serving frames on copies of the store, and what each frame changed: read of what it appends to its
journal (docs/profile/store.md), so that a large directory isn't read again after each step."""

import os
import shutil
import struct
import threading
import uuid

from adsd_tools.ask import requests
from adsd_tools.report.program import Serving
from adsd_tools.rows import store

from .private import SHARED, unname

TOKEN, MESSAGE, STEPS, RUN = 1, 2, 3, 4
ALL_STEPS = 1_000_000


def folder_for(size):
    """Where copies go: memory, where there is room for several, since the program syncs what it writes."""
    try:
        roomy = shutil.disk_usage(SHARED).free > 16 * size + 64_000_000 and os.access(SHARED, os.W_OK)
    except OSError:
        roomy = False
    return SHARED if roomy else None


class Tail:
    """What is appended to a store that another process writes, from now on."""

    def __init__(self, path):
        self.files = [open(path + slot, "rb", 0) for slot in store.SLOTS]
        self.place = max((0, 1), key=self.generation)
        self.at = store.HEAD
        while self.record() is not None:
            pass

    def generation(self, place):
        """The generation of a slot that is open; 0 of any other."""
        head = os.pread(self.files[place].fileno(), store.HEAD, 0)
        return int.from_bytes(head[6:], "big") if head[:1] == b"\x01" and len(head) == store.HEAD else 0

    def record(self, read=False):
        """The next record: its bytes, or nothing of them, or None where there is none yet."""
        number = self.files[self.place].fileno()
        head = os.pread(number, 9, self.at)
        if head[:1] != b"\x01" or len(head) < 9:
            return None
        size, begun = int.from_bytes(head[1:], "big"), self.at + 9
        self.at = begun + size
        return os.pread(number, size, begun) if read else b""

    def bodies(self):
        """The batches that were appended since the last time. A rewrite puts a snapshot in front, which says nothing
        new; what was appended before it still stands in the slot that was live then."""
        while True:
            body = self.record(True)
            if body is not None:
                yield body
            elif self.generation(1 - self.place) > self.generation(self.place):
                self.place, self.at = 1 - self.place, store.HEAD
                self.record()
            else:
                return

    def close(self):
        for one in self.files:
            one.close()


def rows_of(body):
    """The rows of a batch: the kind, the number, and the bytes, None where the row is removed."""
    at = 8
    for _ in range(int.from_bytes(body[:8], "big")):
        act, kind, number = store.ROW.unpack_from(body, at)
        at += store.ROW.size
        row = None
        if act == store.PUT:
            size = store.SIZE.unpack_from(body, at)[0]
            at += store.SIZE.size + size
            row = body[at - size : at]
        yield kind, number, row


def pending_of(row):
    """The pending list of its row."""
    count = int.from_bytes(row[:8], "big") if row else 0
    numbers = struct.unpack_from(f">{2 * count}I", row or b"", 8 if count else 0)
    return list(zip(numbers[::2], numbers[1::2]))


class Walk:
    """A run of `serve` over a copy of its own, and what stands otherwise in it than in the store: descriptors, and the
    pending list. The copy has no name any more once the program has it open."""

    def __init__(self, program, source, folder, world, token):
        self.path = os.path.join(folder, f"walk-{uuid.uuid4().hex}")
        self.serving, self.tail, self.rows, self.step, self.changed = None, None, {}, 0, {}
        if world:
            self.over(world)
        try:
            source.put(self.path)
            self.serving = Serving(program, self.path)
            self.serving.answer(requests.frame(TOKEN, 0, token.data))
            self.tail = Tail(self.path)
            unname(self.path)
        except BaseException:
            self.close()
            raise

    def over(self, world):
        """Says of which world this is a copy, where that wasn't read when the walk began."""
        self.world, self.queue = world, world.queue

    def ask(self, frame):
        """The body of the answer to a frame; what it changed is taken in. `rows` has the objects that it wrote."""
        _, body = self.serving.answer(frame)
        queue, self.rows = None, {}
        for batch in self.tail.bodies():
            for kind, number, row in rows_of(batch):
                if kind == store.OBJECT and row is not None:
                    self.rows[number] = row
                elif kind == store.PENDING:
                    queue = row or b""
        for number, row in self.rows.items():
            self.take(number, row)
        if queue is not None:
            self.queue = pending_of(queue)
        return body

    def take(self, number, row):
        """Takes in the row of an object."""
        normal = self.world.normal_of(number, row)
        if normal == self.world.objects[number].normal:
            self.changed.pop(number, None)
        else:
            self.changed[number] = normal

    def steps(self, count):
        """Makes so many steps; how many were made, and how many entries are pending then."""
        made, left = struct.unpack(">II", self.ask(requests.frame(STEPS, 0, struct.pack(">I", count))))
        self.step += made
        return made, left

    def close(self):
        try:
            if self.serving:
                self.serving.close()
        finally:
            if self.tail:
                self.tail.close()
            unname(self.path)


class Stable:
    """Walks that stand ready, so that nobody waits until the program has read a copy."""

    def __init__(self, make, count=1):
        self.make, self.count, self.ready, self.lock = make, count, [], threading.Lock()
        self.closed, self.filling = False, []

    def prepare(self):
        """Makes as many as are wanted, beside whatever else is done."""
        self.filling = [one for one in self.filling if one.is_alive()]
        self.filling.append(threading.Thread(target=self.fill, daemon=True))
        self.filling[-1].start()

    def fill(self):
        while True:
            with self.lock:
                if self.closed or len(self.ready) >= self.count:
                    return
            one = self.make()
            with self.lock:
                if not self.closed:
                    self.ready.append(one)
                    continue
            one.close()
            return

    def take(self):
        """A walk at the beginning."""
        with self.lock:
            one = self.ready.pop() if self.ready else None
        self.prepare()
        return one or self.make()

    def close(self):
        with self.lock:
            self.closed, ready, self.ready = True, self.ready, []
        for one in self.filling:
            one.join()
        for one in ready:
            one.close()
