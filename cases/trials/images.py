"""What a crash may leave of two files, after a row of recorded calls.

Between two syncs of a slot each range that was written, and all past the old end, may hold anything afterwards. Tried
are the first bytes of the writes (none, 1, 7, up to each write's end, all), all but the first write, the new length
with nothing in it, and ranges filled with zeros, ones, 0xff and drawn bytes, with an end that is drawn too. A file
whose folder wasn't synced since it was made may be missing."""

import random

KEPT = (0, 1, 7)
FILLS = (b"\0", b"\1", b"\xff")


def written(data, at, piece):
    """The bytes of a file behind a write; what lies between its end and the place is zero."""
    data = data.ljust(at, b"\0")
    return data[:at] + piece + data[at + len(piece) :]


class Slot:
    """A slot: what it held at its last sync (None: no file), the writes since then, and whether its name lasts."""

    def __init__(self, data):
        self.kept, self.later = data, []
        self.named = self.made = data is not None

    def add(self, event):
        if event.what == "make":
            self.made = True
        elif event.what == "write" and event.data:
            self.later.append((event.at, event.data))
        elif event.what == "sync" and not event.failed:
            self.kept, self.later = self.whole(), []
        elif event.what == "folder" and not event.failed and self.made:
            self.named = True

    def prefix(self, count):
        """What was kept, with the first so many bytes of the later writes."""
        data = self.kept or b""
        for at, piece in self.later:
            if count > 0:
                data = written(data, at, piece[:count])
            count -= len(piece)
        return data

    def whole(self):
        total = sum(len(piece) for _, piece in self.later)
        return self.prefix(total) if self.made else None

    def filled(self, fill, draw):
        """What was kept, with the later ranges filled, and an end that is drawn where the file grew."""
        data, end = self.kept or b"", len(self.kept or b"")
        for at, piece in self.later:
            made = draw.randbytes(len(piece)) if fill is None else fill * len(piece)
            data = written(data, at, made)
        if fill is None and len(data) > end:
            data = data[: draw.randint(end, len(data))] + draw.randbytes(draw.randint(0, 20))
        return data

    def torn(self, draw):
        """Forms of a crash besides those that keep the first bytes."""
        forms = [self.filled(fill, draw) for fill in FILLS] + [self.filled(None, draw) for _ in range(2)]
        forms.append((self.kept or b"").ljust(len(self.whole()), b"\0"))
        later = self.kept or b""
        for at, piece in self.later[1:]:
            later = written(later, at, piece)
        return forms + [later]

    def after_crash(self, draw):
        """All that may be left of it, without repetition."""
        if not self.made:
            return [None]
        ends, total = [], 0
        for _, piece in self.later:
            total += len(piece)
            ends += [total - 1, total]
        left = [self.prefix(count) for count in sorted({*KEPT, *ends}) if count <= total]
        if self.later:
            left += self.torn(draw)
        if not self.named:
            left.insert(0, None)
        return list(dict.fromkeys(left))


def of(slots, events, unsynced=(), seed=1):
    """For each number of calls that were done: what a crash may leave of both slots, and how much was emitted. Each
    slot held this at its last sync; the unsynced writes, each a slot, a place and bytes, came since."""
    draw, held, emitted = random.Random(seed), [Slot(data) for data in slots], 0
    for n, at, piece in unsynced:
        held[n].later.append((at, piece))
    for done in range(len(events) + 1):
        if done:
            event = events[done - 1]
            emitted += len(event.data) if event.what == "emit" else 0
            for n, slot in enumerate(held):
                if event.slot in (None, n):
                    slot.add(event)
        first, second = (slot.after_crash(draw) for slot in held)
        yield done, [(a, b) for a in first for b in second], emitted
