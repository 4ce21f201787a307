"""What the two slots of a store hold, read by the rules of docs/profile/store.md."""

HEAD = 14
GATE_AND_LENGTH = 9


class Broken(Exception):
    """Slots that stand for no store."""


def is_open(slot):
    return slot[:1] == b"\1"


def generation(slot):
    """The generation of an open slot of version 2."""
    if len(slot) < HEAD or slot[1:5] != b"ADSD" or slot[5] != 2 or not any(slot[6:HEAD]):
        raise Broken("head")
    return int.from_bytes(slot[6:HEAD], "big")


def bodies_of(slot):
    """The bodies of the records of a slot, up to its first closed gate."""
    bodies, at = [], HEAD
    while True:
        if at >= len(slot):
            raise Broken("no gate")
        if slot[at] != 1:
            return bodies
        if at + GATE_AND_LENGTH > len(slot):
            raise Broken("length")
        start = at + GATE_AND_LENGTH
        at = start + int.from_bytes(slot[at + 1 : start], "big")
        bodies.append(slot[start:at])
        if at > len(slot):
            raise Broken("body")


def live_of(slots):
    """The slot that decides what the slots stand for; None where the store is empty."""
    a, b = (slot or b"" for slot in slots)
    if is_open(a) and a[5:6] == b"\1":
        if len(a) < HEAD or a[1:5] != b"ADSD" or int.from_bytes(a[6:HEAD], "big") != 1:
            raise Broken("head")
        return a
    if not is_open(a) and not is_open(b):
        return None
    if not a or not b:
        raise Broken("a slot of length 0")
    live = {generation(slot): slot for slot in (a, b) if is_open(slot)}
    if len(live) < is_open(a) + is_open(b):
        raise Broken("one generation")
    return live[max(live)]


def bodies(slots):
    """The bodies that the slots stand for; None where the store is empty."""
    live = live_of(slots)
    return None if live is None else bodies_of(live)


def batch(body):
    """The rows of a batch: kind, number, and the bytes that are put, or None where the row is removed."""
    count, at, rows = int.from_bytes(body[:8], "big"), 8, []
    for _ in range(count):
        place = (body[at + 1], int.from_bytes(body[at + 2 : at + 10], "big"))
        if body[at] == 1:
            start = at + 18
            end = start + int.from_bytes(body[at + 10 : start], "big")
            rows.append((place, body[start:end]))
        elif body[at] == 2:
            end = at + 10
            rows.append((place, None))
        else:
            raise Broken("a row")
        at = end
    if at != len(body):
        raise Broken("a batch")
    return rows


def rows(slots):
    """The table of rows that the slots stand for, by kind and number; None where the store is empty."""
    stored = bodies(slots)
    if stored is None:
        return None
    table = {}
    for body in stored:
        for place, row in batch(body):
            table.pop(place, None)
            if row is not None:
                table[place] = row
    return dict(sorted(table.items()))


def written(table, version=2):
    """The two slots of a store of these rows alone, of version 1 or 2."""
    body = len(table).to_bytes(8, "big")
    for (kind, number), row in table.items():
        body += bytes([1, kind]) + number.to_bytes(8, "big") + len(row).to_bytes(8, "big") + row
    slot = b"\1ADSD" + bytes([version]) + (1).to_bytes(8, "big") + b"\1" + len(body).to_bytes(8, "big") + body + b"\0"
    return (slot, b"\0" if version == 2 else None)
