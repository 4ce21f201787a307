"""Which objects are protected: what the program's protection run makes of a copy (docs/profile/protection.md)."""

import struct
from typing import List, Set

from adsd_tools.ask import requests
from adsd_tools.forms.descriptor import INHERITED
from adsd_tools.rows import store

from .normals import sid_size
from .program import Failed, Serving, copy_slots
from .state import State

RUN, BOTH_PROTECTED = 4, 3
HOLDER = "CN=AdminSDHolder,CN=System,"


def frozen(normal: bytes) -> bytes:
    """The normal bytes of a descriptor whose entries are all its own and whose lists are protected."""
    made = bytearray(normal)
    made[0] |= BOTH_PROTECTED
    at = 1 + sid_size(normal, 1)
    at += sid_size(normal, at)
    for _ in range(2):
        count, at = int.from_bytes(made[at : at + 8], "big"), at + 8
        for _ in range(count):
            made[at + 1] &= ~INHERITED
            at += struct.unpack_from("<H", made, at + 2)[0]
    return bytes(made)


def run_on(path: str, copy: str) -> int:
    """Makes a run on a copy; how many objects the program says are protected."""
    serving = Serving(path, copy)
    try:
        _, body = serving.answer(requests.frame(RUN, 0, b""))
    finally:
        serving.close()
    if len(body) != 8:
        raise Failed("adsd serve answered a run otherwise than with two numbers")
    return int.from_bytes(body[4:], "big")


def marked(row: bytes, state: State) -> bool:
    """Whether an object's row has the adminCount that a run gives it."""
    place = state.schema.of_attribute.get("admincount")
    return place is not None and store.object_of(0, row).values.get(place, [])[:1] == [b"1"]


def protected(path: str, copy: str, state: State, notes: List[str]) -> Set[int]:
    """The numbers of the protected objects: after a run they have AdminSDHolder's descriptor, frozen, and adminCount.
    A note is added to `notes` where these are others in number than the program says."""
    own = copy + ".run"
    copy_slots(copy, own)
    count = run_on(path, own)
    holder = state.found(HOLDER + state.names[1].decode("utf-8", "replace")) if count else None
    if holder is None:
        return set()
    wanted = frozen(state.objects[holder].normal)
    rows = {number: row for (kind, number), row in store.table(own).items()
            if kind == store.OBJECT and row.endswith(wanted)}
    found = {number for number, row in rows.items() if marked(row, state)} or set(rows)
    if len(found) != count:
        notes.append(f"The program says that {count:,} objects are protected, and {len(found):,} look so after a run: "
                     "some of those that are called protected here may not be.")
    return found
