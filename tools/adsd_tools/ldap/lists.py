"""Virtual list views: a part of a sorted answer, told by a place or by a value (the Internet draft that clients
have, by J. Boreham and others). What was found is kept, so that the next part is of the same list."""

import struct
from dataclasses import dataclass
from typing import Optional

from adsd_tools.forms import ber

from . import messages, searches, sorting
from .searches import Found, Refused

VIEW, VIEWED = b"2.16.840.1.113730.3.4.9", b"2.16.840.1.113730.3.4.10"
BY_PLACE, BY_VALUE = 0xA0, 0x81
NO_SORT, OUT_OF_RANGE, VIEW_ERROR = 60, 61, 76
COOKIE = struct.Struct(">Q")


@dataclass(frozen=True)
class Wanted:
    """What is asked for: entries before and behind a target, which is a place among so many or a value; and the
    list."""

    before: int
    behind: int
    place: int = 0
    count: int = 0
    value: Optional[bytes] = None
    cookie: bytes = b""


def whole(data):
    made = int.from_bytes(data, "big", signed=True)
    if not 0 <= made <= messages.LAST_NUMBER:
        raise ValueError
    return made


def asked(control):
    """What a control asks for."""
    try:
        ((outer, held),) = ber.parts(control.value or b"")
        (_, before), (_, behind), (kind, target), *more = ber.parts(held)
        cookie = more[0][1] if more else b""
        if outer != ber.SEQUENCE or kind not in (BY_PLACE, BY_VALUE) or len(more) > 1:
            raise ValueError
        before, behind = whole(before), whole(behind)
        if kind == BY_VALUE:
            return Wanted(before, behind, value=target, cookie=cookie)
        (_, place), (_, count) = ber.parts(target)
        return Wanted(before, behind, whole(place), whole(count), cookie=cookie)
    except (ber.Broken, ValueError):
        raise Refused(messages.PROTOCOL_ERROR, "no control of a virtual list view") from None


def told(place, total, code, cookie=b""):
    """The control of an answer."""
    held = ber.number(place), ber.number(total), ber.number(code, ber.ENUMERATED), ber.octets(cookie)
    return searches.control(VIEWED, ber.sequence(*held))


def refused(code):
    return Refused(VIEW_ERROR, "", (told(0, 0, code),))


def place_of(wanted, total):
    """The place of the target among all, by the place that the client thinks of among as many as it thinks of."""
    if wanted.place < 1 or (wanted.count and wanted.place > wanted.count):
        raise refused(OUT_OF_RANGE)
    if wanted.count in (0, total) or wanted.place == 1:
        return min(wanted.place, total)
    if wanted.place == wanted.count:
        return total
    return max(1, round(total * wanted.place / wanted.count))


def place_of_value(wanted, found, key, schema):
    """The place of the first entry that doesn't stand before a value; behind all where there is none."""
    syntax = schema.syntax(key.name)
    try:
        value = sorting.value_key(syntax, wanted.value)
    except ValueError:
        raise refused(OUT_OF_RANGE) from None
    for at, entry in enumerate(map(searches.entry_of, found.entries), 1):
        values = [sorting.value_key(syntax, one) for one in entry.values(key.name)]
        if not values or (min(values) <= value if key.reverse else min(values) >= value):
            if values or not key.reverse:
                return at
    return len(found.entries) + 1


def part(wanted, found, place):
    """The entries round a place."""
    first = max(place - 1 - wanted.before, 0)
    return Found(found.entries[first : max(place + wanted.behind, first)])
