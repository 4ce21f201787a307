"""Filters (RFC 4511 4.5.1.7) as trees of elements, and those that are made. An item is true, false or undefined."""

from dataclasses import dataclass
from typing import Optional

from adsd_tools.forms import ber

AND, OR, NOT, EQUAL, PIECES, AT_LEAST, AT_MOST = 0xA0, 0xA1, 0xA2, 0xA3, 0xA4, 0xA5, 0xA6
PRESENT, LIKE, EXTENSIBLE = 0x87, 0xA8, 0xA9
INITIAL = 0x80
# The program reads filters of so many levels.
MOST_LEVELS = 64
# A filter of more bytes isn't asked in the place of another one.
MOST_BYTES = 1_000_000


class Deep(Exception):
    """A filter of more levels than are read."""


@dataclass(frozen=True)
class Item:
    """What an item says: its tag, its attribute as it was sent, its value, and its rule, where it has one."""

    tag: int
    sent: bytes
    value: bytes = b""
    rule: Optional[bytes] = None

    @property
    def name(self):
        return self.sent.decode("latin-1").lower()

    def compares(self):
        """Whether it asks for an equal value, by no rule."""
        return self.tag in (EQUAL, LIKE)


def item_of(tag, body):
    """An item that asks for presence, for an equal value, by an order, or by a rule; of others None."""
    if tag == PRESENT:
        return Item(tag, body)
    if tag in (EQUAL, LIKE, AT_LEAST, AT_MOST):
        (_, name), (_, value) = ber.parts(body)
        return Item(tag, name, value)
    told = dict(ber.parts(body)) if tag == EXTENSIBLE else {}
    if not {0x81, 0x82, 0x83} <= set(told) or any(told.get(0x84, b"")):
        return None
    return Item(tag, told[0x82], told[0x83], told[0x81])


def pieces_of(body):
    """The attribute of an item by stars, and its pieces: the kind of each and its bytes."""
    (_, name), (_, held) = ber.parts(body)
    return name, ber.parts(held)


def changed(filter_made, change, level=1):
    """A filter whose items are changed: `change` gives the element of one by its tag and body."""
    if level > MOST_LEVELS:
        raise Deep
    ((tag, body),) = ber.parts(filter_made)
    if tag not in (AND, OR, NOT):
        return change(tag, body)
    return ber.sequence(*(changed(ber.element(*one), change, level + 1) for one in ber.parts(body)), tag=tag)


def has_more(filter_made, most):
    """Whether a filter has more than so many items, or far more elements than that takes. No more of it is looked at;
    where it is none, the program says so."""
    found, looked, at, ends = 0, 0, 0, [len(filter_made)]
    try:
        while ends:
            if at >= ends[-1]:
                ends.pop()
                continue
            tag, size, start = filter_made[at], filter_made[at + 1], at + 2
            if size & 0x80:
                start += size & 0x7F
                size = int.from_bytes(filter_made[at + 2 : start], "big")
            looked += 1
            if size and tag in (AND, OR, NOT):
                ends.append(start + size)
                at = start
            else:
                found, at = found + 1, start + size
            if found > most or looked > 4 * most + MOST_LEVELS:
                return True
    except IndexError:
        pass
    return False


def is_deep(filter_made):
    """Whether a filter has more levels than the program reads."""
    try:
        changed(filter_made, lambda *_: b"")
    except Deep:
        return True
    return False


def all_of(*filters):
    return ber.sequence(*filters, tag=AND)


def any_of(*filters):
    return ber.sequence(*filters, tag=OR)


def no(filter_made):
    return ber.sequence(filter_made, tag=NOT)


def present(name):
    return ber.octets(name, PRESENT)


def equal(name, value):
    return ber.sequence(ber.octets(name), ber.octets(value), tag=EQUAL)


def at_least(name, value):
    return ber.sequence(ber.octets(name), ber.octets(value), tag=AT_LEAST)


def at_most(name, value):
    return ber.sequence(ber.octets(name), ber.octets(value), tag=AT_MOST)


def begins(name, value):
    return ber.sequence(ber.octets(name), ber.sequence(ber.octets(value, INITIAL)), tag=PIECES)


def nothing(name):
    """False where an attribute is read, and undefined where it isn't."""
    return all_of(present(name), no(present(name)))


def among(name, values):
    """True where an attribute has one of some values, undefined where it isn't read, and else false."""
    return any_of(*(equal(name, value) for value in values)) if values else nothing(name)


def where_read(name, filter_made):
    """What a filter says where an attribute is read; undefined where it isn't."""
    is_read = any_of(present(name), no(present(name)))
    return any_of(all_of(is_read, filter_made), nothing(name))
