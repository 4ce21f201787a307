"""A filter for the objects with some names, of which there may be many.

The program tries each item of an or at each object, until one is true. So names are parted in halves by `name`, which
has an order, again and again, and few of them are tried at each object."""

import unicodedata

from adsd_tools.forms import ber
from adsd_tools.forms import names as dns

from . import items

NAME, OWN_NAME = b"name", b"distinguishedName"
# So many names stand in one or.
FEW = 4


def parted_by(name):
    """The first value of a name, and what its order is by; None where Python may fold it otherwise than the program,
    whose Unicode is newer: the folding of a letter never changes once there is one."""
    try:
        value = dns.read(name).parts[0][1].decode()
    except (dns.NoName, IndexError, UnicodeDecodeError):
        return None
    return None if any(unicodedata.category(one) == "Cn" for one in value) else (value.casefold().encode(), value)


def halves(parts):
    """A filter for names with the values that part them, in their order."""
    keys = [key for (key, _), _ in parts]
    at = len(parts) // 2
    while at < len(parts) and keys[at] == keys[at - 1]:
        at += 1
    if len(parts) <= FEW or at == len(parts):
        return items.any_of(*(items.equal(OWN_NAME, name) for _, name in parts))
    below = ber.sequence(ber.octets(NAME), ber.octets(parts[at - 1][0][1].encode()), tag=items.AT_MOST)
    return items.any_of(items.all_of(below, halves(parts[:at])), items.all_of(items.no(below), halves(parts[at:])))


def filter_of(names):
    """A filter that is true of the objects with these names, and undefined where the caller reads an object's name or
    its distinguishedName not."""
    if not names:
        return items.where_read(NAME, items.nothing(OWN_NAME))
    parted = [(parted_by(name), name) for name in names]
    others = [items.equal(OWN_NAME, name) for place, name in parted if place is None]
    made = halves(sorted((place, name) for place, name in parted if place is not None))
    return items.where_read(NAME, items.where_read(OWN_NAME, items.any_of(*others, made)))
