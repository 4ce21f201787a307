"""Ranges of values (`member;range=0-1499`): of many values some, with what tells whether more follow."""

import re
from dataclasses import replace

from adsd_tools.rows.schema import UNREAD

from . import searches

ASKED = re.compile(r"([a-z][a-z0-9-]*);range=([0-9]{1,9})-([0-9]{1,9}|\*)")
# So many values at a time.
MOST = 1500


def asked(search):
    """The ranges that a search asks for, by attributes in lower case: where each begins, and how many values it
    has."""
    found = {}
    for name in search.asked()[0]:
        match = ASKED.fullmatch(name)
        if match and match[1] not in UNREAD:
            low = int(match[2])
            count = MOST if match[3] == "*" else min(int(match[3]) - low + 1, MOST)
            if count > 0:
                found.setdefault(match[1], set()).add((low, count))
    return found


def without(search):
    """A search that asks for all values of those attributes of which a search asks for ranges."""
    ranges = asked(search)
    if not ranges:
        return search
    names = []
    for name in search.attributes:
        match = ASKED.fullmatch(name.decode("latin-1").lower())
        names.append(match[1].encode() if match and match[1] in ranges else name)
    return replace(search, attributes=tuple(names), types_only=False)


def parts(kind, values, ranges):
    """The ranges of an attribute's values, each under the name that tells its place; a star where none follow."""
    for low, count in sorted(ranges):
        held, end = values[low : low + count], low + count
        if held:
            last = "*" if end >= len(values) else str(end - 1)
            yield kind + f";range={low}-{last}".encode(), held


def cut(found, search):
    """What was found, with the ranges that a search asks for in the place of all values."""
    ranges, names, made = asked(search), search.asked()[0], []
    for entry in map(searches.entry_of, found.entries):
        held = []
        for kind, values in entry.held:
            lower = kind.decode("latin-1").lower()
            held += parts(kind, values, ranges.get(lower, ()))
            held += [(kind, values)] if lower not in ranges or lower in names else []
        shown = tuple((kind, () if search.types_only else values) for kind, values in held)
        made.append(searches.body_of(replace(entry, held=shown)))
    return replace(found, entries=tuple(made))
