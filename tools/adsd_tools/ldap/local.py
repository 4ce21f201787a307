"""Entries that the bridge makes itself, and what a search finds among them: the root DSE, the subschema, and the
schema's own objects. They are told to whoever may have them as a whole, so no attribute of them is hidden."""

from dataclasses import replace

from adsd_tools.forms import ber

from . import items, searches
from .searches import BASE, ONE, Found
from .view import key_of

NUMBER = 24
# So many items are tried, at all entries together.
MOST_TRIES = 2_000_000


def number_of(value):
    text = value.decode("latin-1")
    return int(text) if text.lstrip("-").isdigit() and len(text) < NUMBER else None


def folded(value):
    return value.decode("utf-8", "surrogateescape").casefold()


def fits_pieces(pieces, value):
    """Whether a text has some pieces, one behind the other."""
    text, at = folded(value), 0
    for kind, piece in pieces:
        wanted = folded(piece)
        if kind == 0x80 and not text.startswith(wanted):
            return False
        if kind == 0x82:
            return len(text) - len(wanted) >= at and text.endswith(wanted)
        found = text.find(wanted, at)
        if found < 0:
            return False
        at = found + len(wanted)
    return True


def is_ordered(tag, own, value):
    """Whether a value stands at or above another one, or at or below it: as numbers where both are."""
    first, second = number_of(own), number_of(value)
    if first is None or second is None:
        first, second = folded(own), folded(value)
    return first >= second if tag == items.AT_LEAST else first <= second


def is_equal(own, value):
    return own == value or folded(own) == folded(value) or (b"=" in own and key_of(own) == key_of(value))


def extensible(values, told):
    """What an item by a rule says: the bitwise rules of numbers; others are undefined."""
    wanted, rule = number_of(told.get(0x83, b"")), told.get(0x81, b"")
    if wanted is None or rule not in (b"1.2.840.113556.1.4.803", b"1.2.840.113556.1.4.804"):
        return None
    held = [number for number in map(number_of, values) if number is not None]
    return any(one & wanted == wanted if rule.endswith(b"3") else one & wanted for one in held)


def item_says(entry, tag, body):
    """What an item says of an entry: true, false, or None. An attribute that the entry hasn't is false."""
    if tag == items.PRESENT:
        return bool(entry.values(lower(body)))
    if tag == items.EXTENSIBLE:
        told = dict(ber.parts(body))
        return extensible(entry.values(lower(told.get(0x82, b""))), told)
    (_, name), (_, value) = ber.parts(body)
    values = entry.values(lower(name))
    if tag == items.PIECES:
        return any(fits_pieces(ber.parts(value), one) for one in values)
    if tag in (items.AT_LEAST, items.AT_MOST):
        return any(is_ordered(tag, one, value) for one in values)
    return any(is_equal(one, value) for one in values)


def lower(name):
    return name.decode("latin-1").lower()


def says(entry, filter_made):
    """What a filter says of an entry: true, false, or None."""
    ((tag, body),) = ber.parts(filter_made)
    if tag == items.NOT:
        inner = says(entry, body)
        return None if inner is None else not inner
    if tag not in (items.AND, items.OR):
        return item_says(entry, tag, body)
    held = [says(entry, ber.element(*one)) for one in ber.parts(body)]
    decides = tag == items.OR
    return decides if decides in held else None if None in held else not decides


def is_large(filter_made, entries):
    """Whether a filter is too deep, or too long to be tried at so many entries."""
    count = 0

    def look(_, body):
        nonlocal count
        count += 1 + len(body) // 64
        return b""

    try:
        items.changed(filter_made, look)
    except items.Deep:
        return True
    return count * entries > MOST_TRIES


def is_in_scope(search, name):
    """Whether a name is in the scope of a search."""
    base, own = key_of(search.base), key_of(name)
    if search.scope == BASE:
        return own == base
    above = own[1:] == base
    return above if search.scope == ONE else len(own) >= len(base) and own[len(own) - len(base):] == base


def chosen(entry, search, hidden=()):
    """An entry with what a search asks for; some attributes are told only by name, or by `+`."""
    names, everything = search.asked()
    held = tuple((kind, () if search.types_only else values) for kind, values in entry.held
                 if (everything and lower(kind) not in hidden) or lower(kind) in names
                 or ("+" in names and lower(kind) in hidden))
    return replace(entry, held=held)


def answer(search, entries):
    """What a search finds among some entries."""
    if is_large(search.filter, len(entries)):
        return Found(code=searches.ADMIN_LIMIT)
    fits = [one for one in entries if is_in_scope(search, one.name) and says(one, search.filter)]
    return Found(tuple(searches.body_of(chosen(one, search)) for one in fits)).limited(search.size)
