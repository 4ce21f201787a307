"""Searches of few objects by what the program finds at once, whose items by bits are tried here: what applications ask
at each log-in, as (&(sAMAccountName=ann)(!(userAccountControl:1.2.840.113556.1.4.803:=2))).

An and is true where each of its filters is. So the program is asked by those that it answers by itself, for the values
too that the others are about; these are tried at what it found, by the values that the caller reads."""

from dataclasses import replace

from adsd_tools.forms import ber

from . import items, searches
from .items import AND, NOT, OR

# Where more objects are found, the items are rewritten.
FEW = 16


def conjuncts(filter_made):
    """The filters that all have to be true."""
    found, todo = [], [filter_made]
    while todo:
        one = todo.pop()
        ((tag, body),) = ber.parts(one)
        if tag == AND:
            todo += [ber.element(*held) for held in reversed(ber.parts(body))]
        else:
            found.append(one)
    return found


def has_foreign(filter_made, foreign):
    """Whether a filter has an item of some."""
    ((tag, body),) = ber.parts(filter_made)
    if tag in (AND, OR, NOT):
        return any(has_foreign(ber.element(*one), foreign) for one in ber.parts(body))
    return (tag, body) in foreign


def parted(filter_made, foreign):
    """The filters of an and that the program answers by itself, as one, and the others; None where there are none."""
    plain, others = [], []
    for one in conjuncts(filter_made):
        (others if has_foreign(one, foreign) else plain).append(one)
    return (plain[0] if len(plain) == 1 else items.all_of(*plain)) if plain else None, others


def says(filter_made, entry, bits):
    """What a filter says of an entry that has a value of each attribute it is about; None where that isn't known."""
    ((tag, body),) = ber.parts(filter_made)
    if tag not in (AND, OR, NOT):
        test = bits.get((tag, body))
        values = entry.values(test.name) if test else ()
        return any(map(test.fits, values)) if values else None
    held = [says(ber.element(*one), entry, bits) for one in ber.parts(body)]
    if None in held:
        return None
    return not held[0] if tag == NOT else any(held) if tag == OR else all(held)


def with_names(search, names):
    """The attributes that a search asks for, with some more."""
    asked, everything = search.asked()
    if everything:
        return search.attributes
    more = tuple(name for name in names if name.decode("latin-1").lower() not in asked)
    return tuple(name for name in search.attributes if name != b"1.1") + more


async def found(view, search, rewriter):
    """What is found with more attributes than were asked for, and the filter by which the program found it; None and
    None where that can't be told so."""
    bits = rewriter.bits()
    plain, others = parted(search.filter, rewriter.known()) if bits else (None, ())
    if plain is None or search.has_critical():
        return None, None
    names = with_names(search, dict.fromkeys(test.sent for test in bits.values()))
    got = await view.found(replace(search, attributes=names, types_only=False, filter=plain, size=FEW))
    if got.code in (searches.SIZE_LIMIT, searches.ADMIN_LIMIT):
        return None, None
    kept = []
    for body in got.entries:
        entry = searches.entry_of(body)
        held = [says(one, entry, bits) for one in others]
        if None in held:
            return None, None
        kept += [body] if all(held) else []
    return replace(got, entries=tuple(kept)).limited(search.size), plain
