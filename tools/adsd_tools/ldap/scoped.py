"""Searches scoped by an attribute (1.2.840.113556.1.4.1504): of the objects that the base names in one of its
attributes, as far as the caller reads it, those that the caller sees and that fit."""

from dataclasses import replace

from adsd_tools.forms import ber

from . import items, messages, named, searches
from .searches import Found, Refused, Search

SCOPED = b"1.2.840.113556.1.4.1504"
NAME, NO_NAMES = "2.5.5.1", 21
# So many names are asked for at once, and one by one where they can't be so.
AT_ONCE, BY_ONE = 2000, 1000


def attribute_of(control):
    """The attribute that a control names."""
    try:
        ((outer, held),) = ber.parts(control.value or b"")
        ((tag, name),) = ber.parts(held)
    except (ber.Broken, ValueError):
        name, tag, outer = b"", 0, 0
    if (outer, tag) != (ber.SEQUENCE, ber.OCTETS) or not name:
        raise Refused(messages.PROTOCOL_ERROR, "no control of a search scoped by an attribute")
    return name


def told(code):
    """The control of the answer."""
    return searches.control(SCOPED, ber.sequence(ber.number(code, ber.ENUMERATED)))


async def found(face, search, name):
    """What is found. The control of the answer says where the attribute has no names."""
    schema = face.bridge.schema
    if search.scope != searches.BASE:
        raise Refused(messages.UNWILLING, "a search scoped by an attribute has scope base")
    if not schema or schema.syntax(name.decode("latin-1").lower()) != NAME:
        return Found(controls=(told(NO_NAMES),))
    base = await face.found(Search(1, search.base, searches.BASE, attributes=(name,)))
    if base.code or not base.entries:
        return replace(base, entries=(), controls=(told(0),))
    values = searches.entry_of(base.entries[0]).values(name.decode("latin-1").lower())
    entries = {}
    for at in range(0, len(values), AT_ONCE):
        await take(face, search, list(values[at : at + AT_ONCE]), entries)
    kept = tuple(entries[one] for one in values if one in entries)
    return Found(kept, controls=(told(0),)).limited(search.size)


async def take(face, search, names, entries):
    """Takes the entries of those of some names that fit: of all at once, as far as the caller reads what they are told
    by, and then one by one."""
    view, wanted, asked = face.view, named.filter_of(names), set()
    both = items.all_of(wanted, search.filter)
    if view.bridge.root and not items.is_deep(both) and len(both) <= items.MOST_BYTES:
        known = await view.whole(Search(1, view.bridge.root, filter=wanted, attributes=(b"1.1",)))
        asked = {searches.entry_of(body).name for body in known.entries}
        fits = await face.found(replace(search, base=view.bridge.root, scope=searches.SUBTREE, size=0, filter=both))
        if fits.code:
            raise Refused(fits.code, "what the attribute names is more than one answer has")
        entries.update((searches.entry_of(body).name, body) for body in fits.entries)
    left = [one for one in names if one not in asked]
    if len(left) > BY_ONE:
        raise Refused(searches.ADMIN_LIMIT, f"more than {BY_ONE} names whose objects the caller doesn't read")
    for name in left:
        fits = await face.found(replace(search, base=name, size=0))
        entries.update((name, body) for body in fits.entries)
