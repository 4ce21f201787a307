"""Extended names (1.2.840.113556.1.4.529): before each name of an object stand its objectGUID and its objectSid, as far
as the caller reads them. A name of an object that the caller doesn't see stays as it is."""

from dataclasses import replace

from adsd_tools.forms import ber
from adsd_tools.forms.sids import text_of_guid, text_of_sid

from . import items, messages, named, searches
from .heavy import beside
from .searches import Refused, Search
from .view import key_of

EXTENDED = b"1.2.840.113556.1.4.529"
NAME, GUID, SID = "2.5.5.1", b"objectGUID", b"objectSid"
# So many names are looked up at once, and one by one where they can't be so.
AT_ONCE, BY_ONE = 2000, 256


def is_textual(control):
    """Whether identifiers are to be texts; else they are digits."""
    if not control.value:
        return False
    try:
        ((outer, held),) = ber.parts(control.value)
        ((tag, flag),) = ber.parts(held)
    except (ber.Broken, ValueError):
        raise Refused(messages.PROTOCOL_ERROR, "no control of extended names") from None
    if (outer, tag) != (ber.SEQUENCE, ber.INTEGER) or flag not in (b"\0", b"\1"):
        raise Refused(messages.PROTOCOL_ERROR, "no control of extended names")
    return flag == b"\1"


def is_name(schema, kind):
    return schema.syntax(kind.decode("latin-1").lower().partition(";")[0]) == NAME


def names_in(found, schema):
    """All names in what was found: of the entries, and values of attributes that have names."""
    made = {}
    for entry in map(searches.entry_of, found.entries):
        made[entry.name] = None
        made.update(dict.fromkeys(value for kind, values in entry.held if is_name(schema, kind) for value in values))
    return list(made)


async def identified(view, names):
    """What the caller reads of the objects with some names: by the name's key both identifiers, or empty ones."""
    told = {}

    def take(found):
        for entry in map(searches.entry_of, found.entries):
            held = map(entry.values, ("objectguid", "objectsid"))
            told[key_of(entry.name)] = tuple(next(iter(values), b"") for values in held)

    for at in range(0, len(names), AT_ONCE):
        wanted = named.filter_of(names[at : at + AT_ONCE])
        if not items.is_deep(wanted) and len(wanted) <= items.MOST_BYTES:
            take(await view.all_found(Search(1, view.bridge.root, filter=wanted, attributes=(GUID, SID))))
    for name in [one for one in names if key_of(one) not in told][:BY_ONE]:
        take(await view.found(Search(1, name, searches.BASE, attributes=(GUID, SID))))
    return told


def written(name, identifiers, is_text):
    """A name with its object's identifiers before it."""
    guid, sid = identifiers
    parts = []
    if guid:
        text = text_of_guid(guid) if is_text and len(guid) == 16 else guid.hex()
        parts.append(b"<GUID=%s>" % text.encode())
    if sid:
        parts.append(b"<SID=%s>" % (text_of_sid(sid).encode() if is_text else sid.hex().encode()))
    return b";".join([*parts, name])


def extended(found, schema, told, is_text):
    """What was found, with extended names."""
    def name_of(name):
        return written(name, told.get(key_of(name), (b"", b"")), is_text)

    made = []
    for entry in map(searches.entry_of, found.entries):
        held = tuple((kind, tuple(map(name_of, values)) if is_name(schema, kind) else values)
                     for kind, values in entry.held)
        made.append(searches.body_of(replace(entry, name=name_of(entry.name), held=held)))
    return replace(found, entries=tuple(made))


async def of_found(view, found, control):
    """What was found, with extended names, where the store's names can be looked up."""
    is_text, bridge = is_textual(control), view.bridge
    if not found.entries or not bridge.schema or not bridge.root or found.entries[0][:2] == b"\4\0":
        return found
    names = await beside(found.weight(), names_in, found, bridge.schema)
    return await beside(found.weight(), extended, found, bridge.schema, await identified(view, names), is_text)
