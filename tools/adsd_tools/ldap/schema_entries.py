"""The objects of the schema and of extended rights as entries, made of the records that the store keeps of them. A
store has no such objects, and no request changes them. They are told to whom the program shows the root for
(objectClass=*)."""

from dataclasses import replace

from adsd_tools.forms import filters
from adsd_tools.forms.names import value_text
from adsd_tools.forms.sids import guid_of_text
from adsd_tools.rows.schema import ATTRIBUTE, CLASS, RIGHT, UNREAD

from . import local, searches
from .heavy import HEAVY, beside
from .searches import Entry, Search
from .view import key_of

SCHEMA, RIGHTS = b"CN=Schema,CN=Configuration,", b"CN=Extended-Rights,CN=Configuration,"
OF_KIND = {ATTRIBUTE: (b"attributeSchema", SCHEMA), CLASS: (b"classSchema", SCHEMA),
           RIGHT: (b"controlAccessRight", RIGHTS)}
# Of these the name of an object is told once.
OWN = {"objectclass", "cn", "name", "distinguishedname"}


def guid_or_text(value):
    """The bytes of a GUID, which some exports have as text."""
    return guid_of_text(value.decode("latin-1")) or value


def entry_of(kind, pairs, root):
    """The entry of a record, of its lines; None where it has no name."""
    told = {}
    for spelled, value in pairs:
        told.setdefault(spelled.lower(), (spelled, []))[1].append(value)
    of_class, place = OF_KIND[kind]
    (_, (called, *_)) = told.get(b"cn") or told[b"ldapdisplayname"]
    name = b"CN=" + value_text(called) + b"," + place + root
    own = [(b"objectClass", (b"top", of_class)), (b"cn", (called,)), (b"distinguishedName", (name,)),
           (b"name", (called,))]
    more = [(spelled, tuple(map(guid_or_text, values) if key == b"objectguid" else values))
            for key, (spelled, values) in told.items() if key.decode("latin-1") not in OWN | UNREAD]
    return Entry(name, tuple(own + more))


def container(name, of_class):
    called = name.partition(b",")[0][3:]
    return Entry(name, ((b"objectClass", (b"top", of_class)), (b"cn", (called,)), (b"distinguishedName", (name,)),
                        (b"name", (called,))))


def entries(schema, root):
    """All entries: the two containers, and what is in them."""
    made = [container(SCHEMA + root, b"dMD"), container(RIGHTS + root, b"container")]
    return made + [entry_of(kind, pairs, root) for kind, pairs in schema.records]


def asked(search, root):
    """Whether a search's base is one of these entries, or would be below them."""
    if not root or len(search.base) > 8192 or b"configuration" not in search.base.lower():
        return False
    base = key_of(search.base)
    return any(base[len(base) - len(place):] == place
               for place in (key_of(SCHEMA + root), key_of(RIGHTS + root)) if len(base) >= len(place))


async def answer(found, search, root, schema):
    """What is found; `found` asks the program, whose own objects stand first."""
    made = await found(search)
    if made.code not in (searches.NO_OBJECT, 0) or search.has_critical():
        return made
    seen = Search(search.number, root, searches.BASE, filter=filters.read("(objectClass=*)"), attributes=(b"1.1",))
    if not (await found(seen)).entries:
        return made
    own = {searches.entry_of(body).name.lower() for body in made.entries}
    held = [one for one in schema.entries(root) if one.name.lower() not in own]
    if not any(local.is_in_scope(replace(search, scope=searches.BASE), one.name) for one in held):
        return made
    more = await beside(HEAVY, local.answer, search, held)
    return replace(more, entries=made.entries + more.entries).limited(search.size)
