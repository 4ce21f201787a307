"""What Active Directory's clients write in other words than the program reads: object identifiers in the place of
names, and objects by their identifiers (`<SID=..>`, `<GUID=..>`, `<WKGUID=..>`), which are looked up as the caller
reads them."""

import re
from dataclasses import replace

from adsd_tools.forms import ber
from adsd_tools.forms.sids import guid_of_text, sid_at, sid_of_text

from . import items, messages, searches
from .heavy import beside
from .searches import Refused, Search

OID = re.compile(rb"(?:OID\.)?([0-2](?:\.[0-9]+)+)", re.I)
# A type of a name that is an identifier: at the beginning, or behind a comma that isn't escaped.
TYPE = re.compile(rb"((?:^|(?<!\\),)\s*)(?:OID\.)?([0-2](?:\.[0-9]+)+)(?=\s*=)", re.I)
BY_NUMBER = re.compile(rb"\s*<(SID|GUID|WKGUID)=([^<>]*)>\s*", re.I)
HEX = re.compile(rb"(?:[0-9A-Fa-f]{2})+")
NAME, OCTETS, NO_NAME = "2.5.5.1", "2.5.5.10", 34
# What is compared with a GUID, which may be a text.
GUIDS = (b"objectguid", b"schemaidguid", b"attributesecurityguid")
WELL_KNOWN = (b"wellKnownObjects", b"otherWellKnownObjects")
# So many objects are looked up for one message.
MOST_OBJECTS = 1000


def sid_bytes(text):
    """The bytes of an identifier: its text, or their digits."""
    if HEX.fullmatch(text):
        made = bytes.fromhex(text.decode())
        return made if sid_at(made, 0, len(made)) == made else None
    return sid_of_text(text.decode("latin-1"))


def guid_bytes(text):
    """The bytes of a GUID: its text, or their digits in the order of the bytes."""
    if HEX.fullmatch(text):
        return bytes.fromhex(text.decode()) if len(text) == 32 else None
    return guid_of_text(text.decode("latin-1").strip("{}"))


class Speller:
    """The words of one message, as the program reads them."""

    def __init__(self, view):
        self.view, self.schema, self.root = view, view.bridge.schema, view.bridge.root
        self.looked_up = {}

    def attribute(self, name):
        """The name of an attribute that is named by its object identifier."""
        kind, sign, options = name.partition(b";")
        found = OID.fullmatch(kind) if self.schema else None
        known = self.schema.of_oid.get(found[1].decode()) if found else None
        return known.encode() + sign + options if known else name

    def of_class(self, value):
        known = self.schema.class_of_oid.get(value.decode("latin-1")) if self.schema and OID.fullmatch(value) else None
        return known.encode() if known else value

    def plain(self, name):
        """A name with names of types in the place of object identifiers."""
        if not self.schema or b"." not in name or b'"' in name:
            return name
        return TYPE.sub(lambda found: found[1] + self.attribute(found[2]), name)

    def is_other(self, name):
        return BY_NUMBER.fullmatch(name) is not None

    async def name(self, name):
        """The name of an object, however it is named. Refused where the caller sees none."""
        found = BY_NUMBER.fullmatch(name)
        if found is None:
            return self.plain(name)
        if name not in self.looked_up:
            if len(self.looked_up) >= MOST_OBJECTS:
                raise Refused(searches.ADMIN_LIMIT, f"more than {MOST_OBJECTS} objects by their identifiers")
            self.looked_up[name] = await self.object(found[1].upper(), found[2])
        if self.looked_up[name] is None:
            raise Refused(searches.NO_OBJECT)
        return self.looked_up[name]

    async def object(self, kind, text):
        """The name of the object that an identifier names, as far as the caller sees it."""
        if kind == b"WKGUID":
            return await self.well_known(text)
        value = sid_bytes(text) if kind == b"SID" else guid_bytes(text)
        if value is None:
            raise Refused(NO_NAME, "no identifier")
        if self.root is None:
            return None
        wanted = items.equal(b"objectSid" if kind == b"SID" else b"objectGUID", value)
        found = await self.view.whole(Search(1, self.root, filter=wanted, attributes=(b"1.1",)))
        return searches.entry_of(found.entries[0]).name if len(found.entries) == 1 else None

    async def well_known(self, text):
        """The object that another one says to be the well-known one of a GUID."""
        guid, comma, base = text.partition(b",")
        if not comma or not re.fullmatch(rb"[0-9A-Fa-f]{32}", guid):
            raise Refused(NO_NAME, "no identifier")
        found = await self.view.whole(Search(1, self.plain(base), searches.BASE, attributes=WELL_KNOWN))
        for body in found.entries:
            for _, values in searches.entry_of(body).held:
                for value in values:
                    told = value.split(b":", 3)
                    if len(told) == 4 and told[2].upper() == guid.upper():
                        return told[3]
        return None

    def item(self, tag, body):
        """An item of a filter, with names in the place of object identifiers."""
        if tag == items.PRESENT:
            return ber.octets(self.attribute(body), tag)
        if tag == items.EXTENSIBLE:
            return ber.sequence(*(ber.octets(self.attribute(one) if kind == 0x82 else one, kind)
                                  for kind, one in ber.parts(body)), tag=tag)
        (kind, name), (other, value) = ber.parts(body)
        name = self.attribute(name)
        if tag in (items.EQUAL, items.LIKE) and name.lower() == b"objectclass":
            value = self.of_class(value)
        if self.is_other(value) and self.is_link(name):
            value = self.looked_up.get(value) or value
        if tag in (items.EQUAL, items.LIKE) and name.lower() in GUIDS:
            value = self.guid(name, value)
        return ber.sequence(ber.octets(name, kind), ber.octets(value, other), tag=tag)

    def guid(self, name, value):
        """The bytes of a GUID that is given by its text."""
        text = value.decode("latin-1").strip("{}")
        made = guid_of_text(text) if self.schema.syntax(name.decode("latin-1").lower()) == OCTETS else None
        return value if made is None else made

    def is_link(self, name):
        return bool(self.schema) and self.schema.syntax(name.decode("latin-1").lower()) == NAME

    async def filter(self, filter_made):
        """A filter as the program reads it; where it is none, or too deep, it stays."""
        upper = filter_made.upper()
        marked = b"." in filter_made or b"ID=" in upper or any(name.upper() in upper for name in GUIDS)
        if not self.schema or not marked:
            return filter_made
        for value in set(re.findall(rb"<(?:SID|GUID|WKGUID)=[^<>]*>", filter_made, re.I)):
            try:
                await self.name(value)
            except Refused as why:
                if why.code == searches.ADMIN_LIMIT:
                    raise
        try:
            return await beside(len(filter_made), items.changed, filter_made, self.item)
        except (ber.Broken, ValueError, items.Deep):
            return filter_made  # The program says what is wrong with it.

    async def search(self, search):
        """A search as the program reads it."""
        base, asked = await self.name(search.base), tuple(map(self.attribute, search.attributes))
        made = base, asked, await self.filter(search.filter)
        if made == (search.base, search.attributes, search.filter):
            return search
        return replace(search, base=made[0], attributes=made[1], filter=made[2])

    async def values(self, name, values):
        """The values of an attribute."""
        if name.lower() == b"objectclass":
            return tuple(map(self.of_class, values))
        if not self.is_link(name):
            return values
        return tuple([await self.name(one) if self.is_other(one) else one for one in values])
