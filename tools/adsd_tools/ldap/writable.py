"""Which attributes the program would let a client write by a change.

A rule of the bridge refuses only what the program wouldn't refuse by itself: to all others the program's answer is
given, so that a refusal tells nothing to who couldn't make the change."""

from dataclasses import dataclass
from typing import Optional

from adsd_tools.forms import names as dns

from . import operations, searches
from .operations import ADD
from .searches import Search

PASSWORD = "unicodepwd"


@dataclass(frozen=True)
class Fault:
    """What is wrong with an attribute of a change, by its name in lower case, and the answer to it."""

    name: str
    refusal: searches.Refused


def class_of(operation, schema):
    """The class that an Add makes an object of: the one with all others in its chain; None where there is none."""
    named = {value.decode("latin-1").lower() for value in operation.values("objectclass")}
    if schema is None or not named <= set(schema.of_class):
        return None
    for name in named:
        if named <= {schema.class_names[one].lower() for one in schema.chain(schema.of_class[name])}:
            return schema.of_class[name]
    return None


def above(name):
    """The name of the object above another one; the empty name where there is none."""
    return dns.Name(dns.read(name).parts[1:]).text()


def lower(values):
    return {value.lower() for value in values}


class Writable:
    """What the program would let a client write by one Add or Modify."""

    def __init__(self, session, operation):
        self.operation, self.schema, self.view = operation, session.bridge.schema, session.face.view
        self.known = None

    async def read(self, name, attribute):
        """The values of an attribute of an object as the client reads it, in lower case; None where it sees none."""
        found = await self.view.found(Search(1, name, searches.BASE, attributes=(attribute,)))
        if not found.entries:
            return None
        return lower(searches.entry_of(found.entries[0]).values(attribute.decode().lower()))

    async def may(self, name):
        """Whether the program would let the client write an attribute, or make the object."""
        if self.known is None:
            self.known = await (self.making() if self.operation.kind == ADD else self.writing())
        return self.known is True or name.encode() in self.known

    async def making(self):
        """True where an object of the class may be made, else nothing. Where it can't be told, true, which refuses."""
        try:
            parent = above(self.operation.name)
        except dns.NoName:
            return True
        allowed, of_class = await self.read(parent, b"allowedChildClassesEffective"), class_of(
            self.operation, self.schema)
        made = (lower(self.operation.values("objectclass")) if of_class is None else
                {self.schema.class_names[of_class].lower().encode()})
        return True if made & (allowed or set()) else set()

    async def writing(self):
        """The attributes that may be written. A password is changed by the old one without a right, and the back links
        that nobody writes aren't told."""
        own = await self.read(self.operation.name, b"allowedAttributesEffective")
        if own is None:
            return set()
        acts = [item.act for item in self.operation.items if item.lower == PASSWORD]
        changed = {PASSWORD.encode()} if acts == [operations.DELETES, operations.ADDS] else set()
        back = {item.lower.encode() for item in self.operation.items
                if self.schema is not None and self.schema.link_number(item.lower) % 2}
        return own | changed | back
