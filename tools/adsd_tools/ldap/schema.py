"""The schema of a store as the bridge knows it. No request changes it, so it is read once."""

import re
import struct

from adsd_tools.forms.names import value_text
from adsd_tools.rows import store
from adsd_tools.rows import schema as schemas

from . import schema_entries, subschema

NAME, TEXT, TIME = "2.5.5.1", "2.5.5.12", "2.5.5.11"
OF_SCHEMA = ("attributeschema", "classschema", "controlaccessright")
# What Active Directory may put before a name: identifiers of its object.
EXTENDED = re.compile(r"^(<[^>]*>;)*")


class Schema(schemas.Schema):
    """What the records of a store say of attributes and classes."""

    untold, lines, root, made, linked = schemas.UNREAD, None, None, None, None

    def __init__(self, records):
        super().__init__(records)
        self.records = records
        self.of_oid = {one.text("attributeID"): name for one, name in zip(self.attributes, self.attribute_names)}
        self.times = tuple(name.lower().encode() for name, one in zip(self.attribute_names, self.attributes)
                           if one.text("attributeSyntax") == TIME)
        self.class_of_oid = {one.text("governsID"): name for one, name in zip(self.classes, self.class_names)}

    def entries(self, root):
        """The entries of the schema's own objects."""
        self.made = self.made or schema_entries.entries(self, root)
        return self.made

    def subschema(self):
        """The lines of the subschema."""
        self.lines = self.lines or subschema.Lines(self)
        return self.lines

    def syntax(self, name):
        """The syntax of an attribute, by its name in lower case; None where there is none."""
        at = self.of_attribute.get(name)
        return None if at is None else self.attributes[at].text("attributeSyntax")

    def spelled(self, name):
        return self.attribute_names[self.of_attribute[name]]

    def place(self, spelled):
        """Where an attribute stands in an entry: in the order of the schema, and behind it what isn't stored."""
        name, last = spelled.decode("latin-1").lower(), len(self.attributes)
        return last if name in self.untold else self.of_attribute.get(name, last)

    def link_number(self, name):
        at = self.of_attribute.get(name)
        return self.attributes[at].number("linkID") if at is not None else 0

    def link_of(self, name):
        """The link that an attribute is, by its name in lower case, or is the back link of: the link's name as it is
        spelled, and whether it is the back link. None where it is neither."""
        number = self.link_number(name) or 0
        if number < 2 or self.syntax(name) != NAME:
            return None
        if number % 2 == 0:
            return self.spelled(name), False
        found = [other for other, one in zip(self.attribute_names, self.attributes)
                 if one.number("linkID") == number - 1 and one.text("attributeSyntax") == NAME]
        return (found[0], True) if found else None

    def has_member_of(self):
        """Whether memberOf is the other end of the link member, and objects are told by their names."""
        if self.linked is None:
            self.linked = self.is_linked()
        return self.linked

    def is_linked(self):
        link, other = self.link_number("member"), self.link_number("memberof")
        is_link = self.syntax("member") == NAME and link % 2 == 0 and link > 0
        is_told = self.syntax("distinguishedname") == NAME and self.syntax("name") == TEXT
        return is_link and is_told and other == link + 1

    def children(self, at):
        """The places of the classes whose objects may stand below one of a class."""
        chain = {self.class_names[one].lower() for one in self.chain(at)}
        for child, record in enumerate(self.classes):
            above = [name for one in self.chain(child)
                     for name in self.classes[one].many("possSuperiors", "systemPossSuperiors")]
            if record.number("objectClassCategory") not in (2, 3) and chain & set(above) \
                    and self.class_names[child].lower() not in OF_SCHEMA:
                yield child

    def category(self, value):
        """The name that stands for a class in objectCategory, by the name of the class; None where there is none."""
        at = self.of_class.get(value.decode("latin-1").lower())
        told = self.classes[at].text("defaultObjectCategory") if at is not None else ""
        return EXTENDED.sub("", told).encode() or None

    def searched(self, bit):
        """The names of the attributes whose searchFlags have a bit."""
        return [name for name, one in zip(self.attribute_names, self.attributes) if one.number("searchFlags") & bit]


def root_of(rows, schema):
    """The root's name; None where it can't be read."""
    counters = [row for (kind, _), row in rows.items() if kind == store.COUNTERS]
    if (store.OBJECT, 1) not in rows or not counters:
        return None
    root, given = store.object_of(1, rows[store.OBJECT, 1]), store.Bytes(counters[0])
    given.number(8)
    suffix = given.text()
    own = schema.naming(root.of_class).encode() + b"=" + value_text(root.naming)
    return own + (b"," + suffix if suffix else b"")


def read(path):
    """The schema of a store with its root's name, and why there is none."""
    try:
        rows = store.table(path, (store.RECORD, store.OBJECT, store.COUNTERS))
        made = Schema([store.record_of(row) for (kind, _), row in sorted(rows.items()) if kind == store.RECORD])
        made.root = root_of(rows, made)
        return made, ""
    except (OSError, store.Broken) as why:
        return None, str(why)
    except (LookupError, ValueError, struct.error):
        return None, "its rows can't be read"
