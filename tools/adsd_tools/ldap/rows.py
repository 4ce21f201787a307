"""What the bridge reads of the store's files beside the schema: which objects tokens hang on, and whether an account is
there at all. No client is told of it: it decides what the bridge refuses, and what its log says."""

from dataclasses import dataclass

from adsd_tools.forms import names as dns
from adsd_tools.forms.names import value_text
from adsd_tools.rows import store

from .view import key_of

SID, LOGIN, MEMBER, USER = "objectsid", "samaccountname", "member", "user"


@dataclass(frozen=True)
class Source:
    """An object of which tokens are made besides the account's own: its name, the name of its class, and whether it
    has members."""

    name: bytes
    of_class: str
    has_members: bool


class Rows:
    """The objects of a store as its files have them at one moment. Of most of them the beginning alone is read."""

    def __init__(self, path, schema):
        self.schema, self.namings, self.kinds = schema, {}, {}
        rows = store.table(path, (store.OBJECT, store.COUNTERS))
        self.rows = {number: row for (kind, number), row in rows.items() if kind == store.OBJECT}
        self.heads = {number: head_of(row) for number, row in self.rows.items()}
        counters = store.Bytes(next(row for (kind, _), row in rows.items() if kind == store.COUNTERS))
        counters.number(8)
        self.suffix = counters.text()

    def name(self, number):
        """The name of an object."""
        parts = []
        while number in self.heads:
            number, of_class, naming = self.heads[number]
            if of_class not in self.namings:
                self.namings[of_class] = self.schema.naming(of_class).encode()
            parts.append(self.namings[of_class] + b"=" + value_text(naming))
        return b",".join([*parts, self.suffix] if self.suffix else parts)

    def values(self, number, name):
        """The values of an attribute of an object."""
        return store.object_of(number, self.rows[number]).values.get(self.schema.of_attribute.get(name), ())

    def kind(self, of_class):
        """Whether objects of a class have members, and whether they are accounts that log on."""
        if of_class not in self.kinds:
            chain = {self.schema.class_names[one].lower() for one in self.schema.chain(of_class)}
            allowed = {name.lower() for name in self.schema.allowed_names(of_class)}
            self.kinds[of_class] = MEMBER in allowed, USER in chain
        return self.kinds[of_class]

    def sources(self):
        """The objects that have members, and those with an identifier that are no accounts: others' tokens hang on
        them."""
        found = []
        for number, (_, of_class, _) in self.heads.items():
            has_members, logs_on = self.kind(of_class)
            if has_members or (not logs_on and self.values(number, SID)):
                found.append(Source(self.name(number), self.schema.class_names[of_class], has_members))
        return found

    def has_account(self, name):
        """Whether there is an object with an identifier and a name, which is a DN or a login in any of its forms."""
        held = (number for number in self.heads if self.values(number, SID))
        if "=" in name:
            try:
                wanted = dns.read(name.encode()).key()
            except (dns.NoName, UnicodeEncodeError):
                return False
            return any(key_of(self.name(number)) == wanted for number in held)
        wanted = name.rpartition("\\")[2].partition("@")[0].casefold()
        values = (value for number in held for value in self.values(number, LOGIN))
        return any(value.decode("utf-8", "replace").casefold() == wanted for value in values)


def head_of(row):
    """The parent of an object, its class, and the value that names it."""
    parent, of_class, size = store.OBJECT_HEAD.unpack_from(row)
    at = store.OBJECT_HEAD.size + size
    if at > len(row):
        raise store.Broken("a row is cut short")
    return parent, of_class, row[at - size : at]
