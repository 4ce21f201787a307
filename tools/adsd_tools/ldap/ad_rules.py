"""What Active Directory forbids beside what the program does (docs/clients.md#what-active-directory-forbids).

Each refusal is made of the request, of the schema, and of what the caller reads; and where it tells of an object
that the caller may not see, that a principal's name is taken, only where the program would let the caller write it
(writable.py). What nobody may write is in guards.py."""

import re
from dataclasses import replace

from adsd_tools.forms import names as dns

from . import filling, items, searches
from .accounts import number_of as first_number
from .numerals import number_of
from .operations import ADD, DELETE, DELETES, MODIFY, RENAME
from .searches import Refused, Search
from .writable import Fault, Writable, class_of

CONSTRAINT, SYNTAX, UNWILLING = 19, 21, 53
RANGE = "00002082: AtrErr: DSID-03151275, problem 1005 (CONSTRAINT_ATT_TYPE), data 0, Att {}"
NO_TIME = "0000200B: AtrErr: DSID-03151292, problem 1006 (INVALID_ATTRIBUTE_SYNTAX), data 0, Att {}"
PRINCIPAL = "000021C8: AtrErr: DSID-03200E5A, problem 1005 (CONSTRAINT_ATT_TYPE), data 0, Att userPrincipalName"
PASSWORD = "0000001F: SvcErr: DSID-031A126C, problem 5003 (WILL_NOT_PERFORM), data 0"
CRITICAL = "000020CE: SvcErr: DSID-031A05C4, problem 5003 (WILL_NOT_PERFORM), data 0"
BY_FLAG = "00002185: SvcErr: DSID-031A0FC4, problem 5003 (WILL_NOT_PERFORM), data 0"
TIME = re.compile(rb"[0-9]{14}(\.[0-9]+)?(Z|[+-][0-9]{4})|[0-9]{10}([0-9]{2})?(Z|[+-][0-9]{4})")
# A principal's name is one value; of more the program says what is wrong.
MOST_VALUES = 16
# Bits of systemFlags, as a number without a sign: not to be deleted, moved, renamed.
NO_DELETE, NO_MOVE, NO_RENAME = 0x80000000, 0x04000000, 0x08000000
TEXTS, NUMBERS, OCTETS = ("2.5.5.12", "2.5.5.4", "2.5.5.5", "2.5.5.2"), ("2.5.5.9", "2.5.5.16"), "2.5.5.10"


def has_any(session, operation):
    """Whether there is a rule for an operation."""
    bridge = session.bridge
    return bool(bridge.options.ad_rules and bridge.schema and operation.kind in (ADD, MODIFY, DELETE, RENAME))


async def judged(session, operation, is_tree):
    """The operation, with what is filled in; Refused where it is forbidden. `is_tree` says of a deletion that all
    below goes too."""
    rules = Rules(session, operation)
    if operation.kind in (DELETE, RENAME):
        await rules.flags()
        if is_tree:
            await rules.flags_below()
        return operation
    writable = Writable(session, operation)
    for fault in rules.faults() + await rules.taken():
        if await writable.may(fault.name):
            raise fault.refusal
    of_class = class_of(operation, rules.schema) if operation.kind == ADD else None
    if of_class is None:
        return operation
    number = session.bridge.accounts.counted()
    return replace(operation, items=filling.filled(operation, rules.schema, of_class, number))


def bound(record, name):
    return number_of(record.text(name).encode())


def size_of(syntax, value):
    """What rangeLower and rangeUpper count of a value; None where they count nothing."""
    if syntax in NUMBERS:
        return number_of(value)
    return len(value.decode("utf-8", "replace")) if syntax in TEXTS else len(value) if syntax == OCTETS else None


def is_out(record, value):
    """Whether a value is out of an attribute's range."""
    size = size_of(record.text("attributeSyntax"), value)
    low, high = bound(record, "rangeLower"), bound(record, "rangeUpper")
    return size is not None and ((low is not None and size < low) or (high is not None and size > high))


def is_quoted(value):
    """Whether a value is a password as unicodePwd has it."""
    try:
        text = value.decode("utf-16-le")
    except UnicodeDecodeError:
        return False
    return len(text) >= 2 and text[0] == text[-1] == '"'


class Rules:
    """The rules for one operation of one client."""

    def __init__(self, session, operation):
        self.session, self.operation = session, operation
        self.schema, self.accounts = session.bridge.schema, session.bridge.accounts
        self.view = session.face.view

    def faults(self):
        """What the request and the schema say to be wrong, item by item."""
        found = []
        for item in self.operation.items:
            at = self.schema.of_attribute.get(item.lower)
            refusal = None if at is None else self.of_item(
                item, self.schema.attributes[at], self.schema.attribute_names[at])
            found += [Fault(item.lower, refusal)] if refusal else []
        return found

    def of_item(self, item, record, name):
        if item.lower == "unicodepwd":
            new = () if item.act == DELETES else item.values
            good = self.session.is_safe() and all(map(is_quoted, new))
            return None if good else Refused(UNWILLING, PASSWORD)
        if item.act == DELETES:
            return None
        if record.text("attributeSyntax") == filling.TIME and not all(map(TIME.fullmatch, item.values)):
            return Refused(SYNTAX, NO_TIME.format(name))
        return Refused(CONSTRAINT, RANGE.format(name)) if any(is_out(record, one) for one in item.values) else None

    async def taken(self):
        """Whether another object has the principal's name."""
        for item in self.operation.items:
            if item.lower != "userprincipalname" or item.act == DELETES:
                continue
            wanted = items.any_of(*(items.equal(item.name, value) for value in item.values[:MOST_VALUES]))
            for entry in await self.accounts.search(wanted, (b"1.1",)) if item.values else ():
                if self.operation.kind == ADD or dns.read(entry.name).key() != key_of(self.operation.name):
                    return [Fault(item.lower, Refused(CONSTRAINT, PRINCIPAL))]
        return []

    async def read(self, name, *attributes):
        """An object as the caller reads it; None where there is none."""
        found = await self.view.found(Search(1, name, searches.BASE, attributes=attributes))
        return searches.entry_of(found.entries[0]) if found.entries else None

    async def flags(self):
        """Whether what the caller reads of an object forbids to delete, rename or move it."""
        own = await self.read(self.operation.name, b"isCriticalSystemObject", b"systemFlags")
        if own is None:
            return
        flags = first_number(own.values("systemflags"), 0) % 2**32
        if self.operation.kind == DELETE:
            if own.values("iscriticalsystemobject") == (b"TRUE",) or flags & NO_DELETE:
                raise Refused(UNWILLING, CRITICAL)
        elif flags & (NO_RENAME if self.operation.superior is None else NO_MOVE):
            raise Refused(UNWILLING, BY_FLAG)


    async def flags_below(self):
        """Whether what the caller reads of any object below one forbids to delete it."""
        kept = items.any_of(items.equal(b"isCriticalSystemObject", b"TRUE"), items.at_most(b"systemFlags", b"-1"))
        if (await self.view.found(Search(1, self.operation.name, size=1, filter=kept, attributes=(b"1.1",)))).entries:
            raise Refused(UNWILLING, CRITICAL)


def key_of(name):
    try:
        return dns.read(name).key()
    except dns.NoName:
        return None
