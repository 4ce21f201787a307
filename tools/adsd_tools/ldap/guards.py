"""By what a change would make somebody more than the directory says, or what the system alone writes: refused by
default, to whomever (docs/clients.md#what-nobody-may-write).

The rules are about the request, the schema, the client's token, and what the bridge's own account reads; the answer is
the program's where that refuses the change anyway (writable.py)."""

import struct

from adsd_tools.forms import names as dns
from adsd_tools.forms.sids import below, sid_at

from . import filling, items, messages, operations, searches
from .accounts import ADMINISTRATORS, SECURITY, sid_of
from .accounts import number_of as first_number
from .numerals import number_of
from .operations import ADD, DELETES, MODIFY, RENAME, Item
from .searches import Refused, Search
from .writable import Fault, Writable, class_of

CONSTRAINT, NAME_SYNTAX, NO_RIGHT, UNWILLING, TAKEN = 19, 34, 50, 53, 68
PRIMARY, CONTROL, HISTORY, LOGIN = "primarygroupid", "useraccountcontrol", "sidhistory", "samaccountname"
GUARDED = {PRIMARY, CONTROL, HISTORY, LOGIN}
# The server of a domain; trusted for delegation, also of whomever without a ticket; a server that holds some secrets.
TRUST = 0x2000 | 0x80000 | 0x1000000 | 0x4000000
NO_MEMBER = "00000529: SvcErr: problem 5003 (WILL_NOT_PERFORM), data 0, Att primaryGroupID"
NO_PRIVILEGE = "00000522: SecErr: problem 4003 (INSUFF_ACCESS_RIGHTS), data 0, Att userAccountControl"
ILLEGAL = "00002077: SvcErr: problem 5003 (WILL_NOT_PERFORM), data 0, Att {}"
LOGIN_TAKEN = "00000524: UpdErr: DSID-031A11E2, problem 6005 (ENTRY_EXISTS), data 0"
SYSTEM_ONLY = "{}: AtrErr: DSID-030F110C, problem 1005 (CONSTRAINT_ATT_TYPE), data 0, Att {}"
# These are the program's to judge, whether the schema says that they are the system's or not.
PROGRAMS = {"objectclass", "name", "distinguishedname", "objectsid", "ntsecuritydescriptor"}
# What Active Directory's own schema says to be the system's, whatever the store's schema keeps of that.
SYSTEMS = set("""createtimestamp dscorepropagationdata hasmasterncs instancetype invocationid isdeleted
    isprivilegeholder isrecycled modifytimestamp ms-ds-creatorsid msds-behavior-version msds-keyversionnumber
    msds-lastknownrdn objectguid parentguid partialattributeset prefixmap primarygrouptoken proxiedobjectname
    replpropertymetadata repluptodatevector repsfrom repsto ridallocationpool ridmanagerreference ridnextrid
    ridpreviousallocationpool ridusedpool subrefs systemflags usnchanged usncreated usndsalastobjremoved
    usnlastobjrem wellknownobjects whenchanged whencreated""".split())
# What is the system's too, though its schema doesn't say so.
KEPT = {"samaccounttype", "iscriticalsystemobject", "dbcspwd", "lmpwdhistory", "ntpwdhistory",
        "supplementalcredentials"}
# So many values are looked for at once, and so many in all.
AT_ONCE, MOST_VALUES = 16, 256


def has_any(session, operation):
    """Whether there is a guard for an operation."""
    return not session.bridge.options.profile_rules and operation.kind in (ADD, MODIFY, RENAME)


async def judge(session, operation):
    """Refused where a guard refuses an operation."""
    if operation.kind == RENAME:
        return renamed(operation, session.bridge.schema)
    writable = Writable(session, operation)
    async for fault in Guards(session, operation).faults():
        if await writable.may(fault.name):
            raise fault.refusal


def is_administrator(token):
    """Whether a token holds S-1-5-32-544, so that it grants, also by its restricting identifiers where it has any."""
    at, held = 2, []
    for _ in range(3 if token else 0):
        held.append(bytes(sid_at(token, at, len(token))))
        at += len(held[-1])
    if not held:
        return False
    groups, at = listed(token, at, 1)
    restricting, _ = listed(token, at, 0)
    enabled = {held[0]} | {sid for mark, sid in groups if not mark}
    return ADMINISTRATORS in enabled and (not restricting or ADMINISTRATORS in {sid for _, sid in restricting})


def listed(token, at, marks):
    """Identifiers of a token, each behind so many bytes that mark it, and the place behind them."""
    (count,), found = struct.unpack_from(">H", token, at), []
    at += 2
    for _ in range(count):
        sid = bytes(sid_at(token, at + marks, len(token)))
        found.append((any(token[at : at + marks]), sid))
        at += marks + len(sid)
    return found, at


def naming_types(schema):
    """The guarded attributes by which objects of some class are named; all of them where the schema isn't known."""
    if schema is None:
        return GUARDED
    return GUARDED & {one.text("rDNAttID").lower() for one in schema.classes}


def renamed(operation, schema):
    """A rename may not write what is guarded as the first part of a name."""
    for kind, _ in parts_of(operation.front, schema):
        if kind.lower() in naming_types(schema):
            raise Refused(UNWILLING, ILLEGAL.format(kind))


def parts_of(name, schema):
    """The parts of a name. One that isn't read is refused where objects may be named by what is guarded; elsewhere the
    program says what is wrong with it."""
    try:
        return dns.read(name).parts
    except dns.NoName:
        if naming_types(schema):
            raise Refused(NAME_SYNTAX) from None
        return ()


def first_part(operation, schema):
    """What the name of a new object gives as a value of the attribute that names it."""
    return tuple(Item(operations.ADDS, kind.encode(), (value,)) for kind, value in parts_of(operation.name, schema)[:1])


class Guards:
    """The guards of one Add or Modify."""

    def __init__(self, session, operation):
        self.token, self.operation = session.token, operation
        self.bridge, self.schema, self.accounts = session.bridge, session.bridge.schema, session.bridge.accounts
        self.items = operation.items + (first_part(operation, self.schema) if operation.kind == ADD else ())
        self.own = self.is_read = None

    async def faults(self):
        """What is wrong, item by item."""
        for item in self.items:
            refusal = self.system_only(item) or await self.guarded(item)
            if refusal:
                yield Fault(item.lower, refusal)

    def system_only(self, item):
        """What is wrong with an item of what the system alone writes."""
        at = self.schema.of_attribute.get(item.lower) if self.schema else None
        told = "" if at is None else self.schema.attributes[at].text("systemOnly")
        name = item.name.decode("latin-1") if at is None else self.schema.attribute_names[at]
        if item.lower in KEPT:
            return Refused(UNWILLING, ILLEGAL.format(name))
        if item.lower in PROGRAMS or (item.lower not in SYSTEMS and told.upper() != "TRUE"):
            return None
        is_add = self.operation.kind == ADD
        if item.lower == "instancetype" and is_add and item.values == (b"4",):
            return None
        return Refused(CONSTRAINT, SYSTEM_ONLY.format("000020A6" if is_add else "000020B1", name))

    async def guarded(self, item):
        """What is wrong with an item of an attribute that makes somebody more."""
        rule = {PRIMARY: self.primary, CONTROL: self.control, HISTORY: self.history, LOGIN: self.login}
        return await rule[item.lower](item) if item.lower in rule else None

    def unread(self, item):
        """Whether an item has a value that is no number, and the program may take it for one of another syntax."""
        is_number = self.schema is not None and self.schema.syntax(item.lower) in filling.NUMBERS
        return not is_number and any(number_of(value) is None for value in item.values)

    async def target(self):
        """The object of a Modify as the bridge's own account reads it; None where it sees none."""
        if not self.is_read:
            asked = Search(1, self.operation.name, searches.BASE, attributes=(b"primaryGroupID", b"userAccountControl"))
            found, self.is_read = await self.ask(asked), True
            self.own = searches.entry_of(found.entries[0]) if found.entries else None
        return self.own

    async def ask(self, search):
        """What the bridge's own account finds."""
        data = searches.written(search)
        if len(data) > messages.MOST:
            raise Refused(searches.ADMIN_LIMIT, "what would be looked up has too many bytes")
        return searches.found(await self.accounts.ask(data))

    async def over_all(self, wanted, attributes):
        """The entries of the whole directory that the bridge's own account finds; Refused where it can't look."""
        root = self.schema.root if self.schema and self.schema.root else self.bridge.root
        found = await self.ask(Search(1, root, filter=wanted, attributes=attributes)) if root else None
        if found is None or found.code:
            raise Refused(UNWILLING, "the bridge's own account can't look for it")
        return list(map(searches.entry_of, found.entries))

    async def primary(self, item):
        """A primary group is the usual one on an Add, and else one that the account is a member of, or has by now."""
        refused = Refused(UNWILLING, NO_MEMBER)
        if self.unread(item):
            return refused
        wanted = {number_of(value) for value in item.values} - {None}
        if self.operation.kind == ADD:
            return refused if wanted - {self.usual()} else None
        own = await self.target()
        now = list(map(number_of, own.values(PRIMARY))) if own else []
        if self.is_last(item) and not self.left(now):
            return refused
        if item.act == DELETES:
            return None
        for number in wanted - set(now):
            if own is None or not await self.is_member(own, number):
                return refused
        return None

    def usual(self):
        """The primary group that the system gives a new account."""
        of_class = class_of(self.operation, self.schema)
        chain = {self.schema.class_names[one].lower() for one in self.schema.chain(of_class)} if of_class is not None \
            else ()
        return filling.primary_of(self.operation) if "user" in chain else None

    def is_last(self, item):
        return item is [one for one in self.items if one.lower == item.lower][-1]

    def left(self, now):
        """The primary groups that all items leave."""
        held = list(now)
        for item in self.items:
            values = list(map(number_of, item.values))
            if item.lower == PRIMARY and item.act == DELETES:
                held = [one for one in held if values and one not in values]
            elif item.lower == PRIMARY:
                held = values if item.act == operations.REPLACES else held + values
        return held

    async def is_member(self, own, number):
        """Whether an account is a member of a security group of the domain."""
        if self.accounts.domain is None or not 0 <= number < 2**32:
            return False
        group = below(self.accounts.domain, number)
        wanted = items.all_of(items.equal(b"objectSid", group), items.equal(b"member", own.name))
        found = await self.over_all(wanted, (b"objectSid", b"groupType"))
        return any(sid_of(one) == group and first_number(one.values("grouptype"), SECURITY) & SECURITY for one in found)

    async def control(self, item):
        """The bits of trust are set by administrators alone."""
        if item.act == DELETES or is_administrator(self.token):
            return None
        refused = Refused(NO_RIGHT, NO_PRIVILEGE)
        if self.unread(item):
            return refused
        own = await self.target() if self.operation.kind == MODIFY else None
        now = first_number(own.values(CONTROL), 0) if own else 0
        new = [number_of(value) or 0 for value in item.values]
        return refused if any(one & TRUST & ~now for one in new) else None

    async def history(self, item):
        """Identifiers of before are never given; administrators may take them away."""
        takes = item.act == DELETES or (item.act == operations.REPLACES and not item.values)
        return None if takes and is_administrator(self.token) else Refused(UNWILLING, ILLEGAL.format("sIDHistory"))

    async def login(self, item):
        """A login is one account's alone."""
        if item.act == DELETES or not item.values:
            return None
        if len(item.values) > MOST_VALUES:
            return Refused(CONSTRAINT, ILLEGAL.format("sAMAccountName"))
        own = await self.target() if self.operation.kind == MODIFY else None
        for at in range(0, len(item.values), AT_ONCE):
            wanted = items.any_of(*(items.equal(item.name, value) for value in item.values[at : at + AT_ONCE]))
            for entry in await self.over_all(wanted, (b"1.1",)):
                if own is None or entry.name != own.name:
                    return Refused(TAKEN, LOGIN_TAKEN)
        return None
