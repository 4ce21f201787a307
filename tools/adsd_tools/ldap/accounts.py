"""The accounts of the store: who a name is, and the token that the directory's own groups make.

All is asked of the program on connection 0, by the token of --reader. What that token doesn't read isn't counted."""

import struct
from dataclasses import dataclass

from adsd_tools.forms import names as dns
from adsd_tools.forms.sids import below, sid_at, sid_of_text

from . import items, numerals, searches
from .messages import MOST
from .program import MESSAGE, TOKEN

EVERYBODY = [sid_of_text(text) for text in ("S-1-1-0", "S-1-5-11")]
USERS, ADMINISTRATORS = sid_of_text("S-1-5-32-545"), sid_of_text("S-1-5-32-544")
# What an administrator's token has: the system list, and to take ownership.
PRIVILEGES = 3
SECURITY = 0x80000000
# So many members are looked for at once.
FEW = 100
# As many groups as a token has.
MOST_GROUPS = 1024
DISABLED, NEVER = 2, (0, 2**63 - 1)
# Seconds from 1601 to 1970.
EPOCH = 11_644_473_600
ASKED = (b"objectSid", b"sAMAccountName", b"userPrincipalName", b"primaryGroupID", b"userAccountControl",
         b"accountExpires")
# What tokens are made of.
NEEDED = ("objectSid", "groupType", "primaryGroupID")
PARTITIONS = b"CN=Partitions,CN=Configuration,"


class Ambiguous(Exception):
    """A name of several accounts."""


class Unidentified(Exception):
    """An object of the name that has no identifier which the reader reads; the object's name."""


class TooMany(Exception):
    """An account of more groups than a token has."""


def number_of(values, other=None):
    """The number that the first of some values is."""
    found = numerals.number_of(values[0]) if values else None
    return other if found is None else found


def sid_of(entry):
    value = next(iter(entry.values("objectsid")), b"")
    return bytes(value) if value and sid_at(value, 0, len(value)) == value else None


def token_of(user, primary, groups):
    """A token's bytes, of version 2 (docs/profile/identifiers.md)."""
    held = sorted(groups - {user})
    if len(held) > MOST_GROUPS:
        raise TooMany
    privileges = PRIVILEGES if ADMINISTRATORS in groups else 0
    head = bytes([2, privileges]) + user + user + primary
    return head + struct.pack(">H", len(held)) + b"".join(b"\0" + group for group in held) + struct.pack(">H", 0)


@dataclass(frozen=True)
class Account:
    """Somebody of the store."""

    name: bytes
    sid: bytes
    login: str
    principal: str
    primary: int
    control: int
    expires: int

    def spelled(self, domain):
        """The names by which a file of names may have it."""
        logins = [self.login, f"{domain}\\{self.login}"] if self.login else []
        return [one for one in (self.name.decode("utf-8", "replace"), *logins, self.principal) if one]

    def fault(self, now):
        """Why Active Directory lets it not bind, as its code says it; nothing where it may."""
        if self.control & DISABLED:
            return "533"
        ends = self.expires // 10**7 - EPOCH
        return "701" if self.expires not in NEVER and ends < now else ""


def account_of(entry):
    """The account of an entry; None where it has no identifier."""
    sid = sid_of(entry)
    if sid is None:
        return None
    login, principal = (next(iter(entry.values(one)), b"").decode("utf-8", "replace")
                        for one in ("samaccountname", "userprincipalname"))
    numbers = [number_of(entry.values(one), other) for one, other in
               (("primarygroupid", None), ("useraccountcontrol", 0), ("accountexpires", 0))]
    return Account(entry.name, sid, login, principal, *numbers)


class Accounts:
    """The accounts of one store."""

    def __init__(self, bridge, reader):
        self.bridge, self.reader = bridge, reader
        self.domain, self.short, self.highest, self.guid = None, "", 0, bytes(16)

    async def start(self):
        """Gives connection 0 the reader's token, and looks up what the domain is called."""
        await self.bridge.turns.ask(TOKEN, 0, self.reader)
        root = self.bridge.root
        if root is None:
            return
        found = await self.search(items.present(b"objectClass"), (b"objectSid", b"objectGUID"), root, searches.BASE)
        self.domain = sid_of(found[0]) if found else None
        guid = next(iter(found[0].values("objectguid")), b"") if found else b""
        self.guid = bytes(guid) if len(guid) == 16 else self.guid
        of_root = items.all_of(items.present(b"nETBIOSName"), items.equal(b"nCName", root))
        named = await self.search(of_root, (b"nETBIOSName",), PARTITIONS + root, searches.ONE)
        told = named[0].values("netbiosname") if named else ()
        self.short = (told[0] if told else dns.read(root).parts[0][1].upper()).decode("utf-8", "replace")

        self.highest = await self.highest_number()

    async def unread(self):
        """Of how many objects that it sees the reader doesn't read what tokens are made of, by attribute."""
        every, found = len(await self.search(searches.TRUE, (b"1.1",))), {}
        for name in NEEDED if self.bridge.schema else ():
            if self.bridge.schema.syntax(name.lower()):
                held = items.present(name.encode())
                read = len(await self.search(items.any_of(held, items.no(held)), (b"1.1",)))
                found.update({name: every - read} if read < every else {})
        return found

    async def highest_number(self):
        """The highest value of uSNChanged, by halving."""
        low, high = 0, 2**63
        while high - low > 1:
            at = (low + high) // 2
            held = items.at_least(b"uSNChanged", b"%d" % at)
            low, high = (at, high) if await self.search(held, (b"1.1",), size=1) else (low, at)
        return low

    def counted(self):
        """The next number of a change."""
        self.highest += 1
        return self.highest

    def dotted(self):
        """The domain's name as DNS has it."""
        parts = dns.read(self.bridge.root).parts if self.bridge.root else ()
        return ".".join(value.decode() for kind, value in parts if kind == "DC")

    async def ask(self, data):
        return await self.bridge.turns.ask(MESSAGE, 0, data)

    async def search(self, filter_made, attributes, base=None, scope=searches.SUBTREE, size=0):
        """The entries that the reader finds."""
        base = self.bridge.root if base is None else base
        if base is None:
            return []
        asked = searches.Search(1, base, scope, size=size, filter=filter_made, attributes=attributes)
        if len(searches.written(asked)) > MOST:
            raise searches.Refused(searches.ADMIN_LIMIT, "what would be looked up has too many bytes")
        return list(map(searches.entry_of, searches.found(await self.ask(searches.written(asked))).entries))

    async def one(self, filter_made, base=None, scope=searches.SUBTREE):
        """The one account that fits; None where there is none."""
        entries = await self.search(filter_made, ASKED, base, scope)
        found = [one for one in map(account_of, entries) if one]
        if len(found) > 1:
            raise Ambiguous
        if entries and not found:
            raise Unidentified(entries[0].name.decode("utf-8", "backslashreplace"))
        return found[0] if found else None

    def ways(self, name):
        """The filters by which somebody is looked for, one after the other."""
        domain, slash, login = name.rpartition("\\")
        if slash:
            known = domain.casefold() in (self.short.casefold(), self.dotted().casefold())
            return [("sAMAccountName", login)] if known else []
        own, at, suffix = name.rpartition("@")
        if at and suffix.casefold() == self.dotted().casefold():
            return [("userPrincipalName", name), ("sAMAccountName", own)]
        return [("sAMAccountName", name), ("userPrincipalName", name)]

    async def find(self, name):
        """The account of a name: a DN, an identifier's text, DOMAIN\\name, a principal's name, or a login."""
        if "=" in name:
            try:
                if dns.read(name.encode()).parts:
                    return await self.one(searches.TRUE, name.encode(), searches.BASE)
            except dns.NoName:
                pass
        if sid_of_text(name):
            return await self.one(items.equal(b"objectSid", sid_of_text(name)))
        lacking = None
        for kind, value in self.ways(name):
            try:
                found = await self.one(items.equal(kind.encode(), value.encode()))
            except Unidentified as which:
                found, lacking = None, lacking or which
            if found:
                return found
        if lacking:
            raise lacking
        return None

    async def token(self, account):
        """The token of an account: the identifiers of the groups that it is in, one by the other."""
        primary = below(self.domain, account.primary) if self.is_primary(account.primary) else None
        primary = primary or USERS
        found, new = {*EVERYBODY, primary}, {account.sid, *EVERYBODY, primary}
        while new:
            new = await self.above(new) - found - {account.sid}
            found |= new
            if len(found) > 2 * MOST_GROUPS:
                raise TooMany
        return token_of(account.sid, primary, found)

    def is_primary(self, number):
        return self.domain is not None and number is not None and 0 <= number < 2**32

    async def above(self, sids):
        """The identifiers of the security groups that have somebody as a member who has one of some identifiers."""
        holders = await self.search(items.any_of(*(items.equal(b"objectSid", one) for one in sids)), (b"1.1",))
        found = set()
        for at in range(0, len(holders), FEW):
            holds = items.any_of(*(items.equal(b"member", one.name) for one in holders[at : at + FEW]))
            groups = await self.search(holds, (b"objectSid", b"groupType"))
            kinds = {sid_of(one): number_of(one.values("grouptype"), SECURITY) for one in groups}
            found |= {sid for sid, kind in kinds.items() if sid and kind & SECURITY}
        return found
