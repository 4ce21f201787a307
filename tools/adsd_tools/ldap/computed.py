"""Attributes that Active Directory computes (docs/clients.md#computed-attributes), made of what the caller reads of
an object. They are told where they are asked for by name; tokenGroups and those like it by a search of one object
alone."""

import asyncio
import time
from dataclasses import dataclass, replace
from typing import Callable, Tuple

from adsd_tools.forms import ber
from adsd_tools.forms import names as dns
from adsd_tools.forms.sids import below, text_of_sid

from . import items, searches, subschema
from .accounts import EPOCH, number_of, sid_of
from .searches import Search

SECURITY, GLOBAL, UNIVERSAL = 0x80000000, 2, 8
# Bits of an account: locked out, with a password that has expired; and those with which it never does: of machines,
# trusts, smart cards, and those of which that is said.
LOCKED, EXPIRED, NEVER_EXPIRES = 0x10, 0x800000, 0x10000 | 0x40000 | 0x800 | 0x1000 | 0x2000
# Durations are negative; these say that something never ends.
FOREVER, NEVER = -2**63, 2**63 - 1
CONSTRUCTED, INAPPROPRIATE = 4, 18


@dataclass(frozen=True)
class Computed:
    """An attribute: its name, what it is made of, how, and whether of one object alone."""

    name: str
    needs: Tuple[bytes, ...]
    make: Callable
    alone: bool = False


def class_of(entry, schema):
    """The place of the class of an object: of those that are read the one with the longest chain; None without one."""
    known = [schema.of_class.get(value.decode("latin-1").lower()) for value in entry.values("objectclass")]
    found = [one for one in known if one is not None]
    return max(found, key=lambda one: len(schema.chain(one)), default=None)


async def canonical(one, _):
    """The name as a path: the domain's with dots, and behind it the others from the root down."""
    parts = dns.read(one.name).parts
    last = len(parts)
    while last and parts[last - 1][0] == "DC":
        last -= 1
    dotted = b".".join(value for _, value in parts[last:])
    return [dotted + b"/" + b"/".join(value.replace(b"/", b"\\/") for _, value in reversed(parts[:last]))]


async def principal(one, maker):
    """DOMAIN\\login of an account of the domain, of others the identifier's text."""
    sid, login = sid_of(one), one.values("samaccountname")
    domain = maker.bridge.accounts.domain
    if sid is None:
        return []
    if login and domain is not None and sid[:-4] == below(domain, 0)[:-4]:
        return [maker.bridge.accounts.short.encode() + b"\\" + login[0]]
    return [text_of_sid(sid).encode()]


def copied(name):
    async def made(one, _):
        return list(one.values(name))

    return made


async def allowed(one, maker):
    at = class_of(one, maker.schema)
    return [] if at is None else [name.encode() for name in maker.schema.allowed_names(at)]


async def children(one, maker):
    """The classes whose objects may stand below an object by its class."""
    at, schema = class_of(one, maker.schema), maker.schema
    return [] if at is None else [schema.class_names[child].encode() for child in schema.children(at)]


async def group_number(one, maker):
    sid = sid_of(one)
    is_group = b"group" in [value.lower() for value in one.values("objectclass")]
    return [b"%d" % int.from_bytes(sid[-4:], "little")] if sid and is_group else []


async def structural(one, maker):
    at = class_of(one, maker.schema)
    chain = [] if at is None else reversed(maker.schema.chain(at))
    return [maker.schema.class_names[one].encode() for one in chain]


async def place_of_schema(_, maker):
    return [subschema.NAME + maker.bridge.root] if maker.bridge.root else []


async def parent_guid(one, maker):
    """The objectGUID of the object above, as far as the caller reads it."""
    above = dns.Name(dns.read(one.name).parts[1:]).text()
    return await maker.values_at(above, b"objectGUID") if above else []


async def control_now(one, maker):
    """The bits of userAccountControl that hang on the moment: locked out, and a password that has expired. Nothing
    where what they hang on isn't read."""
    control, changed = number_of(one.values("useraccountcontrol")), await maker.number(one, b"pwdLastSet")
    locked = await maker.number(one, b"lockoutTime")
    if control is None or locked is None:
        return []
    bits = 0
    if locked > 0:
        lasts = await maker.policy(b"lockoutDuration")
        if lasts is None:
            return []
        bits |= LOCKED if lasts in (0, FOREVER) or maker.now() < locked - lasts else 0
    if not control & NEVER_EXPIRES:
        ends = await expiry(changed, maker)
        if ends is None:
            return []
        bits |= EXPIRED if ends <= maker.now() else 0
    return [b"%d" % bits]


async def expiry(changed, maker):
    """When a password expires that was changed at a moment; None where that isn't read."""
    if changed is None or changed == 0:
        return changed
    lasts = await maker.policy(b"maxPwdAge")
    return None if lasts is None else NEVER if lasts in (0, FOREVER) else changed - lasts


async def expires(one, maker):
    """When the password expires: 0 where it has to be changed, and the greatest number where it never does."""
    control, changed = number_of(one.values("useraccountcontrol")), await maker.number(one, b"pwdLastSet")
    if control is None:
        return []
    ends = NEVER if control & NEVER_EXPIRES else await expiry(changed, maker)
    return [] if ends is None else [b"%d" % ends]


def groups(kinds=None):
    """The identifiers of the security groups that an object is in, one by the other, by what the caller reads; of some
    kinds alone."""

    async def made(one, maker):
        found = await maker.groups_of(one)
        return [sid for sid, kind in sorted(found.items()) if kind & SECURITY and (kinds is None or kind & kinds)]

    return made


SID, CLASS = b"objectSid", b"objectClass"
ACCOUNT = (b"userAccountControl", b"pwdLastSet", b"lockoutTime")
ALL = [
    Computed("parentGUID", (), parent_guid),
    Computed("msDS-User-Account-Control-Computed", ACCOUNT, control_now),
    Computed("msDS-UserPasswordExpiryTimeComputed", ACCOUNT[:2], expires),
    Computed("canonicalName", (), canonical), Computed("msDS-PrincipalName", (SID, b"sAMAccountName"), principal),
    Computed("createTimeStamp", (b"whenCreated",), copied("whencreated")),
    Computed("modifyTimeStamp", (b"whenChanged",), copied("whenchanged")),
    Computed("allowedAttributes", (CLASS,), allowed), Computed("allowedChildClasses", (CLASS,), children),
    Computed("primaryGroupToken", (SID, CLASS), group_number),
    Computed("structuralObjectClass", (CLASS,), structural),
    Computed("subSchemaSubEntry", (), place_of_schema),
    Computed("tokenGroups", (SID, b"primaryGroupID"), groups(), True),
    Computed("tokenGroupsGlobalAndUniversal", (SID, b"primaryGroupID"), groups(GLOBAL | UNIVERSAL), True),
    Computed("tokenGroupsNoGCAcceptable", (SID, b"primaryGroupID"), groups(), True)]
BY_NAME = {one.name.lower(): one for one in ALL}
IN_FILTERS = tuple(name.encode() for name in BY_NAME)


def asked(search, schema):
    """The computed attributes that a search asks for."""
    names = search.asked()[0] if schema else ()
    found = [one for key, one in BY_NAME.items() if key in names]
    return [one for one in found if not one.alone or search.scope == searches.BASE]


def with_needs(search, schema):
    """A search that asks also for what the computed attributes are made of."""
    needs = [name for one in asked(search, schema) for name in one.needs]
    if not asked(search, schema):
        return search
    return replace(search, attributes=search.attributes + tuple(needs), types_only=False)


def is_told(name, schema):
    """Whether an attribute is computed, and no value of it can stand in the store."""
    at = schema.of_attribute.get(name)
    return name in BY_NAME and (at is None or bool(schema.attributes[at].number("systemFlags") & CONSTRUCTED))


def check(filter_made, schema):
    """Refused where a filter asks for a computed attribute, of which nothing would be found."""
    lower = filter_made.lower()
    if not schema or not any(name in lower for name in IN_FILTERS):
        return

    def look(tag, body):
        sent = dict(ber.parts(body)).get(0x82, b"") if tag == items.EXTENSIBLE else \
            body if tag == items.PRESENT else ber.parts(body)[0][1]
        if is_told(sent.decode("latin-1").lower(), schema):
            raise searches.Refused(INAPPROPRIATE, f"{BY_NAME[sent.decode('latin-1').lower()].name} is computed: it has "
                                   "no place in a filter")
        return b""

    try:
        items.changed(filter_made, look)
    except (items.Deep, ber.Broken, ValueError):
        pass  # The program says what is wrong with it.


class Maker:
    """Makes computed attributes for one search."""

    def __init__(self, view, search=None):
        self.view, self.bridge, self.schema = view, view.bridge, view.bridge.schema
        self.search, self.known = search, {}

    def now(self):
        """The moment, in tenths of a microsecond since 1601."""
        return int((time.time() + EPOCH) * 10**7)

    async def values_at(self, name, attribute):
        """The values of an attribute of another object, as the caller reads them."""
        if (name, attribute) not in self.known:
            found = await self.view.found(Search(1, name, searches.BASE, attributes=(attribute,)))
            held = [searches.entry_of(body).values(attribute.decode().lower()) for body in found.entries]
            self.known[name, attribute] = list(held[0]) if held else []
        return self.known[name, attribute]

    async def policy(self, attribute):
        """A number that the domain has for all; None where the caller doesn't read it."""
        return number_of(await self.values_at(self.bridge.root, attribute)) if self.bridge.root else None

    async def number(self, one, attribute):
        """A number of an object: 0 where it has none, and None where the caller doesn't read it."""
        values = one.values(attribute.decode().lower())
        if self.schema.syntax(attribute.decode().lower()) is None:
            return 0
        return number_of(values) if values else 0 if one.name in await self.without(attribute) else None

    async def without(self, attribute):
        """The names of the objects in the search's scope of which the caller reads that they have no value."""
        if attribute not in self.known:
            wanted = items.no(items.present(attribute))
            asked_for = replace(self.search, filter=wanted, attributes=(b"1.1",), size=0, controls=())
            found = await self.view.whole(asked_for)
            self.known[attribute] = {searches.entry_of(body).name for body in found.entries}
        return self.known[attribute]

    async def added(self, found, search):
        """What was found, with the computed attributes that a search asks for. A stored value goes first."""
        wanted, made = asked(search, self.schema), []
        for at, entry in enumerate(map(searches.entry_of, found.entries)):
            if at % 64 == 63:
                await asyncio.sleep(0)  # Others have their turn.
            held = list(entry.held)
            for one in wanted:
                values = [] if entry.values(one.name.lower()) else await one.make(entry, self)
                held += [(one.name.encode(), tuple(values))] if values else []
            held.sort(key=lambda pair: self.schema.place(pair[0]))
            made.append(searches.body_of(replace(entry, held=tuple(held))))
        return replace(found, entries=tuple(made))

    async def groups_of(self, entry):
        """The groups of an account by their identifiers, with the kind of each."""
        sid, found, todo = sid_of(entry), {}, [entry.name]
        number, domain = number_of(entry.values("primarygroupid")), self.bridge.accounts.domain
        if sid is None or self.bridge.root is None:
            return {}
        if number is not None and domain is not None and 0 <= number < 2**32:
            primary = below(domain, number)
            held = await self.group(items.equal(SID, primary))
            found[primary] = number_of(held[0].values("grouptype"), SECURITY) if held else SECURITY
            todo += [one.name for one in held]
        while todo:
            holds = items.any_of(*(items.equal(b"member", name) for name in todo))
            new = [one for one in await self.group(holds) if sid_of(one) and sid_of(one) not in found]
            found.update((sid_of(one), number_of(one.values("grouptype"), SECURITY)) for one in new)
            todo = [one.name for one in new if found[sid_of(one)] & SECURITY]
        return {one: kind % 2**32 for one, kind in found.items()}

    async def group(self, filter_made):
        asked_for = Search(1, self.bridge.root, filter=filter_made, attributes=(SID, b"groupType"))
        return list(map(searches.entry_of, (await self.view.whole(asked_for)).entries))
