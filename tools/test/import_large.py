"""An export of a domain as large as a store may be, for tools/test/import: 65,536 objects of the shape that real ones have.

The schema has 1,500 attributes and 270 classes. A thousand units have 12 accounts each, with the 24 entries that
accounts are born with and some 30 lines, four groups, and persons to be called. What the root and the unit hand down
stands in each list too, so that it has 44 to 65 entries: six of seven bytes of the text are of lists, and most of these
are of entries that loading computes. The form is ldbsearch's.
"""

import base64
import textwrap

from adsd_tools.forms.descriptor import ALLOW, Acl, Descriptor, Entry, written
from adsd_tools.forms.inheriting import copies
from adsd_tools.forms.sids import below, guid_of_text, known_sid
from adsd_tools.importing import complete

OBJECTS, IN_UNIT, ACCOUNTS, GROUPS, UNLIKE = 65_536, 65, 12, 4, 12
ATTRIBUTES, CLASSES = 1_500, 270
ROOT = "DC=corp,DC=example"
SCHEMA = f"CN=Schema,CN=Configuration,{ROOT}"
DOMAIN = known_sid("S-1-5-21-1004336348-1177238915-682003330")
SYSTEM, SELF, USERS, WORLD = (known_sid(text) for text in ("S-1-5-18", "S-1-5-10", "S-1-5-11", "S-1-1-0"))
BUILTIN = {number: known_sid(f"S-1-5-32-{number}") for number in (544, 545, 548, 549, 550, 551, 554, 560, 561)}
FULL, READ, CI = 0xF01FF, 0x20094, 2
# An attribute's name with its syntax, whether it has one value, and a link's number; "O" marks one of numbers.
NAMED = {
    "objectClass": 2, "cn": 12, "ou": 12, "dc": 12, "distinguishedName": 1, "name": 12, "objectSid": 17, "objectGUID": 10, "member": 1,
    "memberOf": 1, "primaryGroupID": 9, "adminCount": 9, "dSHeuristics": 12, "servicePrincipalName": 12, "unicodePwd": 10, "groupType": 9,
    "sIDHistory": 17, "userAccountControl": 9, "nTSecurityDescriptor": 15, "sAMAccountName": 12, "userPrincipalName": 12, "description": 12,
    "telephoneNumber": 12, "streetAddress": 12, "sn": 12, "givenName": 12, "displayName": 12, "mail": 12, "l": 12, "postalCode": 12, "title": 12,
    "department": 12, "company": 12, "employeeID": 12, "manager": 1, "pwdLastSet": 16, "lastLogonTimestamp": 16, "accountExpires": 16,
    "proxyAddresses": 12, "instanceType": 9, "whenCreated": 11, "whenChanged": 11, "uSNCreated": 16, "uSNChanged": 16,
    "objectCategory": 1, "codePage": 9, "countryCode": 9, "badPwdCount": 9, "logonCount": 9, "sAMAccountType": 9}
SEVERAL = ("objectClass", "member", "memberOf", "servicePrincipalName", "sIDHistory", "proxyAddresses", "description")
LINKS = {"member": 2, "memberOf": 3}
# A class with the one above it, its category and the attribute of names.
NAMED_CLASSES = {
    "top": ("top", 2, "cn"), "domainDNS": ("top", 1, "dc"), "container": ("top", 1, "cn"), "organizationalUnit": ("top", 1, "ou"),
    "person": ("top", 0, "cn"), "organizationalPerson": ("person", 0, "cn"), "user": ("organizationalPerson", 1, "cn"),
    "computer": ("user", 1, "cn"), "contact": ("organizationalPerson", 1, "cn"), "group": ("top", 1, "cn"),
    "foreignSecurityPrincipal": ("top", 1, "cn")}
SETS = [f"{number:08x}-9455-11d1-aebd-0000f80367c1" for number in range(0x77B5B886, 0x77B5B886 + 40)]


def of(number):
    """The identifier of an account of the domain."""
    return below(DOMAIN, number)


def class_guid(name):
    return b"class" + name.encode()[:11].ljust(11, b"_")


def allow(mask, who, what=None, limit=None, flags=0):
    return Entry(ALLOW, flags, mask, guid_of_text(what) if what else None, class_guid(limit) if limit else None, who)


def born(name):
    """What an object of a class has by itself."""
    least = [allow(FULL, of(512)), allow(FULL, SYSTEM), allow(FULL, BUILTIN[548]), allow(READ, SELF), allow(READ, USERS)]
    if name == "user":
        more = [(0x100, SELF)] * 3 + [(0x30, SELF)] * 3 + [(0x10, of(553))] * 4 + [(0x10, USERS)] * 4 + [(0x100, WORLD), (0x30, of(517))]
        more += [(0x10, BUILTIN[560]), (0x30, BUILTIN[561]), (0x30, BUILTIN[561])]
        return least + [allow(mask, who, what) for (mask, who), what in zip(more, SETS)]
    return least + ([allow(0x100, USERS, SETS[20])] if name == "group" else [])


def handed_down():
    """What the root hands down to all below it."""
    fits = ("user", "group", "computer", None)
    made = [allow(FULL, of(519), flags=CI), allow(FULL & ~0x40, BUILTIN[544], flags=CI), allow(READ, BUILTIN[554], flags=CI)]
    return made + [allow(0x10 if number % 3 else 0x30, of(1100 + number), SETS[number], fits[number % 4], CI) for number in range(35)]


def listed(name, own, above):
    """A descriptor's text in base64 of an object of a class with entries of its own below a list, and its list."""
    entries = own + [one for entry in above for one in copies(entry, class_guid(name), of(512), of(512))]
    data = written(Descriptor(of(512), of(512), Acl(entries, False), None))
    return folded("nTSecurityDescriptor:: ", base64.b64encode(data).decode()), entries


def folded(name, text):
    """A line as ldbsearch writes it."""
    line = name + text
    return "\n ".join([line[:79], *textwrap.wrap(line[79:], 78)])


def schema():
    """The records of the schema and of the rights, as lists of lines."""
    for number in range(ATTRIBUTES):
        name = [*NAMED][number] if number < len(NAMED) else f"real{number:04}"
        lines = [f"lDAPDisplayName: {name}", f"attributeSyntax: 2.5.5.{NAMED.get(name, 12)}", "objectClass: attributeSchema"]
        lines += ["schemaIDGUID:: " + base64.b64encode(b"attribute%07d" % number).decode(), f"cn: {name}"]
        lines += ["isSingleValued: " + ("FALSE" if name in SEVERAL else "TRUE"), f"searchFlags: {number % 5 == 0:d}"]
        yield f"CN={name},{SCHEMA}", lines + ([f"linkID: {LINKS[name]}"] if name in LINKS else [])
    for number in range(CLASSES):
        name = [*NAMED_CLASSES][number] if number < len(NAMED_CLASSES) else f"aside{number:03}"
        over, category, naming = NAMED_CLASSES.get(name, ("top", 3, "cn"))
        lines = ["objectClass: classSchema", f"lDAPDisplayName: {name}", f"subClassOf: {over}", f"objectClassCategory: {category}"]
        lines += [f"rDNAttID: {naming}", "schemaIDGUID:: " + base64.b64encode(class_guid(name)).decode(), f"cn: {name}"]
        yield f"CN={name},{SCHEMA}", lines + [f"mayContain: real{number * 5 + at:04}" for at in range(50, 55)]
    for guid, name in complete.OF_RIGHTS.items():
        lines = ["objectClass: controlAccessRight", f"cn: {name}", f"rightsGuid: {guid}", "validAccesses: 256"]
        yield f"CN={name},CN=Extended-Rights,CN=Configuration,{ROOT}", lines


class Writer:
    """Writes records, and counts them."""

    def __init__(self, out):
        self.out, self.count, self.number = out, 0, 1000

    def record(self, name, lines):
        self.count += 1
        self.out.write(f"# record {self.count}\ndn: {name}\n" + "\n".join(lines) + "\n\n")

    def object(self, name, of_class, lines, rights, sid=None):
        """An object with what all have, and an identifier of its own or none (0)."""
        chain, at = [], of_class
        while at != "top":
            chain.insert(0, at)
            at = NAMED_CLASSES[at][0]
        kind, _, value = name.partition(",")[0].partition("=")
        made = [f"objectClass: {one}" for one in ("top", *chain)] + [f"{kind.lower()}: {value}", f"name: {value}", f"distinguishedName: {name}"]
        made += ["instanceType: 4", "whenCreated: 20240102030405.0Z", "whenChanged: 20250102030405.0Z", f"uSNCreated: {self.count}",
                 f"uSNChanged: {2 * self.count}", f"objectCategory: {ROOT}"]
        self.number += sid is None
        made += [] if sid == 0 else ["objectSid:: " + base64.b64encode(of(self.number) if sid is None else sid).decode()]
        made += ["objectGUID:: " + base64.b64encode(b"object%010d" % self.count).decode()]
        self.record(name, made + lines + [rights])


def account(name, number, unit, first):
    """The lines of an account besides."""
    login = f"u{number:06}"
    return [f"sAMAccountName: {login}", f"userPrincipalName: {login}@corp.example", f"sn: {name}", "givenName: Ann", f"displayName: Ann {name}",
            f"mail: {login}@mail.corp.example", f"telephoneNumber: +49 30 {number:07}", f"department: Unit {unit}", "company: Corp of Examples",
            "userAccountControl: 512", "primaryGroupID: 513", "accountExpires: 9223372036854775807", "pwdLastSet: 133400000000000000",
            "codePage: 0", "countryCode: 0", "badPwdCount: 0", "logonCount: 7", "sAMAccountType: 805306368", f"manager: {first}"]


def head(writer):
    """The root and what every domain has, as records; the list of the root."""
    text, entries = listed("domainDNS", handed_down(), [])
    writer.object(ROOT, "domainDNS", [], text, DOMAIN)
    writer.object(f"CN=Groups,{ROOT}", "container", [], listed("container", [], entries)[0], 0)
    rights, _ = listed("group", born("group"), listed("container", [], entries)[1])
    groups = [(sid, str(number)) for number, sid in BUILTIN.items() if number < 560]
    groups += [(of(number), str(number)) for number in (512, 513, 515, 516, 517, 518, 519, 553)]
    for sid, name in groups:
        member = [f"member: CN=512,CN=Groups,{ROOT}"] if name == "544" else []
        writer.object(f"CN={name},CN=Groups,{ROOT}", "group", [f"sAMAccountName: {name}", "groupType: -2147483644", *member], rights, sid)
    return entries


def unit(writer, at, above, left):
    """A unit with what stands in it, so many objects in all."""
    place = f"OU=unit{at:03},{ROOT}"
    own = [allow(0x30, of(1200 + at % UNLIKE), SETS[at % UNLIKE], "user", CI)]
    text, entries = listed("organizationalUnit", own, above)
    writer.object(place, "organizationalUnit", [f"description: Unit {at}"], text, 0)
    rights = {name: listed(name, born(name), entries)[0] for name in ("user", "group", "contact")}
    names = [f"CN=Ann of {at:03} {i:02},{place}" for i in range(ACCOUNTS)]
    groups = [f"CN=group{i} of {at:03},{place}" for i in range(GROUPS)]
    for i, name in enumerate(names):
        lines = account(f"of {at:03} {i:02}", at * ACCOUNTS + i, at, names[0]) + [f"memberOf: {one}" for one in groups]
        writer.object(name, "user", lines, rights["user"])
    for i, name in enumerate(groups):
        lines = [f"sAMAccountName: group{at:03}-{i}", "groupType: -2147483646"] + [f"member: {one}" for one in names]
        writer.object(name, "group", lines, rights["group"])
    for i in range(left - 1 - ACCOUNTS - GROUPS):
        lines = [f"mail: p{at:03}-{i}@mail.corp.example", f"telephoneNumber: +49 30 {i:07}"]
        writer.object(f"CN=person {i:03},{place}", "contact", lines, rights["contact"], 0)


def write(path, objects=OBJECTS):
    """Writes the export; how many objects it has."""
    with open(path, "w", encoding="ascii") as out:
        writer = Writer(out)
        for name, lines in schema():
            writer.record(name, lines)
        before = writer.count
        entries, units = head(writer), objects // IN_UNIT
        for at in range(units):
            unit(writer, at, entries, (objects + before - writer.count) // (units - at))
        out.write(f"# returned {writer.count} records\n# {writer.count} entries\n# 0 referrals\n")
        return writer.count - before
