#!/usr/bin/env python3
"""Writes an LDIF text like the export of a directory with its schema: make.py FILE USERS [big] [plain] [real] [lean] [slapd [whole]].

Below a root there is a unit for each hundred users, and in it one for its people and one for its groups. A user has the some 30
lines that an account usually has, and a descriptor of 3.4 KB: the 24 entries that accounts get at birth, and what they took over
from the root and from their unit. Units, groups and users of a unit have the same descriptor each, so few different ones stand in the
text many times. A unit has five groups, each of some twenty members, one of them another group. Every line is folded at 76 bytes as
exports are. The text is the same at every run.

With `big` there is a group more, of which each user is a member. With `plain` no object but the root has an identifier. With `real`
the schema is as large as that of a domain: 1,500 attributes of which 300 are indexed, and 270 classes, of which 80 are auxiliary to
users and give them 400 attributes more; and a user's list has 44 entries. With `lean` users have a third of their lines, and no descriptor
of their own, so that 60,000 of them are a text that is taken. With `slapd`
the text has no schema, and nothing that another server makes itself, so that slapadd can read it under the schema of `slapd.py`; `whole`
leaves in it the names of each object that the program shows (distinguishedName and name)."""
import base64
import random
import struct
import sys

ROOT = "DC=corp,DC=example"
DOMAIN = (21, 1004336348, 1177238915, 682003330)

# Attributes: a name, a syntax, whether it has one value, and a link's number.
ATTRIBUTES = [
    ("objectClass", 2, False, None), ("cn", 12, True, None), ("ou", 12, True, None), ("dc", 12, True, None),
    ("distinguishedName", 1, True, None), ("name", 12, True, None), ("objectSid", 17, True, None), ("member", 1, False, 2),
    ("memberOf", 1, False, 3), ("primaryGroupID", 9, True, None), ("adminCount", 9, True, None), ("dSHeuristics", 12, True, None),
    ("servicePrincipalName", 12, False, None), ("dNSHostName", 12, True, None), ("unicodePwd", 10, True, None),
    ("description", 12, False, None), ("telephoneNumber", 12, True, None), ("streetAddress", 12, True, None), ("sn", 12, True, None),
    ("givenName", 12, True, None), ("displayName", 12, True, None), ("sAMAccountName", 12, True, None),
    ("userPrincipalName", 12, True, None), ("mail", 12, True, None), ("l", 12, True, None), ("postalCode", 12, True, None),
    ("title", 12, True, None), ("department", 12, True, None), ("company", 12, True, None), ("employeeID", 12, True, None),
    ("manager", 1, True, None), ("userAccountControl", 9, True, None), ("groupType", 9, True, None), ("pwdLastSet", 16, True, None),
    ("lastLogonTimestamp", 16, True, None), ("accountExpires", 16, True, None), ("proxyAddresses", 12, False, None),
]

# Classes: a name, the class above, its category, what names an object, its attributes, and the classes that it may stand below.
PERSON = "sn givenName displayName telephoneNumber streetAddress l postalCode title department company employeeID manager"
CLASSES = [
    ("top", "top", 2, "cn", "distinguishedName name memberOf adminCount description", ""),
    ("domainDNS", "top", 1, "dc", "objectSid", ""),
    ("organizationalUnit", "top", 1, "ou", "", "domainDNS organizationalUnit"),
    ("container", "top", 1, "cn", "dSHeuristics", "domainDNS organizationalUnit container"),
    ("group", "top", 1, "cn", "objectSid member sAMAccountName groupType", "domainDNS organizationalUnit container"),
    ("person", "top", 0, "cn", PERSON, ""),
    ("organizationalPerson", "person", 0, "cn", "mail", ""),
    ("user", "organizationalPerson", 1, "cn", "objectSid primaryGroupID servicePrincipalName unicodePwd sAMAccountName userPrincipalName "
     "userAccountControl pwdLastSet lastLogonTimestamp accountExpires proxyAddresses", "domainDNS organizationalUnit container"),
]

# What is indexed of the attributes that objects have, and how large a real schema is.
INDEXED = ("sn", "givenName", "displayName", "sAMAccountName", "userPrincipalName", "mail", "proxyAddresses", "employeeID", "objectSid",
           "primaryGroupID", "userAccountControl", "cn", "ou", "telephoneNumber", "servicePrincipalName")
REAL_ATTRIBUTES, REAL_INDEXED, REAL_CLASSES, REAL_BESIDE, REAL_LIST = 1_500, 300, 270, 80, 19

# ---- descriptors

SYSTEM, SELF, USERS, WORLD = (5, 18), (5, 10), (5, 11), (1, 0)
ADMINS, OPERATORS, WINDOWS, TERMINALS = (5, 32, 544), (5, 32, 548), (5, 32, 560), (5, 32, 561)
FULL, MOST, READ = 0xF01FF, 0xF01FF & ~0x40, 0x20094
CI, IO, ID = 2, 8, 16


def within(rid):
    return (5, *DOMAIN, rid)


def sid(parts):
    return bytes([1, len(parts) - 1]) + parts[0].to_bytes(6, "big") + b"".join(struct.pack("<I", part) for part in parts[1:])


def guid(text):
    a, b, c, d, e = text.split("-")
    return struct.pack("<IHH", int(a, 16), int(b, 16), int(c, 16)) + bytes.fromhex(d + e)


def entry(flags, mask, who, kind=None, below=None):
    """An entry that allows, with the GUIDs of what it is about and of the class that it is inherited to."""
    if kind is None and below is None:
        body = struct.pack("<I", mask) + sid(who)
        return struct.pack("<BBH", 0, flags, len(body) + 4) + body
    held = (1 if kind else 0) | (2 if below else 0)
    body = struct.pack("<II", mask, held) + (guid(kind) if kind else b"") + (guid(below) if below else b"") + sid(who)
    return struct.pack("<BBH", 5, flags, len(body) + 4) + body


def descriptor(entries):
    """Owner and group are the domain's administrators."""
    owner = sid(within(512))
    size = 8 + sum(len(one) for one in entries)
    acl = struct.pack("<BBHHH", 4, 0, size, len(entries), 0) + b"".join(entries)
    return struct.pack("<BBHIIII", 1, 0, 0x8404, 20, 20 + len(owner), 0, 20 + 2 * len(owner)) + owner + owner + acl


# What an account gets at birth: full control for three, and rights to one attribute, set of attributes or action.
SELF_ACTIONS = ("ab721a53-1e2f-11d0-9819-00aa0040529b", "ab721a54-1e2f-11d0-9819-00aa0040529b", "ab721a56-1e2f-11d0-9819-00aa0040529b")
SELF_SETS = ("77b5b886-944a-11d1-aebd-0000f80367c1", "e45795b2-9455-11d1-aebd-0000f80367c1", "e45795b3-9455-11d1-aebd-0000f80367c1")
SERVER_SETS = ("037088f8-0ae1-11d2-b422-00a0c968f939", "4c164200-20c0-11d0-a768-00aa006e0529", "bc0ac240-79a9-11d0-9020-00c04fc2d4cf",
               "5f202010-79a5-11d0-9020-00c04fc2d4cf")
OPEN_SETS = ("59ba2f42-79a2-11d0-9020-00c04fc2d3cf", "77b5b886-944a-11d1-aebd-0000f80367c1", "e45795b3-9455-11d1-aebd-0000f80367c1",
             "e48d0154-bcf8-11d1-8702-00c04fb96050")
ACCOUNT = (
    [entry(0, FULL, who) for who in (within(512), SYSTEM, OPERATORS)]
    + [entry(0, READ, SELF), entry(0, 0x20000, USERS)]
    + [entry(0, 0x100, SELF, action) for action in SELF_ACTIONS]
    + [entry(0, 0x30, SELF, what) for what in SELF_SETS]
    + [entry(0, 0x10, within(553), what) for what in SERVER_SETS]
    + [entry(0, 0x10, USERS, what) for what in OPEN_SETS]
    + [entry(0, 0x100, WORLD, SELF_ACTIONS[0]), entry(0, 0x30, within(517), "bf967a7f-0de6-11d0-a285-00aa003049e2"),
       entry(0, 0x10, WINDOWS, "46a9b11d-60ae-405a-b7e8-ff8a58d456d2"),
       entry(0, 0x30, TERMINALS, "6db69a1c-9422-11d1-aebd-0000f80367c1"),
       entry(0, 0x30, TERMINALS, "5805bc62-bdc9-4428-a5e2-856a0f4c185e")])

# What the root gives to all below it, forty entries: (mask, who, what, class).
CLASS_USER, CLASS_GROUP = "bf967aba-0de6-11d0-a285-00aa003049e2", "bf967a9c-0de6-11d0-a285-00aa003049e2"
TO_ALL = (
    [(FULL, within(512), None, None), (FULL, within(519), None, None), (MOST, ADMINS, None, None), (READ, USERS, None, None)]
    + [(0x10, (5, 32, 554), what, below) for what in SERVER_SETS + OPEN_SETS for below in (CLASS_USER, CLASS_GROUP)]
    + [(0x30, within(1100 + i), "%08x-0de6-11d0-a285-00aa003049e2" % (0xBF967900 + i), CLASS_USER if i % 2 else None) for i in range(20)])


def of_root(real):
    return descriptor([entry(CI, *one) for one in given(real)])


def given(real):
    return TO_ALL[:REAL_LIST] if real else TO_ALL


def of_unit(i, own, below, real):
    """Helpers of the unit may write to its users; own is what an object has by itself."""
    helpers = (0x30, within(1200 + i % 12), "bf967a0a-0de6-11d0-a285-00aa003049e2", CLASS_USER)
    taken = [entry(CI | ID | (IO if one[3] else 0), *one) for one in ([helpers] if below else []) + given(real)]
    return descriptor(own + ([] if below else [entry(CI, *helpers)]) + taken)


# ---- text


def folded(line, width=76):
    """The line, cut so that no physical line has more than width bytes."""
    parts, rest = [line[:width]], line[width:]
    while rest:
        parts.append(" " + rest[: width - 1])
        rest = rest[width - 1:]
    return "\n".join(parts)


def line(name, value):
    if isinstance(value, bytes):
        return folded(name + ":: " + base64.b64encode(value).decode())
    return folded(name + ": " + str(value))


class Text:
    def __init__(self, out, words):
        self.out, self.slapd, self.plain, self.count = out, "slapd" in words, "plain" in words, 0
        self.named = not self.slapd or "whole" in words
        self.real, self.lean = "real" in words, "lean" in words

    def record(self, name, lines):
        self.out.write("\n".join([line("dn", name)] + [line(*one) for one in lines]) + "\n\n")

    def object(self, name, classes, lines, sd, groups=()):
        self.count += 1
        lines = [one for one in lines if not (self.plain and name != ROOT and one[0] == "objectSid")]
        kept = [("objectClass", one) for one in classes] + lines
        if self.named:
            kept += [("distinguishedName", name), ("name", name.split(",")[0].split("=")[1])]
        if not self.slapd:
            kept += [("memberOf", one) for one in groups]
        self.record(name, kept + ([("nTSecurityDescriptor", sd)] if sd else []))


def attributes(real):
    more = REAL_ATTRIBUTES - len(ATTRIBUTES) if real else 0
    return ATTRIBUTES + [("real%04d" % i, 12, i % 2 == 0, None) for i in range(more)]


def classes(real):
    """The classes, each with those that are auxiliary to it."""
    count = REAL_CLASSES - len(CLASSES) if real else 0
    more = [("aside%03d" % i, "top", 3, "cn", " ".join("real%04d" % k for k in range(5 * i, 5 * i + 5)), "") for i in range(count)]
    beside = [one[0] for one in more[:REAL_BESIDE]]
    return [(one, beside if one[0] == "user" else []) for one in CLASSES + more]


def indexed(real):
    """The attributes that are indexed, first those that objects have."""
    more = attributes(real)[len(ATTRIBUTES):len(ATTRIBUTES) + REAL_INDEXED - len(INDEXED)]
    return [*INDEXED, *(one[0] for one in more)] if real else []


def schema(text):
    real = text.real
    flagged = set(indexed(real))
    for i, (name, syntax, single, link) in enumerate(attributes(real)):
        lines = [("objectClass", "attributeSchema"), ("lDAPDisplayName", name), ("attributeSyntax", "2.5.5.%d" % syntax),
                 ("schemaIDGUID", b"attribute%07d" % i)]
        lines += [("isSingleValued", "TRUE")] if single else []
        lines += [("searchFlags", 1)] if name in flagged else []
        text.record("CN=" + name, lines + ([("linkID", link)] if link else []))
    for i, ((name, above, category, naming, may, below), beside) in enumerate(classes(real)):
        own = guid({"user": CLASS_USER, "group": CLASS_GROUP}[name]) if name in ("user", "group") else b"class%011d" % i
        lines = [("objectClass", "classSchema"), ("lDAPDisplayName", name), ("schemaIDGUID", own), ("subClassOf", above),
                 ("objectClassCategory", category), ("rDNAttID", naming)]
        lines += [("mustContain", "objectClass")] if name == "top" else [("defaultSecurityDescriptor", "D:(A;;GA;;;SY)(A;;GA;;;DA)")]
        lines += [("mayContain", one) for one in may.split()] + [("possSuperiors", one) for one in below.split()]
        lines += [("auxiliaryClass", one) for one in beside]
        text.record("CN=" + name, lines)


FIRST = ("Anna", "Bernd", "Chiara", "David", "Elif", "Felix", "Greta", "Hugo", "Ines", "Jonas", "Karim", "Lena", "Mia", "Noah", "Olga")
LAST = ("Adler", "Brandt", "Conti", "Duarte", "Ersoy", "Fischer", "Garcia", "Huber", "Ivanova", "Jansen", "Keller", "Lopez", "Novak")
TITLES = ("Engineer", "Clerk", "Manager", "Physician", "Analyst", "Technician")
CITIES = (("Berlin", 10115), ("Hamburg", 20095), ("Dresden", 1067), ("Freiburg", 79098), ("Bremen", 28195))
GROUP_SIZE, GROUPS = 20, 5


LEAN = ("cn", "sn", "givenName", "sAMAccountName", "userPrincipalName", "mail", "employeeID", "description", "objectSid")


def objects(text, users, big):
    rng = random.Random(7)
    text.object(ROOT, ["domainDNS"], [("dc", "corp"), ("objectSid", sid((5, *DOMAIN)))], of_root(text.real))
    rid, made = 2000, 0
    everyone = []
    for u in range((users + 99) // 100):
        unit = "OU=unit%03d,%s" % (u, ROOT)
        people, groups = "OU=people," + unit, "OU=groups," + unit
        below = of_unit(u, [], True, text.real)
        account, party = of_unit(u, ACCOUNT, True, text.real), of_unit(u, ACCOUNT[:5], True, text.real)
        text.object(unit, ["organizationalUnit"], [("ou", "unit%03d" % u), ("description", "Unit %d" % u)], of_unit(u, [], False, text.real))
        text.object(people, ["organizationalUnit"], [("ou", "people")], below)
        text.object(groups, ["organizationalUnit"], [("ou", "groups")], below)
        here = min(100, users - made)
        names = ["CN=%s %s %06d,%s" % (rng.choice(FIRST), rng.choice(LAST), made + i, people) for i in range(here)]
        members = [sorted(rng.sample(range(here), min(GROUP_SIZE, here))) for _ in range(GROUPS)]
        group_names = ["CN=unit%03d group%d,%s" % (u, g, groups) for g in range(GROUPS)]
        for i, name in enumerate(names):
            given, last, number = name.split(",")[0][3:].split()
            city, code = rng.choice(CITIES)
            rid += 1
            login = (given[0] + last + number).lower()
            lines = [
                ("cn", name.split(",")[0][3:]), ("sn", last), ("givenName", given), ("displayName", "%s %s" % (given, last)),
                ("sAMAccountName", login), ("userPrincipalName", login + "@corp.example"), ("mail", login + "@mail.corp.example"),
                ("proxyAddresses", "SMTP:" + login + "@mail.corp.example"), ("proxyAddresses", "smtp:" + login + "@corp.example"),
                ("telephoneNumber", "+49 30 %07d" % rng.randrange(10**7)), ("streetAddress", "%d Long Street" % rng.randrange(1, 400)),
                ("l", city), ("postalCode", "%05d" % code), ("title", rng.choice(TITLES)), ("department", "Unit %d" % u),
                ("company", "Corp of Examples"), ("employeeID", "E" + number), ("description", "Account of %s %s" % (given, last)),
                ("manager", names[0]), ("userAccountControl", 512), ("primaryGroupID", 513), ("accountExpires", 9223372036854775807),
                ("pwdLastSet", 133400000000000000 + rng.randrange(10**13)), ("lastLogonTimestamp", 133400000000000000 + rng.randrange(10**13)),
                ("objectSid", sid(within(rid)))]
            if text.lean:
                lines = [one for one in lines if one[0] in LEAN]
            held = [] if text.lean else [group for group, of in zip(group_names, members) if i in of]
            text.object(name, ["top", "person", "organizationalPerson", "user"], lines, None if text.lean else account, held)
        for g, (group, of) in enumerate(zip(group_names, members)):
            rid += 1
            lines = [("cn", group.split(",")[0][3:]), ("sAMAccountName", group.split(",")[0][3:]), ("groupType", -2147483646),
                     ("objectSid", sid(within(rid)))]
            lines += [("member", names[i]) for i in of] + ([("member", group_names[g - 1])] if g else [])
            text.object(group, ["top", "group"], lines, party)
        made += here
        everyone += names
    if big:
        lines = [("cn", "everyone"), ("objectSid", sid(within(rid + 1)))] + [("member", one) for one in everyone]
        text.object("CN=everyone," + ROOT, ["top", "group"], lines, of_unit(0, ACCOUNT[:5], False, text.real))


def main():
    path, users, words = sys.argv[1], int(sys.argv[2]), sys.argv[3:]
    with open(path, "w") as out:
        text = Text(out, words)
        if "slapd" not in words:
            schema(text)
        objects(text, users, "big" in words)
    print(text.count)


if __name__ == "__main__":
    main()
