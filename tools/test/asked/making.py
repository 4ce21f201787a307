"""Directories made by chance, as LDIF: groups in circles and of all kinds, chains of them, foreign principals,
identifiers without an object, those of before, guests, what was deleted, denials, property sets, entries for the object
itself and for owner rights, and lists that are still being passed down."""

import base64
import os
import random
from dataclasses import dataclass, field
from typing import Dict, List, Optional

from adsd_tools.forms.descriptor import Acl, Descriptor, Entry, list_bytes, written
from adsd_tools.forms.rights import RIGHTS
from adsd_tools.forms.sids import guid_of_text, known_sid

TOP = os.path.dirname(os.path.dirname(os.path.dirname(os.path.dirname(os.path.abspath(__file__)))))
SCHEMA = os.path.join(TOP, "cases/runs/who-worked/0.in")
DOMAIN, BASE = "S-1-5-21-1-2-3", "DC=corp,DC=example"
KNOWN = ("S-1-1-0", "S-1-5-11", "S-1-5-7", "S-1-5-10", "S-1-5-10", "S-1-3-4", "S-1-3-0", "S-1-5-32-544",
         "S-1-5-32-545")
STRANGERS = (f"{DOMAIN}-9999", "S-1-5-21-7-8-9-1000")
# What the schema has that entries may name: attributes, the property set, classes and rights.
GUIDS = [guid_of_text(text) for text in (
    "a0000000-0000-4080-8000-000000000010", "50000000-0000-4080-8000-000000000001",
    "bf967aba-0de6-11d0-a285-00aa003049e2", "00299570-246d-11d0-a768-00aa006e0529",
    "bf9679c0-0de6-11d0-a285-00aa003049e2", "ab721a53-1e2f-11d0-9819-00aa0040529b")]
MASKS = [*RIGHTS.values(), 0xF01FF, 0x20094, 0x130, 0x60000, RIGHTS["WP"] | RIGHTS["RP"], RIGHTS["CC"] | RIGHTS["DC"]]
# What everybody has, where nothing says otherwise: all; to read; to list objects, one by one or all; much of it.
MANY = (0xF01FF, 0x20094, RIGHTS["LC"], RIGHTS["LO"], 0x9F, 0x1FF)
FLAGS = (0, 0, 0, 2, 2, 10, 6, 14)
HISTORY = """dn: CN=sIDHistory
objectClass: attributeSchema
lDAPDisplayName: sIDHistory
attributeSyntax: 2.5.5.17
schemaIDGUID:: AAAAoAAAAECAAAAAAAAAMA==

dn: CN=isDeleted
objectClass: attributeSchema
lDAPDisplayName: isDeleted
attributeSyntax: 2.5.5.8
schemaIDGUID:: AAAAoAAAAECAAAAAAAAAMQ==
isSingleValued: TRUE

"""


@dataclass
class Thing:
    """An object that is made: its name, its class, and its lines."""

    name: str
    of_class: str
    lines: List[str] = field(default_factory=list)
    sid: Optional[str] = None

    def text(self) -> str:
        head = [f"dn: {self.name}", f"objectClass: {self.of_class}", *([f"objectSid: {self.sid}"] if self.sid else [])]
        return "\n".join(head + self.lines) + "\n\n"


def schema_text() -> str:
    with open(SCHEMA, encoding="utf-8") as opened:
        return opened.read().partition("# ---- objects")[0] + HISTORY


def guids_of_schema(text: str) -> List[bytes]:
    """All GUIDs of types that the schema has."""
    def of(word: str) -> List[bytes]:
        return [base64.b64decode(line.split(":: ")[1]) for line in text.splitlines() if line.startswith(f"{word}::")]

    sets = of("attributeSecurityGUID")
    return [*of("schemaIDGUID"), *sets, *sets, *(guid for guid in GUIDS if guid)]


class Maker:
    """Makes one directory of a number."""

    def __init__(self, seed: int) -> None:
        self.chance, self.things = random.Random(seed), list[Thing]()
        self.schema = schema_text()
        self.types = guids_of_schema(self.schema)
        self.sids: List[str] = []

    def made(self) -> str:
        self.tree()
        self.accounts()
        self.members()
        for thing in self.things:
            if self.chance.random() < 0.8:
                data = base64.b64encode(self.descriptor()).decode()
                thing.lines.append(f"nTSecurityDescriptor:: {data}")
        return self.schema + "".join(thing.text() for thing in self.things)

    def add(self, first: str, above: str, of_class: str, sid: Optional[str] = None) -> Thing:
        made = Thing(f"{first},{above}" if above else first, of_class, [], sid)
        self.things.append(made)
        if sid:
            self.sids.append(sid)
        return made

    def tree(self) -> None:
        """The root, some units, and now and then the mode in which objects are listed one by one."""
        self.add(BASE, "", "domainDNS", DOMAIN if self.chance.random() < 0.9 else None)
        self.units = [BASE]
        for number in range(self.chance.randint(1, 4)):
            self.units.append(self.add(f"OU=u{number}", self.chance.choice(self.units), "organizationalUnit").name)
        if self.chance.random() < 0.5:
            above = BASE
            for name in ("Configuration", "Services", "Windows NT", "Directory Service"):
                thing = self.add(f"CN={name}", above, "container")
                above = thing.name
            thing.lines.append(f"dSHeuristics: {self.chance.choice(('001', '001', '0012', '000'))}")

    def accounts(self) -> None:
        chance = self.chance
        for number in range(chance.randint(3, 8)):
            kind = chance.choice(("user", "user", "computer"))
            rid = chance.choice((500, 501)) if number < 1 else 1000 + number
            thing = self.add(f"CN=a{number}", chance.choice(self.units), kind, f"{DOMAIN}-{rid}")
            thing.lines.append(f"sAMAccountName: a{chance.choice((number, number, number, 0))}")
            thing.lines.append("telephoneNumber: 1")
            thing.lines.append("secretCode: x")
            if chance.random() < 0.5:
                thing.lines.append(f"primaryGroupID: {chance.choice((513, 1100, 1101, 512))}")
            if chance.random() < 0.3:
                thing.lines.append(f"sIDHistory: {chance.choice((DOMAIN + '-1100', 'S-1-5-32-544', STRANGERS[1]))}")
        for number in range(chance.randint(2, 7)):
            sid = chance.choice(("S-1-5-32-544", "S-1-5-32-545", f"{DOMAIN}-512", f"{DOMAIN}-513"))
            sid = sid if chance.random() < 0.3 and sid not in self.sids else f"{DOMAIN}-{1100 + number}"
            thing = self.add(f"CN=g{number}", chance.choice(self.units), "group", sid)
            of = chance.choice(("", "", "-2147483646", "-2147483644", "2"))
            if of:
                thing.lines.append(f"groupType: {of}")
        for number, sid in enumerate(("S-1-5-11", "S-1-1-0", "S-1-5-7", STRANGERS[1], "S-1-5-32")):
            if chance.random() < 0.3:
                self.add(f"CN=f{number}", BASE, "container", sid)
        for thing in self.things:
            if thing.sid and thing.of_class != "domainDNS" and chance.random() < 0.08:
                thing.lines.append(f"isDeleted: {chance.choice(('TRUE', 'TRUE', 'FALSE'))}")

    def members(self) -> None:
        """Who is in which group; circles come by themselves, and now and then all groups stand in a chain."""
        names = [thing.name for thing in self.things]
        groups = [thing for thing in self.things if thing.of_class == "group"]
        if self.chance.random() < 0.2:
            for one, other in zip(groups, groups[1:]):
                one.lines.append(f"member: {other.name}")
            return
        for thing in self.things:
            if thing.of_class == "group" or (thing.sid and self.chance.random() < 0.05):
                some = self.chance.sample(names, min(len(names), self.chance.randint(0, 4)))
                thing.lines += [f"member: {name}" for name in some]

    def sid(self) -> bytes:
        return known_sid(self.chance.choice((*self.sids, *self.sids, *KNOWN, *STRANGERS)))

    def entry(self) -> Entry:
        chance = self.chance
        mask = chance.choice(MASKS) | (chance.choice(MASKS) if chance.random() < 0.5 else 0)
        of, inherited = (chance.choice(self.types) if chance.random() < odds else None for odds in (0.4, 0.2))
        return Entry(chance.choice((0, 0, 0, 1, 1, 2)), chance.choice(FLAGS), mask, of, inherited, self.sid())

    def acl(self) -> Acl:
        entries = [one for one in (self.entry() for _ in range(self.chance.randint(0, 7))) if one.kind != 2]
        if self.chance.random() < 0.7:
            # (behind all others: so that much is granted, and what stands before it decides on something)
            entries.append(Entry(0, 2, self.chance.choice(MANY), None, None, known_sid(self.chance.choice(KNOWN[:2]))))
        return Acl(entries, self.chance.random() < 0.2)

    def descriptor(self) -> bytes:
        return written(Descriptor(self.sid(), known_sid("S-1-5-32-544"), self.acl()))

    def list_alone(self) -> bytes:
        """A descriptor of a list and nothing else, as a request gives it."""
        acl = list_bytes(self.acl())
        control = 0x8004 | (0x1000 if self.chance.random() < 0.2 else 0)
        return bytes([1, 0]) + control.to_bytes(2, "little") + bytes(12) + (20).to_bytes(4, "little") + acl
