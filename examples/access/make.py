#!/usr/bin/env python3
"""Writes the examples of this folder: for each NAME the bytes NAME.bin, the text NAME.txt with each part of the bytes, the
expected output NAME.expected, and NAME.status where the status is not 0. The expected values are worked out by hand, by the
rules of docs/profile/access.md. The files are committed; run this only after a change here. `examples/run` compares them with
what this writes into another folder: make.py [FOLDER]
"""

import os
import struct
import sys
import textwrap

FOLDER = sys.argv[1] if sys.argv[1:] else os.path.dirname(os.path.abspath(__file__))

DOMAIN = "S-1-5-21-1004336348-1177238915-682003330"
ADMINS = ("Domain Admins", f"{DOMAIN}-512")
ANNA = ("Anna", f"{DOMAIN}-1104")
USERS = ("Domain Users", f"{DOMAIN}-513")
HELP_DESK = ("Help Desk", f"{DOMAIN}-1201")
CONTRACTORS = ("Contractors", f"{DOMAIN}-1202")
WEB_SERVICE = ("Web Service", f"{DOMAIN}-1203")
AUTHENTICATED = ("Authenticated Users", "S-1-5-11")
OWNER_RIGHTS = ("Owner Rights", "S-1-3-4")

ALLOW, DENY = (0, "allow"), (1, "deny")
ENABLED, DENY_ONLY = (0, "enabled"), (1, "only denies")


class Text:
    """Bytes that are written part by part, with a note on each part."""

    def __init__(self):
        self.bytes = b""
        self.notes = []

    def put(self, part, note):
        self.notes.append((len(self.bytes), part, note))
        self.bytes += part

    def add(self, other):
        for place, part, note in other.notes:
            self.notes.append((len(self.bytes) + place, part, note))
        self.bytes += other.bytes


def sid_bytes(sid):
    _, text = sid
    _, _, authority, *others = text.split("-")
    head = bytes([1, len(others)]) + int(authority).to_bytes(6, "big")
    return head + b"".join(struct.pack("<I", int(n)) for n in others)


def named(sid):
    return f"{sid[0]}, {sid[1]}"


def token(user, groups, deny_only=None, restricting=None, privileges=0):
    text = Text()
    version = 1 if deny_only is None and restricting is None else 2
    text.put(bytes([version]), f"token version {version}")
    text.put(bytes([privileges]), "no privileges")
    text.put(sid_bytes(user), f"the user: {named(user)}")
    text.put(sid_bytes(user), "the owner of new objects: the user")
    text.put(sid_bytes(USERS), f"the primary group: {named(USERS)}")
    marked = [(ENABLED, g) for g in groups] + [(DENY_ONLY, g) for g in deny_only or []]
    text.put(struct.pack(">H", len(marked)), f"the number of groups: {len(marked)}")
    for mark, group in marked:
        if version == 2:
            text.put(bytes([mark[0]]), f"the next group's mark: {mark[1]}")
        text.put(sid_bytes(group), f"a group: {named(group)}")
    if version == 2:
        others = restricting or []
        text.put(struct.pack(">H", len(others)), f"the number of restricting identifiers: {len(others)}")
        for sid in others:
            text.put(sid_bytes(sid), f"a restricting identifier: {named(sid)}")
    return text


def entry(kind, mask, sid, note, flags=0):
    text = Text()
    body = sid_bytes(sid)
    text.put(struct.pack("<BBH", kind[0], flags, 8 + len(body)), f"an entry: {kind[1]}, flags {flags:#04x}, {8 + len(body)} bytes")
    text.put(struct.pack("<I", mask), f"  its rights: {note}")
    text.put(body, f"  its trustee: {named(sid)}")
    return text


def acl(entries):
    size = 8 + sum(len(e.bytes) for e in entries)
    text = Text()
    text.put(struct.pack("<BBHHH", 2, 0, size, len(entries), 0), f"the list: revision 2, {size} bytes, {len(entries)} entries")
    for one in entries:
        text.add(one)
    return text


def question(who, owner, entries, want, note, behind=b""):
    text = Text()
    text.put(struct.pack(">I", len(who.bytes)), f"the token's length: {len(who.bytes)} bytes")
    text.add(who)
    text.put(sid_bytes(owner), f"the object's owner: {named(owner)}")
    text.add(acl(entries))
    text.put(struct.pack(">I", want), f"the wanted rights: {note}")
    if behind:
        text.put(behind, "a byte too many")
    return text


def write(name, asks, answers, text, expected, status=0):
    def put(kind, content):
        with open(os.path.join(FOLDER, f"{name}.{kind}"), "wb") as file:
            file.write(content)

    lines = []
    for paragraph in (asks, answers):
        lines += textwrap.wrap(" ".join(paragraph.split()), 100) + [""]
    lines += [f"    ./adsd access <examples/access/{name}.bin", "", "The bytes, by their places in hexadecimal:", ""]
    for place, part, note in text.notes:
        rows = [part[i : i + 12].hex(" ") for i in range(0, len(part), 12)]
        lines.append(f"{place:04x}  {rows[0]:<36} {note}".rstrip())
        lines += [f"      {row}" for row in rows[1:]]
    put("bin", text.bytes)
    put("txt", ("\n".join(lines) + "\n").encode())
    put("expected", (expected + "\n").encode() if status == 0 else b"")
    if status:
        put("status", f"{status}\n".encode())


ANNA_AT_WORK = token(ANNA, [USERS, HELP_DESK, AUTHENTICATED])
DESK_LIST = [
    entry(ALLOW, 0x94, AUTHENTICATED, "read property, list children, list object"),
    entry(ALLOW, 0x30, HELP_DESK, "read property, write property"),
]

write(
    "allow",
    """The Help Desk may read and write the properties of an account. Anna is in the Help Desk. She asks to read
    properties (0x10), to write them (0x20) and to delete the account (0x10000).""",
    """The answer is 00000030. The first entry allows her to read properties as an authenticated user, and the second to
    write them as one of the Help Desk. No entry allows her to delete, so that right isn't granted. An answer has those of
    the wanted rights that are granted.""",
    question(ANNA_AT_WORK, ADMINS, DESK_LIST, 0x10030, "read property, write property, delete"),
    "00000030",
)

write(
    "owner-rights",
    """Anna created an object and owns it. An owner may read the descriptor and write its discretionary list, so that it can
    give itself any right. To stop this, an entry for Owner Rights stands in the list, and allows owners to read the
    descriptor alone. Anna asks to read the descriptor (0x20000) and to write the discretionary list (0x40000).""",
    """The answer is 00020000. Since an entry for Owner Rights stands in the list, an owner has no right just by being the
    owner. That entry then speaks of the owner, Anna, and allows her to read the descriptor. Without it the answer would be
    00060000.""",
    question(ANNA_AT_WORK, ANNA, [entry(ALLOW, 0x20000, OWNER_RIGHTS, "read control"), *DESK_LIST], 0x60000, "read control, write DAC"),
    "00020000",
)

write(
    "denial-in-front",
    """Contractors may not write the properties of an account, whatever else they are allowed. So a denial stands in front of
    the entries that allow. Anna is in the Help Desk and is a contractor. She asks to read properties (0x10) and to write
    them (0x20).""",
    """The answer is 00000010. The first entry that has a right decides on it. For write property that is the denial, and the
    entry for the Help Desk behind it changes nothing. For read property it is the entry for authenticated users.""",
    question(
        token(ANNA, [USERS, HELP_DESK, CONTRACTORS, AUTHENTICATED]),
        ADMINS,
        [entry(DENY, 0x20, CONTRACTORS, "write property"), *DESK_LIST],
        0x30,
        "read property, write property",
    ),
    "00000010",
)

write(
    "denial-behind",
    """The same as denial-in-front, but someone put the denial behind the entries that allow.""",
    """The answer is 00000030. The first entry that has write property is now that of the Help Desk. The entries are taken as
    they stand, and nothing puts denials in front.""",
    question(
        token(ANNA, [USERS, HELP_DESK, CONTRACTORS, AUTHENTICATED]),
        ADMINS,
        [*DESK_LIST, entry(DENY, 0x20, CONTRACTORS, "write property")],
        0x30,
        "read property, write property",
    ),
    "00000030",
)

write(
    "restricted",
    """A web service acts for Anna with a restricted token: besides Anna's own groups it has the restricting identifier Web
    Service. The list lets the Help Desk read and write properties, and lets Web Service read them. Asked are the rights to
    read (0x10) and to write (0x20) properties.""",
    """The answer is 00000010. With restricting identifiers a right has to be granted twice: to Anna and her groups, and to the
    restricting identifiers alone. To read properties is granted both times. To write them is granted to Anna as one of the
    Help Desk, but no entry allows it to Web Service.""",
    question(
        token(ANNA, [USERS, HELP_DESK, AUTHENTICATED], restricting=[WEB_SERVICE]),
        ADMINS,
        [*DESK_LIST, entry(ALLOW, 0x10, WEB_SERVICE, "read property")],
        0x30,
        "read property, write property",
    ),
    "00000010",
)

write(
    "deny-only",
    """Anna is a domain administrator who works with a filtered token: in it Domain Admins only denies. The list allows all
    rights to Domain Admins. She asks to read properties (0x10), to write them (0x20) and to delete the account (0x10000).""",
    """The answer is 00000010. A group that only denies grants nothing, so the entry for Domain Admins allows her nothing. As an
    authenticated user she may read properties. A denial for Domain Admins in front would count against her.""",
    question(
        token(ANNA, [USERS, AUTHENTICATED], deny_only=[ADMINS]),
        ADMINS,
        [entry(ALLOW, 0xF01FF, ADMINS, "all rights of objects"), DESK_LIST[0]],
        0x10030,
        "read property, write property, delete",
    ),
    "00000010",
)

write(
    "generic-read",
    """A tool asks for generic read (0x80000000), as Windows programs do, and the list allows generic read to authenticated
    users.""",
    """The answer is 00020094. Generic read stands for four rights: to read the descriptor (0x20000), to read properties
    (0x10), to list children (0x4) and to list the object (0x80). The wanted rights are mapped to these before the check, and
    so are those of each entry. An answer never has a generic right.""",
    question(ANNA_AT_WORK, ADMINS, [entry(ALLOW, 0x80000000, AUTHENTICATED, "generic read")], 0x80000000, "generic read"),
    "00020094",
)

write(
    "byte-too-many",
    """The question of the example allow, with a byte behind it.""",
    """The status is 1, and nothing is printed. Input that isn't exactly one question is refused whole.""",
    question(ANNA_AT_WORK, ADMINS, DESK_LIST, 0x10030, "read property, write property, delete", behind=b"\0"),
    "",
    status=1,
)
