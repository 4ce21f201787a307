"""What the cases of bench/growth are made of: texts of directories, and frames with large messages."""

import base64
import os
import struct
import sys

TOP = os.path.dirname(os.path.dirname(os.path.abspath(__file__)))
sys.path[:0] = [os.path.join(TOP, "tools"), os.path.join(TOP, "bench/load")]

import make  # noqa: E402
from adsd_tools.ask import words  # noqa: E402
from adsd_tools.forms import ber  # noqa: E402
from adsd_tools.forms.ber import attribute  # noqa: E402
from adsd_tools.ask.requests import frame  # noqa: E402

ROOT = "DC=corp,DC=example"
STAFF = "OU=staff," + ROOT
BOB, CLUB = "CN=bob," + STAFF, "CN=club," + STAFF
ADD, DELETE, REPLACE = 0, 1, 2
PRESENT = ber.octets(b"objectClass", tag=0x87)

with open(os.path.join(TOP, "examples/base.ldif"), encoding="utf-8") as file:
    BASE = file.read().rstrip("\n") + "\n"


# ---- frames


def token(groups=()):
    """A token of the administrators, who may do all, unless it has groups of its own."""
    own = words.sid("S-1-5-21-1-2-3-1002" if groups else "BA")
    marked = [b"\0" + make.sid(group) for group in groups]
    head = bytes([2, 0 if groups else 1]) + 3 * own
    return head + struct.pack(">H", len(marked)) + b"".join(marked) + struct.pack(">H", 0)


def message(request, controls=()):
    behind = [ber.sequence(*controls, tag=0xA0)] if controls else []
    return frame(2, 1, ber.sequence(ber.number(1), request, *behind))


def search(base, filter_of=PRESENT, attributes=("cn",), scope=0):
    nothing, never = ber.number(0), ber.number(0, ber.ENUMERATED)
    names = ber.sequence(*(ber.octets(name.encode()) for name in attributes))
    head = ber.octets(base.encode()), ber.number(scope, ber.ENUMERATED), never, nothing, nothing, ber.truth(False)
    return ber.sequence(*head, filter_of, names, tag=0x63)


def equal(name, value):
    return ber.sequence(ber.octets(name.encode()), ber.octets(value), tag=0xA3)


def modify(dn, *items):
    changes = [ber.sequence(ber.number(act, ber.ENUMERATED), attribute(name, values)) for act, name, values in items]
    return ber.sequence(ber.octets(dn.encode()), ber.sequence(*changes), tag=0x66)


def add(dn, attributes):
    made = [attribute(name, values) for name, values in attributes]
    return ber.sequence(ber.octets(dn.encode()), ber.sequence(*made), tag=0x68)


def delete(dn):
    return ber.octets(dn.encode(), tag=0x4A)


def rename(dn, superior):
    return ber.sequence(ber.octets(dn.encode()), ber.octets(b"CN=y"), ber.truth(True),
                        ber.octets(superior.encode(), tag=0x80), tag=0x6C)


def codes(said):
    """The result code of each answer to a message."""
    found, at = [], 0
    while at < len(said):
        kind, size = said[at], int.from_bytes(said[at + 3 : at + 7], "big")
        if kind == 0x82:
            body = ber.parts(ber.parts(said[at + 7 : at + 7 + size])[-1][1])[1][1]
            found.append(ber.parts(body)[0][1][0])
        at += 7 + size
    return found


def answers(code, count=1):
    """Whether each of so many messages was answered with the code."""
    return lambda said: codes(said) == count * [code]


# ---- texts


def several(count, front="value number "):
    """Different values, not in order: 7,919 is a prime that divides no size."""
    return [b"%s%d" % (front.encode(), number * 7919 % count) for number in range(count)]


def with_values(count, dn=BOB):
    """BASE, where the object has so many values of description."""
    lines = "".join(f"description: {value.decode()}\n" for value in several(count))
    return BASE.replace(f"dn: {dn}\n", f"dn: {dn}\n{lines}", 1)


def with_users(count, text=BASE):
    return text + "".join(f"\ndn: CN=u{number},{STAFF}\nobjectClass: user\n" for number in range(count))


def users(count):
    return [f"CN=u{number},{STAFF}".encode() for number in range(count)]


def with_members(count):
    """BASE with so many users, all of them members of one group."""
    lines = "".join(f"member: {dn.decode()}\n" for dn in reversed(users(count)))
    return with_users(count, BASE.replace(f"dn: {CLUB}\n", f"dn: {CLUB}\n{lines}", 1))


def guid(kind, number):
    return base64.b64encode(struct.pack("<IHH", kind, 0, 0x4000) + struct.pack(">Q", number)).decode()


def with_schema(count, turned=False):
    """BASE, whose users may have so many attributes more; they may stand in the opposite order."""
    made, names = BASE, [f"extra{number}" for number in range(count)]
    for number, name in sorted(enumerate(names), reverse=turned):
        made += (f"\ndn: CN={name}\nobjectClass: attributeSchema\nlDAPDisplayName: {name}\nattributeSyntax: 2.5.5.12\n"
                 f"schemaIDGUID:: {guid(0xB0000000, number)}\n")
    may = "".join(f"mayContain: {name}\n" for name in names)
    return made.replace("mayContain: servicePrincipalName\n", may + "mayContain: servicePrincipalName\n", 1), names


def descriptor(entries):
    """The line of a descriptor of the administrators with a protected list."""
    owner = make.sid((5, 32, 544))
    acl = struct.pack("<BBHHH", 4, 0, 8 + sum(map(len, entries)), len(entries), 0) + b"".join(entries)
    head = struct.pack("<BBHIIII", 1, 0, 0x9404, 20, 20 + len(owner), 0, 20 + 2 * len(owner))
    return "nTSecurityDescriptor:: " + base64.b64encode(head + owner + owner + acl).decode() + "\n"


def who(first, last, parts=5):
    """An identifier below 5 with so many numbers, of which the second and the last are given."""
    return (5, 21, first, *(parts - 3) * (9,), last)


def deep_name(count):
    return count * "CN=x," + ROOT
