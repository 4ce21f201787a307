"""What a client is told that looks for a domain controller: the answer to an LDAP ping, as Windows since 2000 and
Samba read it."""

import struct
from dataclasses import dataclass
from typing import Dict, List, Optional

from adsd_tools.forms import ber

AND, EQUAL = 0xA0, 0xA3
FOUND = 23
# An LDAP server, a directory that may be written, with DNS names for the server, the domain and the forest.
FLAGS = 0x8 | 0x10 | 0x100 | 0x20000000 | 0x40000000 | 0x80000000
# The answer's form, which a ping has to ask for; and what each answer ends with.
VERSION_1, EXTENDED, TOKEN = 0x1, 0x4, 0xFFFF
KNOWN = ("dnsdomain", "host", "user", "aac", "domainguid", "domainsid", "ntver")


@dataclass(frozen=True)
class Server:
    """What is told of a server and its domain."""

    domain: str
    short: str
    host: str
    site: str
    guid: bytes
    sid: bytes


def asked(filter_made: bytes) -> Optional[Dict[str, bytes]]:
    """What a ping asks for, by name in small letters; None of another filter."""
    try:
        ((tag, body),) = ber.parts(filter_made)
        items = ber.parts(body) if tag == AND else [(tag, body)]
        found = {}
        for kind, held in items:
            (_, name), (_, value) = ber.parts(held)
            word = bytes(name).decode("latin-1").lower()
            if kind != EQUAL or word not in KNOWN or word in found:
                return None
            found[word] = bytes(value)
    except (ber.Broken, ValueError):
        return None
    return found if len(found.get("ntver", b"")) == 4 else None


def is_same(given: bytes, own: str) -> bool:
    return given.decode("utf-8", "replace").rstrip(".").casefold() == own.casefold()


def name(text: str) -> bytes:
    """A name as DNS has it in messages."""
    parts: List[bytes] = [one.encode()[:63] for one in text.split(".") if one]
    return b"".join(bytes([len(one)]) + one for one in parts) + b"\0"


def answer(server: Server, ping: Dict[str, bytes]) -> Optional[bytes]:
    """The answer to a ping; None where it is for another domain, or of a form before Windows 2000. Whether the account
    of a ping is there isn't told: the answer is as if it were."""
    (version,) = struct.unpack("<I", ping["ntver"])
    others = (ping.get("dnsdomain") and not is_same(ping["dnsdomain"], server.domain)
              or ping.get("domainguid") and ping["domainguid"] != server.guid
              or ping.get("domainsid") and ping["domainsid"] != server.sid)
    if others or not version & EXTENDED:
        return None
    user = ping.get("user", b"").decode("utf-8", "replace")
    label = user.encode()[:63]
    held = [server.domain, server.domain, server.host, server.short, server.host.partition(".")[0].upper()]
    names = b"".join(map(name, held)) + (bytes([len(label)]) + label if label else b"") + b"\0"
    names += name(server.site) * 2
    head = struct.pack("<HHI", FOUND, 0, FLAGS) + server.guid
    return head + names + struct.pack("<IHH", VERSION_1 | EXTENDED, TOKEN, TOKEN)
