"""Searches as the bridge reads them (RFC 4511 4.5), so that it may ask the program others in their place."""

import hashlib
from dataclasses import dataclass, replace
from typing import Optional, Tuple

from adsd_tools.forms import ber

from . import messages

BASE, ONE, SUBTREE = b"\0", b"\1", b"\2"
# Every object that the caller sees: the And of no filters is true.
TRUE = ber.sequence(tag=0xA0)
PRESENT = 0x87
SIZE_LIMIT, ADMIN_LIMIT, INAPPROPRIATE, NO_OBJECT = 4, 11, 18, 32
# How an answer ends that was more than the program gives at once.
CUT = bytes.fromhex("65070a010b04000400")
# Controls that the program isn't asked with: there are no referrals and no deleted objects, what is answered is on the
# disk, whether it may be later or not, and which naming contexts are searched is seen to by contexts.py.
IDLE = (b"2.16.840.1.113730.3.4.2", *(b"1.2.840.113556.1.4." + one for one in
                                      (b"417", b"619", b"1339", b"1340", b"2064", b"2065")))
# What a search asks for by a control and nobody here can do: what it is called. It is refused, critical or not, since
# what would be answered without it isn't what was asked for.
NOT_HERE = {b"1.2.840.113556.1.4.841": "DirSync", b"1.2.840.113556.1.4.528": "notification of changes"}


class Refused(Exception):
    """A search that the bridge answers by a code and a text alone, with controls behind it."""

    def __init__(self, code, text="", controls=()):
        super().__init__(code, text)
        self.code, self.text, self.controls = code, text, controls


class Unread(Exception):
    """The program said that the message is none; with its reply."""


@dataclass(frozen=True)
class Control:
    """A control of a request, and its element's body as it came."""

    name: bytes
    critical: bool
    value: Optional[bytes]
    held: bytes


@dataclass(frozen=True)
class Search:
    """A search. The scope and the treatment of aliases are bytes as they came, the filter is an element."""

    number: int
    base: bytes
    scope: bytes = SUBTREE
    aliases: bytes = b"\0"
    size: int = 0
    types_only: bool = False
    filter: bytes = TRUE
    attributes: Tuple[bytes, ...] = ()
    controls: Tuple[Control, ...] = ()
    # Whether all naming contexts below the base are searched.
    everywhere: bool = False

    def has_critical(self):
        return any(one.critical for one in self.controls)

    def asked(self):
        """What is asked for by name, in lower case, and whether all is."""
        names = {name.decode("latin-1").lower() for name in self.attributes}
        return names, not names or "*" in names


def is_for_entry(search, *present):
    """Whether a search is for one entry as a whole, by the presence of one of these attributes, without conditions."""
    kind, item = ber.parts(search.filter)[0]
    return search.scope == BASE and kind == PRESENT and item.lower() in present and not search.has_critical()


def control_of(held):
    (tag, name), *behind = ber.parts(held)
    critical = any(behind.pop(0)[1]) if behind and behind[0][0] == ber.BOOLEAN else False
    value = behind.pop(0)[1] if behind and behind[0][0] == ber.OCTETS else None
    if tag != ber.OCTETS or behind:
        raise ValueError
    return Control(name, critical, value, held)


def read(message):
    """The search of a message, or None where it isn't of a search's form; the program says then what is wrong."""
    tags = [ber.OCTETS, ber.ENUMERATED, ber.ENUMERATED, ber.INTEGER, ber.INTEGER, ber.BOOLEAN, ber.SEQUENCE]
    try:
        found = ber.parts(message.body)
        (_, base), (_, scope), (_, aliases), (_, size), (_, time), (_, types), (kind, item), (_, listed) = found
        names, controls = ber.parts(listed), tuple(map(control_of, message.controls))
    except (ber.Broken, ValueError):
        return None
    size, time = (int.from_bytes(one, "big", signed=True) for one in (size, time))
    if [tag for tag, _ in found[:6] + found[7:]] != tags or any(tag != ber.OCTETS for tag, _ in names):
        return None
    if not 0 <= min(size, time) <= max(size, time) <= messages.LAST_NUMBER or len(types) != 1:
        return None
    return Search(message.number, base, scope, aliases, size, any(types), ber.element(kind, item),
                  tuple(name for _, name in names), controls)


def written(search):
    """The message of a search."""
    head = ber.octets(search.base), ber.octets(search.scope, ber.ENUMERATED), ber.octets(search.aliases, ber.ENUMERATED)
    limits = ber.number(search.size), ber.number(0), ber.truth(search.types_only)
    asks = search.filter, ber.sequence(*map(ber.octets, search.attributes))
    held = [ber.octets(one.held, ber.SEQUENCE) for one in search.controls]
    behind = [ber.sequence(*held, tag=messages.CONTROLS)] if held else []
    return ber.sequence(ber.number(search.number), ber.sequence(*head, *limits, *asks, tag=messages.SEARCH), *behind)


def mark(search):
    """What tells a search from another one, whatever their numbers."""
    return hashlib.sha256(written(replace(search, number=1))).digest()


@dataclass(frozen=True)
class Entry:
    """An entry: its name, and pairs of an attribute's name and its values."""

    name: bytes
    held: Tuple[Tuple[bytes, Tuple[bytes, ...]], ...]

    def values(self, name):
        """The values of an attribute, by its name in lower case."""
        return next((values for kind, values in self.held if kind.decode("latin-1").lower() == name), ())


def entry_of(body):
    (_, name), (_, attributes) = ber.parts(body)
    pairs = [[inner for _, inner in ber.parts(held)] for _, held in ber.parts(attributes)]
    return Entry(name, tuple((kind, tuple(value for _, value in ber.parts(values))) for kind, values in pairs))


def body_of(entry):
    held = [ber.sequence(ber.octets(kind), ber.sequence(*map(ber.octets, values), tag=ber.SET))
            for kind, values in entry.held]
    return ber.octets(entry.name) + ber.sequence(*held)


@dataclass(frozen=True)
class Found:
    """What a search found: the bodies of its entries, and its end, with controls that stand there."""

    entries: Tuple[bytes, ...] = ()
    code: int = messages.SUCCESS
    matched: bytes = b""
    text: bytes = b""
    controls: Tuple[bytes, ...] = ()

    def weight(self):
        return sum(map(len, self.entries)) + 64 * len(self.entries)

    def limited(self, size):
        """No more entries than a size limit."""
        if not size or len(self.entries) <= size:
            return self
        return replace(self, entries=self.entries[:size], code=SIZE_LIMIT)


def found(reply):
    """What a reply of the program says."""
    entries = []
    for _, held in ber.parts(reply):
        tag, body = ber.parts(held)[1]
        if tag == messages.ENTRY:
            entries.append(body)
            continue
        if tag != messages.SEARCH_DONE:
            break
        (_, code), (_, matched), (_, text) = ber.parts(body)[:3]
        return Found(tuple(entries), int.from_bytes(code, "big"), matched, text)
    raise Unread(reply)


def reply_of(number, answer, controls=()):
    """The messages of what was found, with controls at the end."""
    numbered = ber.number(number)
    made = [ber.sequence(numbered, ber.octets(body, messages.ENTRY)) for body in answer.entries]
    end = ber.number(answer.code, ber.ENUMERATED), ber.octets(answer.matched), ber.octets(answer.text)
    controls = (*controls, *answer.controls)
    behind = [ber.sequence(*controls, tag=messages.CONTROLS)] if controls else []
    return b"".join(made) + ber.sequence(numbered, ber.sequence(*end, tag=messages.SEARCH_DONE), *behind)


def is_cut(reply):
    """Whether the program gave what it gives at once, and there may be more."""
    return reply.endswith(CUT)


def control(name, value):
    """A control of an answer."""
    return ber.sequence(ber.octets(name), ber.octets(value))
