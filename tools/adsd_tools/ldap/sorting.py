"""Server-side sort (RFC 2891), by what the attribute's syntax compares values by (docs/profile/values.md)."""

from dataclasses import dataclass, replace

from adsd_tools.forms import ber
from adsd_tools.forms import names as dns

from . import messages, searches
from .searches import Refused

SORT, SORTED = b"1.2.840.113556.1.4.473", b"1.2.840.113556.1.4.474"
NO_ATTRIBUTE, INAPPROPRIATE, FAILED = 16, 18, 53
# An answer is sorted once for each key, so that a sender of many would have it sorted as often.
MOST_KEYS = 16
NAME, ASCII, BOOLEAN, INTEGER, LARGE, UNICODE = "2.5.5.1", "2.5.5.2", "2.5.5.8", "2.5.5.9", "2.5.5.16", "2.5.5.12"
# What may be asked for as the rule of each syntax.
RULES = {INTEGER: b"2.5.13.15", LARGE: b"2.5.13.15", UNICODE: b"2.5.13.3", ASCII: b"2.5.13.3", "2.5.5.10": b"2.5.13.18"}


@dataclass(frozen=True)
class Key:
    """One thing to sort by: the attribute's name in lower case, as it was sent, its rule or None, and whether the
    greatest stands first."""

    name: str
    sent: bytes
    rule: bytes
    reverse: bool


def key_asked(held):
    (tag, name), *behind = ber.parts(held)
    told = dict(behind)
    if tag != ber.OCTETS or [kind for kind, _ in behind] != sorted(told) or not set(told) <= {0x80, 0x81}:
        raise ValueError
    return Key(name.decode("latin-1").lower(), name, told.get(0x80), any(told.get(0x81, b"")))


def asked(control):
    """The keys that a control asks for."""
    try:
        ((tag, held),) = ber.parts(control.value or b"")
        keys = [key_asked(one) for _, one in ber.parts(held)]
    except (ber.Broken, ValueError):
        keys = []
    if not keys or tag != ber.SEQUENCE:
        raise Refused(messages.PROTOCOL_ERROR, "no control of a sort")
    return keys


def why_not(keys, schema):
    """The code and the attribute for which no sort is made, or None."""
    if len(keys) > MOST_KEYS:
        return searches.ADMIN_LIMIT, None
    for key in keys:
        syntax = schema.syntax(key.name) if schema else None
        if syntax is None:
            return (NO_ATTRIBUTE if schema else FAILED), key.sent
        if key.name in schema.untold or (key.rule is not None and key.rule != RULES.get(syntax)):
            return INAPPROPRIATE, key.sent
    return None


def told(code, name=None):
    """The control of the answer."""
    held = [ber.octets(name, 0x80)] if name is not None else []
    return searches.control(SORTED, ber.sequence(ber.number(code, ber.ENUMERATED), *held))


def value_key(syntax, value):
    """What a value is compared by."""
    if syntax in (INTEGER, LARGE):
        return int(value)
    if syntax == UNICODE:
        return value.decode("utf-8", "replace").casefold().encode()
    if syntax == NAME:
        try:
            return repr(dns.read(value).key()).encode()
        except dns.NoName:
            return value
    return value.lower() if syntax in (ASCII, BOOLEAN) else value


def put_in_order(found, keys, schema):
    """What was found in the order of the keys. An entry of several values stands by its least one, and one without
    behind all others; where the greatest stands first, that is turned round. Equal ones stay in the program's
    order."""
    held = [(body, searches.entry_of(body)) for body in found.entries]
    for key in reversed(keys):
        syntax = schema.syntax(key.name)

        def place(pair):
            values = [value_key(syntax, value) for value in pair[1].values(key.name)]
            return (0, min(values)) if values else (1,)

        held.sort(key=place, reverse=key.reverse)
    return replace(found, entries=tuple(body for body, _ in held))
