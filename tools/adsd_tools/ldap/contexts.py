"""Where a search ends: at the head of another naming context, as in Active Directory, unless the control of search
options asks for all of them."""

from dataclasses import replace

from adsd_tools.forms import ber

from . import messages, root_dse, searches
from .searches import Refused
from .view import key_of

OPTIONS = b"1.2.840.113556.1.4.1340"
# The flag by which all contexts below the base are searched.
ALL = 2


def asks_all(search):
    """Whether the control of search options asks for all naming contexts."""
    for one in search.controls:
        if one.name == OPTIONS:
            try:
                ((outer, held),) = ber.parts(one.value or b"")
                ((tag, flags),) = ber.parts(held)
            except (ber.Broken, ValueError):
                outer = tag = flags = None
            if (outer, tag) != (ber.SEQUENCE, ber.INTEGER) or not 1 <= len(flags) <= 4:
                raise Refused(messages.PROTOCOL_ERROR, "search options of another form")
            return bool(int.from_bytes(flags, "big") & ALL)
    return False


def apart(search, bridge):
    """The keys of the naming contexts below the base of a search in whose scope they would be."""
    if search.scope == searches.BASE or search.everywhere or not bridge.root or not bridge.schema:
        return []
    if len(search.base) > len(bridge.root) + 1024:
        return []
    base, found = key_of(search.base), []
    for name in root_dse.below(bridge.root):
        key = key_of(name)
        if len(key) > len(base) and key[len(key) - len(base):] == base:
            found.append(key)
    return found


def is_apart(name, keys):
    """Whether an object is of one of these contexts."""
    if b"configuration" not in name.lower():
        return False
    own = key_of(name)
    return any(len(own) >= len(key) and own[len(own) - len(key):] == key for key in keys)


def kept(found, keys):
    """What was found but for what is of these contexts; the same where nothing is."""
    held = tuple(body for body in found.entries if not is_apart(ber.parts(body, 2)[0][1], keys))
    return found if len(held) == len(found.entries) else replace(found, entries=held)
