"""What one request may ask for: before a bind the root DSE by one item, after it so much that no frame is without
measure."""

from adsd_tools.forms import filters

from . import items, messages, peers, root_dse, searches
from .searches import Refused

# So many bytes a bind may have by which tickets of Kerberos come.
MOST_OF_BIND = 65_536
# So many items a filter may have, and so many attributes a search may name.
MOST_ITEMS, MOST_NAMES = 2000, 2000
# Where a line says what whoever hasn't bound is given, such a client's filters have so many items.
MOST_UNBOUND, MOST_NAMELESS = 1, 16
# What clients of ldb send where no filter is given; it counts as one item.
BY_LDB = filters.read("(|(objectClass=*)(distinguishedName=*))").lower()


def most_items(session, search):
    """How many items the filter of a search may have."""
    if session.who is not None:
        return MOST_ITEMS
    return MOST_UNBOUND if root_dse.asked(search) else MOST_NAMELESS


def check(session, search):
    """Refused where a search asks for too much."""
    if root_dse.is_ping(search):
        return
    most = most_items(session, search)
    if items.has_more(search.filter, most) and search.filter.lower() != BY_LDB:
        before = "" if session.who is not None else " before a bind"
        raise Refused(searches.ADMIN_LIMIT, f"a filter has at most {most} item{'s' * (most > 1)}{before}")
    if len(search.attributes) > MOST_NAMES:
        raise Refused(searches.ADMIN_LIMIT, f"a search names at most {MOST_NAMES} attributes")


def most_bytes(session):
    """How many bytes a message may have."""
    return messages.MOST if session.who is not None else peers.MOST_UNBOUND


def most_of_bind(session):
    """How many a bind may have, where that is more."""
    return MOST_OF_BIND if session.bridge.tickets else 0
