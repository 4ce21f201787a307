"""The places of clients that haven't bound: how many a peer has, and whose is given away where there is none left.

A peer is the address that clients come from; of IPv6 the first half of it, since who has one such address has all."""

import ipaddress

# No message of a client that hasn't bound has more bytes.
MOST_UNBOUND = 4096


def peer_of(host):
    """What is counted together."""
    try:
        address = ipaddress.ip_address(host.partition("%")[0])
    except ValueError:
        return host
    if address.version == 4:
        return str(address)
    return str(address.ipv4_mapped or ipaddress.ip_network((address, 64), strict=False))


def is_loopback(host):
    """Whether a client comes from this machine."""
    try:
        address = ipaddress.ip_address(host.partition("%")[0])
    except ValueError:
        return False
    return (getattr(address, "ipv4_mapped", None) or address).is_loopback


class Peers:
    """The clients that haven't bound, by peer; of one peer no more than `most`."""

    def __init__(self, most):
        self.most, self.unbound = most, {}

    def has_room(self, peer):
        return len(self.unbound.get(peer, ())) < self.most

    def takes(self, peer, session):
        """One client more that hasn't bound."""
        self.unbound.setdefault(peer, set()).add(session)

    def leaves(self, peer, session):
        """One less: it has bound, or gone."""
        self.unbound[peer].discard(session)
        if not self.unbound[peer]:
            del self.unbound[peer]

    def silent(self, peer=None):
        """The client that has been silent longest of those that haven't bound, of a peer or else of the one that has
        most of them; None where each has a request in work."""
        for one in [peer] if peer else sorted(self.unbound, key=lambda name: -len(self.unbound[name])):
            found = [session for session in self.unbound.get(one, ()) if session.is_silent()]
            if found:
                return min(found, key=lambda session: session.silent_since)
        return None
