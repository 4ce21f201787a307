"""LDAP pings over UDP: what looks for a domain controller asks for the root DSE's netlogon, without a bind. Nothing
else is answered there, and of one peer so many in a second, since a sender may claim to be somebody else."""

import asyncio
import time

from . import messages, peers, root_dse, searches

# Pings that are answered in a second: of a peer, and of all.
OF_PEER, OF_ALL = 20, 500
# No ping has more bytes.
MOST = 1024
ONLY = "by UDP LDAP pings alone are answered"


class Pings(asyncio.DatagramProtocol):
    """The end at which pings come."""

    def __init__(self, bridge):
        self.bridge, self.counts, self.second = bridge, {}, 0

    def connection_made(self, transport):
        self.transport = transport

    def datagram_received(self, data, sender):
        if len(data) <= MOST and self.has_room(peers.peer_of(sender[0])):
            reply = answer(self.bridge, data)
            if reply:
                self.transport.sendto(reply, sender)

    def has_room(self, peer):
        """Counts a ping; whether it is answered."""
        now = int(time.monotonic())
        if now != self.second:
            self.counts, self.second = {}, now
        if sum(self.counts.values()) >= OF_ALL or self.counts.get(peer, 0) >= OF_PEER:
            return False
        self.counts[peer] = self.counts.get(peer, 0) + 1
        return True

    def close(self):
        self.transport.close()


def answer(bridge, data):
    """The answer to one datagram; none to what is no search."""
    message = messages.read(data)
    if message is None or message.operation != messages.SEARCH:
        return b""
    search = searches.read(message)
    if search is None or not root_dse.is_ping(search):
        return messages.refusal(message, messages.OPERATIONS, ONLY)
    return searches.reply_of(search.number, root_dse.pinged(search, bridge))


async def listen(bridge):
    """Listens where clients come, by UDP."""
    host, port = bridge.servers[0].sockets[0].getsockname()[:2]
    loop = asyncio.get_running_loop()
    _, bridge.pinged = await loop.create_datagram_endpoint(lambda: Pings(bridge), local_addr=(host, port))
