"""Whose a connection on a loopback address is: the kernel tells the user of the socket at the other end."""

import os
import socket
import struct

# Of linux/netlink.h, linux/sock_diag.h and linux/inet_diag.h.
NETLINK_SOCK_DIAG, SOCK_DIAG_BY_FAMILY, NLM_F_REQUEST = 4, 20, 1
ALL_STATES = 0xFFFFFFFF
HEAD, ASKED = struct.Struct("=IHHII"), struct.Struct("=BBBBI")
# The ports, addresses, interface and cookie of a socket; and where its user stands in what is told of one.
PORTS, ANY, COOKIE = struct.Struct(">HH"), bytes(4), bytes([255] * 8)
AT_STATE, AT_USER, ESTABLISHED = HEAD.size + 1, HEAD.size + 4 + 48 + 12, 1


class Peers:
    """Asks whose the sockets are that come to one that listens. Where the kernel doesn't tell, nobody's."""

    def __init__(self, listening):
        self.port, self.user = listening.getsockname()[1], os.geteuid()
        try:
            self.asks = socket.socket(socket.AF_NETLINK, socket.SOCK_RAW, NETLINK_SOCK_DIAG)
            self.asks.settimeout(1)
        except OSError:
            self.asks = None

    def is_own(self, address):
        """Whether the socket at an address of this machine is of the user of this process."""
        return self.asks is not None and self.user_of(address) == self.user

    def user_of(self, address):
        """The user of the socket that is connected from an address to the one that listens; None where that isn't told, as
        of one that is closed already, which is nobody's."""
        there, here = (socket.inet_aton(one) + bytes(12) for one in (address[0], "127.0.0.1"))
        asked = (ASKED.pack(socket.AF_INET, socket.IPPROTO_TCP, 0, 0, ALL_STATES)
                 + PORTS.pack(address[1], self.port) + there + here + ANY + COOKIE)
        try:
            self.asks.send(HEAD.pack(HEAD.size + len(asked), SOCK_DIAG_BY_FAMILY, NLM_F_REQUEST, 0, 0) + asked)
            said = self.asks.recv(4096)
        except OSError:
            return None
        if len(said) < AT_USER + 4 or HEAD.unpack_from(said)[1] != SOCK_DIAG_BY_FAMILY or said[AT_STATE] != ESTABLISHED:
            return None
        return struct.unpack_from("=I", said, AT_USER)[0]

    def close(self):
        if self.asks is not None:
            self.asks.close()
