"""The steps of a bind by a ticket: GSSAPI (RFC 4752), and GSS-SPNEGO as Active Directory has it."""

from typing import Optional

from . import layers
from .gss import KERBEROS, NEGOTIATED, Context, Refused, Tickets

GSSAPI, SPNEGO = b"GSSAPI", b"GSS-SPNEGO"
MECHANISMS = {GSSAPI: KERBEROS, SPNEGO: NEGOTIATED}
# No bind takes more steps.
MOST_STEPS = 10


class NoLayer(Exception):
    """The client asks for a layer that can't be had here, or for none where there has to be one."""


class Steps:
    """One bind, step by step. `allowed` are the layers that may be put in force, by their bits."""

    def __init__(self, tickets: Tickets, mechanism: bytes, allowed: int) -> None:
        self.context: Context = tickets.context(MECHANISMS[mechanism])
        self.mechanism, self.allowed, self.count = mechanism, allowed, 0
        # What is known at the end: the layer, how many bytes the client takes, and as whom it wants to be known.
        self.is_done, self.layer, self.most, self.identity = False, layers.NONE, layers.MOST, b""
        self.offered: Optional[int] = None

    def step(self, given: bytes) -> bytes:
        """What the client is told for what it gave."""
        self.count += 1
        if self.count > MOST_STEPS:
            raise Refused(f"more than {MOST_STEPS} steps")
        return self.negotiated(given) if self.mechanism == SPNEGO else self.by_kerberos(given)

    def negotiated(self, given: bytes) -> bytes:
        """One of GSS-SPNEGO: what the client's flags ask for is the layer. Without a token it is told what may be
        negotiated."""
        told = self.context.step(given)
        if self.context.complete:
            sealed, signed, ordered = self.context.wants()
            self.layer = layers.CONFIDENTIALITY if sealed else layers.INTEGRITY if signed else layers.NONE
            if not self.layer & self.allowed:
                raise NoLayer
            self.check_order(ordered)
            self.is_done = True
        return told

    def check_order(self, ordered: bool) -> None:
        if self.layer != layers.NONE and not ordered:
            raise Refused("a layer in which nobody would notice what comes again")

    def by_kerberos(self, given: bytes) -> bytes:
        """One of GSSAPI: the client's tokens, then the layers that it may choose of, and its choice."""
        if self.offered is not None:
            return self.chosen(given)
        if not self.context.complete:
            if not given:
                return b""
            told = self.context.step(given)
            if told or not self.context.complete:
                return told
        elif given:
            raise Refused("a token more than the context takes")
        # Both sides have to be able to wrap, whether there will be a layer or not.
        self.offered = self.allowed
        return self.context.wrapped(bytes([self.offered]) + layers.MOST.to_bytes(3, "big"), False)

    def chosen(self, given: bytes) -> bytes:
        """The client's choice: a layer, how many bytes it takes, and as whom it wants to be known."""
        choice, _ = self.context.unwrapped(given)
        if len(choice) < 4 or choice[0] not in (layers.NONE, layers.INTEGRITY, layers.CONFIDENTIALITY):
            raise Refused("no choice of one layer")
        if not choice[0] & self.allowed:
            raise Refused("a layer that wasn't offered")
        self.layer, self.most, self.identity = choice[0], int.from_bytes(choice[1:4], "big"), choice[4:]
        self.check_order(self.context.wants()[2])
        self.is_done = True
        return b""

    def piece(self) -> int:
        """How many bytes are wrapped into one frame."""
        made = self.context.limit(min(self.most, layers.PIECE), self.layer == layers.CONFIDENTIALITY)
        if made < layers.LEAST:
            raise Refused(f"frames of {self.most} bytes, which are too few")
        return made
