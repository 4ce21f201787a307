"""Tickets of Kerberos, by python3-gssapi and a keytab: what a client's tokens tell of who it is.

All that is checked of a ticket, its key, its time and whether it came before, is checked by the system's library of
Kerberos."""

import importlib
import os
import stat
from typing import Any, Tuple

KERBEROS, NEGOTIATED = "1.2.840.113554.1.2.2", "1.3.6.1.5.5.2"
# What a context's lifetime is that has no end.
FOREVER = 2**32 - 1


class NoTickets(Exception):
    """Tickets can't be taken, with why."""


class Refused(Exception):
    """What a client gave tells nobody, with why, which the log alone says."""


def library() -> Any:
    try:
        return importlib.import_module("gssapi.raw")
    except ImportError:
        raise NoTickets("--keytab needs python3-gssapi, which isn't installed for this Python") from None


def others_may(path: str) -> str:
    """Who else may have the keys of a keytab; nobody where it is empty."""
    try:
        told = os.stat(path)
    except OSError as fault:
        raise NoTickets(f"{path}: {fault.strerror}") from None
    if told.st_uid not in (os.geteuid(), 0) or stat.S_IMODE(told.st_mode) & 0o022:
        raise NoTickets(f"{path}: others than its owner may write it, or its owner is somebody else, so it says "
                        "nothing of who may bind")
    return "others than its owner may read it" if stat.S_IMODE(told.st_mode) & 0o044 else ""


def told_by(fault: Exception) -> str:
    return " ".join(str(fault).split())


class Tickets:
    """What takes tickets: the keys of a keytab. The library reads it again for each ticket."""

    def __init__(self, keytab: str) -> None:
        self.raw = library()
        self.warning = others_may(keytab)
        store = {b"keytab": b"FILE:" + os.fsencode(os.path.abspath(keytab))}
        kerberos, negotiated = (self.raw.OID.from_int_seq(one) for one in (KERBEROS, NEGOTIATED))
        try:
            self.held = {mech.dotted_form: self.raw.acquire_cred_from(store, mechs=[mech], usage="accept").creds
                         for mech in (kerberos, negotiated)}
            # Of what may be negotiated nothing but Kerberos is taken, whatever else is installed.
            self.raw.set_neg_mechs(self.held[NEGOTIATED], [kerberos])
        except self.raw.GSSError as fault:
            raise NoTickets(f"{keytab}: {told_by(fault)}") from None

    def context(self, mechanism: str) -> "Context":
        return Context(self.raw, self.held[mechanism])


class Context:
    """One client's security context."""

    def __init__(self, raw: Any, credentials: Any) -> None:
        self.raw, self.credentials, self.held, self.complete = raw, credentials, None, False

    def step(self, token: bytes) -> bytes:
        """What the client is told for a token of its own; Refused where that is none, or not good."""
        try:
            made = self.raw.accept_sec_context(token, self.credentials, self.held)
            self.held, self.complete = made.context, not made.more_steps
        except self.raw.GSSError as fault:
            raise Refused(told_by(fault)) from None
        return made.token or b""

    def told(self) -> Tuple[bytes, bytes, int]:
        """Once it is complete: who the client is, of which service its ticket was, and for how many seconds more."""
        try:
            made = self.raw.inquire_context(self.held)
            if made.mech.dotted_form != KERBEROS:
                raise Refused(f"a context of {made.mech.dotted_form}, which isn't Kerberos")
            client, service = (self.raw.display_name(one, False).name for one in (made.initiator_name,
                                                                                  made.target_name))
        except self.raw.GSSError as fault:
            raise Refused(told_by(fault)) from None
        return client, service, FOREVER if made.lifetime is None else made.lifetime

    def wants(self) -> Tuple[bool, bool, bool]:
        """Whether the client asked for confidentiality, for integrity, and that what comes again or out of order is
        noticed."""
        flags, kinds = self.raw.inquire_context(self.held).flags, self.raw.RequirementFlag
        ordered = kinds.replay_detection in flags or kinds.out_of_sequence_detection in flags
        return kinds.confidentiality in flags, kinds.integrity in flags, ordered

    def limit(self, most: int, confidential: bool) -> int:
        """How many bytes are wrapped into so many."""
        return int(self.raw.wrap_size_limit(self.held, most, confidential))

    def wrapped(self, data: bytes, confidential: bool) -> bytes:
        return bytes(self.raw.wrap(self.held, data, confidential).message)

    def unwrapped(self, data: bytes) -> Tuple[bytes, bool]:
        """What was wrapped, and whether it was encrypted; Refused where it isn't what the client wrapped, or came
        again."""
        try:
            made = self.raw.unwrap(self.held, data)
        except self.raw.GSSError as fault:
            raise Refused(told_by(fault)) from None
        return bytes(made.message), bool(made.encrypted)
