"""The connection to a server: how it is made and made anew, and what each fault of it is called.

It is libldap's, by Debian's python3-ldap: that reads a page six times as fast as python3-ldap3 does, and seals GSSAPI
by itself, which a server asks for that signs. What TLS misses libldap doesn't tell, so Python's own TLS looks then.
"""

import re
import socket
import ssl
import time
from dataclasses import dataclass

import ldap
from ldap.controls import LDAPControl, SimplePagedResultsControl

from .told import Fault, say

SECONDS, ANSWER_SECONDS, TRIES = 30, 120, 5
PORTS = {"ldap": 389, "ldaps": 636}
GLOBAL_CATALOG = (3268, 3269)
AD, AD_LDS = "1.2.840.113556.1.4.800", "1.2.840.113556.1.4.1851"
PAGES, SD_FLAGS = "1.2.840.113556.1.4.319", "1.2.840.113556.1.4.801"
# The message by which a client asks for StartTLS ([RFC4511] 4.14).
START_TLS = bytes.fromhex("301d02010177188016") + b"1.3.6.1.4.1.1466.20037"
LOST = (ldap.SERVER_DOWN, ldap.CONNECT_ERROR, ldap.TIMEOUT, ldap.UNAVAILABLE, ldap.BUSY)
# Why Active Directory takes no password ([MS-ERREF], in its answer behind `data`).
DATA = {"525": "there is no such account", "52e": "the name or the password is wrong",
        "530": "the account may not log on at this time", "531": "the account may not log on from this machine",
        "532": "the password is expired", "533": "the account is disabled", "701": "the account is expired",
        "773": "the password has to be changed first", "775": "the account is locked"}


@dataclass(frozen=True)
class Address:
    """Where a server listens."""

    scheme: str
    host: str
    port: int

    def url(self):
        host = f"[{self.host}]" if ":" in self.host else self.host
        return f"{self.scheme}://{host}:{self.port}"


def address(text):
    """The address of a word; None where it is none."""
    found = re.fullmatch(r"(?:(ldaps?)://)?(?:\[([0-9A-Fa-f:.]+)\]|([A-Za-z0-9._-]+))(?::([0-9]{1,5}))?/?", text)
    if not found:
        return None
    scheme = found[1] or "ldaps"
    return Address(scheme, found[2] or found[3], int(found[4] or PORTS[scheme]))


def told_of(fault):
    """What a fault of libldap says, in a line."""
    told = fault.args[0] if fault.args and isinstance(fault.args[0], dict) else {}
    more = str(told.get("info", "")).strip()
    return f"{told.get('desc', type(fault).__name__)}{f' ({more})' if more and 'unknown error' not in more else ''}"


def reached(where):
    """A socket to an address; a Fault says why there is none."""
    try:
        return socket.create_connection((where.host, where.port), SECONDS)
    except socket.gaierror:
        raise Fault(6, f"{where.host}: there is no host of this name") from None
    except ConnectionRefusedError:
        raise Fault(6, f"{where.url()}: nothing listens there") from None
    except OSError as why:
        raise Fault(6, f"{where.url()}: it can't be reached: {why.strerror or why}") from None


def tls_fault(where, ca):
    """What TLS misses at an address, in words; None where nothing is found."""
    try:
        with reached(where) as plain:
            if where.scheme == "ldap":
                plain.sendall(START_TLS)
                answer = plain.recv(4096)
                if b"\x0a\x01\x00" not in answer[:20]:
                    return "it doesn't speak StartTLS"
            ssl.create_default_context(cafile=ca).wrap_socket(plain, server_hostname=where.host).close()
    except ssl.SSLCertVerificationError as why:
        return f"its certificate isn't trusted: {why.verify_message.rstrip('.')}"
    except ssl.SSLError as why:
        return f"it doesn't speak TLS there ({(why.reason or 'no reason').lower().replace('_', ' ')})"
    except OSError as why:
        return f"it doesn't speak TLS there ({why})"
    return None


class Link:
    """A connection that is bound. `who` is a name and a password's bytes, or None for a ticket of Kerberos."""

    def __init__(self, where, who, ca, plain):
        self.where, self.who, self.ca = where, who, ca
        self.starts_tls = where.scheme == "ldap" and who is not None and not plain
        self.has_tls = where.scheme == "ldaps" or self.starts_tls
        self.flags, self.made = 7, None

    def prepared(self):
        """A connection that isn't made yet."""
        made = ldap.initialize(self.where.url(), bytes_mode=False)
        made.set_option(ldap.OPT_PROTOCOL_VERSION, 3)
        made.set_option(ldap.OPT_REFERRALS, 0)
        made.set_option(ldap.OPT_NETWORK_TIMEOUT, SECONDS)
        made.set_option(ldap.OPT_TIMEOUT, ANSWER_SECONDS)
        if self.has_tls:
            made.set_option(ldap.OPT_X_TLS_REQUIRE_CERT, ldap.OPT_X_TLS_DEMAND)
            ca = self.ca or ssl.get_default_verify_paths().cafile
            if ca:
                made.set_option(ldap.OPT_X_TLS_CACERTFILE, ca)
            made.set_option(ldap.OPT_X_TLS_NEWCTX, 0)
        return made

    def bind(self, made):
        if self.who is not None:
            return made.simple_bind_s(*self.who)
        # (Active Directory seals either by TLS or by Kerberos, and takes not both.)
        made.set_option(*((ldap.OPT_X_SASL_SSF_MAX, 0) if self.has_tls else (ldap.OPT_X_SASL_SSF_MIN, 56)))
        return made.sasl_gssapi_bind_s()

    def open(self):
        """Makes the connection and binds; a Fault says why it can't."""
        reached(self.where).close()
        self.made = made = self.prepared()
        try:
            if self.starts_tls:
                made.start_tls_s()
            self.bind(made)
        except ldap.LDAPError as fault:
            raise self.named(fault) from None

    def named(self, fault):
        """The Fault of what libldap says as the connection is made."""
        url = self.where.url()
        if isinstance(fault, ldap.INVALID_CREDENTIALS):
            data = re.search(r"\bdata ([0-9a-f]+)", told_of(fault))
            return Fault(1, f"{url}: {DATA.get(data and data[1], DATA['52e'])}")
        if isinstance(fault, (ldap.STRONG_AUTH_REQUIRED, ldap.CONFIDENTIALITY_REQUIRED)):
            return Fault(1, f"{url}: the server takes no password without TLS: leave --plain out, or ask ldaps://")
        if isinstance(fault, ldap.AUTH_UNKNOWN):
            return Fault(1, f"{url}: no GSSAPI here (Debian: libsasl2-modules-gssapi-mit), or not at the server")
        if isinstance(fault, (ldap.LOCAL_ERROR, ldap.AUTH_METHOD_NOT_SUPPORTED)) and self.who is None:
            return Fault(1, f"{url}: GSSAPI fails: {told_of(fault)}")
        if self.has_tls and isinstance(fault, (*LOST, ldap.PROTOCOL_ERROR, ldap.OPERATIONS_ERROR)):
            why = tls_fault(self.where, self.ca)
            if why is None and self.where.host == "localhost":
                why = "its certificate has to be of this machine's own name: give that in place of localhost"
            if why is not None:
                return Fault(6, f"{url}: {why}")
        if isinstance(fault, (*LOST, ldap.DECODING_ERROR)):
            return Fault(6, f"{url}: it doesn't answer as an LDAP server: {told_of(fault)}")
        return Fault(1, f"{url}: {told_of(fault)}")

    def root(self):
        """What the server says of itself, by names in lower case; a Fault where it is none of Active Directory."""
        if self.where.port in GLOBAL_CATALOG:
            raise Fault(1, f"{self.where.url()}: a global catalog has not all attributes: ask port 389 or 636")
        found = self.read("", ["*", "+"])
        held = {name.lower(): [value.decode("utf-8", "replace") for value in values] for name, values in found.items()}
        able = held.get("supportedcapabilities", [])
        if AD not in able or not held.get("defaultnamingcontext") or not held.get("schemanamingcontext"):
            is_lds = "is AD LDS, which has no domain"
            what = is_lds if AD_LDS in able else "isn't Active Directory or Samba"
            raise Fault(1, f"{self.where.url()}: the server {what}")
        for control, name in ((PAGES, "pages"), (SD_FLAGS, "flags of descriptors")):
            if control not in held.get("supportedcontrol", []):
                raise Fault(1, f"{self.where.url()}: the server has no {name} (control {control})")
        return held

    def controls(self, *more):
        value = bytes([0x30, 3, 2, 1, self.flags])
        return [LDAPControl(SD_FLAGS, True, encodedControlValue=value), *more]

    def ask(self, dn, attributes):
        """Sends a question for one object, and says its number."""
        return self.made.search_ext(dn, ldap.SCOPE_BASE, "(objectClass=*)", attributes, serverctrls=self.controls())

    def answer(self, number):
        """The objects that answer a question, each a name and its values; None where there is no such object."""
        try:
            found = self.made.result3(number, timeout=ANSWER_SECONDS)[1]
        except (ldap.NO_SUCH_OBJECT, ldap.INVALID_DN_SYNTAX, ldap.REFERRAL):
            return None
        return [one for one in found if one[0] is not None]

    def read(self, dn, attributes):
        """The values of one object, by name; none where there is no such object, or it may not be read."""
        found = self.answer(self.ask(dn, attributes))
        return found[0][1] if found else {}

    def page(self, base, attributes, size, cookie):
        """A page of names of attributes, without values: its objects, and the cookie of the next one."""
        pages = SimplePagedResultsControl(True, size, cookie)
        number = self.made.search_ext(base, ldap.SCOPE_SUBTREE, "(objectClass=*)", attributes, 1,
                                      serverctrls=self.controls(pages))
        _, found, _, controls = self.made.result3(number, timeout=ANSWER_SECONDS)
        cookies = [one.cookie for one in controls if one.controlType == PAGES]
        return [one for one in found if one[0] is not None], cookies[0] if cookies else b""

    def kept(self, work, count):
        """Does some work; where the connection is lost, again over a new one. `count` tells how far all of it is, and
        after some tries by which nothing came it ends."""
        tries, before = 0, count()
        while True:
            try:
                return work()
            except LOST as lost:
                tries = 1 if count() > before else tries + 1
                before, why = count(), told_of(lost)
            while True:
                if tries > TRIES:
                    raise Fault(6, f"{self.where.url()}: the connection was lost: {why}")
                say(f"the connection is lost at {before:,} objects ({why}); a new one, try {tries}")
                try:
                    time.sleep(2 ** (tries - 1) / 2)
                    self.open()
                    break
                except Fault as fault:
                    if fault.status != 6:
                        raise
                    tries, why = tries + 1, str(fault)
