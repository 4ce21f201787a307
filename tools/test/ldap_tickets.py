"""What tools/test/ldap-gssapi tries: who is bound by a ticket, what layers do, and what is refused."""

import os
import ssl
import struct
import tempfile
import time

import kdc
import ldap_sasl
from ldap_client import PROGRAM, ber  # noqa: F401
from ldap_face import asked
from ldap_sasl import (CONFIDENTIALITY, INTEGRITY, INVALID, KERBEROS, NEGOTIATED, NONE, PROGRESS, SUCCESS, SaslClient,
                       Start, is_ended, raw)
from ldap_store import ROOT, UNIT
from ldap_who import ANN, Made, certificate, who
from ldap_peers import same
from adsd_tools.ldap import layers
from adsd_tools.ldap.tls import START

NAMES = "admin password=adm1n user=BA privileges=security\n"
LAYERS = (NONE, INTEGRITY, CONFIDENTIALITY)
STRONGER, UNWILLING, OPERATIONS = 8, 53, 1
# Accounts beside those of ldap_store: two whom one principal might be, and one of many names.
MORE = "".join(f"\ndn: CN={name},{UNIT}\nobjectClass: user\nobjectSid: S-1-5-21-1-2-3-{number}\n{lines}"
               f"userAccountControl: 512\n" for name, number, lines in (
                   ("twin", 2301, "sAMAccountName: twin\n"),
                   ("other", 2302, "sAMAccountName: other\nuserPrincipalName: twin@corp.example\n"),
                   ("pc1", 2303, "sAMAccountName: PC1$\nuserPrincipalName: host/pc1.corp.example@CORP.EXAMPLE\n"),
                   ("foreign", 2304, "sAMAccountName: foreign\nuserPrincipalName: mallory@OTHER.EXAMPLE\n")))
PRINCIPALS = ("ann", "Ann.Lee", "bob", "eve", "twin", "nobody", "PC1$", "host/pc1.corp.example", "krbtest/admin", "admin")


class World:
    """A center, its tickets, and a bridge with a keytab."""

    def __init__(self, place, *words, more=MORE, names=NAMES, more_of=()):
        self.kdc, self.principals = kdc.Kdc(place), PRINCIPALS + more_of
        self.kdc.admin(kdc.REALM, *(f"addprinc -pw {kdc.PASSWORD} {one}" for one in self.principals))
        both = f"addprinc -pw between krbtgt/{kdc.REALM}@{kdc.OTHER}"
        self.kdc.admin(kdc.OTHER, both, f"addprinc -pw {kdc.PASSWORD} ann@{kdc.OTHER}",
                       f"addprinc -pw {kdc.PASSWORD} mallory@{kdc.OTHER}")
        self.kdc.admin(kdc.REALM, both)
        # The keys of another service stand in the same file; those of a third one, and of an older key, don't.
        self.keytab = self.kdc.keytab("keytab", "ldap/localhost", "HTTP/localhost", "ldap/dc1.corp.example")
        self.kdc.admin(kdc.REALM, "addprinc -randkey cifs/localhost")
        self.kdc.start()
        try:
            self.get_tickets()
        except BaseException:
            self.kdc.stop()
            raise
        self.words, self.more, self.names = words, more, names
        self.bridge = None

    def get_tickets(self):
        everybody = (*self.principals, f"ann@{kdc.OTHER}", f"mallory@{kdc.OTHER}")
        self.tickets = {one: self.kdc.ticket(one) for one in everybody}

    def __enter__(self):
        told = ["--keytab", self.keytab, "--host", "dc1", "--ping", *self.words]
        try:
            with ldap_sasl.settings(self.kdc.words):
                self.bridge = Made(*told, names=self.names, more=self.more)
        except BaseException:
            self.kdc.stop()
            raise
        return self

    def __exit__(self, *given):
        self.bridge.__exit__(*given)
        self.kdc.stop()

    def client(self):
        return SaslClient(self.bridge.port)

    def secured(self):
        """A client under TLS."""
        one = self.client()
        same(one.reply(one.extended(START)), "# extended: 0 success")
        trusted = ssl.create_default_context(cafile=self.words[1])
        one.inner = trusted.wrap_socket(one.inner, server_hostname="127.0.0.1")
        return one

    def bound(self, name, layer=CONFIDENTIALITY):
        one = self.client()
        same(one.by_gssapi(self.tickets[name], layer), SUCCESS)
        return one


def layers_of_gssapi(world):
    """With each layer the client is who the ticket says, and reads and writes what a simple bind lets it."""
    plain = world.bridge.client("admin", "adm1n")
    wanted = asked(plain, f"search base='{ROOT}' scope=sub filter='(objectClass=*)'")
    for layer in LAYERS:
        one = world.bound("ann", layer)
        same((one.offered, who(one)), (7, "u:CORP\\ann"))
        found = asked(one, f"search base='{ANN}' attrs=tokenGroups,cn")
        same((found[1], sorted(found[0][0][1])), (0, ["cn", "tokenGroups"]))
        # Requests behind each other, and one of many frames.
        numbers = [one.send_line(f"search base='{ANN}' attrs=cn") for _ in range(20)]
        same({one.reply(at) for at in numbers}, {f"dn: {ANN}\ncn: Ann Lee\n\n# search: 0 success"})
        same(one.reply(one.send(ber.octets(bytes(900_000), 0x77))), "# extended: 2 protocol error")
        same(one.bind("admin", "adm1n"), "# bind: 0 success")
        same(asked(one, f"search base='{ROOT}' scope=sub filter='(objectClass=*)'")[0], wanted[0])
        same(one.bind("", ""), "# bind: 0 success")
        same(who(one), "")
        one.close()


def layers_of_spnego(world):
    """GSS-SPNEGO: what the flags ask for is the layer; without a token it is told what may be negotiated."""
    for layer in LAYERS:
        for hints in (False, True):
            one = world.client()
            same((layer, one.by_spnego(world.tickets["ann"], layer, hints=hints)), (layer, SUCCESS))
            same(who(one), "u:CORP\\ann")
            one.close()


def accounts(world):
    """A principal is the account with its name as sAMAccountName or userPrincipalName, whatever the case; where that
    would be two, where there is none, or it is disabled or has expired, it is nobody."""
    wanted = {"ann": "u:CORP\\ann", "Ann.Lee": "u:CORP\\ann", "PC1$": "u:CORP\\PC1$",
              "host/pc1.corp.example": "u:CORP\\PC1$"}
    for name in PRINCIPALS:
        one = world.client()
        same((name, one.by_gssapi(world.tickets[name])), (name, SUCCESS if name in wanted else INVALID))
        same((name, who(one)), (name, wanted.get(name, "")))
        one.close()
    for told in ("krbtest/admin@CORP.EXAMPLE: no account that the reader sees has this name",
                 "twin@CORP.EXAMPLE: several accounts have this name", "the account is disabled or has expired"):
        world.bridge.wait_for(told)


def identities(world):
    """As whom a client wants to be known has to be itself."""
    for given, code in ((b"u:ann", SUCCESS), (b"dn:" + ANN.encode(), SUCCESS), (b"u:CORP\\ann", SUCCESS),
                        (b"u:admin", INVALID), (b"u:bob", INVALID), (b"ann", INVALID), (b"u:\xff", INVALID)):
        one = world.client()
        same((given, one.by_gssapi(world.tickets["ann"], CONFIDENTIALITY, given)), (given, code))
        one.close()


def told_of(world):
    """The root DSE tells the mechanisms; without a keytab they aren't there."""
    line = "search base='' attrs=supportedSASLMechanisms,supportedCapabilities"
    held = asked(world.client(), line)[0][0][1]
    same(sorted(held["supportedSASLMechanisms"]), [b"GSS-SPNEGO", b"GSSAPI"])
    same(b"1.2.840.113556.1.4.1791" in held["supportedCapabilities"], True)
    one = world.client()
    same((one.bind_step(b"DIGEST-MD5", b"")[0], one.text), (7, "simple binds and GSSAPI and GSS-SPNEGO only"))


def other_tickets(world):
    """A ticket of another service, whether its key is in the keytab or not, and those of another realm, are nobody's."""
    for service, said in (("HTTP@localhost", "which isn't a service of this server"), ("cifs@localhost", "")):
        for layer in LAYERS:
            one = world.client()
            same((service, one.by_gssapi(world.tickets["ann"], layer, service=service)), (service, INVALID))
            same(who(one), "")
            one = world.client()
            same((service, one.by_spnego(world.tickets["ann"], layer, service=service)), (service, INVALID))
            same(who(one), "")
        world.bridge.wait_for(said)
    for name in (f"ann@{kdc.OTHER}", f"mallory@{kdc.OTHER}"):
        for layer in LAYERS:
            one = world.client()
            same((name, one.by_gssapi(world.tickets[name], layer)), (name, INVALID))
            one = world.client()
            same((name, one.by_spnego(world.tickets[name], layer)), (name, INVALID))
    world.bridge.wait_for(f"ann@{kdc.OTHER}: its realm isn't {kdc.REALM}")


def replays(world):
    """Who has heard a token is nobody by it, neither on another connection nor on the same."""
    flags = (raw.RequirementFlag.mutual_authentication,)
    for mechanism, mech in ((b"GSSAPI", KERBEROS), (b"GSS-SPNEGO", NEGOTIATED)):
        token, one = Start(world.tickets["ann"], mech=mech, flags=flags).step(), world.client()
        same((mechanism, one.bind_step(mechanism, token)[0] in (SUCCESS, PROGRESS)), (mechanism, True))
        for client in (world.client(), one, world.client()):
            same((mechanism, client.bind_step(mechanism, token)[0]), (mechanism, INVALID))
            same(who(client), "")
    # Without a layer and without an answer by which the client would know the server one token is the whole bind.
    token = Start(world.tickets["ann"], mech=NEGOTIATED, flags=()).step()
    same([world.client().bind_step(b"GSS-SPNEGO", token)[0] for _ in range(3)], [SUCCESS, INVALID, INVALID])


def steps(world):
    """Steps that aren't: of another mechanism, behind another request, too many, none, and noise."""
    ann = world.tickets["ann"]
    for noise in (b"x", bytes(60), b"\x60\x82\xff\xff", os.urandom(3000), Start(ann).step()[:-5],
                  Start(ann).step()[:-5] + b"12345"):
        for mechanism in (b"GSSAPI", b"GSS-SPNEGO"):
            one = world.client()
            same((mechanism, noise[:5], one.bind_step(mechanism, noise)[0]), (mechanism, noise[:5], INVALID))
            same(who(one), "")
    one, start = world.client(), Start(ann)
    code, token = one.bind_step(b"GSSAPI", start.step())
    start.step(token)
    same(who(one), "")
    # What went before a Who am I isn't gone on with.
    same([code, one.bind_step(b"GSSAPI", b"")], [PROGRESS, (PROGRESS, b"")])
    codes = [one.bind_step(b"GSSAPI", b"")[0] for _ in range(12)]
    same((codes[0], INVALID in codes, who(one)), (PROGRESS, True, ""))
    one, start = world.client(), Start(ann)
    one.bind_step(b"GSSAPI", start.step())
    same([one.bind_step(b"GSSAPI", b"a token more")[0], who(one)], [INVALID, ""])


def choices(world):
    """A layer that isn't one, or isn't offered; frames that are too small; a choice that somebody else wrapped, or
    nobody."""
    for choice in (b"", b"\x04\0\0", b"\x03\x01\0\0", b"\x08\x01\0\0", b"\x00\0\0\0", b"\x04\0\0\0", b"\x04\0\0\x40"):
        one = world.client()
        same((choice, one.by_gssapi(world.tickets["ann"], CONFIDENTIALITY, choice=choice)), (choice, INVALID))
        same(who(one), "")
    one, start = world.client(), Start(world.tickets["ann"])
    _, token = one.bind_step(b"GSSAPI", start.step())
    start.step(token)
    _, offer = one.bind_step(b"GSSAPI", b"")
    for bad in (b"\x01\0\0\0", offer):
        same((one.bind_step(b"GSSAPI", bad)[0], who(one)), (INVALID, ""))
    # A layer in which nobody would notice what comes again.
    flags = (raw.RequirementFlag.mutual_authentication,)
    for layer, code in ((NONE, SUCCESS), (INTEGRITY, INVALID), (CONFIDENTIALITY, INVALID)):
        same((layer, world.client().by_gssapi(world.tickets["ann"], layer, flags=flags)), (layer, code))


def frames(world):
    """Once a layer is in force what isn't wrapped, was changed, comes again or out of order, is too large or not
    encrypted, ends the connection, and nothing of it is done."""
    change = f"modify dn='{ANN}' replace:description="

    def attack(layer, made):
        one = world.bound("ann", layer)
        for data in made(one):
            one.inner.sendall(data)
        same((made.__name__, is_ended(one)), (made.__name__, True))
        one.close()

    def wrapped(one, text):
        data = []
        one.sendall = data.append
        one.send_line(change + text)
        del one.sendall
        return one.wrapped(data[0])

    def in_the_clear(one):
        held, one.layer = one.layer, NONE
        one.send_line(change + "clear")
        one.layer = held
        return []

    def flipped(one):
        data = bytearray(wrapped(one, "flipped"))
        data[len(data) * 2 // 3] ^= 1
        return [bytes(data)]

    def again(one):
        data = wrapped(one, "again")
        one.inner.sendall(data)
        same(one.message()[2], 0x67)
        return [data]

    def out_of_order(one):
        first, second = wrapped(one, "first"), wrapped(one, "second")
        return [second, first]

    def too_large(one):
        return [(layers.MOST + 1).to_bytes(4, "big"), bytes(10)]

    def empty(one):
        return [bytes(4)]

    def by_another(one):
        other = world.bound("ann", one.layer)
        return [wrapped(other, "another")]

    def not_encrypted(one):
        held, one.layer = one.layer, INTEGRITY
        data = wrapped(one, "open")
        one.layer = held
        return [data]

    for layer in (INTEGRITY, CONFIDENTIALITY):
        for made in (in_the_clear, flipped, again, out_of_order, too_large, empty, by_another):
            attack(layer, made)
    attack(CONFIDENTIALITY, not_encrypted)
    held = asked(world.bridge.client("admin", "adm1n"), f"search base='{ANN}' attrs=description")[0][0][1]
    same(held.get("description", ()) in ((), (b"again",)), True)


def within_tls(world):
    """Within TLS no layer is put in force, nor within another one, nor TLS within a layer."""
    if not world.words:
        return
    one = world.bound("ann", CONFIDENTIALITY)
    same(one.reply(one.extended(START)), "# extended: 1, a layer of SASL is there already")
    same([one.by_gssapi_again(world.tickets["PC1$"]), who(one)], [SUCCESS, "u:CORP\\PC1$"])
    same([one.bind("ann", "pw")[:10], who(one)], ["# bind: 49", ""])
    for layer, code in ((NONE, SUCCESS), (INTEGRITY, INVALID), (CONFIDENTIALITY, INVALID)):
        same((layer, world.secured().by_gssapi(world.tickets["ann"], layer)), (layer, code))
    for layer, code in ((NONE, SUCCESS), (INTEGRITY, UNWILLING), (CONFIDENTIALITY, UNWILLING)):
        same((layer, world.secured().by_spnego(world.tickets["ann"], layer)), (layer, code))
    one = world.secured()
    same([one.by_gssapi(world.tickets["ann"], NONE), one.offered, who(one)], [SUCCESS, 1, "u:CORP\\ann"])


def large(world):
    """Before a bind a bind alone has more than 4,096 bytes, and 65,536 at most."""
    one = world.client()
    same(one.bind_step(b"GSSAPI", bytes(60_000))[0], INVALID)
    for operation, size in ((0x60, 70_000), (0x77, 5000), (0x63, 5000)):
        one = world.client()
        one.sendall(ber.sequence(ber.number(1), ber.octets(bytes(size), operation)))
        same((operation, one.notice()), (operation, 2))


def ended(world):
    """A ticket that has ended lets nobody bind, and who bound by it before is let go."""
    begun = time.time()
    told = world.kdc.ticket("ann", "-l", "10s")
    world.kdc.called(["kvno", "ldap/localhost"], **told)
    one = world.client()
    same(one.by_gssapi(told, CONFIDENTIALITY), SUCCESS)
    same(who(one), "u:CORP\\ann")
    path = told["KRB5CCNAME"][5:]
    with open(path, "rb") as file:
        held = file.read()
    # The end of a ticket stands in the client's file besides; the ticket itself is the service's to read.
    for start in range(int(begun) - 2, int(time.time()) + 2):
        for length in (9, 10, 11):
            held = held.replace(struct.pack(">II", start, start + length), struct.pack(">II", start, start + 36_000))
    with open(path, "wb") as file:
        file.write(held)
    time.sleep(max(0.0, begun + 12 + kdc.SKEW - time.time()))
    same(world.client().by_gssapi(told, CONFIDENTIALITY), INVALID)
    world.bridge.wait_for("(?i)ticket expired")
    one.extended(b"1.3.6.1.4.1.4203.1.11.3")
    same(one.notice(), STRONGER)


CASES = (layers_of_gssapi, layers_of_spnego, accounts, identities, told_of, other_tickets, replays, steps, choices, frames,
         within_tls, large, ended)


def tried(words):
    """Tries the cases of some words, or all: how many, and what differs."""
    wrong, cases = [], 0
    with tempfile.TemporaryDirectory() as place, World(place, *(certificate(f"{place}/pem") or [])) as world:
        for case in CASES:
            if words and case.__name__ not in words:
                continue
            cases += 1
            begun = time.monotonic()
            try:
                case(world)
            except Exception as fault:
                wrong.append(f"{case.__name__}: {type(fault).__name__} {fault}")
            if words:
                print(f"{case.__name__}: {time.monotonic() - begun:.1f} s")
        wrong += [line for line in world.bridge.lines() if "by a fault" in line]
    return cases, wrong
