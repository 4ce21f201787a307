"""What tools/test/ldap tries of naming contexts, at whose heads searches end, and of LDAP pings."""

import socket
import struct

from ldap_client import SECONDS, ber
from ldap_face import asked, control, order, page, walked
from ldap_peers import same
from ldap_store import DOMAIN, ROOT, SCHEMA, UNIT, sid
from ldap_who import NAMES, Made
from adsd_tools.forms import filters
from adsd_tools.ldap import netlogon, ping
from adsd_tools.ldap.contexts import OPTIONS

CONFIGURATION = f"CN=Configuration,{ROOT}"
# Objects of other contexts, and one whose name is only like theirs.
NAMED = [(CONFIGURATION, "configuration"), (f"CN=Sites,{CONFIGURATION}", "container"),
         (f"CN=Mars,CN=Sites,{CONFIGURATION}", "container"), (SCHEMA, "container"),
         (f"CN=of the schema,{SCHEMA}", "container"), (f"CN=Configuration,{UNIT}", "container")]
MORE = "".join(f"\ndn: {name}\nobjectClass: {kind}\n" for name, kind in NAMED if kind == "container")
ALL, DOMAIN_SCOPE = (control(OPTIONS, ber.sequence(ber.number(flags))) for flags in (2, 1))


def names_of(client, line, *controls):
    return {name for name, _ in asked(client, line, *controls)[0]}


def contexts():
    """A search ends at the head of another naming context, but where the control of search options asks for all."""
    with Made(names=NAMES, more=MORE) as bridge:
        one = bridge.client("admin", "adm1n")
        own, others = f"CN=Configuration,{UNIT}", {name for name, _ in NAMED[:5]}
        whole = f"search base={ROOT} scope=sub filter='(objectClass=*)' attrs=cn"
        every = names_of(one, whole, ALL)
        same((others <= every, own in every), (True, True))
        for line in (whole, whole.replace("(objectClass=*)", "(|(objectClass=container)(memberOf=*))"),
                     whole + ",memberOf", whole + ",canonicalName", whole.replace("attrs=cn", "attrs=*")):
            found = names_of(one, line)
            same((found & others, own in found), (set(), True))
            same(names_of(one, line, DOMAIN_SCOPE), found)
            same({name for name, _ in walked(one, line, 3)[0]}, found)
            same({name for name, _ in asked(one, line, order("cn"))[0]}, found)
            same(names_of(one, line, ALL) & others, others)
        same(names_of(one, whole), {name for name in every if not name.endswith(f",{CONFIGURATION}")} - {CONFIGURATION})
        # Limits of size count what is found.
        inner = "filter='(cn=Configuration)'"
        found = asked(one, f"search base={ROOT} scope=sub {inner} attrs=cn size=1")[:2]
        same(found, ([(own, {"cn": [b"Configuration"]})], 0))
        inner = "filter='(objectClass=*)'"
        same(names_of(one, f"search base={ROOT} scope=one attrs=cn") & others, set())
        same(names_of(one, f"search base={ROOT} scope=one attrs=cn", ALL) & others, {CONFIGURATION})
        found = names_of(one, f"search base={CONFIGURATION} scope=sub {inner} attrs=cn")
        same(found & others, {name for name, _ in NAMED[:3]})
        same(names_of(one, f"search base={CONFIGURATION} scope=sub {inner} attrs=cn", ALL) >= others, True)
        same(f"CN=of the schema,{SCHEMA}" in names_of(one, f"search base={SCHEMA} scope=sub {inner} attrs=cn"), True)
        for value in (None, b"", b"\x30\x00", ber.number(2), ber.sequence(ber.octets(b"\2"))):
            same(asked(one, whole, control(OPTIONS, value))[1], 2)
        one.ask(f"rename dn='CN=Mars,CN=Sites,{CONFIGURATION}' rdn='CN=Venus' superior='{UNIT}'")
        same(f"CN=Venus,{UNIT}" in names_of(one, whole), True)


def told(port, text):
    """The bytes that a ping is answered by; None where nothing is found."""
    made = filters.read(text)
    head = ber.octets(b""), ber.number(0, ber.ENUMERATED), ber.number(0, ber.ENUMERATED)
    body = ber.sequence(*head, ber.number(0), ber.number(0), ber.truth(False), made,
                        ber.sequence(ber.octets(b"Netlogon")), tag=0x63)
    return datagram(port, ber.sequence(ber.number(7), body))


def datagram(port, data):
    """What a datagram is answered by: the code, and the value of netlogon."""
    with socket.socket(socket.AF_INET, socket.SOCK_DGRAM) as one:
        one.settimeout(SECONDS)
        one.sendto(data, ("127.0.0.1", port))
        messages = [ber.parts(inner) for _, inner in ber.parts(one.recv(4096))]
    same({number for (_, number), *_ in messages}, {b"\7"})
    values = [ber.parts(ber.parts(ber.parts(body)[1][1])[0][1])[1][1] for _, (tag, body) in messages if tag == 0x64]
    return ber.parts(messages[-1][1][1])[0][1][0], bytes(ber.parts(values[0])[0][1]) if values else None


def pings():
    """A ping is answered by UDP and by the root DSE: for this domain alone, the same whatever account it names."""
    guid, version = b"w" * 16, "(NtVer=\\06\\00\\00\\00)"
    with Made("--ping", "--host", "dc1", names=NAMES) as bridge:
        code, value = told(bridge.port, f"(&(DnsDomain=corp.example){version})")
        same((code, value[:2], value[8:24]), (0, struct.pack("<H", netlogon.FOUND), guid))
        same(value[24:].startswith(b"\4corp\7example\0\4corp\7example\0\3dc1\4corp\7example\0\4CORP\0\3DC1\0\0"), True)
        same(value[-8:], struct.pack("<IHH", 5, 0xFFFF, 0xFFFF))
        own = "".join(f"\\{one:02x}" for one in sid(0)[:1] + b"\4" + sid(0)[2:-4])
        for item, found in (("", True), ("(Host=PC1)(AAC=\\10\\00\\00\\00)", True), ("(DnsDomain=CORP.example.)", True),
                            ("(DnsDomain=other.example)", False), (f"(DomainGuid={'w' * 16})", True),
                            (f"(DomainGuid={'x' * 16})", False), (f"(DomainSid={own})", True), ("(DomainSid=x)", False),
                            ("(cn=ann)", False), ("(!(Host=PC1))", False), ("(Host=a)(Host=b)", False)):
            same((item, told(bridge.port, f"(&{item}{version})")[1] is not None), (item, found))
        for user in ("ann", "nobody"):
            same(told(bridge.port, f"(&(User={user}){version})")[1].count(user.encode()), 1)
        for text in ("(NtVer=\\02\\00\\00\\00)", "(NtVer=\\06)", "(DnsDomain=corp.example)"):
            same((text, told(bridge.port, text)), (text, (0, None)))
        one = bridge.client()
        same(one.ask("search base='' filter='(&(cn=a)(cn=b))' attrs=netlogon,cn")[:12], "# search: 11")
        line = f"search base='' filter='(&(DnsDomain=corp.example)(Host=x)(User=y){version})' attrs=netlogon"
        same([len(asked(one, line)[0]), asked(one, line)[1]], [1, 0])
        others(bridge)


def others(bridge):
    """Nothing else is answered by UDP, and of one peer no more than so many in a second."""
    search = ber.sequence(ber.octets(b""), ber.number(0, ber.ENUMERATED), ber.number(0, ber.ENUMERATED), ber.number(0),
                          ber.number(0), ber.truth(False), filters.read("(objectClass=*)"), ber.sequence(), tag=0x63)
    same(datagram(bridge.port, ber.sequence(ber.number(7), search)), (1, None))
    with socket.socket(socket.AF_INET, socket.SOCK_DGRAM) as one:
        one.settimeout(1)
        for noise in (b"", b"x", bytes(1500), ber.sequence(ber.number(7), ber.octets(b"", 0x42)),
                      ber.sequence(ber.number(7), ber.octets(bytes(2000), 0x63))):
            one.sendto(noise, ("127.0.0.1", bridge.port))
        made = ping.Pings(bridge)
        made.second = 10**12
        now, ping.time.monotonic = ping.time.monotonic, lambda: 10**12
        try:
            same(sum(made.has_room("a") for _ in range(100)), ping.OF_PEER)
            same(sum(made.has_room(f"b{at}") for at in range(1000)), ping.OF_ALL - ping.OF_PEER)
        finally:
            ping.time.monotonic = now
        try:
            raise AssertionError(f"noise is answered by {one.recv(4096)!r}")
        except socket.timeout:
            pass
    same([line for line in bridge.lines() if "fault" in line], [])


CASES = (contexts, pings)
