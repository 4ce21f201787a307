"""The root DSE (RFC 4512 5.1): what the bridge tells of itself where a client asks for the entry without a name.

The program has no such entry and answers 32. The bridge answers searches of base "" with scope base, to whoever asks,
and leaves all others to the program."""

import socket
from dataclasses import replace

from adsd_tools.ask.records import TREE_DELETE
from adsd_tools.ask.requests import SD_FLAGS
from adsd_tools.forms import ber, filters
from adsd_tools.forms import names as dns

from . import (extended, extended_names, filling, lists, local, messages, netlogon, paging, permissive, schema_entries,
               scoped, searches, sorting, subschema, tls)
from .program import MESSAGE
from .searches import Entry, Found

CONTROLS = [SD_FLAGS, TREE_DELETE, paging.PAGED, sorting.SORT, lists.VIEW, permissive.PERMISSIVE,
            extended_names.EXTENDED, scoped.SCOPED, *searches.IDLE]
# A directory of Windows 2000 and later, of 2003, 2008, 2008 R2 and 2012; and that binds by tickets may be signed and
# sealed.
SIGNS = b"1.2.840.113556.1.4.1791"
CAPABILITIES = [b"1.2.840.113556.1.4." + one for one in (b"800", b"1670", b"1935", b"2080", b"2237")]
# The functional level of the bridge, and of a domain and a forest that don't tell theirs to everybody.
LEVEL, BEHAVIOR, PARTITIONS = b"7", b"msDS-Behavior-Version", b"CN=Partitions,CN=Configuration,"
SITE_NAME = "Default-First-Site-Name"
SITE = b",CN=Servers,CN=" + SITE_NAME.encode() + b",CN=Sites,CN=Configuration,"
# What an LDAP ping asks for.
NETLOGON = "netlogon"
# Filters that are true and false by themselves (RFC 4526).
FEATURES = [b"1.3.6.1.4.1.4203.1.5.3"]
PRESENT = filters.read("(objectClass=*)")
# So many names are tried to find the root's.
TRIES = 100


def asked(search):
    """Whether a search is one for the root DSE."""
    return search.base == b"" and search.scope == searches.BASE and not search.has_critical()


def below(root):
    """The naming contexts below the root's."""
    return [b"CN=Configuration," + root, schema_entries.SCHEMA + root]


def contexts(root, has_schema):
    """What is told of the directory."""
    if not root:
        return []
    found = [("defaultNamingContext", [root]), ("rootDomainNamingContext", [root])]
    if not has_schema:
        return [("namingContexts", [root]), *found]
    configuration, place = below(root)
    return [("subschemaSubentry", [subschema.NAME + root]), ("namingContexts", [root, configuration, place]), *found,
            ("configurationNamingContext", [configuration]), ("schemaNamingContext", [place])]


def host_of(bridge):
    """The short name of the server, and its whole one: by the name of its machine, or the one that was given."""
    host = bridge.options.host or socket.gethostname().partition(".")[0]
    short, _, behind = host.lower().partition(".")
    return short.encode(), f"{short}.{behind or bridge.accounts.dotted()}".encode()


def server(bridge):
    """What is told of the bridge as a server of the domain."""
    domain = bridge.accounts.dotted().encode()
    if not bridge.root or not domain:
        return []
    short, dotted = host_of(bridge)
    name = b"CN=" + short.upper() + SITE + bridge.root
    return [("dnsHostName", [dotted]), ("serverName", [name]), ("dsServiceName", [b"CN=NTDS Settings," + name]),
            ("ldapServiceName", [domain + b":" + short + b"$@" + domain.upper()])]


def attributes(bridge, session):
    """All attributes, with their values."""
    extensions = [messages.WHO_AM_I, extended.PASSWORD] + ([tls.START] if bridge.tls else [])
    mechanisms = ([b"EXTERNAL"] if session.uid is not None else []) + session.binder.by_ticket.mechanisms()
    found = [("objectClass", [b"top"]), ("currentTime", [filling.now_text().encode()])]
    found += contexts(bridge.root, bridge.schema is not None) + server(bridge)
    found += [(f"{of}Functionality", [level]) for of, level in bridge.levels.items()]
    capabilities = CAPABILITIES + ([SIGNS] if bridge.tickets else [])
    found += [("supportedCapabilities", capabilities), ("isSynchronized", [b"TRUE"]),
              ("isGlobalCatalogReady", [b"FALSE"])]
    found += [("supportedControl", CONTROLS), ("supportedExtension", extensions), ("supportedFeatures", FEATURES),
              ("supportedSASLMechanisms", mechanisms), ("supportedLDAPVersion", [b"3"]), ("vendorName", [b"adsd-ldap"])]
    return tuple((kind.encode(), tuple(values)) for kind, values in found if values)


def is_ping(search):
    """Whether a search is an LDAP ping."""
    return asked(search) and search.asked()[0] == {NETLOGON}


def pinged(search, bridge):
    """What an LDAP ping finds: the server, or nothing where it looks for another domain."""
    ping, accounts = netlogon.asked(search.filter), bridge.accounts
    if ping is None or not bridge.root or not accounts.dotted() or accounts.domain is None:
        return Found()
    told = netlogon.Server(accounts.dotted(), accounts.short, host_of(bridge)[1].decode(), SITE_NAME, accounts.guid,
                           accounts.domain)
    held = netlogon.answer(told, ping)
    return Found((searches.body_of(Entry(b"", ((NETLOGON.encode(), (held,)),))),)) if held else Found()


def answer(search, bridge, session):
    """What the search finds: all attributes where none is named, and those that are."""
    if is_ping(search):
        return pinged(search, bridge)
    plain = Entry(b"", attributes(bridge, session))
    if local.is_large(search.filter, 100) or local.says(plain, search.filter) is not True:
        return Found()
    search = replace(search, attributes=(b"*",)) if b"+" in search.attributes else search
    return Found((searches.body_of(local.chosen(plain, search)),))


async def levels(turns, root):
    """The functional levels, as far as everybody reads them."""
    found = {"domain": LEVEL, "forest": LEVEL, "domainController": LEVEL}
    for of, base in (("domain", root), ("forest", PARTITIONS + (root or b""))):
        asked_for = searches.Search(1, base or b"", searches.BASE, filter=PRESENT, attributes=(BEHAVIOR,))
        told = searches.found(await turns.ask(MESSAGE, 0, searches.written(asked_for))).entries
        values = searches.entry_of(told[0]).values(BEHAVIOR.decode().lower()) if told else ()
        found.update({of: value for value in values[:1]})
    return found


async def look_for(turns, base):
    """An entry's name as the program spells it, or as given where it isn't shown; None where there is none."""
    entry_alone = searches.Search(1, base, searches.BASE, filter=PRESENT, attributes=(b"1.1",))
    reply = await turns.ask(MESSAGE, 0, searches.written(entry_alone))
    operation, body = ber.parts(ber.parts(reply)[0][1])[1]
    if operation == messages.ENTRY:
        return ber.parts(body)[0][1]
    return base if messages.code_of(reply)[0] == messages.SUCCESS else None


def candidates(names):
    """The names at and above each DN in the file of names, shortest first."""
    for who in names.everybody():
        try:
            parts = dns.read(who.name.encode()).parts if "=" in who.name else ()
        except dns.NoName:
            continue
        for at in range(len(parts) - 1, -1, -1):
            yield dns.Name(parts[at:]).text()


async def find_root(turns, names):
    """The root's name, which everybody may see: of those at or above a DN in the file the shortest that is there."""
    for base, _ in zip(dict.fromkeys(candidates(names)), range(TRIES)):
        found = await look_for(turns, base)
        if found:
            return found
    return None
