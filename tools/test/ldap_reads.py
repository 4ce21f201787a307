"""What tools/test/ldap tries of what Active Directory's clients read: the root DSE as a domain controller's, attributes
that hang on the moment, extended names, searches scoped by an attribute, and what is refused because it isn't here."""

import time

from ldap_client import ber
from ldap_face import asked, control, page, walked
from ldap_filters import search_of, searched
from ldap_peers import same
from ldap_store import DAY, DOMAIN, GROUPS, HALF_AN_HOUR, ROOT, SCHEMA, UNIT, sid
from ldap_who import ANN, EVE, Made
from adsd_tools.forms.sids import text_of_guid
from adsd_tools.ldap.accounts import EPOCH
from adsd_tools.ldap.contexts import OPTIONS
from adsd_tools.ldap.root_dse import CAPABILITIES
from adsd_tools.ldap.searches import IDLE

BOB, STAFF, ALL = f"CN=Bob,{UNIT}", f"CN=staff,{GROUPS}", f"CN=all,{GROUPS}"
DIRSYNC, NOTIFIES, EXTENDED, SCOPED = (b"1.2.840.113556.1.4." + one for one in (b"841", b"528", b"529", b"1504"))
NEVER, ROUNDS = 2**63 - 1, 10
CONTROL_NOW, EXPIRES = "msDS-User-Account-Control-Computed", "msDS-UserPasswordExpiryTimeComputed"
SITES = f"CN=Servers,CN=Default-First-Site-Name,CN=Sites,CN=Configuration,{ROOT}"


def root_dse():
    """The root DSE has what clients look for in a domain controller's."""
    with Made("--host", "DC1") as bridge:
        held = asked(bridge.client(), "search base=''")[0][0][1]
        same([held[one] for one in ("dnsHostName", "serverName", "dsServiceName", "ldapServiceName")],
             [[b"dc1.corp.example"], [f"CN=DC1,{SITES}".encode()], [f"CN=NTDS Settings,CN=DC1,{SITES}".encode()],
              [b"corp.example:dc1$@CORP.EXAMPLE"]])
        same(held["namingContexts"], [one.encode() for one in (ROOT, f"CN=Configuration,{ROOT}", SCHEMA)])
        same([held[f"{of}Functionality"] for of in ("domain", "forest", "domainController")], 3 * [[b"7"]])
        same((held["supportedCapabilities"], held["isSynchronized"], held["isGlobalCatalogReady"]),
             (CAPABILITIES, [b"TRUE"], [b"FALSE"]))
        same({EXTENDED, SCOPED} <= set(held["supportedControl"]), True)
        same({DIRSYNC, NOTIFIES} & set(held["supportedControl"]), set())


def moments():
    """What hangs on the moment: who is locked out, and whose password has expired, and when it does."""
    now, users = since_1601(0), {}
    for name, (bits, days, locked, told, ends) in {
            "new": (512, 1, 0, 0, 41), "old": (512, 43, 0, 0x800000, -1), "never": (66048, 43, 0, 0, None),
            "locked": (512, 1, now - HALF_AN_HOUR // 2, 0x10, 41),
            "was locked": (512, 1, now - 2 * HALF_AN_HOUR, 0, 41),
            "must": (512, None, 0, 0x800000, 0), "machine": (4096, None, 0, 0, None)}.items():
        changed = 0 if days is None else now - days * DAY
        users[name] = (bits, changed, locked), (told, NEVER if ends is None else changed and now + ends * DAY)
    text = ""
    for at, (name, ((bits, changed, locked), _)) in enumerate(users.items()):
        text += f"\ndn: CN={name},{UNIT}\nobjectClass: user\nobjectSid: {DOMAIN}-{4000 + at}\n"
        text += f"userAccountControl: {bits}\npwdLastSet: {changed}\n" + f"lockoutTime: {locked}\n" * bool(locked)
    with Made(more=text) as bridge:
        admin = bridge.client("admin", "adm1n")
        for name, (_, (told, ends)) in users.items():
            held = asked(admin, f"search base='CN={name},{UNIT}' attrs={CONTROL_NOW},{EXPIRES}")[0][0][1]
            same((name, held), (name, {CONTROL_NOW: [b"%d" % told], EXPIRES: [b"%d" % ends]}))
        same(asked(admin, f"search base='{UNIT}' attrs={CONTROL_NOW},{EXPIRES}")[0], [(UNIT, {})])


def by_guids():
    """A GUID by its text, in each of its forms; parentGUID; and what has no place in a filter."""
    with Made() as bridge:
        admin, text = bridge.client("admin", "adm1n"), text_of_guid(bytes([1]) * 16)
        for value in (text, text.upper(), "{" + text + "}"):
            same(searched(admin, ("objectGUID", None, value)), [(ANN, {})])
        same([name for name, _ in searched(admin, ("!", ("objectGUID", None, text)), UNIT, 1)], [BOB, EVE])
        same(searched(admin, ("objectGUID", None, text[:-1])), [])
        same(asked(admin, f"search base='{BOB}' attrs=parentGUID")[0], [(BOB, {})])
        same(asked(admin, f"search base='{ROOT}' scope=one filter='(ou=people)' attrs=parentGUID")[0],
             [(UNIT, {"parentGUID": [b"w" * 16]})])
        same(asked(admin, f"search base='{ROOT}' attrs=parentGUID")[0], [(ROOT, {})])
        for tree in (("canonicalName", None, "x"), ("!", ("tokenGroups", None, "*")),
                     ("|", ("cn", None, "x"), ("MSDS-principalname", ">=", "20200102030405.0Z"))):
            number = admin.send(search_of(tree, ROOT, 2, ()))
            same(asked(admin, None, number=number)[:2], ([], 18))


def extended_names():
    """Before names stand the identifiers of their objects, in digits or as texts."""
    with Made() as bridge:
        admin = bridge.client("admin", "adm1n")
        guid, line = bytes([5]) * 16, f"search base='{STAFF}' attrs=member,cn"
        own = bytes([1]) * 16
        for flag, name, member in (
                (None, f"<GUID={guid.hex()}>;<SID={sid(2101).hex()}>;{STAFF}",
                 f"<GUID={own.hex()}>;<SID={sid(2001).hex()}>;{ANN}"),
                (1, f"<GUID={text_of_guid(guid)}>;<SID={DOMAIN}-2101>;{STAFF}",
                 f"<GUID={text_of_guid(own)}>;<SID={DOMAIN}-2001>;{ANN}")):
            value = None if flag is None else ber.sequence(ber.number(flag))
            found = asked(admin, line, control(EXTENDED, value))
            same(found[:2], ([(name, {"cn": [b"staff"], "member": [member.encode()]})], 0))
        both = walked(admin, f"search base='{UNIT}' scope=one attrs=1.1", 2, control(EXTENDED, None))
        same([name.rpartition(";")[2] for name, _ in both[0]], [ANN, BOB, EVE])
        same(asked(admin, line, control(EXTENDED, ber.sequence(ber.number(2))))[1], 2)
        same(asked(admin, "search base='' attrs=vendorName", control(EXTENDED, None))[1], 0)


def code_of(code):
    """What the answer's control of a search scoped by an attribute says."""
    return ber.sequence(ber.number(code, ber.ENUMERATED))


def scoped():
    """Of the objects that one names in an attribute those are found that fit."""
    with Made() as bridge:
        admin = bridge.client("admin", "adm1n")
        by = control(SCOPED, ber.sequence(ber.octets(b"member")))
        found = asked(admin, f"search base='{ALL}' attrs=cn", by)
        wanted = {f"CN=Domain Users,{GROUPS}": [b"Domain Users"], STAFF: [b"staff"]}
        same((dict(found[0]), found[1], found[2]),
             ({name: {"cn": held} for name, held in wanted.items()}, 0, {SCOPED: code_of(0)}))
        same([name for name, _ in asked(admin, f"search base='{ALL}' filter='(cn=STAFF)'", by)[0]], [STAFF])
        same(len(asked(admin, f"search base='{ALL}' attrs=1.1", by, page(1))[0]), 1)
        same(asked(admin, f"search base='{ANN}'", by)[:2], ([], 0))
        same(asked(admin, f"search base='{ALL}' scope=sub", by)[:2], ([], 53))
        same(asked(admin, f"search base='CN=none,{ROOT}'", by)[:2], ([], 32))
        odd = control(SCOPED, ber.sequence(ber.octets(b"cn")))
        same(asked(admin, f"search base='{ALL}'", odd)[0::2], ([], {SCOPED: code_of(21)}))
        same(asked(admin, f"search base='{ALL}'", control(SCOPED, b"\x30\x00"))[1], 2)
        member_of = control(SCOPED, ber.sequence(ber.octets(b"memberOf")))
        found = asked(admin, f"search base='{ANN}' attrs=1.1", member_of)[0]
        same(sorted(name for name, _ in found), sorted([STAFF, f"CN=mail,{GROUPS}"]))


def not_here():
    """What isn't here is refused, whether it is critical or not."""
    with Made() as bridge:
        admin = bridge.client("admin", "adm1n")
        dirsync = ber.sequence(ber.number(0), ber.number(0), ber.octets(b""))
        for name, value in ((DIRSYNC, dirsync), (NOTIFIES, None)):
            for critical in (True, False):
                same(asked(admin, f"search base='{ROOT}' scope=sub", control(name, value, critical))[:2], ([], 12))


def passed_over():
    """Controls that change nothing here are passed over, critical or not; and what isn't here has its code."""
    with Made() as bridge:
        admin = bridge.client("admin", "adm1n")
        every = f"search base='{ROOT}' scope=sub attrs=cn"
        wanted = asked(admin, every)[:2]
        same((bool(wanted[0]), wanted[1]), (True, 0))
        for name in IDLE:
            if name == OPTIONS:  # (which wants a value, and says how far the search goes)
                continue
            for critical in (True, False):
                same((name, asked(admin, every, control(name, None, critical))[:2]), (name, wanted))
        unknown = b"1.2.840.113556.1.4.9999"
        same(asked(admin, every, control(unknown, None))[:2], ([], 12))
        same(asked(admin, every, control(unknown, None, False))[:2], wanted)
        same(admin.reply(admin.extended(b"1.2.840.113556.1.4.1781")).split("\n")[0][:13], "# extended: 2")
        for way in (b"GSSAPI", b"GSS-SPNEGO", b"DIGEST-MD5", b"NTLM"):
            by = ber.sequence(ber.octets(way), tag=0xA3)
            other = bridge.client()
            told = other.reply(other.send(ber.sequence(ber.number(3), ber.octets(b""), by, tag=0x60)))
            same(told[: len("# bind: 7")], "# bind: 7")


def log_ins():
    """What applications ask at each log-in takes no more than twice as long as to find one by its name, also among many
    that have the attribute; and it finds the same, whatever else is asked for."""
    more = "".join(f"\ndn: CN=u{at},{UNIT}\nobjectClass: user\nobjectSid: {DOMAIN}-{5000 + at}\n"
                   f"sAMAccountName: u{at}\nuserAccountControl: {512 + at}\n" for at in range(1000))
    with Made(more=more) as bridge:
        admin = bridge.client("admin", "adm1n")
        find, bits = ("sAMAccountName", None, "ann"), ("!", ("userAccountControl", "803", "2"))
        for attributes in (("1.1",), ("cn",), ("userAccountControl", "cn"), (), ("memberOf",)):
            found = searched(admin, ("&", find, bits), attributes=attributes)
            same(found, searched(admin, find, attributes=attributes))
        same(searched(admin, ("&", ("sAMAccountName", None, "bob"), bits)), [])
        every = ("&", ("objectClass", None, "user"), ("userAccountControl", "804", "2"))
        same(len(searched(admin, every)), 1 + 500)
        best = {find: 1e9, ("&", find, bits): 1e9}
        for _ in range(ROUNDS):
            for tree in list(best) * 20:
                begun = time.monotonic()
                searched(admin, tree)
                best[tree] = min(best[tree], time.monotonic() - begun)
            if best["&", find, bits] <= 2 * best[find]:
                return
        raise AssertionError(f"{best}")


def since_1601(seconds):
    return int((time.time() + EPOCH + seconds) * 10**7)


CASES = (root_dse, log_ins, moments, by_guids, extended_names, scoped, not_here, passed_over)
