"""What tools/test/ldap tries of searches beyond what the program answers: pages, and orders."""

from ldap_client import ANN, BOB, NAMES, STAFF, Bridge, ber, requests
from adsd_tools.ldap.paging import MOST_ANSWERS, PAGED, Kept, Pages, Shelf
from adsd_tools.ldap.searches import Found
from adsd_tools.ldap.sorting import SORT, SORTED
from ldap_peers import same

ROOT = "DC=corp,DC=example"
SCHEMA = f"CN=Schema,CN=Configuration,{ROOT}"
CLUB, PC = f"CN=club,{STAFF}", f"CN=pc1,{STAFF}"
BELOW = f"search base='{STAFF}' scope=one attrs=cn"
ALL = [ANN, BOB, PC, CLUB]
TEXT_RULES = "EQUALITY caseIgnoreMatch ORDERING caseIgnoreOrderingMatch SUBSTR caseIgnoreSubstringsMatch"
DIRECTORY_STRING = "1.3.6.1.4.1.1466.115.121.1.15"
NUMBERS = {"ten": "10", "nine": "9", "negative": "-1", "none": ""}


def control(name, value, critical=True):
    held = [ber.octets(name), ber.truth(critical)] + ([ber.octets(value)] if value is not None else [])
    return ber.sequence(*held)


def page(size, cookie=b"", critical=True):
    return control(PAGED, ber.sequence(ber.number(size), ber.octets(cookie)), critical)


def order(*keys, critical=True):
    """A sort by names; one with a minus has the greatest first, and one with a colon a rule."""
    made = []
    for key in keys:
        name, _, rule = key.lstrip("-").partition(":")
        held = [ber.octets(name.encode())] + ([ber.octets(rule.encode(), 0x80)] if rule else [])
        made.append(ber.sequence(*held, *([ber.truth(True, 0x81)] if key.startswith("-") else [])))
    return control(SORT, ber.sequence(*made), critical)


def asked(client, line, *controls, number=None):
    """The entries of a search, pairs of a name and values by type; its code; and the values of its controls."""
    if number is None:
        made = requests.Line(line)
        operation, own = requests.operation(made)
        number = client.send(operation, *own, *controls)
    entries = []
    while True:
        data, given, tag = client.message()
        same(given, number)
        _, (_, body), *behind = ber.parts(ber.parts(data)[0][1])
        if tag == 0x65:
            held = [ber.parts(one) for _, inner in behind for _, one in ber.parts(inner)]
            return entries, ber.parts(body)[0][1][0], {name: value for (_, name), (_, value) in held}
        (_, name), (_, attributes) = ber.parts(body)
        pairs = [ber.parts(one) for _, one in ber.parts(attributes)]
        values = {kind.decode(): [one for _, one in ber.parts(inner)] for (_, kind), (_, inner) in pairs}
        entries.append((name.decode(), values))


def told(controls):
    """What the control of a page says: how many there are, and the cookie."""
    ((_, held),) = ber.parts(controls[PAGED])
    (_, total), (_, cookie) = ber.parts(held)
    return int.from_bytes(total, "big"), cookie


def walked(client, line, size, *controls):
    """The entries of all pages, whose codes but the last's are 0, and how many pages there were."""
    found, cookie, pages = [], b"", 0
    while True:
        entries, code, behind = asked(client, line, page(size, cookie, pages % 2), *controls)
        total, cookie = told(behind)
        found, pages = found + entries, pages + 1
        if not cookie:
            return found, code, pages
        same((code, len(entries) <= size, total > len(found)), (0, True, True))


def pages():
    """Pages join to the one answer, whatever changes meanwhile; a cookie counts for its search and its connection."""
    with Bridge() as bridge:
        one, admin = bridge.client("ann", "her secret"), bridge.client("admin", "adm1n")
        for line in (BELOW, f"search base='{ROOT}' scope=sub", BELOW + " types-only=yes", BELOW + " filter='(cn=no)'"):
            entries, code, _ = asked(one, line)
            for size in (1, 2, 3, len(entries), 100):
                wanted = max(1, -(-len(entries) // size)) if size else 1
                same(walked(one, line, size), (entries, code, wanted))
        same([name for name, _ in walked(one, BELOW + " size=3", 2)[0]], ALL[:3])
        same(walked(one, BELOW + " size=3", 2)[1:], (4, 2))
        same(asked(one, "search base='DC=none'", page(2))[:2], ([], 32))
        first, _, behind = asked(one, BELOW, page(2))
        cookie = told(behind)[1]
        admin.ask(f"rename dn='{CLUB}' rdn=CN=clubs")
        for other, line in ((admin, BELOW), (one, BELOW + ",ou"), (one, BELOW + " size=9")):
            same(asked(other, line, page(2, cookie))[:2], ([], 53))
        same(asked(one, BELOW, page(2, cookie[:-1]))[:2], ([], 53))
        same([name for name, _ in asked(one, BELOW, page(2, cookie))[0]], ALL[2:])
        same(asked(one, BELOW, page(2, cookie))[:2], ([], 53))
        ends_of_pages(one)


def ends_of_pages(one):
    """A page of nothing tells how many there are, and with a cookie ends them. So do a bind, and too many answers."""
    entries, code, behind = asked(one, BELOW, page(0))
    same((entries, code, told(behind)[0]), ([], 0, 4))
    cookie = told(behind)[1]
    same(len(asked(one, BELOW, page(3, cookie))[0]), 3)
    same(asked(one, BELOW, page(0, cookie))[1], 0)
    same(asked(one, BELOW, page(3, cookie))[1], 53)
    cookies = [told(asked(one, BELOW, page(1))[2])[1] for _ in range(MOST_ANSWERS + 1)]
    same([asked(one, BELOW, page(1, cookie))[1] for cookie in cookies], [53] + MOST_ANSWERS * [0])
    one.bind("ann", "her secret")
    same([asked(one, BELOW, page(1, cookie))[1] for cookie in cookies], (MOST_ANSWERS + 1) * [53])
    for value in (None, b"", b"\x30\x00", ber.sequence(ber.number(-1), ber.octets(b"")), ber.number(5)):
        same(asked(one, BELOW, control(PAGED, value))[1], 2)
    same(asked(one, BELOW, page(2), page(2))[1], 2)
    same(asked(one, BELOW, page(2), control(b"1.2.3", None))[1], 12)
    same(asked(one, "search base='' attrs=vendorName", page(2))[:2], ([("", {"vendorName": [b"adsd-ldap"]})], 0))


def room():
    """Where what all connections keep is too much, the one that keeps most gives way, its oldest first."""
    shelf = Shelf(1000)
    small, large = Pages(shelf), Pages(shelf)

    def kept(size):
        return Kept(b"", Found((bytes(size - 64),)), ())

    same([small.keep(kept(200)), large.keep(kept(300)), large.keep(kept(400)), large.keep(kept(350))], [1, 1, 2, 3])
    same((list(small.kept), list(large.kept), large.weight), ([1], [2, 3], 750))
    large.forget_all()
    same((list(large.kept), large.weight, shelf.all), ([], 0, {small}))


def orders():
    """A sort by text and by number; several values, none, several keys; what can't be sorted by is told."""
    with Bridge("--profile-rules") as bridge:
        admin, ann = bridge.client("admin", "adm1n"), bridge.client("ann", "her secret")
        for name, number in NUMBERS.items():
            given = f" primaryGroupID={number}" if number else ""
            same(admin.ask(f"add dn='CN={name},{STAFF}' objectClass=user description=B{given}"), "# add: 0 success")
        same(admin.ask(f"modify dn='CN=none,{STAFF}' add:description=a"), "# modify: 0 success")
        line = f"search base='{STAFF}' scope=one filter='(description=*)' attrs=1.1"
        for keys, wanted in (
                (("cn",), "negative nine none ten"), (("-cn",), "ten none nine negative"),
                (("primaryGroupID",), "negative nine ten none"), (("-primarygroupid",), "none ten nine negative"),
                (("description", "-cn"), "none ten nine negative"),
                (("secretCode", "cn:2.5.13.3"), "negative nine none ten"),
                (("telephoneNumber",), "ten nine negative none")):
            entries, code, behind = asked(admin, line, order(*keys))
            same([(name.split(",")[0][3:], held) for name, held in entries], [(name, {}) for name in wanted.split()])
            same((code, behind), (0, {SORTED: ber.sequence(ber.number(0, ber.ENUMERATED))}))
            same(walked(admin, line, 3, order(*keys)), (entries, 0, 2))
            same(asked(admin, line + " size=2", order(*keys))[:2], (entries[:2], 4))
        what_has_no_order(ann)


def what_has_no_order(ann):
    plain = asked(ann, BELOW)[0]
    for key, wanted in (("nickname", 16), ("nTSecurityDescriptor", 16), ("unicodePwd", 18), ("cn:2.5.13.15", 18)):
        entries, code, behind = asked(ann, BELOW, order(key, critical=False))
        same((entries, code, ber.parts(ber.parts(behind[SORTED])[0][1])[0][1][0]), (plain, 0, wanted))
        entries, code, behind = asked(ann, BELOW, order(key))
        same((entries, code, ber.parts(ber.parts(behind[SORTED])[0][1])[0][1][0]), ([], 12, wanted))
    same(asked(ann, BELOW, order(*["cn"] * 16))[1], 0)
    entries, code, behind = asked(ann, BELOW, order(*["cn"] * 17))
    same((entries, code, ber.parts(ber.parts(behind[SORTED])[0][1])[0][1][0]), ([], 12, 11))
    hidden = asked(ann, BELOW, order("secretCode"))[0]
    same(hidden, plain)
    same(asked(ann, BELOW + " types-only=yes", order("-cn"))[0], [(name, {"cn": []}) for name, _ in reversed(
        sorted(plain, key=lambda one: one[1]["cn"]))])
    for value in (None, b"", b"\x30\x00", ber.sequence(ber.number(1))):
        same(asked(ann, BELOW, control(SORT, value))[1], 2)


def schema_told():
    """The root DSE names the subschema, which is made of the store's schema, for whoever is shown the root."""
    with Bridge() as bridge:
        ann, nobody = bridge.client("ann", "her secret"), bridge.client()
        held = asked(nobody, "search base=''")[0][0][1]
        name = held["subschemaSubentry"][0].decode()
        same((name, held["namingContexts"]), (
            f"CN=Aggregate,{SCHEMA}", [ROOT.encode(), f"CN=Configuration,{ROOT}".encode(), SCHEMA.encode()]))
        same({PAGED, SORT} <= set(held["supportedControl"]), True)
        line = f"search base='{name}' filter='(objectClass=subschema)' attrs="
        same(asked(nobody, line + "+")[:2], ([], 1))
        wanted = {"objectClass": [b"top", b"subSchema"], "cn": [b"Aggregate"]}
        same(asked(ann, f"search base='{name.lower()}'")[0], [(name, wanted)])
        told = asked(ann, line + "attributetypes,objectClasses,ldapSyntaxes")[0][0][1]
        same(sorted(told), ["attributeTypes", "ldapSyntaxes", "objectClasses"])
        uuid = 0xa0000000_0000_4000_8000_000000000002
        wanted = f"( 2.25.{uuid} NAME 'cn' {TEXT_RULES} SYNTAX {DIRECTORY_STRING} SINGLE-VALUE )"
        same(told["attributeTypes"][1].decode(), wanted)
        by_name = {line.split(b"'")[1].decode(): line.decode().partition("' ")[2] for line in told["objectClasses"]}
        same((len(told["attributeTypes"]), len(by_name)), (19 + 12, 7 + 1))
        same(by_name["computer"], "SUP user STRUCTURAL MAY ( dNSHostName $ cn ) )")
        same(by_name["group"], "SUP top STRUCTURAL MUST objectSid MAY ( member $ cn ) )")
        same(by_name["top"][:20], "ABSTRACT MUST object")
        same(asked(ann, line + "+ types-only=yes", page(5))[0][0][1]["objectClasses"], [])
        same(asked(ann, f"search base='{name}' filter='(cn=*)'")[:2], ([], 32))


def ranges():
    """Ranges join to all values, 1,500 at a time; what isn't one asks for nothing."""
    with Bridge() as bridge:
        admin = bridge.client("admin", "adm1n")
        numbers = [str(at) for at in range(3100)]
        for at in range(0, 3100, 775):
            values = " ".join(f"add:description={one}" for one in numbers[at : at + 775])
            same(admin.ask(f"modify dn='{BOB}' {values}"), "# modify: 0 success")
        line = f"search base='{BOB}' attrs="
        for low, last, wanted in ((0, "*", "0-1499"), (0, 1499, "0-1499"), (1500, "*", "1500-2999"),
                                  (3000, "*", "3000-*"), (3000, 9999, "3000-*"), (7, 8, "7-8"), (0, 5000, "0-1499"),
                                  (3099, 3099, "3099-*")):
            ((_, held),), _, _ = asked(admin, f"{line}Description;Range={low}-{last}")
            ((kind, values),) = held.items()
            wanted_values = [one.encode() for one in numbers[low:][: len(values)]]
            same((kind, values), (f"description;range={wanted}", wanted_values))
            same(len(values), len(numbers[low : int(last if last != "*" else 9999) + 1][:1500]))
        for name in ("description;range=3100-*", "description;range=5-4", "description;range=a-b", "none;range=0-*"):
            same(asked(admin, line + name)[0], [(BOB, {})])
        same(asked(admin, line + "cn;range=0-*")[0], [(BOB, {"cn;range=0-*": [b"bob"]})])
        both = asked(admin, line + "description;range=0-1,description,cn", order("description"), page(5))[0][0][1]
        same([(kind, len(values)) for kind, values in both.items()],
             [("cn", 1), ("description;range=0-1", 2), ("description", 3100)])
        some = asked(admin, line + "description;range=0-*", order("description"))[0][0][1]
        same([(kind, len(values)) for kind, values in some.items()], [("description;range=0-1499", 1500)])
        every = asked(admin, line + "'*,description;range=2-3'")[0][0][1]
        same([kind for kind in every if kind.startswith("desc")], ["description;range=2-3"])
        same(asked(admin, line + "description;range=2-3 types-only=yes")[0], [(BOB, {"description;range=2-3": []})])
        groups = asked(admin, f"search base='{ANN}' attrs=memberOf;range=0-*")[0]
        same(groups, [(ANN, {"memberOf;range=0-*": [f"CN=Administrators,{ROOT}".encode()]})])


CASES = (ranges, schema_told, pages, room, orders)
