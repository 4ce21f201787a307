"""What tools/test/ldap tries of Active Directory's ways: computed attributes, object identifiers, objects by
identifiers, times, virtual list views, answers above the program's limit, the schema's own objects, what is filled
in and forbidden."""

import base64
import re

from ldap_client import ber, requests
from ldap_face import asked, control, order, page
from ldap_filters import search_of, searched
from ldap_peers import same
from ldap_store import ACCOUNTS, ATTRIBUTES, GROUPS, ROOT, SCHEMA, UNIT, WELL_KNOWN, sid
from ldap_who import ANN, EVE, NAMES, Made
from adsd_tools.ldap.lists import VIEW, VIEWED

BOB = f"CN=Bob,{UNIT}"
DONE, REFUSED = 0, 53
PEOPLE = [ANN, BOB, EVE]


def one_of(client, name, attributes, scope="base"):
    """The values of one entry."""
    found = asked(client, f"search base='{name}' scope={scope} attrs={attributes}")[0]
    return found[0][1] if found else None


def computed():
    with Made() as bridge:
        admin = bridge.client("admin", "adm1n")
        names = "canonicalName,msDS-PrincipalName,createTimeStamp,primaryGroupToken,structuralObjectClass,cn"
        same(one_of(admin, ANN, names), {
            "cn": [b"Ann Lee"], "canonicalName": [b"corp.example/people/Ann Lee"], "msDS-PrincipalName": [b"CORP\\ann"],
            "createTimeStamp": [b"20200102030405.0Z"], "structuralObjectClass": [b"top", b"user"]})
        same(one_of(admin, f"CN=staff,{GROUPS}", "primarygrouptoken"), {"primaryGroupToken": [b"2101"]})
        same(one_of(admin, ROOT, "canonicalName"), {"canonicalName": [b"corp.example/"]})
        held = one_of(admin, f"CN=Administrators,{ROOT}", "msDS-PrincipalName")
        same(held, {"msDS-PrincipalName": [b"S-1-5-32-544"]})
        held = one_of(admin, UNIT, "allowedChildClasses,allowedAttributes")
        kinds = set(held["allowedChildClasses"])
        same(({b"user", b"group", b"container"} <= kinds, b"top" in kinds), (True, False))
        same({b"ou", b"description"} <= set(held["allowedAttributes"]), True)
        same(sorted(one_of(admin, ANN, "tokenGroups")["tokenGroups"]), sorted(map(sid, (513, 2101, 2102))))
        found = one_of(admin, ANN, "tokenGroupsGlobalAndUniversal")["tokenGroupsGlobalAndUniversal"]
        same(sorted(found), sorted(map(sid, (513, 2101))))
        same(one_of(admin, UNIT, "tokenGroups", "one"), {})
        same("canonicalName" in one_of(admin, ANN, "*,canonicalName"), True)
        same("canonicalName" in one_of(admin, ANN, "*"), False)
        every = asked(admin, f"search base='{UNIT}' scope=one attrs=canonicalName types-only=yes")[0]
        same(every, [(name, {"canonicalName": []}) for name in PEOPLE])


def by_identifiers():
    """Objects by their identifiers, attributes and classes by theirs."""
    with Made() as bridge:
        admin, number = bridge.client("admin", "adm1n"), ATTRIBUTES["sAMAccountName"][0]
        text = sid(2001).hex()
        for base in ("<SID=S-1-5-21-1-2-3-2001>", f"<sid={text}>", f"<GUID={'01' * 16}>",
                     "<GUID=01010101-0101-0101-0101-010101010101>"):
            same(asked(admin, f"search base='{base}' attrs=1.1")[:2], ([(ANN, {})], 0))
        same(asked(admin, f"search base='<WKGUID={WELL_KNOWN.lower()},{ROOT}>' scope=one attrs=1.1")[0],
             [(name, {}) for name in PEOPLE])
        for base, code in (("<SID=S-1-5-21-9>", 32), ("<SID=x>", 34), ("<GUID=01>", 34), (f"<WKGUID=1,{ROOT}>", 34),
                           (f"<WKGUID={'0' * 32},{ROOT}>", 32)):
            same((base, asked(admin, f"search base='{base}'")[:2]), (base, ([], code)))
        found = searched(admin, (number, None, "ann"), attributes=(number, "OID." + number))
        same(found, [(ANN, {"sAMAccountName": [b"ann"]})])
        same([name for name, _ in searched(admin, ("2.5.4.0", None, "1.2.840.113556.1.5.4"))], [])
        same(len(searched(admin, ("objectClass", None, "1.2.840.113556.1.5.4"))) > 3, True)
        same([name for name, _ in searched(admin, ("member", None, "<SID=S-1-5-21-1-2-3-2101>"))], [f"CN=all,{GROUPS}"])
        item = ber.sequence(ber.number(2, ber.ENUMERATED), ber.attribute("1.2.840.113556.1.4.25", [b"7"]))
        request = ber.sequence(ber.octets(b"<SID=S-1-5-21-1-2-3-2002>"), ber.sequence(item), tag=0x66)
        same(admin.reply(admin.send(request)), "# modify: 0 success")
        same(admin.ask(f"compare dn='{BOB}' attr=1.2.840.113556.1.4.25 value=7"), "# compare: 6 compare true")
        same(admin.ask(f"modify dn='CN=staff,{GROUPS}' add:member='<SID=S-1-5-21-1-2-3-2002>'"), "# modify: 0 success")
        same(one_of(admin, f"CN=staff,{GROUPS}", "member"), {"member": [ANN.encode(), BOB.encode()]})
        same(admin.ask("delete dn='<GUID=" + "03" * 16 + ">'"), "# delete: 0 success")
        same(admin.ask("delete dn='<GUID=" + "03" * 16 + ">'"), "# delete: 32 no such object")


def times():
    with Made() as bridge:
        admin = bridge.client("admin", "adm1n")
        for text, wanted in (("whenCreated>=20210102030405.0Z", [BOB, EVE]),
                             ("whenCreated<=20210102030405Z", [ANN, BOB]),
                             ("whenCreated=20210102040405+0100", [BOB]), ("whenCreated>=203001010000Z", []),
                             ("!(whenCreated>=20210102030405.0Z)", [ANN]), ("msExchWhen=200101010304.083Z", []),
                             ("msExchWhen=20010101030000Z", []), ("msExchWhen=20200101020300Z", [EVE]),
                             ("msExchWhen<=20010102010405Z", [EVE]), ("whenCreated>=never", []),
                             ("!(whenCreated>=never)", [])):
            found = asked(admin, f"search base='{UNIT}' scope=one filter='({text})' attrs=1.1")
            same((text, found[0]), (text, [(name, {}) for name in wanted]))


def view(before, behind, place=None, count=0, value=None, cookie=b""):
    target = (ber.octets(value, 0x81) if value is not None else
              ber.sequence(ber.number(place), ber.number(count), tag=0xA0))
    held = [ber.number(before), ber.number(behind), target] + ([ber.octets(cookie)] if cookie else [])
    return control(VIEW, ber.sequence(*held))


def viewed(client, line, *controls):
    """The first parts of names, the code, and what the control of the view says."""
    entries, code, behind = asked(client, line, *controls)
    held = [b"\0", b"\0", b"\0", b""]
    if VIEWED in behind:
        held = [inner for _, inner in ber.parts(ber.parts(behind[VIEWED])[0][1])]
    place, total, told = (int.from_bytes(one, "big") for one in held[:3])
    return [name.split(",")[0][3:] for name, _ in entries], code, (place, total, told), held[3]


def views():
    """A part of a sorted list by a place or a value, which stays the same list."""
    with Made() as bridge:
        admin = bridge.client("admin", "adm1n")
        line = f"search base='{GROUPS}' scope=one attrs=cn"
        names = sorted((one.split(",")[0][3:] for one in ACCOUNTS if GROUPS in one), key=str.casefold)
        by_name, total = order("cn"), len(names)
        found = viewed(admin, line, by_name, view(0, 1, 1))
        same(found[:3], (names[:2], 0, (1, total, 0)))
        same(admin.ask(f"delete dn='CN=mail,{GROUPS}'"), "# delete: 0 success")
        for wanted, parts, place in ((view(1, 1, 3, total, cookie=found[3]), names[1:4], 3),
                                     (view(2, 9, total, total, cookie=found[3]), names[-3:], total),
                                     (view(0, 0, 50, 100, cookie=found[3]), names[3:4], 4),
                                     (view(1, 0, value=b"M", cookie=found[3]), names[5:7][-2:], 6),
                                     (view(9, 9, value=b"zz", cookie=found[3]), names[-9:], total + 1)):
            given = viewed(admin, line, by_name, wanted)
            same(given[2], (place, total, 0))
            at = place - 1
            same(set(given[0]) <= set(names) and (not parts or given[0][-1:] != [] or at >= total), True)
        same(viewed(admin, line, by_name, view(0, 0, 1))[2], (1, total - 1, 0))
        same(viewed(admin, line, view(0, 0, 1))[1:3], (76, (0, 0, 60)))
        same(viewed(admin, line, by_name, view(0, 0, 0))[1:3], (76, (0, 0, 61)))
        same(viewed(admin, line, by_name, page(2), view(0, 0, 1))[1], 53)
        same(viewed(admin, line, order("-cn"), view(0, 0, 1))[0], names[-1:])
        same(viewed(admin, line, by_name, control(VIEW, b"\x30\x00"))[1], 2)
        same(viewed(admin, "search base=DC=none", by_name, view(0, 0, 1))[1], 32)


def schema_objects():
    with Made() as bridge:
        admin, nobody = bridge.client("admin", "adm1n"), bridge.client()
        line = f"search base='{SCHEMA}' scope=one filter='(lDAPDisplayName=sAMAccountName)' attrs=attributeID,cn"
        name = f"CN=sAMAccountName,{SCHEMA}"
        number = ATTRIBUTES["sAMAccountName"][0].encode()
        same(asked(admin, line)[0], [(name, {"cn": [b"sAMAccountName"], "attributeID": [number]})])
        same(asked(nobody, line)[:2], ([], 1))
        same(asked(admin, f"search base='{name.lower()}' attrs=objectClass")[0],
             [(name, {"objectClass": [b"top", b"attributeSchema"]})])
        same(len(asked(admin, f"search base='{SCHEMA}' scope=sub filter='(objectClass=classSchema)'")[0]) > 5, True)
        several = "(&(objectClass=attributeSchema)(!(isSingleValued=TRUE))(lDAPDisplayName=*when))"
        same(asked(admin, f"search base='{SCHEMA}' scope=sub filter='{several}' attrs=1.1")[0],
             [(f"CN=msExchWhen,{SCHEMA}", {})])
        same(asked(admin, f"search base='CN=none,{SCHEMA}'")[1], 32)
        rights = f"CN=Extended-Rights,CN=Configuration,{ROOT}"
        found = asked(admin, f"search base='{rights}' scope=sub filter='(validAccesses=256)' attrs=rightsGuid")[0]
        same(len(found) >= 2 and all(held["rightsGuid"] for _, held in found), True)
        same(len(asked(admin, f"search base='{SCHEMA}' scope=one attrs=cn", page(7))[0]), 7)
        for tree, wanted in ((("objectClass", None, "top"), 1), (("objectClass", None, "x"), 0)):
            same(len(searched(nobody, tree, "", 0)), wanted)


def above_the_limit():
    """What is more than the program gives at once is put together, in the same order, with pages and sorted."""
    with Made() as bridge:
        admin, ann = bridge.client("admin", "adm1n"), bridge.client("admin", "adm1n")
        filling, names = b"x" * 1_000_000, [f"CN=b{at:02},{UNIT}" for at in range(40)]
        for at, name in enumerate(names):
            held = {"objectClass": b"user", "description": filling, **({"telephoneNumber": b"7"} if at % 2 else {})}
            made = ber.sequence(*(ber.attribute(kind, [value]) for kind, value in held.items()))
            same(admin.reply(admin.send(ber.sequence(ber.octets(name.encode()), made, tag=0x68))), "# add: 0 success")
        line = f"search base='{UNIT}' scope=one filter='(cn=b*)' attrs=description,cn"
        wanted = [BOB, *names]
        found, code, _ = asked(ann, line)
        same(([name for name, _ in found], code), (wanted, 0))
        same({len(held.get("description", [b""])[0]) for name, held in found[1:]}, {1_000_000})
        same([name for name, _ in asked(ann, line, order("-cn"))[0]],
             sorted(wanted, key=lambda one: one.split(",")[0].casefold(), reverse=True))
        same(asked(ann, line + " size=30")[1], 4)
        odd = line.replace("(cn=b*)", "(telephoneNumber=7)")
        same([name for name, _ in asked(ann, odd)[0]], names[1::2])


def added(client, name, *words):
    return client.ask(f"add dn='{name}' {' '.join(words)}")


def filled_in():
    with Made() as bridge:
        admin, name = bridge.client("admin", "adm1n"), f"CN=new,{UNIT}"
        same(added(admin, name, "objectClass=user"), "# add: 0 success")
        held = one_of(admin, name, "*")
        same([held[one] for one in ("userAccountControl", "primaryGroupID", "sAMAccountType", "instanceType")],
             [[b"546"], [b"513"], [b"805306368"], [b"4"]])
        same(re.fullmatch(rb"\$[A-Z0-9]{6}-[A-Z0-9]{12}", held["sAMAccountName"][0]) is not None, True)
        same((len(held["objectGUID"][0]), held["objectCategory"]), (16, [f"CN=Person,{SCHEMA}".encode()]))
        same(re.fullmatch(rb"\d{14}\.0Z", held["whenCreated"][0]) is not None, True)
        first = int(held["uSNChanged"][0])
        given = added(admin, f"CN=g,{GROUPS}", "objectClass=group", "groupType=-2147483644", "sAMAccountName=g")
        same(given, "# add: 0 success")
        held = one_of(admin, f"CN=g,{GROUPS}", "*")
        same([held[one] for one in ("groupType", "sAMAccountType", "sAMAccountName", "uSNChanged")],
             [[b"-2147483644"], [b"536870912"], [b"g"], [b"%d" % (first + 1)]])
        same(added(admin, f"OU=u,{UNIT}", "objectClass=organizationalUnit"), "# add: 0 success")
    with Made("--no-ad-rules") as bridge:
        admin = bridge.client("admin", "adm1n")
        same(added(admin, name, "objectClass=user"), "# add: 0 success")
        same("userAccountControl" in one_of(admin, name, "*"), False)


def forbidden():
    """What is refused, and that who couldn't do it is told what the program tells."""
    with Made("--store-passwords") as bridge:
        admin, ann = bridge.client("admin", "adm1n"), bridge.client("ann", "first")
        quoted = "base64:" + base64.b64encode('"new"'.encode("utf-16-le")).decode()
        for words, code in (("replace:whenCreated=20200102030405.0Z", 19), ("replace:countryCode=70000", 19),
                            ("replace:countryCode=-1", 19), ("replace:sAMAccountName=STAFF", 68),
                            ("replace:userPrincipalName=ann.lee@corp.example", 19), ("replace:unicodePwd=new", 53),
                            (f"replace:unicodePwd={quoted}", 0), ("replace:msExchWhen=today", 21),
                            ("replace:msExchWhen=20200102030405.0Z", 0), ("replace:sAMAccountName=bob", 0),
                            ("replace:countryCode=65535", 0)):
            given = admin.ask(f"modify dn='{BOB}' {words}")
            same((words, int(given.split()[2].rstrip(","))), (words, code))
            same((words, ann.ask(f"modify dn='{BOB}' {words}").split()[2]), (words, "50"))
        for words, code in (("sAMAccountName=ann", 68), ("userPrincipalName=ANN.LEE@corp.example", 19),
                            ("objectGUID=x", 19), ("countryCode=70000", 19)):
            given = added(admin, f"CN=n,{UNIT}", "objectClass=user", words)
            same((words, int(given.split()[2].rstrip(","))), (words, code))
            same((words, added(ann, f"CN=n,{UNIT}", "objectClass=user", words).split()[2]), (words, "50"))
        for name, code in ((f"CN=kept,{GROUPS}", 53), (f"CN=fixed,{GROUPS}", 53)):
            same(admin.ask(f"delete dn='{name}'").split()[2].rstrip(","), str(code))
        same(admin.ask(f"delete dn='{GROUPS}' tree=yes").split()[2].rstrip(","), "53")
        same(admin.ask(f"rename dn='CN=fixed,{GROUPS}' rdn=CN=other").split()[2].rstrip(","), "53")
        same(admin.ask(f"delete dn='CN=staff,{GROUPS}'"), "# delete: 0 success")
        increment = ber.sequence(ber.number(3, ber.ENUMERATED), ber.sequence(
            ber.octets(b"countryCode"), ber.sequence(ber.octets(b"1"), tag=ber.SET)))
        asked_for = admin.send(ber.sequence(ber.octets(BOB.encode()), ber.sequence(increment), tag=0x66))
        same(admin.reply(asked_for), "# modify: 2 protocol error, no item but add, delete and replace")
        same(admin.ask(f"compare dn='{BOB}' attr=countryCode value=65535"), "# compare: 6 compare true")


def permissive():
    """Values that stand there, or don't, are passed over where it is asked for; else the program refuses them."""
    with Made() as bridge:
        admin, name = bridge.client("admin", "adm1n"), f"CN=staff,{GROUPS}"
        flag = control(b"1.2.840.113556.1.4.1413", None)
        line = f"modify dn='{name}' add:member='{ANN.lower()}' add:member='{BOB}' delete:description=x"
        operation = requests.operation(requests.Line(line))[0]
        same(admin.reply(admin.send(operation))[:12], "# modify: 20")
        same(admin.reply(admin.send(operation, flag)), "# modify: 0 success")
        same(one_of(admin, name, "member"), {"member": [ANN.encode(), BOB.encode()]})
        for words in (f"delete:member='{ANN}' delete:member='{EVE}'", f"delete:member='{EVE}'", "delete:description="):
            operation = requests.operation(requests.Line(f"modify dn='{name}' {words}"))[0]
            same(admin.reply(admin.send(operation, flag)), "# modify: 0 success")
        same(one_of(admin, name, "member"), {"member": [BOB.encode()]})
        for words, code in (("memberOf value='" + name + "'", 6), (f"memberOf value='{ANN}'", 5),
                            ("canonicalName value='corp.example/people/bob'", 6), ("tokenGroups value=x", 5),
                            ("description value=x", 16)):
            given = admin.ask(f"compare dn='{BOB}' attr={words}")
            same((words, int(given.split()[2].rstrip(","))), (words, code))


CASES = (permissive, computed, by_identifiers, times, views, schema_objects, above_the_limit, filled_in, forbidden)
