"""What tools/test/ldap tries of who would become more: a delegate's changes, in many spellings. The directory is that
of ldap_store with tools/test/delegate.ldif behind it."""

import os
from types import SimpleNamespace

import ldap_guarded
from ldap_client import TOP, ber, requests
from ldap_face import asked, control
from ldap_peers import BOUND, same
from ldap_store import DOMAIN, GROUPS, ROOT
from ldap_who import ANN, NAMES, Made
from adsd_tools.forms.sids import sid_of_text
from adsd_tools.ldap import guards
from adsd_tools.ldap.operations import RENAME, Operation
from adsd_tools.ldap.searches import Refused
from adsd_tools.rows.schema import Lines

WORK, SECRET = f"OU=work,{ROOT}", f"OU=secret,{ROOT}"
VIC, SRV, ADMINS = f"CN=vic,{WORK}", f"CN=srv,{WORK}", f"CN=Domain Admins,{GROUPS}"
PEOPLE = "".join(f"{name} password=pw\n" for name in ("del", "few", "vic", "new"))
NUMBERS = {"g1": "3010", "m1": "3011"}
PRIMARY, LOGIN_OID = "1.2.840.113556.1.4.98", "1.2.840.113556.1.4.221"
ACTS = {"add": 0, "delete": 1, "replace": 2, "increment": 3}
PERMISSIVE = b"1.2.840.113556.1.4.1413"
KEPT = "primaryGroupID,userAccountControl,sIDHistory,sAMAccountName,description"


def delegate():
    with open(os.path.join(TOP, "tools/test/delegate.ldif"), encoding="utf-8") as file:
        return "\n" + file.read()


def over(*words, more="", names=""):
    return Made(*words, names=NAMES + PEOPLE + names, more=delegate() + more)


def value_of(text):
    """The bytes of a value of the table."""
    text = text.format(**NUMBERS)
    return sid_of_text(text[1:-1]) if text.startswith("<") else text.encode()


def message(change, at):
    """The operation of a change of the table; a new object has a number in its name."""
    if not change.of_class:
        return modification(f"CN={change.name},{WORK}", *change.items)
    login = f"{change.name}{at}" + ("$" if change.of_class == "computer" else "")
    given = [("add", "objectClass", (change.of_class,))]
    if all(name != "sAMAccountName" for _, name, _ in change.items):
        given.append(("add", "sAMAccountName", (login,)))
    return addition(f"CN={change.name}{at},{WORK}", *given, *change.items)


def modification(name, *items):
    held = [ber.sequence(ber.number(ACTS[act], ber.ENUMERATED), ber.attribute(kind, list(map(value_of, values))))
            for act, kind, values in items]
    return ber.sequence(ber.octets(name.encode()), ber.sequence(*held), tag=0x66)


def addition(name, *items):
    held = [ber.attribute(kind, list(map(value_of, values))) for _, kind, values in items]
    return ber.sequence(ber.octets(name.encode()), ber.sequence(*held), tag=0x68)


def code(client, operation, *controls):
    """The code of the answer to an operation."""
    return int(client.reply(client.send(operation, *controls)).split()[2].rstrip(","))


def changed(client, name, *words, controls=()):
    """The code of a Modify of words as in the table."""
    return code(client, modification(name, *map(ldap_guarded.item_of, words)), *controls)


def table():
    """The delegate's changes get the codes of the table, and leave nothing that wasn't to be."""
    with over() as bridge:
        one, admin = bridge.client("del", "pw"), bridge.client("admin", "adm1n")
        for at, change in enumerate(ldap_guarded.CHANGES):
            before = asked(admin, f"search base='{VIC}' attrs={KEPT}")[0]
            same((change, code(one, message(change, at))), (change, change.code))
            if change.code:
                same(asked(admin, f"search base='{VIC}' attrs={KEPT}")[0], before)
                same(asked(admin, f"search base='CN=new{at},{WORK}'")[1], 32)


def as_the_profile_has_it():
    """With --profile-rules the delegate becomes Domain Admin in two changes; without it neither is made."""
    for words, wanted in (((), (53, 53, None)), (("--profile-rules",), (0, 0, b"top secret"))):
        with over(*words) as bridge:
            one = bridge.client("del", "pw")
            same(asked(bridge.client("vic", "pw"), f"search base='{SECRET}' attrs=description")[0], [])
            made = addition(f"CN=new,{WORK}", ("add", "objectClass", ("user",)), ("add", "sAMAccountName", ("new",)),
                            ("add", "primaryGroupID", ("512",)))
            given = code(one, made), changed(one, VIC, "replace:primaryGroupID=512")
            found = asked(bridge.client("vic", "pw"), f"search base='{SECRET}' attrs=description")[0]
            same((*given, found[0][1]["description"][0] if found else None), wanted)
            same(bridge.client().bind("new", "pw") == BOUND, wanted[0] == 0)


def spellings():
    """However a change is spelled, and with whatever beside it."""
    with over() as bridge:
        one, few = bridge.client("del", "pw"), bridge.client("few", "pw")
        flag = control(PERMISSIVE, None)
        for words in (("replace:" + PRIMARY + "=512",), ("replace:OID." + PRIMARY + "=512",),
                      ("replace:oid." + PRIMARY + "=512",), ("replace:primaryGroupID=00512",),
                      ("replace:primaryGroupID={g1}", "replace:primaryGroupID=512"),
                      ("replace:primaryGroupID=512", "replace:primaryGroupID={g1}"),
                      ("add:description=y", "replace:primaryGroupID=513", "replace:PrimaryGroupId=512")):
            same((words, changed(one, VIC, *words) in (21, 53)), (words, True))
            same((words, changed(one, VIC, *words, controls=(flag,)) in (21, 53)), (words, True))
        same(changed(one, VIC, "replace:primaryGroupID;x=512"), 17)
        same(changed(one, VIC, "increment:primaryGroupID=-1"), 2)
        same(changed(one, VIC, "replace:" + LOGIN_OID + "=DEL"), 68)
        same(changed(one, VIC, "replace:userAccountControl=-1"), 50)
        same(changed(one, VIC, "delete:primaryGroupID=1", controls=(flag,)), 0)
        for words in (("replace:primaryGroupID=512",), ("replace:dNSHostName=srv.corp.example",
                                                        "replace:primaryGroupID=512")):
            same((words, changed(few, SRV, *words)), (words, 53))
        same(changed(few, SRV, "replace:dNSHostName=srv.corp.example"), 0)
        beside_a_list(one)
        renames(one)
        twice(one)
        untold(bridge)
        held = asked(bridge.client("admin", "adm1n"), f"search base='{VIC}' attrs=primaryGroupID,sAMAccountName")[0]
        same(held, [(VIC, {"primaryGroupID": [b"513"], "sAMAccountName": [b"vic"]})])


def beside_a_list(one):
    """What stands beside a descriptor is judged too."""
    line = f"modify dn='{VIC}' sd=dacl replace:nTSecurityDescriptor='sddl:D:(A;;GA;;;SY)' replace:primaryGroupID=512"
    same(one.ask(line).split()[2].rstrip(","), "53")


def renames(one):
    """A rename writes no login and no primary group."""
    for first in ("sAMAccountName=del", "primaryGroupID=512", f"{PRIMARY}=512"):
        same((first, one.ask(f"rename dn='{VIC}' rdn={first}").split()[2].rstrip(",")), (first, "64"))
    same(one.ask(f"rename dn='{VIC}' rdn=CN=del2"), "# rename: 0 success")
    same(one.ask(f"rename dn='CN=del2,{WORK}' rdn=CN=vic"), "# rename: 0 success")


def twice(one):
    """An attribute that an Add gives twice, either first."""
    for first, second in (("513", "512"), ("512", "513")):
        given = addition(f"CN=two,{WORK}", ("add", "objectClass", ("user",)), ("add", "primaryGroupID", (first,)),
                         ("add", "primarygroupid", (second,)))
        same(code(one, given), 53)
    given = addition(f"CN=two,{WORK}", ("add", "objectClass", ("user",)), ("add", "primaryGroupID", ("513", "512")))
    same(code(one, given), 53)
    # A class that the bridge can't tell is the program's to refuse, and what is guarded is refused before.
    given = addition(f"CN=two,{WORK}", ("add", "objectClass", ("user", "group")), ("add", "primaryGroupID", ("512",)))
    same(code(one, given), 53)


def untold(bridge):
    """Who couldn't make a change is told what the program tells: not whether a login is taken, or who is in a group."""
    few = bridge.client("few", "pw")
    for words in ("replace:sAMAccountName=del", "replace:sAMAccountName=nobodys", "replace:userAccountControl=524800",
                  "replace:sIDHistory=<S-1-5-21-1-2-3-512>"):
        same((words, changed(few, VIC, words)), (words, 50))
    for number in ("512", "{g1}"):
        same(changed(few, ANN, f"replace:primaryGroupID={number}"), 50)


def administrators():
    """Administrators set the bits of trust and take identifiers of before away, and no more than others."""
    with over("--no-ad-rules") as bridge:
        admin = bridge.client("admin", "adm1n")
        same(changed(admin, SRV, "replace:userAccountControl=528384"), 0)
        same(changed(admin, VIC, f"add:sIDHistory=<{DOMAIN}-512>"), 53)
        same(changed(admin, VIC, "delete:sIDHistory"), 0)
        same(changed(admin, VIC, "replace:primaryGroupID=512"), 53)
        same(changed(admin, VIC, "replace:sAMAccountName=del"), 68)
        same(changed(admin, VIC, "replace:whenCreated=20200102030405.0Z"), 19)
        same(changed(admin, ADMINS, f"add:member={VIC}"), 0)
        same(changed(admin, VIC, "replace:primaryGroupID=512"), 0)
        same(changed(bridge.client("del", "pw"), SRV, "replace:userAccountControl=528384"), 0)
        same(changed(bridge.client("del", "pw"), SRV, "replace:userAccountControl=16781312"), 50)
    denied = f"half password=pw user={DOMAIN}-3001 groups=AU,WD deny=BA\n"
    with over(names=denied) as bridge:
        same(changed(bridge.client("half", "pw"), SRV, "replace:userAccountControl=528384"), 50)


def named_by_login():
    """Where objects are named by what is guarded, a rename doesn't write it."""
    schema = SimpleNamespace(classes=[Lines({"rdnattid": [b"cn"]}), Lines({"rdnattid": [b"sAMAccountName"]})])

    def refused(front, known=schema):
        try:
            guards.renamed(Operation(RENAME, VIC.encode(), front=front), known)
            return 0
        except Refused as why:
            return why.code

    same([refused(one) for one in (b"CN=x", b"samAccountName=x", b" SAMACCOUNTNAME = x", b"nothing", b"")],
         [0, 53, 53, 34, 0])
    same([refused(one, SimpleNamespace(classes=schema.classes[:1])) for one in (b"sAMAccountName=x", b"no")], [0, 0])


CASES = (table, as_the_profile_has_it, spellings, administrators, named_by_login)
