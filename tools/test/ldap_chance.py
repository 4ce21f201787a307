"""Searches and changes by chance of ten accounts with rights by chance, asked of Samba's server and of tools/adsd-ldap
over the same domain, by tools/test/ldap-samba. Called with a URL and the secret of the accounts it asks, and prints
the answers in JSON; both sides ask the same, since chance begins from the same seed."""

import json
import os
import random
import sys

sys.dont_write_bytecode = True
sys.path.insert(0, os.path.dirname(os.path.abspath(__file__)))

ROOT, SEED, SECONDS = "DC=corp,DC=example", 65, 120
TOP = f"OU=chance,{ROOT}"
UNITS = [f"OU=u{at},{TOP}" for at in range(3)]
ACCOUNTS, GROUPS = [f"r{at}" for at in range(10)], [f"q{at}" for at in range(4)]
TEXTS = ("description", "displayName", "telephoneNumber", "department")
VALUES = ("one", "two", "three")
# What the class group has of these.
GROUPS_HAVE = ("description", "displayName", "telephoneNumber")
SEARCHES, CHANGES = 12, 12
# The GUIDs of these attributes in the schema, and of the class user.
GUIDS = {"description": "bf967950-0de6-11d0-a285-00aa003049e2", "displayName": "bf967953-0de6-11d0-a285-00aa003049e2",
         "telephoneNumber": "bf967a49-0de6-11d0-a285-00aa003049e2", "department": "bf96794f-0de6-11d0-a285-00aa003049e2"}
# Makes them in a domain.
BY_SAMBA = """
import json, random, sys
sys.path.insert(0, sys.argv[2])
import ldap_chance as it
import ldb
from samba.auth import system_session
from samba.dcerpc import security
from samba.ndr import ndr_unpack
from samba.param import LoadParm
from samba.samdb import SamDB
from samba.sd_utils import SDUtils

settings = LoadParm()
settings.load_default()
database = SamDB(sys.argv[1], session_info=system_session(), lp=settings)
lists, dice, sids = SDUtils(database), random.Random(it.SEED), {}
database.transaction_start()
for name in (it.TOP, *it.UNITS):
    database.create_ou(name)
for at, (name, place) in enumerate(it.placed()):
    inner = place.replace("," + it.ROOT, "")
    if name[0] == "r":
        database.newuser(name, "Passw0rd-x1", userou=inner)
    else:
        database.newgroup(name, groupou=inner)
    dn = f"CN={name},{place}"
    held = database.search(dn, scope=ldb.SCOPE_BASE, attrs=["objectSid"])[0]
    sids[name] = str(ndr_unpack(security.dom_sid, held["objectSid"][0]))
    changed = ldb.Message(ldb.Dn(database, dn))
    for kind in it.TEXTS:
        if dice.random() < 0.6 and (name[0] == "r" or kind in it.GROUPS_HAVE):
            changed[kind] = ldb.MessageElement(dice.choice(it.VALUES), ldb.FLAG_MOD_REPLACE, kind)
    if len(changed) > 0:
        database.modify(changed)
for group in it.GROUPS:
    members = dice.sample(it.ACCOUNTS, 4)
    database.add_remove_group_members(group, members, add_members_operation=True)
for name, entry in it.entries(dice, sids):
    lists.dacl_add_ace(name, entry)
database.transaction_commit()
"""


def placed():
    """Each account and group, and the unit that it is in."""
    return [(name, UNITS[at % len(UNITS)]) for at, name in enumerate([*ACCOUNTS, *GROUPS])]


def names():
    return [f"CN={name},{place}" for name, place in placed()]


def entries(dice, sids):
    """Entries by chance, at units and objects."""
    for _ in range(50):
        who, kind = sids[dice.choice([*ACCOUNTS, *GROUPS])], GUIDS[dice.choice(TEXTS)]
        rights = dice.choice(("RP", "WP", "RPWP", "RP", "LC", "CC", "DC", "SD", "RC"))
        flags = dice.choice(("", "CI", "CIIO", "CINP"))
        if rights in ("RP", "WP", "RPWP"):
            yield dice.choice([*UNITS, *names()]), f"({dice.choice(('OA', 'OD'))};{flags};{rights};{kind};;{who})"
        else:
            yield dice.choice([*UNITS, *names()]), f"({dice.choice('AD')};{flags};{rights};;;{who})"


def item(dice):
    kind = dice.choice(TEXTS)
    return dice.choice((f"({kind}=*)", f"({kind}={dice.choice(VALUES)})", f"({kind}=t*)", f"({kind}>=t)",
                        f"(cn=r{dice.randrange(10)})", "(objectClass=user)", f"(memberOf=CN={dice.choice(GROUPS)},{UNITS[0]})"))


def tree(dice, depth):
    if depth == 0 or dice.random() < 0.4:
        return item(dice)
    sign = dice.choice("&|!")
    return f"({sign}{''.join(tree(dice, depth - 1) for _ in range(1 if sign == '!' else 2))})"


def searches(dice):
    """What one account asks."""
    for _ in range(SEARCHES):
        asked = dice.sample([*TEXTS, "cn", "member", "memberOf", "objectSid", "sAMAccountName"], 4)
        yield dice.choice([TOP, *UNITS]), dice.choice(("one", "sub")), tree(dice, 2), asked


def changes(dice):
    """What one account changes: a text, an object more, one less."""
    for at in range(CHANGES):
        name, kind = dice.choice([*UNITS, *names()]), dice.choice(TEXTS)
        call = dice.choice(("replace", "replace", "delete", "add", "remove"))
        if call == "add":
            yield call, f"OU=new{at},{dice.choice(UNITS)}", ""
        elif call == "remove":
            yield call, f"OU=new{dice.randrange(CHANGES)},{dice.choice(UNITS)}", ""
        else:
            yield call, name, f"{kind}={dice.choice(VALUES)}"


def answers(connected, ldap):
    """What each account is answered: entries by name with what was asked for, and codes of changes."""
    found, scopes = {}, {"one": ldap.SCOPE_ONELEVEL, "sub": ldap.SCOPE_SUBTREE}
    for name, place in placed():
        if name in GROUPS:
            continue
        one, dice, held = connected(f"CN={name},{place}"), random.Random(f"{SEED}{name}"), []
        for base, scope, text, asked in searches(dice):
            try:
                got = one.search_s(base, scopes[scope], text, asked)
                held.append({dn.lower(): {key.lower(): sorted(map(bytes.hex, values)) for key, values in told.items()}
                             for dn, told in got if dn})
            except ldap.LDAPError as fault:
                held.append(code_of(fault))
        found[name] = held
    for name, place in placed():
        if name in ACCOUNTS:
            one, dice = connected(f"CN={name},{place}"), random.Random(f"{SEED}{name}changes")
            found[name].append([changed(one, ldap, *told) for told in changes(dice)])
    return found


def code_of(fault):
    told = fault.args[0] if fault.args and isinstance(fault.args[0], dict) else {}
    return told.get("result", type(fault).__name__)


def changed(one, ldap, call, name, told):
    kind, _, value = told.partition("=")
    try:
        if call == "add":
            one.add_s(name, [("objectClass", [b"organizationalUnit"])])
        elif call == "remove":
            one.delete_s(name)
        else:
            one.modify_s(name, [(ldap.MOD_REPLACE if call == "replace" else ldap.MOD_DELETE, kind,
                                 [value.encode()] if call == "replace" else None)])
        return 0
    except ldap.LDAPError as fault:
        return code_of(fault)


def main(url, secret):
    import ldap
    import ldap_probing

    def connected(name):
        one = ldap_probing.connected(url)
        one.simple_bind_s(name, secret)
        return one

    print(json.dumps(answers(connected, ldap)))


if __name__ == "__main__":
    main(*sys.argv[1:])
