"""Asks tools/adsd-ldap by python-ldap: with_ldap.py URL NAME PASSWORD BASE ACCOUNT. Prints what it found."""

import sys

import ldap
import ldap.modlist
import ldap.schema
from ldap.controls import SimplePagedResultsControl
from ldap.controls.sss import SSSRequestControl
from ldap.controls.vlv import VLVRequestControl, VLVResponseControl

url, name, password, base, account = sys.argv[1:]
one = ldap.initialize(url)
one.set_option(ldap.OPT_REFERRALS, 0)
one.simple_bind_s(name, password)
count, page = 0, SimplePagedResultsControl(True, 50, "")
while True:
    asked = one.search_ext(base, ldap.SCOPE_SUBTREE, "(objectClass=*)", ["1.1"], serverctrls=[page])
    _, found, _, told = one.result3(asked)
    count += len(found)
    page.cookie = told[0].cookie
    if not page.cookie:
        break
print("paged", count > 10)
held = one.read_subschemasubentry_s(one.search_subschemasubentry_s())
schema = ldap.schema.SubSchema(held)
print("schema", schema.get_obj(ldap.schema.AttributeType, "cn").single_value,
      schema.get_obj(ldap.schema.ObjectClass, "computer").sup)
view = VLVRequestControl(True, 0, 2, 2, 0)
controls = [SSSRequestControl(ordering_rules=["cn"]), view]
asked = one.search_ext(base, ldap.SCOPE_SUBTREE, "(cn=*)", ["cn"], serverctrls=controls)
_, found, _, told = one.result3(asked)
print("view", len(found), [control.targetPosition for control in told if isinstance(control, VLVResponseControl)])
found = one.search_s(base, ldap.SCOPE_SUBTREE, f"(sAMAccountName={account})", ["cn"])
print("found", found[0][1]["cn"][0].decode())
unit = f"OU=by python,{base}"
one.add_s(unit, ldap.modlist.addModlist({"objectClass": [b"organizationalUnit"]}))
one.modify_s(unit, [(ldap.MOD_REPLACE, "description", [b"by Python"])])
print("compare", one.compare_s(unit, "description", b"by Python"))
one.rename_s(unit, "OU=by snakes")
one.delete_s(f"OU=by snakes,{base}")
print("who", bool(one.whoami_s()))
try:
    one.simple_bind_s(name, "wrong")
except ldap.INVALID_CREDENTIALS:
    print("refused")
