"""The directory that tools/test/ldap tries Active Directory's ways on: examples/base.ldif with attributes as Active
Directory has them, and accounts in it."""

import base64
import functools
import os
import subprocess

from ldap_client import PROGRAM, TOP
from adsd_tools.ask import words
from adsd_tools.forms.sids import sid_of_text
from adsd_tools.ldap.stretching import stretched

ROOT = "DC=corp,DC=example"
UNIT, GROUPS = f"OU=people,{ROOT}", f"OU=groups,{ROOT}"
DOMAIN = "S-1-5-21-1-2-3"
SCHEMA = f"CN=Schema,CN=Configuration,{ROOT}"
# Attributes: object identifier, syntax, and further lines.
ATTRIBUTES = {
    "sAMAccountName": ("1.2.840.113556.1.4.221", "2.5.5.12", "rangeUpper: 256\nrangeLower: 0\n"),
    "userPrincipalName": ("1.2.840.113556.1.4.656", "2.5.5.12", ""),
    "userAccountControl": ("1.2.840.113556.1.4.8", "2.5.5.9", ""),
    "accountExpires": ("1.2.840.113556.1.4.159", "2.5.5.16", ""),
    "sAMAccountType": ("1.2.840.113556.1.4.302", "2.5.5.9", ""),
    "groupType": ("1.2.840.113556.1.4.750", "2.5.5.9", ""),
    "instanceType": ("1.2.840.113556.1.2.1", "2.5.5.9", "systemOnly: TRUE\n"),
    "objectCategory": ("1.2.840.113556.1.4.782", "2.5.5.1", ""),
    "objectGUID": ("1.2.840.113556.1.4.2", "2.5.5.10", "systemOnly: TRUE\n"),
    "whenCreated": ("1.2.840.113556.1.2.2", "2.5.5.11", "systemOnly: TRUE\n"),
    "whenChanged": ("1.2.840.113556.1.2.3", "2.5.5.11", "systemOnly: TRUE\n"),
    "uSNCreated": ("1.2.840.113556.1.2.19", "2.5.5.16", "systemOnly: TRUE\n"),
    "uSNChanged": ("1.2.840.113556.1.2.120", "2.5.5.16", "systemOnly: TRUE\n"),
    "systemFlags": ("1.2.840.113556.1.4.375", "2.5.5.9", "systemOnly: TRUE\n"),
    "isCriticalSystemObject": ("1.2.840.113556.1.4.868", "2.5.5.8", "systemOnly: TRUE\n"),
    "wellKnownObjects": ("1.2.840.113556.1.4.618", "2.5.5.7", "isSingleValued: FALSE\n"),
    "countryCode": ("1.2.840.113556.1.4.25", "2.5.5.9", "rangeUpper: 65535\nrangeLower: 0\n"),
    "msExchWhen": ("1.2.840.113556.1.4.7000.1", "2.5.5.11", "isSingleValued: FALSE\n"),
    "sIDHistory": ("1.2.840.113556.1.4.609", "2.5.5.17", "isSingleValued: FALSE\n"),
    "isDeleted": ("1.2.840.113556.1.2.48", "2.5.5.8", ""),
    "pwdLastSet": ("1.2.840.113556.1.4.96", "2.5.5.16", ""),
    "lockoutTime": ("1.2.840.113556.1.4.662", "2.5.5.16", ""),
    "maxPwdAge": ("1.2.840.113556.1.4.74", "2.5.5.16", ""),
    "lockoutDuration": ("1.2.840.113556.1.4.60", "2.5.5.16", "")}
# Passwords last 42 days, and who is locked out is so for half an hour, in tenths of a microsecond.
DAY, HALF_AN_HOUR = 864_000_000_000, 18_000_000_000
WELL_KNOWN = "A9D1CA15768811D1ADED00C04FD8D5CD"
# Accounts: the class, the number, and further lines.
ACCOUNTS = {
    f"CN=Ann Lee,{UNIT}": ("user", 2001, "sAMAccountName: ann\nuserPrincipalName: ann.lee@corp.example\n"
                           "userAccountControl: 512\nprimaryGroupID: 513\nwhenCreated: 20200102030405.0Z\n"),
    f"CN=Bob,{UNIT}": ("user", 2002, "sAMAccountName: bob\nuserAccountControl: 514\nwhenCreated: 20210102030405.0Z\n"),
    f"CN=Eve,{UNIT}": ("user", 2003, "sAMAccountName: eve\nuserAccountControl: 512\n"
                       "accountExpires: 130000000000000000\nwhenCreated: 20220102030405.0Z\n"
                       "msExchWhen: 2001010203Z\nmsExchWhen: 20010102030405+0200\n"),
    f"CN=Domain Users,{GROUPS}": ("group", 513, "sAMAccountName: Domain Users\ngroupType: -2147483646\n"),
    f"CN=staff,{GROUPS}": ("group", 2101, f"sAMAccountName: staff\ngroupType: -2147483646\n"
                           f"member: CN=Ann Lee,{UNIT}\n"),
    f"CN=all,{GROUPS}": ("group", 2102, f"sAMAccountName: all\ngroupType: -2147483644\nmember: CN=staff,{GROUPS}\n"
                         f"member: CN=Domain Users,{GROUPS}\n"),
    f"CN=mail,{GROUPS}": ("group", 2103, f"sAMAccountName: mail\ngroupType: 2\nmember: CN=Ann Lee,{UNIT}\n"),
    f"CN=behind mail,{GROUPS}": ("group", 2104, f"sAMAccountName: behind\nmember: CN=mail,{GROUPS}\n"),
    f"CN=kept,{GROUPS}": ("group", 2105, "sAMAccountName: kept\nisCriticalSystemObject: TRUE\n"),
    f"CN=fixed,{GROUPS}": ("group", 2106, "sAMAccountName: fixed\nsystemFlags: -1946157056\n")}


def base64_line(name, data):
    return f"{name}:: {base64.b64encode(data).decode()}\n"


def attribute_text(at, name):
    oid, syntax, more = ATTRIBUTES[name]
    guid = base64_line("schemaIDGUID", bytes([at]) + bytes(14) + b"\x66")
    single = "" if "isSingleValued" in more else "isSingleValued: TRUE\n"
    return (f"dn: CN={name}\nobjectClass: attributeSchema\nlDAPDisplayName: {name}\nattributeSyntax: {syntax}\n"
            f"attributeID: {oid}\n{guid}{single}{more}\n")


def text():
    """The text of the directory."""
    with open(os.path.join(TOP, "examples/base.ldif"), encoding="utf-8") as file:
        made = file.read()
    number = "lDAPDisplayName: primaryGroupID\n"
    made = made.replace(number, number + "attributeID: 1.2.840.113556.1.4.98\n", 1)
    new = "".join(attribute_text(at, name) for at, name in enumerate(ATTRIBUTES, 1))
    allowed = "".join(f"mayContain: {name}\n" for name in ATTRIBUTES)
    made = made.replace("# ---- classes:", new + "# ---- classes:", 1)
    for kind, category in (("group", "Group"), ("user", "Person"), ("domainDNS", "Domain-DNS")):
        line = f"lDAPDisplayName: {kind}\nschemaIDGUID"
        assert line in made
        more = f"defaultObjectCategory: CN={category},{SCHEMA}\ngovernsID: 1.2.840.113556.1.5.{len(kind)}\n{allowed}"
        made = made.replace(line, f"lDAPDisplayName: {kind}\n{more}schemaIDGUID", 1)
    known = (f"wellKnownObjects: B:32:{WELL_KNOWN}:{UNIT}\nmaxPwdAge: {-42 * DAY}\nlockoutDuration: {-HALF_AN_HOUR}\n"
             f"objectSid: {DOMAIN}\n") + base64_line("objectGUID", b"w" * 16)
    assert f"objectSid: {DOMAIN}\n#" in made
    made = made.replace(f"objectSid: {DOMAIN}\n#", known + "#", 1)
    return made + accounts_text()


@functools.lru_cache(maxsize=None)
def first(salt):
    """What the store has where the password is `first`."""
    return stretched('"first"'.encode("utf-16-le"), salt)


def accounts_text():
    made = "".join(f"\ndn: {unit}\nobjectClass: organizationalUnit\n" for unit in (UNIT, GROUPS))
    for at, (name, (kind, number, more)) in enumerate(ACCOUNTS.items(), 1):
        made += f"\ndn: {name}\nobjectClass: {kind}\nobjectSid: {DOMAIN}-{number}\n{more}"
        made += base64_line("objectGUID", bytes([at]) * 16)
        made += base64_line("unicodePwd", first(bytes([at]) * 16)) if kind == "user" else ""
    return made


def load(store, more=""):
    subprocess.run([PROGRAM, "load", store], input=(text() + more).encode(), stdout=subprocess.DEVNULL, check=True)
    return store


def sid(number):
    return sid_of_text(f"{DOMAIN}-{number}")


def descriptor_line(text_of):
    return base64_line("nTSecurityDescriptor", words.descriptor(text_of))
