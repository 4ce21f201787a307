"""A directory for the tests of tools/adsd-explore and its pictures: a domain with the faults that an audit looks for.

Its schema is that of examples/base.ldif, with accounts' names, scripts and kinds of groups. What is dangerous in it:
contractors are in old-support by another group, and old-support resets the administrator's password by an entry that
was forgotten; the helpdesk resets passwords below OU=staff; a service account is owned by erin; server admins have all
rights on a unit. Names that are hostile to pages stand in a unit of their own, if they are wanted."""

import base64
import os
import subprocess

TOP = os.path.dirname(os.path.dirname(os.path.dirname(os.path.dirname(os.path.abspath(__file__)))))
ROOT, DOMAIN = "DC=corp,DC=example", "S-1-5-21-1-2-3"
STAFF, SERVERS, USERS = f"OU=staff,{ROOT}", f"OU=servers,{ROOT}", f"CN=Users,{ROOT}"
RESET = "00299570-246d-11d0-a768-00aa006e0529"
USER, GROUP = "bf967aba-0de6-11d0-a285-00aa003049e2", "c0000000-0000-4000-8000-000000000005"
MEMBER, SECRET = "a0000000-0000-4000-8000-000000000008", "a0000000-0000-4000-8000-000000000013"
PERSONAL = "50000000-0000-4000-8000-000000000001"
HELPDESK, LEADS, SUPPORT, CONTRACTORS, SERVER_ADMINS = (f"{DOMAIN}-{number}" for number in (2001, 2002, 2003, 2004, 2005))
ERIN, GUID_OF_RIGHT = f"{DOMAIN}-1105", "d0000000-0000-4000-8000-00000000000"
OWN = "O:BAG:BAD:"
GUARDED = f"{OWN}P(A;;GA;;;BA)(A;;GA;;;SY)(A;;LCRPLORC;;;AU)"
# Further attributes and kinds, and the classes that have them.
MORE = [("sAMAccountName", 12, 32, "user group"), ("scriptPath", 12, 33, "user"), ("groupType", 9, 34, "group")]
HOSTILE = ["<script>alert(1)</script>", "\"'><img src=x onerror=alert(1)>", "\x01\x07\x1b[2J\r\n\t",
           "\u202egnp.\u2066x\u200f\u2028\ufeff",
           "\u00e9" * 512, "<b>" * 341 + "x", "javascript:alert(1)", "{{7*7}}${7*7}", "\u05d0\u05d1\u05d2 \u0661\u0662", "\x7f\x85\x9b31m\u061c\u200e\u2029\u2069"]
# An extended right of users that is called so, and one whose name looks so where it is told.
HOSTILE_RIGHTS = {"re\u202eset\x1b[8m\x85\n": 1, "twin\u2066": 2, "twin\\E2\\81\\A6": 3}


def schema(rights=False):
    """The schema's records, with those of MORE, and rights with hostile names, if they are wanted."""
    with open(os.path.join(TOP, "examples", "base.ldif"), encoding="utf-8") as opened:
        text = opened.read().partition("# ---- objects")[0]
    for name, syntax, number, classes in MORE:
        guid = base64.b64encode(bytes([0, 0, 0, 0xA0, 0, 0, 0, 0x40, 0x80] + [0] * 6 + [number])).decode()
        text += (f"\ndn: CN={name}\nobjectClass: attributeSchema\nlDAPDisplayName: {name}\nattributeSyntax: 2.5.5.{syntax}\n"
                 f"schemaIDGUID:: {guid}\nisSingleValued: TRUE\n\n")
        for one in classes.split():
            text = text.replace(f"lDAPDisplayName: {one}\n", f"lDAPDisplayName: {one}\nmayContain: {name}\n", 1)
    for name, number in HOSTILE_RIGHTS.items() if rights else ():
        text += (f"\ndn: CN=right{number}\nobjectClass: controlAccessRight\ncn:: {base64.b64encode(name.encode()).decode()}\n"
                 f"rightsGuid: {GUID_OF_RIGHT}{number}\nvalidAccesses: 256\nappliesTo: {USER}\n\n")
    return text


def descriptor(text):
    """A descriptor's bytes as base64, made of its text by the program."""
    done = subprocess.run([os.environ["ADSD"], "sddl"], input=text.encode(), capture_output=True, check=True)
    return base64.b64encode(bytes.fromhex(done.stdout.split(b"\n")[0].decode())).decode()


def escaped(name):
    """A value as it stands in a name of LDIF."""
    return "".join(f"\\{c}" if c in "\\\"+,;<>#=" else f"\\{ord(c):02x}" if ord(c) < 32 else c for c in name)


class Text:
    """Puts records together."""

    def __init__(self):
        self.records = []

    def put(self, dn, of_class, sid=None, sddl=None, **values):
        name = base64.b64encode(dn.encode()).decode()
        lines = [f"dn:: {name}", f"objectClass: {of_class}"] + ([f"objectSid: {sid}"] if sid else [])
        for key, many in values.items():
            lines += [f"{key}: {value}" for value in (many if isinstance(many, list) else [many])]
        if sddl:
            lines.append(f"nTSecurityDescriptor:: {descriptor(sddl)}")
        self.records.append("\n".join(lines))

    def user(self, cn, number, above, **more):
        self.put(f"CN={cn},{above}", "user", f"{DOMAIN}-{number}", sAMAccountName=cn, primaryGroupID=513, **more)


def members(*names):
    return {"member": list(names)} if names else {}


def people(made):
    """The accounts and the groups."""
    made.user("Administrator", 500, USERS, sddl=GUARDED + f"(OA;;CR;{RESET};;{SUPPORT})")
    made.user("alice", 1101, USERS, sddl=GUARDED)
    staff = {"bob": 1102, "carol": 1103, "dave": 1104, "erin": 1105, "frank": 1106, "grace": 1107}
    for name, number in staff.items():
        made.user(name, number, f"OU={'sales' if name < 'd' else 'support'},{STAFF}", **({"secretCode": "x"} if name == "bob" else {}))
    made.user("svc-backup", 1110, STAFF, sddl=f"O:{ERIN}G:BAD:(A;;RPLCLORC;;;AU)", servicePrincipalName="backup/pc1")
    of = {name: f"CN={name},OU={'sales' if name < 'd' else 'support'},{STAFF}" for name in staff}
    made.put(f"CN=Domain Users,{USERS}", "group", f"{DOMAIN}-513", sAMAccountName="Domain Users")
    made.put(f"CN=Domain Admins,{USERS}", "group", f"{DOMAIN}-512", GUARDED, sAMAccountName="Domain Admins",
             **members(f"CN=Administrator,{USERS}", f"CN=alice,{USERS}"))
    made.put(f"CN=Administrators,CN=Builtin,{ROOT}", "group", "S-1-5-32-544", GUARDED,
             **members(f"CN=Domain Admins,{USERS}", f"CN=Administrator,{USERS}"))
    groups = [("helpdesk", HELPDESK, [of["dave"]]), ("team-leads", LEADS, [of["erin"]]),
              ("old-support", SUPPORT, [f"CN=contractors,{STAFF}"]), ("contractors", CONTRACTORS, [of["frank"], of["grace"]]),
              ("server-admins", SERVER_ADMINS, [of["carol"], f"CN=helpdesk,{STAFF}"])]
    for name, sid, inside in groups:
        made.put(f"CN={name},{STAFF}", "group", sid, sAMAccountName=name, groupType=-2147483646, **members(*inside))
    made.put(f"CN=everybody,{STAFF}", "group", f"{DOMAIN}-2006", groupType=2, **members(*of.values()))


def ldif(hostile=False, rights=False):
    """The directory as LDIF; hostile objects, and rights with hostile names, where they are wanted."""
    made = Text()
    made.put(ROOT, "domainDNS", DOMAIN, f"{OWN}(A;CI;GA;;;BA)(A;CI;GA;;;SY)(A;CI;LCRPLORC;;;AU)(OA;CIIO;RPWP;{PERSONAL};{USER};PS)")
    made.put(f"CN=System,{ROOT}", "container")
    made.put(f"CN=AdminSDHolder,CN=System,{ROOT}", "container", sddl=GUARDED)
    made.put(f"CN=Builtin,{ROOT}", "container")
    made.put(USERS, "container")
    made.put(STAFF, "organizationalUnit", sddl=f"{OWN}(A;;GA;;;SY)(OA;CIIO;CR;{RESET};{USER};{HELPDESK})"
             f"(OA;CIIO;WP;{MEMBER};{GROUP};{LEADS})(OA;CIIO;RPCR;{SECRET};{USER};{LEADS})")
    made.put(f"OU=sales,{STAFF}", "organizationalUnit")
    made.put(f"OU=support,{STAFF}", "organizationalUnit")
    made.put(SERVERS, "organizationalUnit", sddl=f"{OWN}(A;;GA;;;SY)(A;CI;GA;;;{SERVER_ADMINS})")
    people(made)
    for number in range(1, 5):
        made.put(f"CN=pc{number},{SERVERS}", "computer", f"{DOMAIN}-{1200 + number}", sAMAccountName=f"pc{number}$")
    if hostile:
        made.put(f"OU=odd,{ROOT}", "organizationalUnit", sddl=f"{OWN}(A;CI;WD;;;{DOMAIN}-1300)(OA;CI;CR;{GUID_OF_RIGHT}1;;{DOMAIN}-1301)")
        for at, name in enumerate(HOSTILE):
            made.put(f"CN={escaped(name)},OU=odd,{ROOT}", "user", f"{DOMAIN}-{1300 + at}")
    return schema(rights) + "\n" + "\n\n".join(made.records) + "\n"


def load(path, hostile=False, rights=False):
    """Makes a store of it."""
    subprocess.run([os.environ["ADSD"], "load", path], input=ldif(hostile, rights).encode(), stdout=subprocess.DEVNULL, check=True)
