"""A small domain as an export has it, with all that an import looks for, and exports of it that lack something.

The names, numbers and GUIDs are those of Active Directory ([MS-ADA1] to [MS-ADA3], [MS-ADSC], [MS-ADTS] 6.1.1.6): what
`adsd-import` wants isn't asked of it here.
"""

import re
import uuid

DOMAIN, ROOT = "S-1-5-21-1-2-3", "DC=corp,DC=example"
TEXT, NAME, NUMBER, BYTES, SID = "2.5.5.12", "2.5.5.1", "2.5.5.9", "2.5.5.10", "2.5.5.17"
ATTRIBUTES = [
    ("objectClass", "2.5.5.2", ""), ("cn", TEXT, "s"), ("ou", TEXT, "s"), ("dc", TEXT, "s"), ("description", TEXT, ""),
    ("nTSecurityDescriptor", "2.5.5.15", "s"), ("objectSid", SID, "s"), ("sAMAccountName", TEXT, "s"),
    ("userPrincipalName", TEXT, "s"), ("member", NAME, "2"), ("memberOf", NAME, "3"), ("primaryGroupID", NUMBER, "s"),
    ("groupType", NUMBER, "s"), ("sIDHistory", SID, ""), ("userAccountControl", NUMBER, "s"),
    ("servicePrincipalName", TEXT, ""), ("unicodePwd", BYTES, "s"), ("adminCount", NUMBER, "s"),
    ("dSHeuristics", TEXT, "s"), ("info", "2.5.5.4", "s")]
CLASSES = [("top", "top", ""), ("domainDNS", "top", "dc"), ("container", "top", ""), ("organizationalUnit", "top", "ou"),
           ("person", "top", ""), ("user", "person", ""), ("computer", "user", ""), ("group", "top", ""),
           ("foreignSecurityPrincipal", "top", "")]
# A right's name, its GUID and its accesses: 256 is an extended right, 8 a validated write, 48 a property set.
RIGHTS = [
    ("User-Force-Change-Password", "00299570-246d-11d0-a768-00aa006e0529", 256),
    ("User-Change-Password", "ab721a53-1e2f-11d0-9819-00aa0040529b", 256),
    ("DS-Replication-Get-Changes", "1131f6aa-9c07-11d1-f79f-00c04fc2dcd2", 256),
    ("DS-Replication-Get-Changes-All", "1131f6ad-9c07-11d1-f79f-00c04fc2dcd2", 256),
    ("Self-Membership", "bf9679c0-0de6-11d0-a285-00aa003049e2", 8),
    ("Validated-SPN", "f3a64788-5306-11d1-a9c5-0000f80367c1", 8),
    ("General-Information", "59ba2f42-79a2-11d0-9020-00c04fc2d3cf", 48),
    ("User-Account-Restrictions", "4c164200-20c0-11d0-a768-00aa006e0529", 48),
    ("Personal-Information", "77b5b886-944a-11d1-aebd-0000f80367c1", 48),
    ("Public-Information", "e48d0154-bcf8-11d1-8702-00c04fb96050", 48),
    ("Membership", "bc0ac240-79a9-11d0-9020-00c04fc2d4cf", 48)]
BUILT_IN = {544: "Administrators", 545: "Users", 548: "Account Operators", 549: "Server Operators",
            550: "Print Operators", 551: "Backup Operators", 554: "Pre-Windows 2000 Compatible Access"}
OF_DOMAIN = {512: "Domain Admins", 513: "Domain Users", 515: "Domain Computers", 516: "Domain Controllers",
             518: "Schema Admins", 519: "Enterprise Admins"}
LIST = f"O:{DOMAIN}-512G:{DOMAIN}-512D:P(A;CI;GA;;;{DOMAIN}-512)(A;CI;RPLCLORC;;;AU)" \
       f"(OA;CI;CR;00299570-246d-11d0-a768-00aa006e0529;;{DOMAIN}-1001)"
ADMINS, TIER0 = f"CN=Domain Admins,CN=Users,{ROOT}", f"OU=Tier0,{ROOT}"


def record(dn, *lines):
    return "".join(f"{line}\n" for line in (f"dn: {dn}", *lines))


def schema():
    """The records of the schema and of the rights."""
    above, made = f"CN=Schema,CN=Configuration,{ROOT}", []
    for name, syntax, more in ATTRIBUTES:
        lines = ["isSingleValued: TRUE"] if more == "s" else [f"linkID: {more}"] if more else []
        guid = "bf9679c0-0de6-11d0-a285-00aa003049e2" if name == "member" else uuid.uuid5(uuid.NAMESPACE_OID, name)
        made.append(record(f"CN={name},{above}", "objectClass: attributeSchema", f"lDAPDisplayName: {name}",
                           f"attributeSyntax: {syntax}", f"schemaIDGUID: {guid}", *lines))
    for name, parent, naming in CLASSES:
        lines = [f"rDNAttID: {naming}"] if naming else []
        made.append(record(f"CN={name},{above}", "objectClass: classSchema", f"lDAPDisplayName: {name}",
                           f"subClassOf: {parent}", f"schemaIDGUID: {uuid.uuid5(uuid.NAMESPACE_DNS, name)}", *lines))
    for name, guid, accesses in RIGHTS:
        made.append(record(f"CN={name},CN=Extended-Rights,CN=Configuration,{ROOT}", "objectClass: controlAccessRight",
                           f"cn: {name}", f"rightsGuid: {guid}", f"validAccesses: {accesses}"))
    return made


def owned(dn, of_class, *lines):
    return record(dn, f"objectClass: {of_class}", *lines, f"nTSecurityDescriptor: {LIST}")


def account(dn, of_class, number, name, *lines):
    sid = f"S-1-5-32-{number}" if number in BUILT_IN else f"{DOMAIN}-{number}"
    return owned(dn, of_class, f"objectSid: {sid}", f"sAMAccountName: {name}", *lines)


def objects():
    """The records of the objects: eve is an administrator, below a unit, and ann may set everybody's password."""
    made = [owned(ROOT, "domainDNS", f"objectSid: {DOMAIN}"), owned(f"CN=Builtin,{ROOT}", "container"),
            owned(f"CN=Users,{ROOT}", "container"), owned(TIER0, "organizationalUnit")]
    members = {544: [ADMINS], 545: [f"CN=Domain Users,CN=Users,{ROOT}"], 512: [f"CN=eve,{TIER0}"]}
    for number, name in [*BUILT_IN.items(), *OF_DOMAIN.items()]:
        above = "CN=Builtin" if number in BUILT_IN else "CN=Users"
        of_group = [f"member: {one}" for one in members.get(number, ())]
        of_group += [f"memberOf: CN=Administrators,CN=Builtin,{ROOT}"] if number == 512 else []
        of_group += [f"memberOf: CN=Users,CN=Builtin,{ROOT}"] if number == 513 else []
        made.append(account(f"CN={name},{above},{ROOT}", "group", number, name, *of_group))
    made.append(account(f"CN=ann,CN=Users,{ROOT}", "user", 1001, "ann", "primaryGroupID: 513", "info: of the staff"))
    made.append(account(f"CN=eve,{TIER0}", "user", 1002, "eve", "primaryGroupID: 513", f"memberOf: {ADMINS}"))
    return made


RECORDS = schema() + objects()


def as_ldifde(records):
    """As ldifde writes records: line ends of DOS, and an empty line behind each."""
    made = "".join(one.replace("\n", "\nchangetype: add\n", 1) + "\n" for one in records)
    return made.replace("\n", "\r\n").encode()


def as_ldbsearch(records):
    told = "".join(f"# record {place}\n{one}\n" for place, one in enumerate(records, 1))
    return f"{told}# returned {len(records)} records\n# {len(records)} entries\n# 0 referrals\n".encode()


def as_ldapsearch(records):
    head = f"# extended LDIF\n#\n# LDAPv3\n# base <{ROOT}> with scope subtree\n#\n\n"
    tail = "# search result\nsearch: 2\nresult: 0 Success\n\n"
    tail += f"# numResponses: {len(records) + 1}\n# numEntries: {len(records)}\n"
    return (head + "".join(f"{one}\n" for one in records) + tail).encode()


def as_pages(records):
    """As ldapsearch -LLL writes a search by pages: a comment behind each, with an empty cookie behind the last."""
    half = len(records) // 2
    pages = [("AAAAAgAA", records[:half]), ("", records[half:])]
    return "".join("".join(f"{one}\n" for one in page) + f"# pagedresults: estimate={len(records)} cookie={cookie}\n"
                   for cookie, page in pages).encode()


def without(pattern, records=None):
    """The records without the lines of a form."""
    return [re.sub(rf"(?m)^{pattern}.*\n", "", one) for one in records or RECORDS]


def left(pattern):
    """The records but for those in which a form is found."""
    return [one for one in RECORDS if not re.search(pattern, one)]


def replaced(old, new):
    return [one.replace(old, new) for one in RECORDS]


def latin(records):
    """The records in Latin-1, with a group that has a letter beyond ASCII."""
    made = [one.replace("CN=Domain Admins", "CN=Dom\xe4nen-Admins") for one in records]
    return as_ldbsearch(made).decode().encode("latin-1")


WHOLE = {"ldbsearch": as_ldbsearch(RECORDS), "ldapsearch": as_ldapsearch(RECORDS), "pages": as_pages(RECORDS),
         "ldifde": as_ldifde(RECORDS)}
CUT = as_ldbsearch(RECORDS)
# An export, the words that it is imported with, and what has to be said of it: the sort of what is missing.
LACKING = {
    "no descriptors": (as_ldbsearch(without("nTSecurityDescriptor:")), (), "descriptors: 19 "),
    "one without": (as_ldbsearch([one if "CN=eve" not in one.split("\n")[0] else without("nTSec", [one])[0]
                                  for one in RECORDS]), (), "descriptors: 1 (the descriptor of CN=eve,OU=Tier0,"),
    "no owner": (as_ldbsearch(replaced(f"O:{DOMAIN}-512G", "G")), (), "descriptors: 19 "),
    "no rights": (as_ldbsearch(left("objectClass: controlAccessRight")), (), "extended rights: 11 "),
    "no reset": (as_ldbsearch(left("dn: CN=User-Force")), (), "extended rights: 1 (User-Force-Change-Password)"),
    "no class": (as_ldbsearch(left("dn: CN=computer,")), (), "parts of the schema: 1 (computer)"),
    "no attribute": (as_ldbsearch(left("dn: CN=info,")), (), "parts of the schema: 1 (info of CN=ann,CN=Users,"),
    "no head": (as_ldbsearch(left(f"dn: {ROOT}\n")), (), "head of the domain: 1 "),
    "head without objectSid": (as_ldbsearch(replaced(f"objectSid: {DOMAIN}\n", "")), (), "head of the domain: 1 "),
    "no Administrators": (as_ldbsearch(left("dn: CN=Administrators")), (), "built-in groups: 1 (Administrators (S-1-5-32-544))"),
    "no Domain Admins": (as_ldbsearch(left("dn: CN=Domain Admins")), (), f"built-in groups: 1 (Domain Admins ({DOMAIN}-512))"),
    "no Enterprise Admins": (as_ldbsearch(left("dn: CN=Enterprise")), (), f"built-in groups: 1 (Enterprise Admins ({DOMAIN}-519))"),
    "a member missing": (as_ldbsearch(left("dn: CN=eve")), (), "members and groups: 1 (member of CN=Domain Admins,"),
    "no member at all": (as_ldbsearch(without("member:")), (), "members and groups: 1 (members of CN=Administrators,"),
    "a range of members": (as_ldbsearch(replaced(f"member: CN=eve,{TIER0}", f"member;range=0-0: CN=eve,{TIER0}")), (),
                           "members and groups: 1 (member;range=0-0 of CN=Domain Admins,"),
    "a member that is no name": (as_ldbsearch(replaced(f"member: CN=eve,{TIER0}", "member: eve")), (),
                                 "members and groups: 1 (member eve of CN=Domain Admins,"),
    "no primary group": (as_ldbsearch(without("primaryGroupID:")), (), "identifiers and primary groups of accounts: 2 "),
    "no identifiers": (as_ldbsearch([without("objectSid:", [one])[0] if "CN=ann" in one else one for one in RECORDS]), (),
                       "identifiers and primary groups of accounts: 1 (objectSid of CN=ann,"),
    "a parent missing": (as_ldbsearch(left("dn: OU=Tier0")), (), "parents: 1 (object CN=eve,OU=Tier0,"),
    "cut between records": (as_ldbsearch(RECORDS).split(b"# record 58\n")[0], (), "ends of files: 1 "),
    "cut in a record": (CUT[: CUT.index(b"sAMAccountName: eve") + 9], (), "ends of files: 2 "),
    "cut before the end": (CUT[: CUT.index(b"# returned")], (), "ends of files: 1 "),
    "ldapsearch, cut": (as_ldapsearch(RECORDS).split(b"# search result")[0], (), "ends of files: 1 "),
    "ldapsearch, limit": (as_ldapsearch(RECORDS).replace(b"result: 0 Success", b"result: 4 Size limit exceeded"), (),
                          "ends of files: 1 (`result: 4 Size limit exceeded`)"),
    "pages, cut": (as_pages(RECORDS).rpartition(b"# paged")[0], (), "ends of files: 1 "),
    "ldifde, cut in a record": (as_ldifde(RECORDS).rpartition(b"memberOf")[0], (), "ends of files: 1 "),
    "ldifde, a record less": (as_ldifde(RECORDS[:-1]), ("--records", str(len(RECORDS))), "ends of files: 1 (records, 59 of them)"),
    "Latin-1": (latin(RECORDS), (), "texts that aren't UTF-8: 3 (object CN=Dom\\E4nen-Admins,CN=Users,"),
    "Latin-1 in a value": (as_ldbsearch(replaced("info: of", "info: \xe4")).decode().encode("latin-1"), (),
                           "texts that aren't UTF-8: 1 (info \\E4 the staff of CN=ann,CN=Users,"),
    "Latin-1 in the schema": (
        as_ldbsearch([one.replace("lDAPD", "description: \xe4\nlDAPD") if "CN=info," in one else one for one in RECORDS])
        .decode().encode("latin-1"), (), "texts that aren't UTF-8: 1 (description \\E4 of attribute CN=info,"),
    "UTF-16, cut": (b"\xff\xfe" + as_ldifde(RECORDS).decode().encode("utf-16-le")[:-1], (), "texts that aren't UTF-8: 1 "),
    "base64 that is none": (as_ldbsearch(replaced("sAMAccountName: eve", "sAMAccountName:: e")), (),
                            "lines that can't be read: 1 (sAMAccountName)"),
    "below a unit": (CUT, ("--base", TIER0), "head of the domain: 1 "),
}
