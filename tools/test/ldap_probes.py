"""What is asked of Samba's server and of tools/adsd-ldap over the same domain, by tools/test/ldap-samba: probes, each a
line of the table in docs/clients.md. The domain is that of examples/hour/provision."""

from dataclasses import dataclass, replace
from typing import Any, Tuple

from ldap_otherwise import OTHERWISE, SAME

ROOT = "DC=corp,DC=example"
STAFF, USERS, SCHEMA = f"OU=staff,{ROOT}", f"CN=Users,{ROOT}", f"CN=Schema,CN=Configuration,{ROOT}"
ANN, BOB, CLUB, INNER = (f"CN={one},{STAFF}" for one in ("ann", "bob", "club", "inner"))
SID = "S-1-5-21-1754576855-880412937-656926279"
MS = "1.2.840.113556.1.4"
BIT_AND, BIT_OR, CHAIN = f"{MS}.803", f"{MS}.804", f"{MS}.1941"


@dataclass(frozen=True)
class Probe:
    """A probe: of which part, what stands in the table, what is called with which words, what Active Directory answers
    (as it is documented), and the rule by which adsd answers otherwise."""

    part: str
    shown: str
    call: str
    words: Tuple[Any, ...]
    ad: str = SAME
    why: str = ""


def filters():
    """Filters below OU=staff, which has ann, bob, club and inner; ann and inner are members of club."""
    uac, group_type = "userAccountControl", "groupType"
    rows = (
        "(cn=ann)", "(CN=ANN)", "(cn=a*)", "(cn=*n)", "(cn=*n*)", "(cn=*)", "(cn=a*n*n)", "(objectClass=user)",
        "(objectClass=person)", "(objectClass=top)", "(objectClass=*)", "(objectClass=computer)",
        "(objectClass=nosuchclass)", "(objectClass=group)", "(objectCategory=person)", "(objectCategory=user)",
        "(objectCategory=group)", f"(objectCategory=CN=Person,{SCHEMA})", "(objectCategory=nosuchclass)",
        "(!(cn=ann))", "(!(description=x))", "(description=*)", "(!(description=*))", "(&(objectClass=user)(cn=bob))",
        "(|(cn=ann)(cn=bob))", "(!(|(cn=ann)(cn=bob)))", "(&(!(cn=ann))(objectClass=user))",
        f"({uac}:{BIT_AND}:=512)", f"({uac}:{BIT_AND}:=2)", f"({uac}:{BIT_OR}:=514)", f"({uac}:{BIT_AND}:=0)",
        f"({uac}:{BIT_OR}:=0)", f"(!({uac}:{BIT_AND}:=2))", f"(&(sAMAccountName=ann)(!({uac}:{BIT_AND}:=2)))",
        f"({group_type}:{BIT_AND}:=2147483648)", f"({group_type}:{BIT_AND}:=-2147483646)",
        f"({group_type}=-2147483646)", f"({group_type}>=0)", f"({group_type}<=0)", f"({uac}>=512)", f"({uac}<=511)",
        f"({uac}=512)", f"(memberOf={CLUB})", "(memberOf=cn=CLUB, ou=Staff,dc=corp,dc=example)", "(memberOf=*)",
        "(!(memberOf=*))", f"(memberOf:{CHAIN}:={CLUB})", f"(memberOf:{CHAIN}:=CN=Domain Admins,{USERS})",
        f"(memberOf:{CHAIN}:=CN=Administrators,CN=Builtin,{ROOT})", f"(memberOf={ANN})", f"(member={ANN})",
        f"(member:{CHAIN}:={ANN})", f"(member:{CHAIN}:={INNER})", "(member=*)", f"(manager={ANN})", "(manager=*)",
        "(anr=ann)", "(anr=an)", "(anr==ann)", "(anr==an)", "(anr=b)", "(anr=nobody)", "(sAMAccountName=ann)",
        "(sAMAccountName=ANN)", "(sAMAccountName=a*)", "(userPrincipalName=ann@corp.example)",
        "(userPrincipalName=*@corp.example)", "(objectGUID={dashed})", "(objectGUID={bytes})", "(objectGUID=*)",
        "(whenCreated>=20200101000000.0Z)", "(whenCreated<=20200101000000.0Z)", "(whenChanged>=20200101000000.0Z)",
        f"(distinguishedName={ANN})", "(distinguishedName=*)", "(name=ann)", "(name=A*)", "(ou=staff)", "(nosuch=x)",
        "(|(nosuch=x)(cn=ann))", "(cn=\\61nn)", "(accountExpires=9223372036854775807)", "(accountExpires=0)",
        "(accountExpires>=1)", "(badPwdCount=0)", "(sAMAccountType=805306368)", "(primaryGroupID=513)",
        "(instanceType=4)", "(uSNChanged>=1)", "(uSNCreated<=0)", "(nTSecurityDescriptor=*)", "(codePage=0)",
        "(&(objectCategory=person)(objectClass=user))", "(mail=*)", "(proxyAddresses=*)",
        "(servicePrincipalName=*)", "(objectSid=*)", "(&)", "(|)", "(2.5.4.3=ann)", "(objectClass=1.2.840.113556.1.5.9)",
        "(1.2.840.113556.1.4.221=ann)", "(pwdLastSet>=1)", "(isDeleted=TRUE)", "(!(isDeleted=TRUE))", "(cn:dn:=ann)",
        "(!(nosuch=x))", "(cn~=ann)", "(cn>=b)", "(cn<=b)", "(objectClass=u*)", "(objectCategory=CN=Per*)",
        "(memberOf=CN=c*)", "(member=CN=a*)", "(distinguishedName=CN=a*)", f"({uac}=abc)", "(objectSid=S-1-5)",
        "(whenCreated>=soon)", "(isCriticalSystemObject=yes)", "(unicodePwd=*)", "(dBCSPwd=*)", "(cn;lang-en=ann)",
        "(canonicalName=*)", "(tokenGroups=*)", "(msDS-User-Account-Control-Computed=0)", "(allowedAttributes=cn)",
        "(primaryGroupToken=513)", "(createTimeStamp>=20200101000000.0Z)", "(structuralObjectClass=user)",
        "(cn:2.5.13.2:=ann)", "(cn:caseExactMatch:=ann)", "(cn:1.2.3.4:=ann)", "(parentGUID=*)", "(msDS-PrincipalName=*)",
        f"({uac}:1.2.840.113556.1.4.999:=2)", "(objectSid=S-1-5-21-1-2-3-4)", "(objectGUID=x)")
    return [Probe("filter", f"`{text}`", "search", (STAFF, "sub", text, ["1.1"], "names")) for text in rows]


def attributes():
    """What an entry tells of an attribute that is named."""
    own = ("canonicalName", "createTimeStamp", "modifyTimeStamp", "allowedAttributes", "allowedAttributesEffective",
           "allowedChildClasses", "allowedChildClassesEffective", "parentGUID", "primaryGroupToken", "tokenGroups",
           "tokenGroupsGlobalAndUniversal", "tokenGroupsNoGCAcceptable", "memberOf", "msDS-PrincipalName",
           "msDS-User-Account-Control-Computed", "msDS-UserPasswordExpiryTimeComputed", "structuralObjectClass",
           "subSchemaSubEntry", "objectSid", "objectGUID", "nTSecurityDescriptor", "unicodePwd", "distinguishedName",
           "name", "whenCreated", "uSNChanged", "sDRightsEffective", "nosuch", "1.1", "2.5.4.3", "cn;lang-en",
           "replPropertyMetaData", "msDS-KeyVersionNumber", "possibleInferiors", "fromEntry",
           "msDS-ResultantPSO", "msDS-MembersForAzRole", "supplementalCredentials", "pwdLastSet", "adminCount")
    made = [Probe("attribute of ann", f"`{one}`", "search", (ANN, "base", "(objectClass=*)", [one], "has")) for one in own]
    made += [Probe("attribute of club", f"`{one}`", "search", (CLUB, "base", "(objectClass=*)", [one], "values"))
             for one in ("primaryGroupToken", "member", "member;range=7-*",
                         "memberOf", "canonicalName", "msDS-PrincipalName")]
    return made


def of_root_dse():
    told = ("namingContexts", "defaultNamingContext", "rootDomainNamingContext", "configurationNamingContext",
            "schemaNamingContext", "subschemaSubentry")
    has = ("supportedControl", "supportedCapabilities", "supportedLDAPVersion", "supportedSASLMechanisms", "currentTime",
           "dnsHostName", "serverName", "dsServiceName", "ldapServiceName", "domainFunctionality", "forestFunctionality",
           "domainControllerFunctionality", "isSynchronized", "isGlobalCatalogReady", "highestCommittedUSN",
           "supportedLDAPPolicies", "supportedExtension", "vendorName", "netlogon", "tokenGroups", "validFSMOs")
    return [Probe("root DSE", f"`{one}`", "search", ("", "base", "(objectClass=*)", [one], how))
            for how, names in (("contexts", told), ("has", has)) for one in names]


def of_places():
    """Bases and scopes."""
    every = "(objectClass=*)"
    rows = [("root, whole subtree: is Configuration found", (ROOT, "sub", "(cn=Configuration)", ["1.1"], "names")),
            ("root, one level: is Configuration found", (ROOT, "one", "(cn=Configuration)", ["1.1"], "names")),
            ("Configuration, whole subtree: is Schema found", (f"CN=Configuration,{ROOT}", "sub", "(cn=Schema)", ["1.1"], "names")),
            ("`<SID=..>` of Administrator", (f"<SID={SID}-500>", "base", every, ["1.1"], "names")),
            ("`<GUID=..>` of ann", ("<GUID={dashed}>", "base", every, ["1.1"], "names")),
            ("`<WKGUID=..>` of Users", (f"<WKGUID=a9d1ca15768811d1aded00c04fd8d5cd,{ROOT}>", "base", every, ["1.1"], "names")),
            ("`<SID=..>` of nobody", ("<SID=S-1-5-21-1-2-3-4>", "base", every, ["1.1"], "names")),
            ("no object of the name", (f"CN=nobody,{STAFF}", "base", every, ["1.1"], "names")),
            ("an object of another directory", ("DC=elsewhere", "base", every, ["1.1"], "names")),
            ("no name", ("no name", "base", every, ["1.1"], "names")),
            ("an empty base, subtree", ("", "sub", "(cn=ann)", ["1.1"], "names")),
            ("spaces and case in a base", ("cn=ANN , ou=Staff,dc=corp, dc=example", "base", every, ["1.1"], "names")),
            ("a schema object", (f"CN=User,{SCHEMA}", "base", every, ["lDAPDisplayName"], "values")),
            ("the subschema", (f"CN=Aggregate,{SCHEMA}", "base", every, ["attributeTypes"], "has")),
            ("an extended right", (f"CN=User-Force-Change-Password,CN=Extended-Rights,CN=Configuration,{ROOT}", "base",
                                   every, ["rightsGuid"], "values"))]
    return [Probe("place", shown, "search", words) for shown, words in rows]


def of_changes():
    """Changes, in order; each leaves what the next ones need."""
    new, moved = f"CN=new,{STAFF}", f"CN=moved,{STAFF}"
    act = {"add": 0, "delete": 1, "replace": 2}

    def modify(name, *items, controls=()):
        return (name, [[act[kind], key, values] for kind, key, values in items], [list(told) for told in controls])

    rows = [
        ("add", "Add: a user", (new, {"objectClass": ["user"], "sAMAccountName": ["new"]})),
        ("add", "Add: it is there", (new, {"objectClass": ["user"], "sAMAccountName": ["new2"]})),
        ("add", "Add: its login is another's", (f"CN=n2,{STAFF}", {"objectClass": ["user"], "sAMAccountName": ["ann"]})),
        ("add", "Add: no object above", (f"CN=x,OU=none,{ROOT}", {"objectClass": ["user"], "sAMAccountName": ["x"]})),
        ("add", "Add: no class", (f"CN=x,{STAFF}", {"cn": ["x"]})),
        ("add", "Add: an unknown class", (f"CN=x,{STAFF}", {"objectClass": ["nosuch"]})),
        ("add", "Add: an abstract class", (f"CN=x,{STAFF}", {"objectClass": ["top"]})),
        ("add", "Add: an unknown attribute", (f"CN=x,{STAFF}", {"objectClass": ["user"], "nosuch": ["x"]})),
        ("add", "Add: an attribute that isn't the class's", (f"CN=x,{STAFF}", {"objectClass": ["user"], "groupType": ["2"]})),
        ("add", "Add: without what the class must have", (f"CN=x,{STAFF}", {"objectClass": ["attributeSchema"]})),
        ("add", "Add: a unit in a user", (f"OU=x,{ANN}", {"objectClass": ["organizationalUnit"]})),
        ("add", "Add: named by another attribute", (f"sn=x,{STAFF}", {"objectClass": ["user"], "sAMAccountName": ["x"]})),
        ("add", "Add: objectSid", (f"CN=x,{STAFF}", {"objectClass": ["user"], "objectSid": [f"{SID}-9999"]})),
        ("add", "Add: two values of one that has one", (f"CN=x,{STAFF}", {"objectClass": ["user"], "displayName": ["a", "b"]})),
        ("modify", "Modify: replace a value", modify(new, ("replace", "description", ["a"]))),
        ("modify", "Modify: add a value that is there", modify(new, ("add", "description", ["a"]))),
        ("modify", "Modify: add a value that is there, permissive", modify(new, ("add", "description", ["a"]), controls=[(f"{MS}.1413", True, None)])),
        ("modify", "Modify: delete a value that isn't there", modify(new, ("delete", "description", ["b"]))),
        ("modify", "Modify: delete a value that isn't there, permissive", modify(new, ("delete", "description", ["b"]), controls=[(f"{MS}.1413", True, None)])),
        ("modify", "Modify: delete an attribute that isn't there", modify(new, ("delete", "mail", None))),
        ("modify", "Modify: a second value of one that has one", modify(new, ("add", "displayName", ["a", "b"]))),
        ("modify", "Modify: an unknown attribute", modify(new, ("replace", "nosuch", ["x"]))),
        ("modify", "Modify: a number that is none", modify(new, ("replace", "countryCode", ["x"]))),
        ("modify", "Modify: a number out of its range", modify(new, ("replace", "countryCode", ["70000"]))),
        ("modify", "Modify: a text too long", modify(new, ("replace", "initials", ["1234567"]))),
        ("modify", "Modify: no object", modify(f"CN=none,{STAFF}", ("replace", "description", ["x"]))),
        ("modify", "Modify: a name of nothing as manager", modify(new, ("replace", "manager", [f"CN=none,{STAFF}"]))),
        ("modify", "Modify: manager", modify(new, ("replace", "manager", [ANN]))),
        ("modify", "Modify: a member that is there", modify(CLUB, ("add", "member", [ANN]))),
        ("modify", "Modify: a member that isn't there is deleted", modify(CLUB, ("delete", "member", [BOB]))),
        ("modify", "Modify: memberOf", modify(new, ("add", "memberOf", [CLUB]))),
        ("modify", "Modify: objectGUID", modify(new, ("replace", "objectGUID", ["0123456789abcdef"]))),
        ("modify", "Modify: objectSid", modify(new, ("replace", "objectSid", [f"{SID}-9998"]))),
        ("modify", "Modify: name", modify(new, ("replace", "name", ["newer"]))),
        ("modify", "Modify: cn", modify(new, ("replace", "cn", ["newer"]))),
        ("modify", "Modify: whenCreated", modify(new, ("replace", "whenCreated", ["20200101000000.0Z"]))),
        ("modify", "Modify: canonicalName", modify(new, ("replace", "canonicalName", ["x"]))),
        ("modify", "Modify: sAMAccountType", modify(new, ("replace", "sAMAccountType", ["805306369"]))),
        ("modify", "Modify: a login that is another's", modify(new, ("replace", "sAMAccountName", ["ann"]))),
        ("modify", "Modify: primaryGroupID of a group that it isn't in", modify(new, ("replace", "primaryGroupID", ["512"]))),
        ("modify", "Modify: userPrincipalName of another", modify(new, ("replace", "userPrincipalName", ["ann@corp.example"]))),
        ("modify", "Modify: unicodePwd without quotes", modify(new, ("replace", "unicodePwd", ["x"]))),
        ("modify", "Modify: sIDHistory", modify(new, ("add", "sIDHistory", [f"{SID}-500"]))),
        ("modify", "Modify: isCriticalSystemObject", modify(new, ("replace", "isCriticalSystemObject", ["TRUE"]))),
        ("modify", "Modify: an item of objectClass", modify(new, ("add", "objectClass", ["computer"]))),
        ("modify", "Modify: the unknown control, critical", modify(new, ("replace", "description", ["a"]), controls=[("1.2.3.4", True, None)])),
        ("rename", "Rename", (new, "CN=moved", None)), ("rename", "Rename: the name is taken", (moved, "CN=ann", None)),
        ("rename", "Rename: another case alone", (moved, "CN=Moved", None)),
        ("rename", "Move", (moved, "CN=moved", USERS)), ("rename", "Move back", (f"CN=moved,{USERS}", "CN=moved", STAFF)),
        ("rename", "Move: below itself", (STAFF, "OU=staff", STAFF)), ("rename", "Move: no object above", (moved, "CN=moved", f"OU=none,{ROOT}")),
        ("rename", "Rename: another naming attribute", (moved, "OU=moved", None)),
        ("compare", "Compare: a value", (moved, "cn", "MOVED")), ("compare", "Compare: not the value", (moved, "cn", "new")),
        ("compare", "Compare: no such attribute there", (moved, "mail", "x")), ("compare", "Compare: an unknown attribute", (moved, "nosuch", "x")),
        ("compare", "Compare: no object", (f"CN=none,{STAFF}", "cn", "x")), ("compare", "Compare: memberOf", (ANN, "memberOf", CLUB)),
        ("delete", "Delete: it has others below it", (STAFF, [])), ("delete", "Delete: no object", (f"CN=none,{STAFF}", [])),
        ("delete", "Delete: a built-in group", (f"CN=Administrators,CN=Builtin,{ROOT}", [])),
        ("delete", "Delete: the domain's root", (ROOT, [])), ("delete", "Delete: the unknown control, critical", (moved, [["1.2.3.4", True, None]])),
        ("delete", "Delete", (moved, []))]
    return [Probe("change", shown, call, words) for call, shown, words in rows]


def of_binds():
    """Binds and what whoever hasn't bound is told; each has a connection of its own."""
    good = "Passw0rd-x1"
    rows = [("a DN", (ANN, good)), ("a login", ("ann", good)), ("`DOMAIN\\login`", ("CORP\\ann", good)),
            ("`login@dns.name`", ("ann@corp.example", good)), ("another case", ("CORP\\ANN", good)), ("an identifier", (f"{SID}-500", good)),
            ("a wrong password", (ANN, "wrong")), ("nobody's name", ("nobody", good)), ("another domain", ("OTHER\\ann", good)),
            ("a name without a password", (ANN, "")), ("no name and a password", ("", good)), ("neither", ("", "")),
            ("a display name", ("Administrator", good))]
    made = [Probe("bind", shown, "bind", words) for shown, words in rows]
    made += [Probe("not bound", shown, "unbound", words) for shown, words in (
        ("a search of the domain", ("search", ROOT, "base")), ("a search of the root DSE", ("search", "", "base")),
        ("a search of the root DSE, subtree", ("search", "", "sub")), ("Who am I", ("whoami",)), ("a Modify", ("modify", ANN)),
        ("a Delete", ("delete", ANN)), ("a Compare", ("compare", ANN)))]
    made += [Probe("extended", shown, "extended", words) for shown, words in (
        ("Who am I", ("1.3.6.1.4.1.4203.1.11.3",)), ("an unknown request", ("1.2.3.4",)), ("fast bind", (f"{MS}.1781",)),
        ("cancel of nothing", ("1.3.6.1.1.8", "3003020163")), ("a refresh of a dynamic object", ("1.3.6.1.4.1.1466.101.119.1", "3000")))]
    made += [Probe("bind", f"SASL {name}", "sasl", (name,)) for name in ("DIGEST-MD5", "NTLM", "PLAIN", "NONE")]
    return made


def all_of():
    made = [*of_root_dse(), *of_binds(), *of_places(), *filters(), *attributes(), *of_changes()]
    told = {(part, shown): (ad, why) for part, shown, ad, why in OTHERWISE}
    return [replace(one, ad=told[key][0], why=told[key][1]) if key in told else one
            for one, key in ((one, (one.part, one.shown)) for one in made)]
