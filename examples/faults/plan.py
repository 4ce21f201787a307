"""What the domain of examples/faults has: its units and accounts, and the rows of faults.tsv, each with what it plants.

An entry is written in SDDL with `{name}` where an identifier stands; `make` plants the entries of a row in this order,
those that deny before all others of the object's own list. Nothing here is judged: what a row expects was worked out
by the rules, before the program was asked."""

BASE = "DC=corp,DC=example"
TIER0, STAFF, SERVICES = f"OU=Tier0,{BASE}", f"OU=Staff,{BASE}", f"OU=Services,{BASE}"
ADMINS, TIER0_GROUPS = f"OU=Admins,{TIER0}", f"OU=Groups,{TIER0}"
DESK, GROUPS, SERVERS = f"OU=Helpdesk,{BASE}", f"OU=Groups,{BASE}", f"OU=Servers,{BASE}"
WEB, FILES = f"OU=Web,{SERVERS}", f"OU=Files,{SERVERS}"
STATIONS, KIOSKS, LEAVERS = f"OU=Workstations,{BASE}", f"OU=Kiosks,{BASE}", f"OU=Leavers,{BASE}"
OFFICE, LAB = f"OU=Office,{STAFF}", f"OU=Lab,{STAFF}"
CONTROLLERS, SYSTEM = f"OU=Domain Controllers,{BASE}", f"CN=System,{BASE}"
HOLDER = f"CN=AdminSDHolder,{SYSTEM}"
POLICY = f"CN={{31B2F340-016D-11D2-945F-00C04FB984F9}},CN=Policies,{SYSTEM}"
POLICY_OF_CONTROLLERS = f"CN={{6AC1786C-016F-11D2-945F-00C04FB984F9}},CN=Policies,{SYSTEM}"
TEMPLATES = f"CN=Certificate Templates,CN=Public Key Services,CN=Services,CN=Configuration,{BASE}"
DOMAIN = "S-1-5-21-10-20-30"

UNITS = [TIER0, ADMINS, TIER0_GROUPS, STAFF, OFFICE, LAB, f"OU=Sales,{STAFF}", f"OU=Works,{STAFF}", DESK, GROUPS,
         SERVICES, SERVERS, WEB, FILES, STATIONS, KIOSKS, LEAVERS]
FIRST = ("ann bob cleo dan eva finn gina hugo ida jan kim leo max mia nils noah nora otto pat paul "
         "quinn rosa theo uwe vera").split()
USERS = {f"{first}.{unit.lower()}": f"OU={unit},{STAFF}"
         for unit in ("Office", "Lab", "Sales", "Works") for first in FIRST}
USERS |= {f"adm.{name}": ADMINS for name in ("anna", "bernd", "olga", "rosa")}
USERS |= {"adm.lab": LAB, "adm.safe": LAB, "hd.dora": DESK, "hd.emil": DESK, "hd.frida": DESK, "gpo.old": LEAVERS}
USERS |= {f"svc-{name}": SERVICES for name in ("backup", "deploy", "join", "print", "scan", "sync", "web")}
COMPUTERS = {f"PC{at:03}": STATIONS for at in range(1, 31)} | {f"KIOSK{at}": KIOSKS for at in range(1, 5)}
COMPUTERS |= {f"WEB0{at}": WEB for at in range(1, 4)} | {f"FILE0{at}": FILES for at in range(1, 4)}
DISABLED = ["gpo.old"]
# Each group with its unit and its first members. Those in LISTS are distribution groups.
MEMBERS = {
    "Tier0 Servers": (TIER0_GROUPS, ["adm.bernd"]), "Backup Team": (TIER0_GROUPS, ["svc-backup"]),
    "Ops": (TIER0_GROUPS, ["adm.bernd"]), "Domain Admins (old)": (TIER0_GROUPS, []),
    "Ops Team": (GROUPS, []), "Night Shift": (GROUPS, ["noah.works"]), "Night List": (GROUPS, ["nils.works"]),
    "Helpdesk": (DESK, ["hd.dora"]), "Phone Desk": (DESK, ["hd.frida"]), "Account Desk": (DESK, ["hd.emil"]),
    "Policy Editors": (GROUPS, ["pat.office"]), "Policy Trainees": (GROUPS, ["Policy Helpers"]),
    "Policy Helpers": (GROUPS, ["kim.office"]), "Lab Delegates": (GROUPS, ["theo.lab"]),
    "Rack Team": (GROUPS, ["leo.works"]), "Cable Team": (GROUPS, ["jan.works"]),
    "Group Managers": (GROUPS, ["gina.office"]), "Group Clerks": (GROUPS, ["hugo.office"]),
    "VPN Admins": (GROUPS, []), "Mail Admins": (GROUPS, []), "Key Enrolers": (GROUPS, ["ida.office"]),
    "Device Enrolers": (GROUPS, ["finn.office"]), "Link Editors": (GROUPS, ["cleo.office"]),
    "Cert Clerks": (GROUPS, ["dan.office"]), "Cert Readers": (GROUPS, ["eva.office"]),
}
LISTS = ["Night List"]
# Who is where as the lists of the protected were put last, as a protection run puts them.
BEFORE = {"Domain Admins": ["adm.anna", "adm.bernd", "adm.safe", "uwe.office"],
          "Administrators": ["Tier0 Servers"], "Backup Operators": ["Backup Team"]}
# What came later, so that these accounts have the lists of their units still.
LATER = {"Domain Admins": ["adm.lab", "adm.olga", "adm.rosa", "Ops"], "Ops": ["Ops Team", "Night List"],
         "Ops Team": ["Night Shift"]}
# Attributes that the schema of Samba hasn't: name, OID, GUID, syntaxes, search flags, class, link.
ATTRIBUTES = [
    ("ms-Mcs-AdmPwd", "1.2.840.113556.1.8000.2554.50051.45980.28112.18903.35903.6685103.1224907.2.1",
     "8739b9a4-0fd0-4b5c-9d0c-6d3b6f1a2e01", "2.5.5.5", "19", "904", "computer", None),
    ("msDS-KeyCredentialLink", "1.2.840.113556.1.4.2328", "5b47d60f-6090-40b2-9f37-2a4de88f3063",
     "2.5.5.7", "127", "0", "user", "2220")]

# AdminSDHolder's list before anything is planted, as Windows has it.
HOLDERS_LIST = ("O:DAG:DAD:PAI(A;;GA;;;SY)(A;;CCDCLCSWRPWPLOCRSDRCWDWO;;;BA)(A;;CCDCLCSWRPWPLOCRRCWDWO;;;DA)"
                "(A;;CCDCLCSWRPWPLOCRRCWDWO;;;EA)(A;;LCRPLORC;;;AU)(OA;;CR;ab721a53-1e2f-11d0-9819-00aa0040529b;;WD)"
                "(OA;;CR;ab721a53-1e2f-11d0-9819-00aa0040529b;;PS)(OA;;RPWP;bf967a7f-0de6-11d0-a285-00aa003049e2;;CA)")
ALL = "CCDCLCSWRPWPDTLOCRSDRCWDWO"
CHANGES, CHANGES_ALL = "1131f6aa-9c07-11d1-f79f-00c04fc2dcd2", "1131f6ad-9c07-11d1-f79f-00c04fc2dcd2"
RESET, MEMBER = "00299570-246d-11d0-a768-00aa006e0529", "bf9679c0-0de6-11d0-a285-00aa003049e2"
USER, COMPUTER = "bf967aba-0de6-11d0-a285-00aa003049e2", "bf967a86-0de6-11d0-a285-00aa003049e2"
PRINTERS, TEMPLATE = "bf967aa8-0de6-11d0-a285-00aa003049e2", "e5209ca2-3bba-11d2-90cc-00c04fd91ab1"
PERSONAL, MEMBERSHIP = "77b5b886-944a-11d1-aebd-0000f80367c1", "bc0ac240-79a9-11d0-9020-00c04fc2d4cf"
SPN, LINK = "f3a64788-5306-11d1-a9c5-0000f80367c1", "f30e3bbe-9ff0-11d1-b603-0000f80367c1"
KEY, ACT = "5b47d60f-6090-40b2-9f37-2a4de88f3063", "3f78c3e5-f79a-46bd-a0b8-9d18116ddc79"
PASSWORD, ENROLL = ATTRIBUTES[0][2], "0e10c968-78fb-11d2-90d4-00c04f79dc55"
ANONYMOUS, CREATOR, OWNER_RIGHTS = "S-1-5-7", "S-1-3-0", "S-1-3-4"


def user(name: str) -> str:
    """The distinguished name of an account of the plan."""
    if name in MEMBERS:
        return f"CN={name},{MEMBERS[name][0]}"
    return f"CN={name},{(USERS | COMPUTERS)[name]}"


def who(right: str, target: str) -> tuple[str, ...]:
    return ("who", right, target)


# Number, what, object, holder, where the entries stand, entries, question. `who` and `can` ask for the holder, `token`
# for Domain Admins, `effective` and `list` for the last word. A row N.. is the near miss of the row F.. of its number.
ROWS = [
    ("F01", "a service account may replicate all secrets (DCSync)", BASE, "svc-backup", BASE,
     [f"(OA;;CR;{CHANGES};;{{svc-backup}})", f"(OA;;CR;{CHANGES_ALL};;{{svc-backup}})"],
     who("CR:DS-Replication-Get-Changes-All", BASE)),
    ("N01", "replication without secrets", BASE, "svc-sync", BASE, [f"(OA;;CR;{CHANGES};;{{svc-sync}})"],
     who("CR:DS-Replication-Get-Changes-All", BASE)),
    ("F02", "a helpdesk has full control of AdminSDHolder", HOLDER, "hd.dora", HOLDER, [f"(A;;{ALL};;;{{Helpdesk}})"],
     who("WD", HOLDER)),
    ("N02", "full control there, but inherit only", HOLDER, "hd.frida", HOLDER, [f"(A;CIIO;{ALL};;;{{Phone Desk}})"],
     who("WD", HOLDER)),
    ("F03", "an editor of the Default Domain Policy", POLICY, "pat.office", POLICY,
     ["(A;CI;CCDCLCRPWPRC;;;{Policy Editors})"], who("WP", POLICY)),
    ("N03", "an editor of a policy, with a denial before it for the group that his group is in", POLICY_OF_CONTROLLERS,
     "kim.office", POLICY_OF_CONTROLLERS, ["(D;CI;WP;;;{Policy Trainees})", "(A;CI;CCDCLCRPWPRC;;;{Policy Helpers})"],
     who("WP", POLICY_OF_CONTROLLERS)),
    ("F04", "a helpdesk writes all accounts of the staff", user("ann.sales"), "hd.emil", STAFF,
     [f"(OA;CIIO;WP;;{USER};{{Account Desk}})"], ("can", "WP:servicePrincipalName", f"OU=Sales,{STAFF}")),
    ("N04", "a property set that doesn't hold the attribute", user("ann.sales"), "hd.frida", STAFF,
     [f"(OA;CIIO;WP;{PERSONAL};{USER};{{Phone Desk}})"], ("can", "WP:servicePrincipalName", f"OU=Sales,{STAFF}")),
    ("F05", "the delegate of a unit may reset the password of an administrator who came in later", user("adm.lab"),
     "theo.lab", LAB, [f"(OA;CIIO;CR;{RESET};{USER};{{Lab Delegates}})"],
     who("CR:User-Force-Change-Password", user("adm.lab"))),
    ("N05", "the same unit, an administrator whose list is protected", user("adm.safe"), "theo.lab", LAB, [],
     who("CR:User-Force-Change-Password", user("adm.safe"))),
    ("F06", "nested three deep into Domain Admins", user("Night Shift"), "noah.works", "", [], ("token",)),
    ("N06", "nested so, but by a distribution group", user("Night List"), "nils.works", "", [], ("token",)),
    ("F07", "a service account may write the list of the domain's root", BASE, "svc-deploy", BASE,
     ["(A;;WD;;;{svc-deploy})"], who("WD", BASE)),
    ("N07", "the same for printers alone, and there are none", BASE, "svc-print", BASE,
     [f"(OA;CIIO;WD;;{PRINTERS};{{svc-print}})"], ("can", "WD", BASE)),
    ("F08", "a team may write the owner of a domain controller", f"CN=DC1,{CONTROLLERS}", "leo.works",
     f"CN=DC1,{CONTROLLERS}", ["(A;;WO;;;{Rack Team})"], who("WO", f"CN=DC1,{CONTROLLERS}")),
    ("N08", "an entry to write the owner that has a type, and so speaks of no object as a whole",
     f"CN=DC1,{CONTROLLERS}", "jan.works", f"CN=DC1,{CONTROLLERS}", [f"(OA;;WO;{COMPUTER};;{{Cable Team}})"],
     who("WO", f"CN=DC1,{CONTROLLERS}")),
    ("F09", "an administrator's account is owned by somebody else", user("adm.olga"), "paul.office", user("adm.olga"),
     ["O:{paul.office}"], who("WD", user("adm.olga"))),
    ("N09", "owned so, but an entry for owner rights leaves the owner to read alone", user("adm.rosa"), "quinn.office",
     user("adm.rosa"), ["O:{quinn.office}", f"(A;;RC;;;{OWNER_RIGHTS})"], who("WD", user("adm.rosa"))),
    ("F10", "a group may write the members of a group of administrators", user("Tier0 Servers"), "gina.office",
     user("Tier0 Servers"), [f"(OA;;WP;{MEMBER};;{{Group Managers}})"], who("WP:member", user("Tier0 Servers"))),
    ("N10", "the same, with a denial of the property set before it", user("Backup Team"), "hugo.office",
     user("Backup Team"), [f"(OD;;WP;{MEMBERSHIP};;{{Group Clerks}})", f"(OA;;WP;{MEMBER};;{{Group Clerks}})"],
     who("WP:member", user("Backup Team"))),
    ("F11", "everybody of the domain may put themselves into a group", user("VPN Admins"), "ann.sales",
     user("VPN Admins"), [f"(OA;;SW;{MEMBER};;{{Domain Users}})"], who("SW:Self-Membership", user("VPN Admins"))),
    ("N11", "a validated write on a group that is for computers", user("Mail Admins"), "ann.sales",
     user("Mail Admins"), [f"(OA;;SW;{SPN};;{{Domain Users}})"], who("SW:Self-Membership", user("Mail Admins"))),
    ("F12", "a group may write an administrator's key credentials", user("adm.anna"), "ida.office", user("adm.anna"),
     [f"(OA;;WP;{KEY};;{{Key Enrolers}})"], who("WP:msDS-KeyCredentialLink", user("adm.anna"))),
    ("N12", "the same from above, for computers alone", user("adm.rosa"), "finn.office", ADMINS,
     [f"(OA;CIIO;WP;{KEY};{COMPUTER};{{Device Enrolers}})"], who("WP:msDS-KeyCredentialLink", user("adm.rosa"))),
    ("F13", "a service account may say who acts for others on a server", user("WEB01"), "svc-web", user("WEB01"),
     [f"(OA;;WP;{ACT};;{{svc-web}})"], who("WP:msDS-AllowedToActOnBehalfOfOtherIdentity", user("WEB01"))),
    ("N13", "the same from above, but not passed on below the first children", user("FILE01"), "svc-scan", SERVERS,
     [f"(OA;CINPIO;WP;{ACT};{COMPUTER};{{svc-scan}})"],
     who("WP:msDS-AllowedToActOnBehalfOfOtherIdentity", user("FILE01"))),
    ("F14", "all users read the passwords of local administrators", user("PC001"), "ann.sales", STATIONS,
     [f"(OA;CIIO;RPCR;{PASSWORD};{COMPUTER};{{Domain Users}})"],
     ("effective", user("PC001"), "attribute ms-Mcs-AdmPwd RPCR")),
    ("N14", "the same without control access, which the attribute wants since it is confidential", user("KIOSK1"),
     "ann.sales", KIOSKS, [f"(OA;CIIO;RP;{PASSWORD};{COMPUTER};{{Domain Users}})"],
     ("effective", user("KIOSK1"), "attribute ms-Mcs-AdmPwd RPCR")),
    ("F15", "a group may link policies to the domain controllers", CONTROLLERS, "cleo.office", CONTROLLERS,
     [f"(OA;;WP;{LINK};;{{Link Editors}})"], who("WP:gPLink", CONTROLLERS)),
    ("N15", "an account that may, too, and is disabled (`who` tells it: its rights come back with it)", CONTROLLERS,
     "gpo.old", CONTROLLERS, [f"(OA;;WP;{LINK};;{{gpo.old}})"],
     ("search", "(sAMAccountName=gpo.old)", "userAccountControl", "userAccountControl: 512")),
    ("F16", "in Domain Admins by primaryGroupID alone", user("mia.office"), "mia.office", "", [], ("token",)),
    ("N16", "in a group by primaryGroupID that is only called so", user("max.office"), "max.office", "", [],
     ("token",)),
    ("F17", "a session has the administrator's identifier by sIDHistory", user("nora.office"), "nora.office", "", [],
     ("token",)),
    ("N17", "the identifier of another domain's administrator in sIDHistory", user("otto.office"), "otto.office", "",
     [], ("token",)),
    ("F18", "Authenticated Users write a server's account", user("FILE02"), "ann.sales", user("FILE02"),
     ["(A;;WP;;;AU)"], who("WP", user("FILE02"))),
    ("N18", "full control for CREATOR OWNER on a unit, inherit only", FILES, CREATOR, FILES,
     [f"(A;CIIO;{ALL};;;{CREATOR})"], who("WP", FILES)),
    ("F19", "anonymous callers write a unit", KIOSKS, ANONYMOUS, KIOSKS, [f"(A;;WP;;;{ANONYMOUS})"],
     who("WP", KIOSKS)),
    ("N19", "the same, behind a denial", LEAVERS, ANONYMOUS, LEAVERS,
     [f"(D;;WP;;;{ANONYMOUS})", f"(A;;WP;;;{ANONYMOUS})"], who("WP", LEAVERS)),
    ("F20", "no administrator any more, and still adminCount and a list that takes nothing from above",
     user("uwe.office"), "uwe.office", "", [], ("list", user("uwe.office"), "dacl protected")),
    ("N20", "adminCount, but a list that inherits", user("vera.office"), "vera.office", "", [],
     ("list", user("vera.office"), "dacl protected")),
    ("F21", "a certificate template that clerks may write", f"CN=Login,{TEMPLATES}", "dan.office",
     f"CN=Login,{TEMPLATES}", [f"(A;;RPWP;;;{{Cert Clerks}})"], who("WP", f"CN=Login,{TEMPLATES}")),
    ("N21", "a template that others may enrol for, and not write", f"CN=Web,{TEMPLATES}", "eva.office",
     f"CN=Web,{TEMPLATES}", [f"(OA;;CR;{ENROLL};;{{Cert Readers}})"], who("WP", f"CN=Web,{TEMPLATES}")),
]
