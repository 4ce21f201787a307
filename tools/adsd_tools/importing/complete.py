"""What an export has to have, so that answers about it don't mislead: what of it is missing is reported.

`judge` looks at what was kept; what is missed while it is read is reported there: ends of files and lines in `text`,
names and values that aren't UTF-8, parents, members and classes in `objects`, the schema's own links in `schema`, and
descriptors in `rights`.
"""

import re
from typing import Dict, FrozenSet, List, Optional, Sequence, Set, Tuple, Union

from adsd_tools import incomplete
from adsd_tools.forms import names
from adsd_tools.forms.sids import below, guid_of_text, known_sid, sid_of_text, text_of_sid
from adsd_tools.shown import brief

from . import values
from .domains import Domains, is_domain
from .index import Key, Object
from .kept import Held
from .objects import Taking
from .report import ACCOUNTS, GROUPS, HEAD, JUDGING, MEMBERS, RIGHTS, SCHEMA, TEXTS, Report
from .schema import Schema
from .text import Line

# What each schema of Active Directory and Samba has, and tokens and access go by.
ATTRIBUTES = ("nTSecurityDescriptor", "objectSid", "sAMAccountName", "userPrincipalName", "member", "primaryGroupID",
              "groupType", "sIDHistory", "userAccountControl", "servicePrincipalName", "unicodePwd",
              "adminCount", "dSHeuristics")
CLASSES = ("top", "domainDNS", "container", "organizationalUnit", "user", "group", "computer",
           "foreignSecurityPrincipal")
# The rights that are dangerous to have, and the property sets of accounts' attributes ([MS-ADTS] 5.1.3.2.1).
OF_RIGHTS = {
    "00299570-246d-11d0-a768-00aa006e0529": "User-Force-Change-Password",
    "ab721a53-1e2f-11d0-9819-00aa0040529b": "User-Change-Password",
    "1131f6aa-9c07-11d1-f79f-00c04fc2dcd2": "DS-Replication-Get-Changes",
    "1131f6ad-9c07-11d1-f79f-00c04fc2dcd2": "DS-Replication-Get-Changes-All",
    "bf9679c0-0de6-11d0-a285-00aa003049e2": "Self-Membership",
    "f3a64788-5306-11d1-a9c5-0000f80367c1": "Validated-SPN",
    "59ba2f42-79a2-11d0-9020-00c04fc2d3cf": "General-Information",
    "4c164200-20c0-11d0-a768-00aa006e0529": "User-Account-Restrictions",
    "77b5b886-944a-11d1-aebd-0000f80367c1": "Personal-Information",
    "e48d0154-bcf8-11d1-8702-00c04fb96050": "Public-Information",
    "bc0ac240-79a9-11d0-9020-00c04fc2d4cf": "Membership",
}
# The groups that are there from a domain's first day, can't be deleted, and are named by lists or every token.
BUILT_IN = {544: "Administrators", 545: "Users", 548: "Account Operators", 549: "Server Operators",
            550: "Print Operators", 551: "Backup Operators", 554: "Pre-Windows 2000 Compatible Access"}
OF_DOMAIN = {512: "Domain Admins", 513: "Domain Users", 515: "Domain Computers", 516: "Domain Controllers"}
OF_FOREST = {518: "Schema Admins", 519: "Enterprise Admins"}
ADMINISTRATORS = known_sid("S-1-5-32-544")
# The lines by which an account is judged.
MOST_TARGETS = 65536
OF_ACCOUNTS = {"memberof", "primarygroupid", "isdeleted"}


def parted(one: str) -> Tuple[str, int]:
    """The sort of what is missing and how many there are, of a text that tells it."""
    found = re.match(r"(.*?): ([0-9]{1,9})", one)
    return (found[1], int(found[2])) if found else (one, 0)


def mark(made: Schema, before: List[str], report: Report) -> str:
    """Writes what is missing into the first record of the schema, with what earlier imports missed; the text."""
    told: Dict[str, str] = {}
    for one in before + report.lacked():
        sort, count = parted(one)
        if sort not in told or count > parted(told[sort])[1]:
            told[sort] = one
    text = "; ".join(told.values())[: incomplete.MOST]
    if text:
        record = made.records[0].record
        record.lines.append(Line(record.stands, incomplete.ATTRIBUTE, text.encode()))
    return text


def absent(where: str, sort: str, found: Sequence[str], place: str, report: Report) -> None:
    """Reports in one line what isn't there and always is."""
    if found:
        why = f"not there, and in every directory: give all of {place}"
        report.missing(where, sort, ", ".join(found), why, len(found))


def schema(made: Schema, where: str, report: Report) -> None:
    """Reports the attributes, classes and rights that every schema has and this one hasn't."""
    for wanted, there in ((ATTRIBUTES, made.attributes), (CLASSES, made.classes)):
        absent(where, SCHEMA, [name for name in wanted if name.lower() not in there], "the schema", report)
    rights = {guid_of_text(one.required("rightsGuid").decode("latin-1")) for one in made.records if one.kind == "right"}
    names_of = [name for guid, name in OF_RIGHTS.items() if guid_of_text(guid) not in rights]
    absent(where, RIGHTS, names_of, "the extended rights", report)


def texts(made: Schema, report: Report) -> None:
    """Reports the texts of the schema's records that aren't UTF-8."""
    for one in made.records:
        for line in one.record.lines:
            low = line.name.lower()
            if low in made.attributes and values.is_foreign(made.syntax(low), line.value):
                what = f"{line.name} {brief(line.value, 40)} of {one.kind} {brief(one.record.dn)}"
                report.missing(line.where, TEXTS, what, "it isn't UTF-8")


def forest(made: Schema) -> Optional[Key]:
    """The key of the name of the forest's first domain, which the names of schema records end in; None if none does."""
    for one in made.records:
        key = names.read(one.record.dn).key()
        for place in range(len(key) - 1):
            if key[place : place + 2] == (("CN", "schema"), ("CN", "configuration")):
                return key[place + 2 :]
    return None


def groups(made: Schema, root: Object, sids: Dict[bytes, Object], has_members: bool, report: Report) -> None:
    """Reports a root that heads no domain, and the groups that every domain has."""
    where = root.where
    if not is_domain(root.sid):
        why = "it has no domain's identifier: give the whole of the domain"
        report.missing(where, HEAD, f"root {root.words()}", why)
    wanted: Dict[Union[bytes, int, None], str] = {
        sid_of_text(f"S-1-5-32-{number}"): f"{name} (S-1-5-32-{number})" for number, name in BUILT_IN.items()}
    of_domain = {**OF_DOMAIN, **(OF_FOREST if forest(made) == root.key else {})}
    for number, name in of_domain.items():
        sid = below(root.sid, number) if is_domain(root.sid) else None
        wanted[sid or number] = f"{name} ({text_of_sid(sid) if sid else f'{number} of the domain'})"
    absent(where, GROUPS, [name for sid, name in wanted.items() if sid not in sids], "the domain", report)
    administrators = sids.get(ADMINISTRATORS)
    if administrators and not has_members:
        what = f"members of {administrators.words()}"
        report.missing(administrators.where, MEMBERS, what, "it has none, and every domain's has: give the attribute member")


class Accounts:
    """Goes over the objects and reports what says who somebody is, and in which groups, and is missing."""

    def __init__(self, made: Schema, taking: Taking, domains: Domains, report: Report) -> None:
        self.schema, self.kept, self.sids = made, taking.kept, taking.sids
        self.domains, self.report = domains, report
        self.told: Set[bytes] = set()
        self.targets: Dict[bytes, Tuple[bool, Optional[str]]] = {}
        self.chains: Dict[str, FrozenSet[str]] = {}
        # Names of lines that say nothing here.
        self.others: Set[str] = set()
        # Whether the administrators have members.
        self.has_members = False

    def judge(self, held: Held) -> None:
        """Reports what an object that is kept lacks."""
        one, lines = held.one, held.record.lines
        gone: Set[int] = set()
        chain = self.chains.get(one.of_class)
        if chain is None:
            chain = self.chains[one.of_class] = frozenset(self.schema.chain(one.of_class))
        if one.sid is None and ("user" in chain or "group" in chain):
            what = f"objectSid of {one.words()}"
            self.report.missing(one.where, ACCOUNTS, what, "an account needs one to be anybody")
        first: Dict[str, Line] = {}
        others = self.others
        for line in lines:
            if line.name in others:
                continue
            low = line.name.lower()
            if low not in OF_ACCOUNTS:
                others.add(line.name)
                continue
            first.setdefault(low, line)
            if low == "memberof" and not self.is_of_domain(one, line):
                gone.add(id(line))
        if gone:
            held.record.lines = [line for line in lines if id(line) not in gone]
        if one.sid == ADMINISTRATORS:
            self.has_members = any(line.name.lower() == "member" for line in lines)
        if "user" in chain and first.get("isdeleted") is None:
            self.primary(one, first.get("primarygroupid"))

    def primary(self, one: Object, line: Optional[Line]) -> None:
        """Reports an account without a primary group, and a primary group that isn't there, once."""
        if line is None:
            self.report.missing(one.where, ACCOUNTS, f"primaryGroupID of {one.words()}", "every account needs one")
            return
        domain = one.sid and bytes([1, one.sid[1] - 1]) + one.sid[2:-4]
        sid = below(domain, int(line.value)) if domain and 0 <= int(line.value) < 2**32 else None
        if sid is not None and sid not in self.sids and sid not in self.told:
            self.told.add(sid)
            what = f"primaryGroupID of {one.words()}"
            self.report.missing(line.where, MEMBERS, what, f"{text_of_sid(sid)} isn't an object of the export")

    def is_of_domain(self, one: Object, line: Line) -> bool:
        """Whether a group that an object says it is in isn't one of another domain. One that lacks is reported."""
        found = self.targets.get(line.value)
        if found is None:
            if len(self.targets) >= MOST_TARGETS:
                self.targets.clear()
            found = self.targets[line.value] = self.target(line)
        is_there, other = found
        if is_there:
            return True
        what = f"{line.name} of {one.words()}"
        if other is not None:
            why = f"{brief(line.value, 120)} is of the domain {other}, which isn't imported"
            self.report.loss(line.where, what, why)
            return False
        self.report.missing(line.where, MEMBERS, what, f"{brief(line.value, 120)} isn't an object of the export")
        return True

    def target(self, line: Line) -> Tuple[bool, Optional[str]]:
        """Whether the object that a line names is kept, and else which other domain it is in."""
        try:
            key: Key = values.name_value(line.value)[1]
        except values.NoValue:
            return False, None
        return key in self.kept, None if key in self.kept else self.domains.crosses(line.name, key)


def judge(made: Schema, root: Object, taking: Taking, has_members: bool, report: Report) -> None:
    """Reports what is missing of the schema and of the groups that every domain has."""
    report.step = (JUDGING, 0)
    schema(made, root.where, report)
    texts(made, report)
    groups(made, root, taking.sids, has_members, report)
