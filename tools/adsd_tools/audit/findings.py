"""What a finding is; and how the program's answers come to findings: one for each entry that lets somebody outside do
what is dangerous, told at the worst of the targets that it opens."""

from dataclasses import dataclass, field
from typing import Iterable, Optional

from adsd_tools.forms.descriptor import Entry
from adsd_tools.forms.sids import known_sid, text_of_sid

from .chains import Link
from .domain import Domain, alike
from .fixes import Fix, entry_text, removal, words
from .questions import Asked, Questions
from .ruling import Ruling
from .targets import (ACT, ALL_CHANGES, AREAS, CHANGES, ITSELF, KEY, LINKS, MAPS, MEMBER, RESET, SERVICES, SPN, Target,
                      holder, rights_of)

# What each right lets somebody do, the worst first.
HARMS = {
    "owner": "owns it, and so writes its DACL", "WD": "writes the DACL", "WO": "writes the owner",
    ALL_CHANGES: "replicates all secrets", "CR:Migrate-SID-History": "adds identifiers of others to an account",
    RESET: "resets the password", KEY: "writes key credentials, and so signs in as it",
    MAPS: "maps a certificate to it", ACT: "sets who may impersonate others to it",
    SERVICES: "sets to which services it may impersonate others",
    "read": "reads the password", MEMBER: "writes the members", ITSELF: "adds itself as a member",
    "WP": "writes its attributes", "enrol": "enrols with a subject of its choice",
    "agent": "enrols as an agent, and so for others",
    "WP:gPCFileSysPath": "says where the policy's files are",
    "WP:msPKI-Certificate-Name-Flag": "says who names the subject",
    "WP:pKIExtendedKeyUsage": "says what it is good for", "WP:msPKI-Enrollment-Flag": "says who approves it",
    "WP:certificateTemplates": "says which templates it issues",
    "WP:cACertificate": "puts a certificate of its own there",
    LINKS: "links policies", "CC": "creates objects below", SPN: "writes service names, and so guesses its password",
    "WP:scriptPath": "writes the logon script", "WP:userAccountControl": "writes the account's flags",
}
RANK = {key: rank for rank, key in enumerate(HARMS)}
PLACE = {area: place for place, area in enumerate(AREAS)}
ITSELF_SID = known_sid("S-1-5-10")
# Those whom everybody, or nobody, is: by identifier, and by the last number in the domain.
EVERYBODY, EVERYBODY_OF_DOMAIN = ("S-1-1-0", "S-1-5-11", "S-1-5-7", "S-1-5-32-545", "S-1-5-32-546", "S-1-5-32-554",
                                  "S-1-5-2", "S-1-5-4"), (501, 513, 514, 515)
# Areas whose findings are told as everybody's, where the holder is.
LOOKS = ("disabled", "unknown")
SHARED = ("passwords", "delegation", "delegates", "units", "owners")


@dataclass
class Finding:
    """Somebody, what he may do, and on which objects; by which entry, where it stands; the words that ask the program
    again, and what takes it away. `look` marks what wants a look and gives nobody a right by itself."""

    area: str
    key: str
    what: list[str]
    who: str
    members: list[int]
    objects: list[int]
    ask: list[str]
    fix: Fix
    at: Optional[int] = None
    entry: str = ""
    notes: list[str] = field(default_factory=list)
    look: bool = False
    # The chain to the root that begins with it; and where there is none, the one that leads there from an object of it.
    chain: tuple[Link, ...] = ()
    onward: tuple[Link, ...] = ()

    def order(self) -> tuple[int, int, int, str]:
        """Where it stands among others: by target, by what it is, and by how many it concerns."""
        return PLACE[self.area], RANK.get(self.key, len(RANK)), -len(self.objects), self.who


@dataclass
class Group:
    """All facts of one entry, or of one owner: rights, holders and objects with the targets that they are."""

    who: str
    at: int
    entry: Optional[Entry]
    rights: dict[str, None] = field(default_factory=dict)
    holders: dict[str, None] = field(default_factory=dict)
    objects: dict[int, Target] = field(default_factory=dict)
    is_default: bool = True
    # The right and the object that ask for it again: the worst.
    example: tuple[int, int, Asked] = (len(AREAS), len(RANK), ("", 0))


class Facts:
    """Gathers the answers of the program on targets."""

    def __init__(self, domain: Domain, questions: Questions, ruling: Ruling, protected: set[int]) -> None:
        self.domain, self.questions, self.ruling, self.protected = domain, questions, ruling, protected
        self.groups: dict[tuple[object, ...], Group] = {}
        self.holder = holder(domain)
        # Who outside has a dangerous right on a target.
        self.reach: dict[int, set[str]] = {}

    def ask(self, some: Iterable[Target]) -> None:
        """Asks for the rights on some objects. Those of one class with one list are asked once; what an object has on
        itself isn't told."""
        alike_ones: dict[tuple[int, bytes, bool], list[Target]] = {}
        for target in some:
            one = self.domain.objects[target.number]
            alike_ones.setdefault((one.of_class, one.normal, target.number == 1), []).append(target)
        asked = [(right, same[0].number) for same in alike_ones.values()
                 for right in rights_of(self.domain, same[0].number)]
        self.questions.ahead(asked, self.ruling.inside)
        for same in alike_ones.values():
            for right in rights_of(self.domain, same[0].number):
                self.take(right, same)

    def take(self, right: str, same: list[Target]) -> None:
        """Takes the answers on the first of some objects that are alike."""
        first = same[0].number
        if right == CHANGES:
            return
        also = {one.sid for one in self.questions.who(CHANGES, first)} if right == ALL_CHANGES else None
        entries = self.domain.entries(first)
        for decides, sid in self.questions.who(right, first):
            if self.ruling.is_inside(sid) or (also is not None and sid not in also) or decides == "-":
                continue
            entry = entries[int(decides) - 1] if decides.isdigit() else None
            if entry is not None and entry.sid == ITSELF_SID:
                continue
            for target in same:
                if self.domain.sid(target.number) != sid:
                    self.fact(right, target, sid, entry, decides)

    def fact(self, right: str, target: Target, sid: str, entry: Optional[Entry], decides: str) -> None:
        """Takes one answer: on an object an identifier has a right, by an entry or by what else decides."""
        number, key = target.number, right if entry is not None else decides
        if entry is not None:
            at, own = self.stands(number, entry)
            who = text_of_sid(entry.sid)
            place: tuple[object, ...] = (at, own.kind, own.mask, own.object, own.inherited, own.flags, who)
        else:
            at, own, who = number, None, self.domain.owner(number) if decides == "owner" else sid
            place = (decides, who)
        group = self.groups.setdefault(place, Group(who, at, own))
        group.rights.setdefault(key if key in HARMS else right)
        group.holders.setdefault(sid)
        group.objects.setdefault(number, target)
        group.is_default = group.is_default and entry is not None and self.domain.is_default(number, entry)
        group.example = min(group.example, (PLACE[target.area], RANK[key if key in HARMS else right], (right, number)))
        self.reach.setdefault(number, set()).add(sid)

    def stands(self, number: int, entry: Entry) -> tuple[int, Entry]:
        """Where an entry stands: on what is protected at AdminSDHolder, from where the run takes it."""
        if number in self.protected and self.holder:
            for one in self.domain.entries(self.holder):
                if alike(one, entry):
                    return self.holder, one
        return self.domain.source(number, entry)

    # ---- findings

    def findings(self) -> list[Finding]:
        return [made for group in self.groups.values() if (made := self.finding(group)) is not None]

    def is_everybody(self, sid: str) -> bool:
        return sid in EVERYBODY or sid in {self.domain.own(rid) for rid in EVERYBODY_OF_DOMAIN}

    def accounts(self, group: Group) -> list[int]:
        """The accounts that have what an entry gives, but whom the entry itself names; groups between are left out."""
        found = [self.domain.number(sid) for sid in group.holders if sid != group.who]
        return [number for number in found if number is not None and self.domain.is_account(number)]

    def finding(self, group: Group) -> Optional[Finding]:
        """The finding of an entry; None where that is the schema's default for a group in which nobody is."""
        domain, accounts, named = self.domain, self.accounts(group), self.domain.number(group.who)
        everybody = self.is_everybody(group.who)
        alone = named is not None and domain.is_account(named)
        nobody = not accounts and not everybody and not alone
        if nobody and (group.is_default or group.who.startswith("S-1-5-32-")):
            return None
        ordered = sorted(group.objects.values(), key=lambda target: (PLACE[target.area], target.number))
        rights = sorted(group.rights, key=lambda right: (RANK[right], right))
        area, notes = ordered[0].area, list[str]()
        if "owner" in group.rights and area in ("delegates", "units"):
            area = "owners"
        if rights[0] in (ACT, SERVICES) and area == "delegates":
            area = "delegation"
        if area == "policies":
            notes.append(ordered[0].told)
        area = "everybody" if everybody and area in SHARED else area
        if named is None and nobody and domain.called(group.who) == group.who:
            area, notes = "unknown", ["nobody here has this identifier"]
        gone = self.gone([*accounts, *([named] if alone and named is not None else [])])
        if gone:
            area, notes = "disabled", notes + [gone]
        if nobody and named is not None:
            notes.append("nobody is in it now")
        if group.at == self.holder and len(group.objects) > 1:
            notes.append("what is protected loses it with the next protection run")
        said = [HARMS[right] for right in rights]
        if "WP" in rights and rights[0].startswith("WP:"):
            said = [f"{HARMS['WP']}, all of them", *(word for word in said if word != HARMS["WP"])]
        return Finding(area, rights[0], said, group.who, sorted(accounts),
                       [target.number for target in ordered], self.again(group, accounts), self.fix(group), group.at,
                       entry_text(group.entry) if group.entry else f"O:{group.who}", notes, area in LOOKS)

    def gone(self, accounts: list[int]) -> str:
        """Says that all of some accounts are disabled, or haven't signed in for long."""
        if accounts and all(self.domain.is_disabled(one) or self.domain.is_stale(one) for one in accounts):
            return "disabled" if self.domain.is_disabled(accounts[0]) else "no logon for half a year"
        return ""

    def again(self, group: Group, accounts: list[int]) -> list[str]:
        """The words that ask the program for it: who has it, or on which objects somebody has it."""
        right, number = group.example[2]
        who = self.domain.number(group.who)
        if len(group.objects) == 1 or (who is None and not accounts):
            return ["who", right, self.domain.names[number]]
        base = [self.domain.names[group.at]] if group.entry is not None and group.at not in (1, self.holder) else []
        return ["can", self.domain.names[who if who is not None else accounts[0]], right, *base]

    def fix(self, group: Group) -> Fix:
        if group.entry is None:
            owned = "owner" in group.rights
            return words("give it an administrator as its owner" if owned else "take the privilege away")
        return removal(self.domain, group.at, [group.entry])
