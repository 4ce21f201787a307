"""Findings that are no rights on a target: who is in the groups that rule, and how; sIDHistory, delegation, passwords,
what was left behind, and identifiers that nobody has."""

from typing import Iterator, Optional

from adsd_tools.ask import tokens
from adsd_tools.forms.descriptor import ALLOW, INHERIT_ONLY, INHERITED, Entry, Unreadable, read
from adsd_tools.forms.sids import text_of_sid
from adsd_tools.report.protection import frozen
from adsd_tools.shown import text_of

from .domain import ROOT, Domain
from .findings import HARMS, Facts, Finding
from .fixes import all_of, entry_text, leaves, removal, words
from .ruling import CONTROLLERS, Ruling, above_of, below_of, chain, history, under
from .targets import ENROL, holder

READS, CONTROL, ALL = 0x10, 0x100, 0x10000000
NO_PREAUTH, DELEGATES, TRANSITION, CONTROLLER = 0x400000, 0x80000, 0x1000000, 0x2000 | 0x4000000
LAPS = {"ms-Mcs-AdmPwd": "ms-Mcs-AdmPwdExpirationTime", "msLAPS-Password": "msLAPS-PasswordExpirationTime",
        "msLAPS-EncryptedPassword": "msLAPS-PasswordExpirationTime"}
MOST_UNKNOWN, TICKETS = 40, 502
# Of a template: who enrols names the subject, or another name of it; somebody has to approve it; and it is for agents.
SUPPLIES, APPROVAL, AGENT = 0x1 | 0x10000, 0x2, "1.3.6.1.4.1.311.20.2.1"
NO_AUTHORITY = "no authority here issues it now"
BY_RIGHTS = "by rights and flags of the store: what the authority itself asks for isn't there, and no chain says it"
# What a certificate has to be good for, so that somebody signs in by it; a template that says nothing is good for all.
SIGNS_IN = {"1.3.6.1.5.5.7.3.2", "1.3.6.1.5.2.3.4", "1.3.6.1.4.1.311.20.2.2", "2.5.29.37.0"}


class Others:
    """Looks for what no single right on a target says."""

    def __init__(self, domain: Domain, facts: Facts, ruling: Ruling, protected: set[int]) -> None:
        self.domain, self.facts, self.ruling, self.protected = domain, facts, ruling, protected
        self.questions, self.above = facts.questions, above_of(domain, False)
        self.below = below_of(self.above)
        self.tokens: dict[str, bytes] = {}
        self.granted: dict[tuple[str, int, str], bool] = {}

    def all(self) -> Iterator[Finding]:
        yield from self.nested()
        yield from self.foreign()
        yield from self.histories()
        yield from self.drift()
        yield from self.left_behind()
        yield from self.passwords()
        yield from self.managed()
        yield from self.guessed()
        yield from self.keys()
        yield from self.delegation()
        yield from self.enrolment()
        yield from self.unknown()
        yield from self.gone()

    def ask_list(self, number: int) -> list[str]:
        return ["list", self.domain.names[number]]

    # ---- who is an administrator

    def nested(self) -> Iterator[Finding]:
        """Who is in a group that rules otherwise than as its direct member: told at the last step but one."""
        domain = self.domain
        controllers = {domain.own(rid) for rid in CONTROLLERS}
        heads = [sid for sid in self.ruling.groups if sid in self.ruling.heads and sid not in controllers]
        ruled = {number for sid in self.ruling.groups if (number := domain.number(sid)) is not None}
        found: dict[tuple[int, int], dict[int, list[int]]] = {}
        for sid in heads:
            group = domain.number(sid)
            for member in self.ruling.members[sid] if group is not None else []:
                way = chain(domain, self.above, member, group) if group is not None else None
                if way and domain.is_account(member) and not any(one in ruled for one in way[1:-1]):
                    primary = member not in domain.linked(way[1], "member")
                    if len(way) > 2 or primary:
                        found.setdefault((way[-2], way[-1]), {})[member] = way
        for (last, group), members in found.items():
            yield self.nesting(last, group, members)

    def nesting(self, last: int, group: int, members: dict[int, list[int]]) -> Finding:
        domain = self.domain
        numbers = sorted(members)
        if last in members:
            what, fix = "is in it by primaryGroupID alone", words("give it another primaryGroupID, as 513")
        else:
            what, fix = "is in it by a group in it", leaves(domain, group, last)
        ways = [" \u2192 ".join(domain.label(one) for one in way) for way in members.values()][:5]
        who = domain.sid(last) or ""
        return Finding("administrators", "member", [what], who, [one for one in numbers if one != last], [group],
                       ["token", domain.names[numbers[0]]], fix, last, "; ".join(ways))

    def foreign(self) -> Iterator[Finding]:
        """Who is of another domain, and in a group that rules."""
        domain = self.domain
        own = f"{domain.sid(ROOT)}-"
        for sid in self.ruling.groups:
            group = domain.number(sid)
            for number in self.ruling.members[sid] if group is not None else []:
                other = domain.sid(number) or ""
                is_direct = group is not None and number in domain.linked(group, "member")
                if group is not None and is_direct and other.startswith("S-1-5-21-") and not other.startswith(own):
                    yield Finding("administrators", "member", ["is of another domain, and in it"], other, [], [group],
                                  ["token", domain.names[number]], leaves(domain, group, number), number,
                                  f"member: {domain.names[number]}")

    def histories(self) -> Iterator[Finding]:
        """Who has in sIDHistory an identifier by which its session rules, or one of this domain."""
        domain = self.domain
        prefix = f"{domain.sid(ROOT)}-"
        for number in domain.accounts.sids:
            for sid in history(domain, number):
                more = self.questions.with_more(number, sid) & self.ruling.heads
                if not (more - self.questions.held([number])[number] or sid.startswith(prefix)):
                    continue
                gains = ", ".join(domain.called(one) for one in sorted(more)[:3])
                what = f"has the identifier of {domain.called(sid)} by sIDHistory"
                what += f", and so of {gains}" if gains else ""
                yield Finding("administrators", "history", [what], domain.sid(number) or "", [], [number],
                              ["token", domain.names[number], sid], words("delete the value of sIDHistory"), number,
                              f"sIDHistory: {sid}")

    # ---- protection

    def drift(self) -> Iterator[Finding]:
        """The protected objects whose list isn't AdminSDHolder's."""
        domain, head = self.domain, holder(self.domain)
        if not head:
            return
        wanted = frozen(domain.objects[head].normal)
        others = sorted(one for one in self.protected if domain.objects[one].normal != wanted)
        if others:
            what = "gives another list to these with the next run"
            yield Finding("protection", "drift", [what], "", [], others, self.ask_list(others[0]),
                          words("make a protection run"), head, look=True)

    def left_behind(self) -> Iterator[Finding]:
        """Who has adminCount and a list that takes nothing from above, and is protected no more."""
        domain = self.domain
        for number in domain.accounts.sids:
            if domain.whole(number, "adminCount") == 1 and number not in self.protected and domain.is_protected(number):
                fix = words("clear adminCount, and let the list inherit again")
                what = "keeps the list of an administrator, and takes nothing from above"
                yield Finding("leftovers", "left", [what], domain.sid(number) or "", [], [number],
                              self.ask_list(number), fix, number, "adminCount: 1")

    # ---- passwords

    def passwords(self) -> Iterator[Finding]:
        """Who reads passwords of local administrators."""
        for name, expires in LAPS.items():
            place = self.domain.schema.of_attribute.get(name.lower())
            if place is None:
                continue
            title, kinds = self.domain.schema.attribute_names[place], dict[tuple[int, bytes], list[int]]()
            for number, one in self.domain.objects.items():
                if self.domain.is_a(number, "computer") and not self.domain.has_flag(number, CONTROLLER):
                    kinds.setdefault((one.of_class, one.normal), []).append(number)
            found: dict[tuple[int, str], Finding] = {}
            if self.questions.knows_intents:
                asked = [(f"read:{title}", numbers[0]) for numbers in kinds.values()]
                self.questions.ahead(asked, self.ruling.inside)
            for numbers in kinds.values():
                (self.told if self.questions.knows_intents else self.readers)(title, numbers, found)
            for finding in found.values():
                if not self.has_somebody(finding):
                    continue
                if not any(self.domain.value(one, has) for one in finding.objects for has in (name, expires)):
                    finding.notes.append("the store has no password there, which an export leaves out")
                yield finding

    def has_somebody(self, finding: Finding) -> bool:
        """Whether an account has what a finding says, or everybody."""
        own = self.domain.number(finding.who)
        return bool(finding.members or self.facts.is_everybody(finding.who)
                    or own is not None and self.domain.is_account(own))

    def told(self, title: str, numbers: list[int], found: dict[tuple[int, str], Finding]) -> None:
        """Who reads an attribute on computers that are alike, as the program tells it."""
        domain, first = self.domain, numbers[0]
        for decides, sid in self.questions.who(f"read:{title}", first):
            number = domain.number(sid)
            if self.ruling.is_inside(sid) or not decides.isdigit() or sid == domain.sid(first):
                continue
            one = self.reading(title, numbers, domain.entries(first)[int(decides) - 1], found)
            one.ask = ["who", f"read:{title}", domain.names[first]]
            if number is not None and domain.is_account(number) and sid != one.who:
                one.members = sorted({*one.members, number})

    def reading(self, title: str, numbers: list[int], entry: Entry, found: dict[tuple[int, str], Finding]) -> Finding:
        """The finding of an entry by which somebody reads an attribute."""
        domain, who = self.domain, text_of_sid(entry.sid)
        at, own = domain.source(numbers[0], entry)
        area = "everybody" if self.facts.is_everybody(who) else "passwords"
        made = Finding(area, "read", [f"reads {title}"], who, [], [], ["effective", domain.names[numbers[0]], who],
                       removal(domain, at, [own]), at, entry_text(own))
        one = found.setdefault((at, made.entry), made)
        one.objects += [number for number in numbers if number not in one.objects]
        return one

    def readers(self, title: str, numbers: list[int], found: dict[tuple[int, str], Finding]) -> None:
        """Whom the lists of computers that are alike let read an attribute: each whom an entry for control access names
        is asked about, or for reading, where the attribute isn't confidential."""
        domain, first = self.domain, numbers[0]
        wanted = {"RP", "CR"} if domain.schema.is_confidential(title) else {"RP"}
        bits = ALL | (CONTROL if "CR" in wanted else READS)
        path = domain.schema.attribute_path(domain.objects[first].of_class, title)
        for entry in domain.entries(first):
            who = text_of_sid(entry.sid)
            if (entry.kind != ALLOW or not entry.mask & bits or entry.flags & INHERIT_ONLY or self.ruling.is_inside(who)
                    or entry.object not in (None, *path) or not self.reads(title, wanted, first, who)):
                continue
            one = self.reading(title, numbers, entry, found)
            one.members = self.beside(who)

    def reads(self, title: str, wanted: set[str], number: int, who: str) -> bool:
        """Whether the program grants somebody some rights on an attribute of an object."""
        reader, key = self.domain.number(who), (title, number, who)
        if reader is None or not (self.beside(who) or self.domain.is_account(reader) or self.facts.is_everybody(who)):
            return False
        if key not in self.granted:
            if who not in self.tokens:
                told = tokens.of_store(self.questions.path, self.questions.store, self.domain.names[reader])
                self.tokens[who] = told.data()
            self.granted[key] = any(line.kind == "attribute" and line.name == title and wanted <= set(line.codes)
                                    for line in self.questions.effective(number, self.tokens[who]))
        return self.granted[key]

    def beside(self, who: str) -> list[int]:
        """The accounts that are in a group, by what rows say; those that are meant to rule are left out."""
        number = self.domain.number(who)
        found = under(self.below, [number]) if number is not None else set()
        return sorted(one for one in found if self.domain.is_account(one)
                      and not self.ruling.is_inside(self.domain.sid(one) or ""))

    def managed(self) -> Iterator[Finding]:
        """Who is named as a reader of a managed account's password."""
        for number, sid, text in self.named_in("msDS-GroupMSAMembership"):
            yield Finding("passwords", "read", ["reads the password of the managed account"], sid, [], [number],
                          self.ask_list(number), words("take it out of msDS-GroupMSAMembership"), number, text)

    def named_in(self, name: str) -> Iterator[tuple[int, str, str]]:
        """Whom the descriptors name that stand in an attribute, and aren't meant to rule."""
        for number in self.domain.objects:
            for value in self.domain.accounts.values(number, name):
                try:
                    dacl = read(value)[0].dacl
                except (Unreadable, IndexError, ValueError):
                    continue
                for entry in dacl.entries if dacl else []:
                    sid = text_of_sid(entry.sid)
                    if entry.kind == 0 and not self.ruling.is_inside(sid):
                        yield number, sid, entry_text(entry)

    def guessed(self) -> Iterator[Finding]:
        """Administrators' accounts for which anybody gets a ticket to guess the password by."""
        domain = self.domain
        for number in domain.accounts.sids:
            if not domain.is_a(number, "user") or domain.is_a(number, "computer") or domain.is_disabled(number):
                continue
            sid, token = domain.sid(number) or "", ["token", domain.names[number]]
            if domain.has_flag(number, NO_PREAUTH):
                what = "is answered without pre-authentication, so that anybody guesses its password"
                fix = words("take the flag 0x400000 out of userAccountControl")
                yield Finding("passwords", "guess", [what], sid, [], [number], token, fix, number, "userAccountControl")
            if self.ruling.is_inside(sid) and domain.value(number, "servicePrincipalName") is not None:
                name = text_of(domain.value(number, "servicePrincipalName") or b"")
                what = "is an administrator with a service's name, so that anybody guesses its password"
                fix = words("run the service as a managed account")
                yield Finding("passwords", "guess", [what], sid, [], [number], token, fix, number,
                              f"servicePrincipalName: {name}")

    def keys(self) -> Iterator[Finding]:
        """Administrators for whom a key or a certificate is kept, so that who has that signs in as them."""
        domain = self.domain
        for number in domain.accounts.sids:
            if not domain.is_a(number, "user") or not self.ruling.is_inside(domain.sid(number) or ""):
                continue
            for name, what in (("msDS-KeyCredentialLink", "a key"), ("altSecurityIdentities", "a certificate")):
                count = len(domain.accounts.values(number, name))
                if count and not domain.has_flag(number, CONTROLLER):
                    told = f"is an administrator by {what} too, {count} of them: whose?"
                    yield Finding("administrators", "key", [told],
                                  domain.sid(number) or "", [], [number], ["token", domain.names[number]],
                                  words(f"clear {name}, unless it is the account's own"), number, name, look=True)

    # ---- acting for others

    def delegation(self) -> Iterator[Finding]:
        """Who acts for anybody, anywhere or to some services."""
        domain = self.domain
        for number in domain.accounts.sids:
            sid, token = domain.sid(number) or "", ["token", domain.names[number]]
            if domain.has_flag(number, DELEGATES) and not domain.has_flag(number, CONTROLLER):
                fix = words("take the flag 0x80000 out of userAccountControl")
                yield Finding("delegation", "act", ["keeps the tickets of all who sign in there"], sid, [], [number],
                              token, fix, number, "TRUSTED_FOR_DELEGATION")
            names = [text_of(value) for value in domain.accounts.values(number, "msDS-AllowedToDelegateTo")]
            if names:
                how = "as anybody" if domain.has_flag(number, TRANSITION) else "as whoever signed in"
                yield Finding("delegation", "act", [f"comes to {', '.join(names[:3])} {how}"], sid, [], [number], token,
                              words("clear msDS-AllowedToDelegateTo"), number, f"msDS-AllowedToDelegateTo: {names[0]}",
                              look=not domain.has_flag(number, TRANSITION))
        for number, sid, text in self.named_in("msDS-AllowedToActOnBehalfOfOtherIdentity"):
            yield Finding("delegation", "act", ["comes to it as anybody"], sid, [], [number], self.ask_list(number),
                          words("clear msDS-AllowedToActOnBehalfOfOtherIdentity"), number, text)

    # ---- certificates

    def opens(self, number: int) -> str:
        """What who enrols for a template comes to, with nobody to approve it: `enrol`, where he names the subject and
        signs in by it; `agent`, where he enrols for others then; else nothing."""
        domain = self.domain
        uses = {text_of(value) for value in domain.accounts.values(number, "pKIExtendedKeyUsage")}
        flags = domain.whole(number, "msPKI-Enrollment-Flag") or 0
        names_it = domain.whole(number, "msPKI-Certificate-Name-Flag") or 0
        if flags & APPROVAL or domain.whole(number, "msPKI-RA-Signature"):
            return ""
        return "enrol" if names_it & SUPPLIES and (not uses or uses & SIGNS_IN) else "agent" if AGENT in uses else ""

    def issued(self) -> set[str]:
        """The names of the templates that some authority issues, in lower case."""
        domain = self.domain
        return {text_of(value).lower() for number in domain.objects if domain.is_a(number, "pkienrollmentservice")
                for value in domain.accounts.values(number, "certificateTemplates")}

    def enrolment(self) -> Iterator[Finding]:
        """Who enrols where the subject is what he says, or as an agent for others."""
        domain, issued = self.domain, self.issued()
        for number in domain.objects:
            opens = self.opens(number) if domain.is_a(number, "pkicertificatetemplate") else ""
            if not opens:
                continue
            notes = [BY_RIGHTS] if domain.label(number).lower() in issued else [NO_AUTHORITY, BY_RIGHTS]
            found: dict[str, Finding] = {}
            for decides, sid in self.questions.who(ENROL, number):
                if self.ruling.is_inside(sid) or not decides.isdigit():
                    continue
                entry, holder_of = domain.entries(number)[int(decides) - 1], domain.number(sid)
                at, own = domain.source(number, entry)
                who = text_of_sid(entry.sid)
                made = found.setdefault(entry_text(own), Finding(
                    "certificates", opens, [HARMS[opens]], who, [], [number], ["who", ENROL, domain.names[number]],
                    removal(domain, at, [own]), at, entry_text(own), list(notes)))
                if holder_of is not None and domain.is_account(holder_of) and sid != who:
                    made.members.append(holder_of)
            yield from found.values()

    # ---- identifiers

    def unknown(self) -> Iterator[Finding]:
        """Identifiers of accounts that stand in lists, and that nobody here has."""
        domain, found = self.domain, self.named_nowhere()
        prefix = f"{domain.sid(ROOT)}-"
        for sid, numbers in sorted(found.items(), key=lambda one: -len(one[1]))[:MOST_UNKNOWN]:
            what = "was deleted" if sid.startswith(prefix) else "is of another domain, and has no object here"
            yield Finding("unknown", "unknown", [what], sid, [], numbers, self.ask_list(numbers[0]),
                          all_of(domain, sid, numbers[:20]), numbers[0], look=True)

    def named_nowhere(self) -> dict[str, list[int]]:
        """The objects in whose own lists each such identifier stands."""
        made: dict[str, list[int]] = {}
        known: dict[bytes, set[str]] = {}
        for number, one in self.domain.objects.items():
            if one.normal not in known:
                known[one.normal] = {text_of_sid(entry.sid) for entry in self.domain.entries(number)
                                     if not entry.flags & INHERITED and self.is_unknown(entry.sid)}
            for sid in known[one.normal]:
                made.setdefault(sid, []).append(number)
        return made

    def is_unknown(self, sid: Optional[bytes]) -> bool:
        if sid is None or sid in self.domain.accounts.of_sid:
            return False
        text = text_of_sid(sid)
        return text.startswith("S-1-5-21-") and self.domain.accounts.name(sid) is None

    # ---- who is gone

    def gone(self) -> Iterator[Finding]:
        """Administrators who are disabled, or haven't signed in for long; but not the account of tickets."""
        domain, tickets = self.domain, self.domain.number(self.domain.own(TICKETS))
        for number in domain.accounts.sids:
            sid = domain.sid(number) or ""
            if number == tickets or not domain.is_a(number, "user") or not self.ruling.is_inside(sid):
                continue
            if domain.is_disabled(number) or domain.is_stale(number):
                what = "is disabled" if domain.is_disabled(number) else "hasn't signed in for half a year"
                yield Finding("disabled", "gone", [f"is an administrator, and {what}"], sid, [], [number],
                              ["token", domain.names[number]], words("take it out of the groups that rule"), number,
                              "userAccountControl", look=True)
