"""What rules the domain, target by target: where to look, and which rights are asked for there."""

import re
from dataclasses import dataclass
from typing import Iterable, Iterator, Mapping

from adsd_tools.report.protection import HOLDER

from .domain import ROOT, Domain
from .ruling import ACCOUNTS_OF_DOMAIN, CONTROLLERS, Ruling

# The targets, the worst first: a word, a heading, and what follows where somebody takes one over.
AREAS = {
    "domain": ("The head of the domain", "who replicates secrets or writes this DACL has every account"),
    "protection": ("AdminSDHolder", "its DACL is put on all that is protected, within the hour"),
    "controllers": ("Domain controllers, and the units above them", "a controller has the secrets of all accounts"),
    "administrators": ("Administrators' accounts and groups", "who takes one over is an administrator"),
    "ways": ("What leads to the head of the domain", "a chain of control leads on from these to the domain's root"),
    "policies": ("Policies that are linked", "a policy runs what it says on all that it is linked to"),
    "certificates": ("Certificate templates and authorities", "a certificate for somebody else signs in as him"),
    "passwords": ("Passwords that can be read, or guessed", "LAPS, managed accounts, and tickets to guess by"),
    "delegation": ("Delegation: who may impersonate others", "who sets whom a server trusts comes to it as anybody"),
    "everybody": ("What everybody may do", "beyond what the schema gives"),
    "delegates": ("Accounts and groups that others write", "and are no administrators"),
    "units": ("Units that others write", "what is below takes its list from there"),
    "owners": ("Owners that aren't administrators", "an owner writes the DACL, unless owner rights say otherwise"),
    "leftovers": ("Lists that were left behind", "of accounts that were administrators once"),
    "unknown": ("Identifiers that nobody has", "deleted, or of another domain"),
    "disabled": ("Holders that are disabled or long gone", "their rights come back with them"),
}
LINK, LINK_DISABLED = re.compile(r"\[LDAP://([^;\]]+);([0-9]{1,9})\]", re.IGNORECASE), 1
RESET, KEY = "CR:User-Force-Change-Password", "WP:msDS-KeyCredentialLink"
ACT, SPN, LINKS = "WP:msDS-AllowedToActOnBehalfOfOtherIdentity", "WP:servicePrincipalName", "WP:gPLink"
SERVICES, MAPS = "WP:msDS-AllowedToDelegateTo", "WP:altSecurityIdentities"
ALL_CHANGES, CHANGES = "CR:DS-Replication-Get-Changes-All", "CR:DS-Replication-Get-Changes"
ENROL, MEMBER, ITSELF = "CR:Certificate-Enrollment", "WP:member", "SW:Self-Membership"
LIST = ("WD", "WO", "WP")
OF_ROOT = (*LIST, ALL_CHANGES, CHANGES, LINKS, "CR:Migrate-SID-History")
OF_ACCOUNT = (*LIST, RESET, KEY, MAPS, ACT, SERVICES, SPN, "WP:scriptPath", "WP:userAccountControl")
OF_GROUP = (*LIST, MEMBER, ITSELF)
OF_UNIT, OF_OTHER = (*LIST, LINKS, "CC"), (*LIST, "CC")
OF_POLICY = (*LIST, "WP:gPCFileSysPath")
OF_TEMPLATE = (*LIST, "WP:msPKI-Certificate-Name-Flag", "WP:pKIExtendedKeyUsage", "WP:msPKI-Enrollment-Flag")
OF_AUTHORITY = (*LIST, "WP:certificateTemplates", "WP:cACertificate", "CC")
PKI, UNITS = "public key services", ("organizationalunit", "container", "builtindomain", "site")


@dataclass(frozen=True)
class Target:
    """An object that is looked at: where it is told, and what it is in words."""

    number: int
    area: str
    told: str


def rights_of(domain: Domain, number: int) -> tuple[str, ...]:
    """The rights that are asked for on an object of its kind."""
    if number == ROOT:
        return OF_ROOT
    kinds = (("user", OF_ACCOUNT), ("group", OF_GROUP), ("grouppolicycontainer", OF_POLICY),
             ("pkicertificatetemplate", OF_TEMPLATE), ("pkienrollmentservice", OF_AUTHORITY),
             ("certificationauthority", OF_AUTHORITY), ("organizationalunit", OF_UNIT), ("site", OF_UNIT))
    return next((rights for name, rights in kinds if domain.is_a(number, name)), OF_OTHER)


def links(domain: Domain, number: int) -> list[int]:
    """The policies that are linked to an object, by links that are followed."""
    made = []
    for value in domain.accounts.values(number, "gPLink"):
        for name, options in LINK.findall(value.decode("utf-8", "replace")):
            found = domain.found(name)
            if found is not None and not int(options) & LINK_DISABLED:
                made.append(found)
    return made


def holder(domain: Domain) -> int:
    """The number of AdminSDHolder; 0 where there is none."""
    return domain.found(HOLDER + domain.names[ROOT]) or 0


def heads(domain: Domain, ruling: Ruling) -> Iterator[Target]:
    """The root, AdminSDHolder, and the controllers with what stands above them."""
    yield Target(ROOT, "domain", "the domain's root")
    if holder(domain):
        yield Target(holder(domain), "protection", "its list is put on all that is protected")
    controllers = {number for rid in CONTROLLERS for number in ruling.members.get(domain.own(rid), [])}
    for number in sorted(controllers):
        if domain.is_account(number):
            yield Target(number, "controllers", "a domain controller")
            for up in domain.above(number):
                yield Target(up, "controllers", "above domain controllers")


def administrators(domain: Domain, ruling: Ruling, protected: set[int]) -> Iterator[Target]:
    """The groups that rule, who is in them, and all that is protected."""
    groups = {number: sid for sid in ruling.groups if (number := domain.number(sid)) is not None}
    for number in groups:
        yield Target(number, "administrators", "a group that rules")
    for rid in ACCOUNTS_OF_DOMAIN:
        number = domain.number(domain.own(rid))
        if number is not None:
            yield Target(number, "administrators", "the domain's own account")
    for sid in ruling.groups:
        for number in ruling.members[sid]:
            if domain.is_a(number, "user", "group"):
                yield Target(number, "administrators", f"in {domain.called(sid)}")
    for number in sorted(protected):
        yield Target(number, "administrators", "protected")


def policies(domain: Domain) -> Iterator[Target]:
    """The policies that are linked anywhere, with where: those of the domain and its controllers first."""
    where: dict[int, list[int]] = {}
    for number in domain.objects:
        for policy in links(domain, number):
            where.setdefault(policy, []).append(number)
    for policy, places in where.items():
        more = f" and {len(places) - 3} more" if len(places) > 3 else ""
        names = ", ".join(domain.label(one) for one in places[:3])
        yield Target(policy, "policies", f"linked to {names}{more}")


def certificates(domain: Domain) -> Iterator[Target]:
    """All that stands below Public Key Services, and itself."""
    tops = [number for number, name in domain.names.items() if name.casefold().startswith(f"cn={PKI},cn=services,")]
    todo = tops[:]
    while todo:
        number = todo.pop()
        told = "a template" if domain.is_a(number, "pkicertificatetemplate") else "of the certificate services"
        if domain.is_a(number, "pkienrollmentservice", "certificationauthority"):
            told = "an authority"
        yield Target(number, "certificates", told)
        todo += domain.children.get(number, [])


def ways(leading: Mapping[int, int]) -> Iterator[Target]:
    """The objects from which a chain leads to the root, those that are nearest first."""
    for number, length in sorted(leading.items(), key=lambda one: (one[1], one[0])):
        yield Target(number, "ways", f"{length} step{'s' if length != 1 else ''} from the domain's root")


def targets(domain: Domain, ruling: Ruling, protected: set[int], more: Iterable[int] = (),
            leading: Mapping[int, int] = {}) -> dict[int, Target]:
    """All targets by number: an object that is several is what comes first. `more` are those that a file names, and
    `leading` those from which a chain leads to the root, each with its length."""
    made: dict[int, Target] = {}
    named = (Target(number, "administrators", "named as a target") for number in more)
    for some in (heads(domain, ruling), named, administrators(domain, ruling, protected), policies(domain),
                 certificates(domain), ways(leading)):
        for one in some:
            made.setdefault(one.number, one)
    return made


def in_policy(domain: Domain, number: int) -> bool:
    """Whether an object stands below a policy."""
    return any(domain.is_a(up, "grouppolicycontainer") for up in domain.above(number))


def ordinary(domain: Domain, ruled: dict[int, Target]) -> Iterator[Target]:
    """What is no target that rules: accounts, groups, units and what else holds others."""
    for number in domain.objects:
        if number in ruled:
            continue
        if domain.is_a(number, "user", "group"):
            yield Target(number, "delegates", "a group" if domain.is_a(number, "group") else "an account")
        elif domain.is_a(number, "grouppolicycontainer"):
            yield Target(number, "units", "a policy that isn't linked")
        elif domain.is_a(number, *UNITS) and not in_policy(domain, number):
            yield Target(number, "units", "a unit")
