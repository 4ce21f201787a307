"""What an audit tells: findings by target, and the counts of each; as records that the page, JSON and CSV are made
of."""

import shlex
from dataclasses import dataclass, field
from typing import Optional, Sequence

from adsd_tools.forms.descriptor import ALLOW, DENY, INHERITED
from adsd_tools.forms.sids import text_of_sid

from .chains import Link, Reach
from .domain import ROOT, Domain
from .findings import Facts, Finding
from .fixes import entry_text
from .ruling import Ruling
from .targets import AREAS, Target

MOST_NAMES = 200
# Of how many objects of each area it is asked who comes to control them: of those that are opened in one step first.
MOST_OF = {"domain": 1, "protection": 1, "controllers": 4, "administrators": 8, "policies": 5, "certificates": 4}
# The groups that are asked about first, by their last numbers, and those of which the others are left out.
FIRST, OPENED, LEADING = (512, 519, 544), ("certificates",), "ways"


@dataclass
class Told:
    """All that an audit comes to. `reach` has, of each target that somebody outside opens in one step, how many
    identifiers do; `control` who comes to control the first ones by chains."""

    store: str
    objects: int
    answers: int
    has_control: bool
    findings: list[Finding]
    reach: list[tuple[Target, int, int]]
    delegated: list[dict[str, object]]
    without: list[str]
    incomplete: list[str] = field(default_factory=list)
    notes: list[str] = field(default_factory=list)
    control: list[Reach] = field(default_factory=list)

    def reaches(self, area: str) -> list[Reach]:
        """The targets of an area to which a chain leads, first those that most come to control."""
        found = [one for one in self.control if one.target.area == area and one.chains]
        return sorted(found, key=lambda one: -one.identities)


def areas_of(told: Told) -> list[str]:
    """The areas that were looked at: what only leads on to the root is known by chains alone."""
    return [area for area in AREAS if told.has_control or area != LEADING]


def command(words: list[str], store: str) -> str:
    """A question as a line of a shell. `effective` has whom it asks about after its words: his token is its input."""
    word, place = words[0], shlex.quote(store)
    if word != "effective":
        return " ".join(["adsd", word, place, *map(shlex.quote, words[1:])])
    token = f"echo \"token 0 user={words[2]} groups='*'\" | adsd-ask frames --store {place} - | tail -c +8"
    return f"{token} | adsd effective {place} {shlex.quote(words[1])}"


def in_order(findings: list[Finding]) -> list[Finding]:
    """Findings, the worst first; what is only to be looked at comes last in its area."""
    return sorted(findings, key=lambda one: (one.order()[0], one.look, *one.order()[1:]))


def reached(domain: Domain, facts: Facts, ruled: dict[int, Target]) -> list[tuple[Target, int, int]]:
    """The targets that somebody outside opens, each with how many accounts and identifiers do."""
    made = []
    places = list(AREAS)
    for number, sids in facts.reach.items():
        if number in ruled:
            found = [one for one in map(domain.number, sids) if one is not None]
            accounts = sum(domain.is_account(one) and not domain.is_disabled(one) for one in found)
            made.append((ruled[number], accounts, len(sids)))
    return sorted(made, key=lambda one: (places.index(one[0].area), -one[1], one[0].number))


def controlled(domain: Domain, facts: Facts, ruled: dict[int, Target]) -> list[Target]:
    """The targets of which it is asked who comes to control them: the first ones of each area."""
    made, first = [], {domain.own(rid) for rid in FIRST} | {f"S-1-5-32-{rid}" for rid in FIRST}
    for area, most in MOST_OF.items():
        found = [target for target in ruled.values()
                 if target.area == area and (area not in OPENED or target.number in facts.reach)]
        found.sort(key=lambda target: (domain.sid(target.number) not in first, target.number not in facts.reach,
                                       -len(facts.reach.get(target.number, ()))))
        made += found[:most]
    return made


def steps_of(links: Sequence[Link]) -> list[dict[str, object]]:
    """A chain as JSON has it."""
    return [{"by": {"sid": one.sid, "name": one.name}, "kind": one.kind, "decides": one.decides,
             "to": {"sid": one.to_sid, "name": one.to_name}} for one in links]


def line_of(links: Sequence[Link]) -> str:
    """A chain on one line: who, and of each step its kind and where it leads."""
    return "" if not links else links[0].name + "".join(f" -{one.kind}-> {one.to_name}" for one in links)


def chain_command(domain: Domain, store: str) -> str:
    """The line that asks for all chains to the root."""
    return command(["control", domain.names[ROOT]], store)


def delegated(domain: Domain, ruling: Ruling) -> list[dict[str, object]]:
    """The entries of units' own lists that no class gives and that aren't for those who rule: what was delegated."""
    made: list[dict[str, object]] = []
    for number in domain.objects:
        if not domain.is_a(number, "organizationalunit"):
            continue
        for entry in domain.entries(number):
            sid = text_of_sid(entry.sid)
            if entry.kind in (ALLOW, DENY) and not entry.flags & INHERITED and not ruling.is_inside(sid) \
                    and not domain.is_default(number, entry):
                made.append({"unit": domain.names[number], "sid": sid, "who": domain.called(sid),
                             "entry": entry_text(entry)})
    return made


class Names:
    """How findings name what they are about."""

    def __init__(self, domain: Domain) -> None:
        self.domain = domain

    def who(self, finding: Finding) -> str:
        """Whom a finding is of; where it is of nobody, the object that it is about."""
        if finding.who:
            return self.domain.called(finding.who)
        return "" if finding.at is None else self.domain.label(finding.at)

    def members(self, finding: Finding, most: int = MOST_NAMES) -> list[str]:
        return [self.domain.label(number) for number in finding.members[:most]]

    def at(self, finding: Finding) -> Optional[str]:
        return None if finding.at is None else self.domain.names[finding.at]


def record(finding: Finding, told: Told, names: Names) -> dict[str, object]:
    """A finding as JSON has it."""
    domain = names.domain
    ways = finding.chain or finding.onward
    chain = {"from": "holder" if finding.chain else "object", "steps": steps_of(ways),
             "ask": chain_command(domain, told.store)} if ways else None
    made: dict[str, object] = {
        "target": finding.area, "level": "look" if finding.look else "fault", "what": finding.what,
        "who": {"sid": finding.who, "name": names.who(finding)},
        "accounts": [{"sid": domain.sid(number), "name": domain.label(number)} for number in finding.members],
        "objects": [domain.names[number] for number in finding.objects],
        "at": names.at(finding), "entry": finding.entry, "notes": finding.notes,
        "ask": command(finding.ask, told.store),
        "fix": {"with": finding.fix.command, "lines": list(finding.fix.lines), "words": finding.fix.words}}
    return {**made, "chain": chain} if told.has_control else made
