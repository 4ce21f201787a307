"""Who is meant to rule the domain, and who does: the groups of administrators by their identifiers, and whoever's token
has one of these. Rows say who may be in them; that somebody is, says the program's token."""

from dataclasses import dataclass, field
from typing import Iterable, Optional

from adsd_tools.forms.sids import sid_at, text_of_sid

from .domain import Domain
from .questions import Questions

# Those who are meant to have all rights: the system, administrators, controllers; and, by their last numbers in the
# domain, its administrators, those of schema and forest, controllers, and those who write key credentials.
EVERYWHERE, OF_DOMAIN = ("S-1-5-18", "S-1-5-9", "S-1-5-32-544"), (500, 498, 512, 516, 518, 519, 526, 527)
# Groups by which an account rules, or comes near to it: the same, and operators.
GROUPS, GROUPS_OF_DOMAIN = (544, 548, 549, 550, 551), (512, 516, 518, 519, 520, 521, 526, 527)
ACCOUNTS_OF_DOMAIN, CONTROLLERS = (500, 502), (516, 521)
BUILTIN = "S-1-5-32-{}"


@dataclass
class Ruling:
    """Identifiers' texts: of those who are meant to rule (`heads`), of all whose token has one of these (`inside`); the
    groups that count as ruling and who is in each, by numbers; and what a file named."""

    heads: frozenset[str]
    inside: frozenset[str]
    groups: list[str]
    members: dict[str, list[int]] = field(default_factory=dict)
    named: list[str] = field(default_factory=list)

    def is_inside(self, sid: str) -> bool:
        return sid in self.inside


def above_of(domain: Domain, with_history: bool = True) -> dict[int, set[int]]:
    """The groups that an object may be in by what rows say: by member, primaryGroupID and, if asked for, sIDHistory."""
    made: dict[int, set[int]] = {}
    for number in domain.objects:
        for one in domain.linked(number, "member"):
            made.setdefault(one, set()).add(number)
        primary = domain.whole(number, "primaryGroupID")
        group = domain.number(domain.own(primary)) if primary is not None and 0 <= primary < 2**32 else None
        before = history(domain, number) if with_history else []
        for up in (group, *(domain.number(sid) for sid in before)):
            if up is not None and up != number:
                made.setdefault(number, set()).add(up)
    return made


def history(domain: Domain, number: int) -> list[str]:
    """The identifiers that an object had elsewhere."""
    found = [sid_at(value, 0, len(value)) for value in domain.accounts.values(number, "sIDHistory")]
    return [text_of_sid(sid) for sid in found if sid]


def below_of(above: dict[int, set[int]]) -> dict[int, list[int]]:
    """Who may be in a group directly, by its number."""
    made: dict[int, list[int]] = {}
    for number, groups in above.items():
        for group in groups:
            made.setdefault(group, []).append(number)
    return made


def under(below: dict[int, list[int]], groups: Iterable[int]) -> set[int]:
    """All who may be in some groups, directly or not."""
    found: set[int] = set()
    todo = list(groups)
    while todo:
        for one in below.get(todo.pop(), ()):
            if one not in found:
                found.add(one)
                todo.append(one)
    return found


def ruling(domain: Domain, questions: Questions, named: Iterable[str]) -> Ruling:
    """Who rules; `named` are further identifiers that are meant to."""
    more = list(named)
    heads = {*EVERYWHERE, *(domain.own(rid) for rid in OF_DOMAIN), *more} - {""}
    groups = [BUILTIN.format(rid) for rid in GROUPS] + [domain.own(rid) for rid in GROUPS_OF_DOMAIN] + more
    groups = [sid for sid in dict.fromkeys(groups) if domain.number(sid) is not None]
    numbers = [one for one in map(domain.number, {*groups, *heads}) if one is not None]
    candidates = sorted({*under(below_of(above_of(domain)), numbers), *numbers})
    tokens = questions.held(number for number in candidates if domain.sid(number))
    sids = {number: domain.sid(number) or "" for number in candidates}
    inside = {sid for number, sid in sids.items() if sid and tokens[number] & heads}
    made = Ruling(frozenset(heads), frozenset(inside | heads), groups, named=more)
    for group in groups:
        made.members[group] = [number for number, sid in sids.items()
                               if sid and sid != group and group in tokens[number]]
    return made


def chain(domain: Domain, above: dict[int, set[int]], number: int, group: int) -> Optional[list[int]]:
    """The shortest way from somebody to a group by what rows say, both ends with it."""
    before: dict[int, int] = {number: 0}
    todo = [number]
    for one in todo:
        if one == group:
            made = [one]
            while before[made[0]]:
                made.insert(0, before[made[0]])
            return made
        for up in sorted(above.get(one, ())):
            if up not in before and counts(domain, up):
                before[up] = one
                todo.append(up)
    return None


def counts(domain: Domain, number: int) -> bool:
    """Whether a group's type is one that gives rights; which tokens have it says the program."""
    kind = domain.whole(number, "groupType")
    return kind is None or bool(kind & 0x80000000)
