"""Chains of control, where the program knows `control`: who outside comes to control a target, in how few steps, and by
which. Each step is the program's; what a finding adds to them is the entry by which the first one is."""

from dataclasses import dataclass
from typing import Iterable, NamedTuple, Optional, Sequence

from adsd_tools.control import MEMBER, Told

from .domain import ROOT, Domain
from .questions import Questions
from .ruling import Ruling
from .targets import Target

# How many targets are asked about; the first ones, which are the worst.
MOST_ASKED = 24


class Link(NamedTuple):
    """A step: who or what it begins at, by number (None where no object is that), identifier and name; its kind; and
    where it leads."""

    number: Optional[int]
    sid: str
    name: str
    kind: str
    decides: str
    to: int
    to_sid: str
    to_name: str


@dataclass(frozen=True)
class Chain:
    """A chain to a target from whoever begins it; its length is how many steps count."""

    target: int
    sid: str
    name: str
    length: int
    links: tuple[Link, ...]


@dataclass(frozen=True)
class Reach:
    """Who outside comes to control a target: how many identifiers, how many of them are accounts that may sign in, and
    the chains, the shortest first."""

    target: Target
    identities: int
    accounts: int
    chains: list[Chain]


class Chains:
    """What the program tells of chains to some targets."""

    def __init__(self, domain: Domain, questions: Optional[Questions], ruling: Ruling) -> None:
        self.domain, self.questions, self.ruling = domain, questions, ruling
        self.root = self.asked([ROOT]).get(ROOT)
        self.places: dict[int, int] = {}
        self.of_sid: dict[str, int] = {}
        for place, node in self.root.nodes.items() if self.root else ():
            number = domain.found(node.name) if node.name else None
            if number is not None:
                self.places[number] = place
            if node.sid:
                self.of_sid.setdefault(node.sid, place)

    def asked(self, numbers: Iterable[int]) -> dict[int, Told]:
        return self.questions.controls(numbers) if self.questions and self.questions.knows_control else {}

    # ---- to the root

    def leading(self) -> dict[int, int]:
        """The objects from which a chain leads to the root, with its length; but for those that are meant to rule."""
        if self.root is None:
            return {}
        return {number: self.root.lengths[place] for number, place in self.places.items()
                if place in self.root.steps and not self.ruling.is_inside(self.domain.sid(number) or "")}

    def of_finding(self, holders: Sequence[str], objects: Sequence[int]) -> tuple[Link, ...]:
        """The chain to the root that begins with a finding: that of the first of some holders whose next step leads to
        one of some objects; none where there isn't one."""
        if self.root is None:
            return ()
        wanted = {self.places[one] for one in objects if one in self.places}
        for place in (self.of_sid[sid] for sid in holders if sid in self.of_sid):
            links = self.root.chain(place)
            counting = next((at for at, step in enumerate(links) if step.kind != MEMBER), len(links))
            if any(step.end in wanted for step in links[: counting + 1]):
                return self.links(self.root, place)
        return ()

    def from_object(self, objects: Sequence[int]) -> tuple[Link, ...]:
        """The shortest chain from one of some objects to the root; none where none leads there."""
        if self.root is None:
            return ()
        found = [self.places[one] for one in objects if one in self.places and self.places[one] in self.root.steps]
        lengths = self.root.lengths
        best = min(found, key=lambda place: (lengths[place], place), default=None)
        return () if best is None else self.links(self.root, best)

    # ---- to any target

    def links(self, told: Told, place: int) -> tuple[Link, ...]:
        """A chain with the names of what it leads over."""
        made = []
        for step in told.chain(place):
            begin, end = told.nodes[step.begin], told.nodes[step.end]
            to = self.domain.found(end.name)
            made.append(Link(self.domain.found(begin.name) if begin.name else None, begin.sid,
                             self.called(begin.sid, begin.name), step.kind, step.decides,
                             0 if to is None else to, end.sid, self.called(end.sid, end.name)))
        return tuple(made)

    def called(self, sid: str, name: str) -> str:
        """What a node is called: by its account where it has an identifier, else by the first part of its name."""
        number = self.domain.found(name) if name else None
        return self.domain.called(sid) if number is None else self.domain.label(number)

    def to(self, target: Target, told: Told) -> Reach:
        """Who outside comes to control a target."""
        begins = [place for place in told.identities() if not self.ruling.is_inside(told.nodes[place].sid)]
        own = {place: self.domain.number(told.nodes[place].sid) for place in begins}
        accounts = [place for place, number in own.items() if number is not None and self.domain.is_account(number)
                    and not self.domain.is_disabled(number)]
        apart = set(begins) - set(accounts)
        begins.sort(key=lambda place: (told.lengths[place], place in apart, place))
        made = [Chain(target.number, told.nodes[place].sid, self.called(*told.nodes[place]), told.lengths[place],
                      self.links(told, place)) for place in begins]
        return Reach(target, len(begins), len(accounts), made)

    def reached(self, targets: Iterable[Target]) -> list[Reach]:
        """Who comes to control each of the first of some targets."""
        some = list(targets)[:MOST_ASKED]
        told = self.asked(one.number for one in some)
        return [self.to(one, told[one.number]) for one in some if one.number in told]
