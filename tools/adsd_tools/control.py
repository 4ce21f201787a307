"""Chains of control, as `control` and `reach` tell them (docs/profile/control.md): nodes, and of each but the one that
was asked about one step. A chain is made by following steps, and by nothing else. Not proved."""

import re
from dataclasses import dataclass
from typing import NamedTuple

from adsd_tools import lines
from adsd_tools.shown import shown

WORD = {False: "control", True: "reach"}
NODE = re.compile(r"object ([1-9][0-9]{0,9}) (\S+) (.+)")
STEP = re.compile(r"step (0|[1-9][0-9]{0,9}) ([1-9][0-9]{0,9}) ([a-z]+) (\S+) ([1-9][0-9]{0,9})")
MEMBER = "member"
DOMAIN = re.compile(r"S-1-5-(?:32|21(?:-[0-9]+){3})")
# What whoever begins a step of each kind does to its end, in words.
DOES = {
    "descriptor": "writes the DACL of", "reset": "resets the password of", "join": "puts members into",
    "key": "puts a key of its own on", "act": "comes as anybody to", "secret": "reads the password of",
    "replicate": "replicates all secrets of", "all": "holds, as the root,", "child": "hands its DACL down to",
    "protect": "gives its DACL, with the next protection run, to", "link": "runs a policy on", MEMBER: "is in",
}
# The same of a member of what is no group: its token has the other's identifier, as by sIDHistory.
HOLDS = "has the identifier of"


def does(kind: str, to_group: bool = True) -> str:
    """What a step does, in words; where it leads to a group or not."""
    return HOLDS if kind == MEMBER and not to_group else DOES.get(kind, kind)


class Node(NamedTuple):
    """Somebody, or an object: its identifier's text and its name, empty where it hasn't one."""

    sid: str
    name: str


class Step(NamedTuple):
    """A step of a chain: from which place to which, of which kind, and what decides, `-` where that is no question."""

    begin: int
    kind: str
    decides: str
    end: int


@dataclass(frozen=True)
class Told:
    """The nodes by their places; the length and the step of each but one; and that one, which was asked about."""

    nodes: dict[int, Node]
    lengths: dict[int, int]
    steps: dict[int, Step]
    asked: int
    back: bool

    def identities(self) -> list[int]:
        """The places of those that have an identifier, the nearest first; but for the one that was asked about, and for
        domains, as which nobody comes."""
        found = [place for place in self.steps if self.nodes[place].sid and not DOMAIN.fullmatch(self.nodes[place].sid)]
        return sorted(found, key=lambda place: (self.lengths[place], place))

    def chain(self, place: int) -> list[Step]:
        """The steps from a place to the one that was asked about; backwards, from that one to the place."""
        made: list[Step] = []
        while place in self.steps:
            step = self.steps[place]
            made.append(step)
            place = step.begin if self.back else step.end
            if len(made) > len(self.steps):
                raise lines.Unread(WORD[self.back], f"step {step.begin} {step.end}", "is no chain")
        return made[::-1] if self.back else made


def read(said: bytes, back: bool = False) -> Told:
    """What `control` printed, or `reach`, if `back`."""
    word = WORD[back]
    nodes: dict[int, Node] = {}
    lengths: dict[int, int] = {}
    steps: dict[int, Step] = {}
    names: set[str] = set()
    for line in lines.lines(word, said):
        node, step = NODE.fullmatch(line), STEP.fullmatch(line)
        if node and int(node[1]) == len(nodes) + 1 and not steps:
            if (node[2] != "-" and lines.sid(node[2]) is None) or (node[2] == node[3] == "-"):
                raise lines.Unread(word, line)
            if node[3] in names:
                raise lines.Unread(word, line, "has a name twice")
            names.update({node[3]} - {"-"})
            nodes[int(node[1])] = Node("" if node[2] == "-" else node[2], "" if node[3] == "-" else shown(node[3]))
        elif step and {int(step[2]), int(step[5])} <= nodes.keys() and lines.is_reason(step[4]):
            begin, end = int(step[2]), int(step[5])
            own = end if back else begin
            if own in steps or begin == end:
                raise lines.Unread(word, line)
            lengths[own], steps[own] = int(step[1]), Step(begin, step[3], step[4], end)
        else:
            raise lines.Unread(word, line)
    ends = nodes.keys() - steps.keys()
    if len(ends) != 1:
        raise lines.Unread(word, "", f"has {len(ends)} nodes without a step")
    return checked(Told(nodes, lengths, steps, ends.pop(), back), word)


def checked(told: Told, word: str) -> Told:
    """The same, where each length is the next one's and one more, but for members, who cost nothing."""
    for place, step in told.steps.items():
        after = step.begin if told.back else step.end
        rest = told.lengths.get(after, 0)
        if told.lengths[place] != rest + (step.kind != MEMBER):
            raise lines.Unread(word, f"step {told.lengths[place]} {step.begin} {step.kind}", "is no chain")
    return told
