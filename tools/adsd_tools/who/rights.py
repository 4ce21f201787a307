"""The lines of `adsd rights`, read by their grammar (docs/profile/rights.md): who has no token, sets of identities, and
each object by its set. Not proved."""

from typing import Any, Dict, List, Optional, Set

from adsd_tools import lines
from adsd_tools.lines import Unread

# How the object itself stands to its set: as the set says, in it besides, or not in it.
SIGNS: Dict[str, Optional[bool]] = {"": None, "+ ": True, "- ": False}


class Reader:
    """Takes the lines one after the other, and refuses the first that can't stand where it does."""

    def __init__(self) -> None:
        self.none: List[Dict[str, Any]] = []
        self.sets: List[Dict[str, Any]] = []
        self.objects: List[Dict[str, Any]] = []
        self.names: Set[str] = set()
        # The set whose members stand now, and who was told of it.
        self.open, self.members = False, set[str]()

    def identity(self, line: str, rest: str) -> Dict[str, Any]:
        sid, _, name = rest.partition(" ")
        if lines.sid(sid) is None or not name:
            raise Unread("rights", line)
        return {"sid": sid, "name": name}

    def without(self, line: str, rest: str) -> None:
        if self.sets or self.objects:
            raise Unread("rights", line)
        self.none.append(self.identity(line, rest))

    def member(self, line: str, rest: str) -> None:
        """A member of a new set, or of the one whose members stand now."""
        number, _, told = rest.partition(" ")
        one = self.identity(line, told)
        new = not self.open
        if lines.number(number) != len(self.sets) + new or (not new and one["sid"] in self.members):
            raise Unread("rights", line)
        if new:
            self.sets.append({"set": len(self.sets) + 1, "identities": []})
            self.open, self.members = True, set()
        self.members.add(one["sid"])
        self.sets[-1]["identities"].append(one)

    def place(self, line: str, rest: str) -> None:
        """An object, by a set that was told; a new set stands before the first object that it tells."""
        number, _, told = rest.partition(" ")
        sign = told[:2] if told[:2] in SIGNS else ""
        name, of = told[len(sign):], lines.number(number)
        if not name or name in self.names or of is None:
            raise Unread("rights", line)
        if of == len(self.sets) + 1 and not self.open and sign == "+ ":
            # (a set that nobody is in, but for the object itself)
            self.sets.append({"set": of, "identities": []})
        if not 0 < of <= len(self.sets) or (self.open and of != len(self.sets)):
            raise Unread("rights", line)
        self.open = False
        self.names.add(name)
        self.objects.append({"name": name, "set": of, "itself": SIGNS[sign]})

    def take(self, line: str) -> None:
        word, _, rest = line.partition(" ")
        taken = {"none": self.without, "in": self.member, "on": self.place}.get(word)
        if taken is None:
            raise Unread("rights", line)
        taken(line, rest)


def read(said: bytes) -> Dict[str, List[Dict[str, Any]]]:
    """The lines: `none`, those who have no token; `sets` with the identities of each; and `objects`, each with the number
    of its set, and whether it is in it itself: as the set says where that is None."""
    reader = Reader()
    for line in lines.lines("rights", said):
        reader.take(line)
    if reader.open:
        raise Unread("rights", said, "ends within a set")
    return {"none": reader.none, "sets": reader.sets, "objects": reader.objects}
