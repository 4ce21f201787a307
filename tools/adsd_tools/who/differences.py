"""The lines of `adsd diff`, read by their grammar (docs/profile/diff.md): the causes, groups of principals and of objects,
and what each group gains and loses. Not proved."""

import re
from typing import Any, Callable, Dict, Iterator, List, Set, Tuple

from adsd_tools import lines
from adsd_tools.lines import Unread

SIGNS = {"+": "gained", "-": "lost"}
CODES = re.compile(r"[A-Z]{2}")
OF = ("object", "attribute", "right", "validated", "child")
# What a cause tells after its word, and after its sign where it has one; a tab stands between two parts.
CAUSES: Dict[str, Tuple[str, ...]] = {"owner": ("name", "sid"), **{word: ("name",) for word in ("protected", "order", "class", "primary", "history", "schema")}}
SIGNED = {"object": ("name",), "entry": ("name", "ace"), "member": ("group", "name")}
# The lines in the order in which they stand.
CAUSE, PRINCIPAL, OBJECT, BLOCK = range(4)


def right_of(line: str) -> Dict[str, Any]:
    """What stands behind the sign of a line: what the right is of, its name there, and its code."""
    of, _, rest = line[2:].partition(" ")
    name, _, code = rest.rpartition(" ")
    if of not in OF or not CODES.fullmatch(code) or (of == "object") != (not name):
        raise Unread("diff", line)
    return {"of": of, "name": name or None, "code": code}


def number(text: str, line: str) -> int:
    """The number of a group that has changes."""
    if not lines.number(text):
        raise Unread("diff", line)
    return int(text)


class Reader:
    """Takes the lines one after the other, and refuses the first that can't stand where it does."""

    def __init__(self) -> None:
        self.made: Dict[str, List[Dict[str, Any]]] = {"causes": [], "principals": [], "objects": [], "changes": []}
        self.groups: Dict[str, Set[int]] = {"principals": set(), "objects": set()}
        self.names: Set[Tuple[int, str]] = set()
        self.last = CAUSE

    def stands(self, kind: int, line: str, name: str = "") -> None:
        """Nothing stands before what comes before it, and a name stands once among lines of a kind but causes."""
        if kind < self.last or not (name or kind in (CAUSE, BLOCK)) or (name and (kind, name) in self.names):
            raise Unread("diff", line)
        self.last = kind
        self.names.add((kind, name))

    def principal(self, line: str) -> None:
        fields = line.split(" ", 3)
        if len(fields) != 4 or lines.sid(fields[2]) is None:
            raise Unread("diff", line)
        self.stands(PRINCIPAL, line, fields[3])
        self.groups["principals"].add(number(fields[1], line))
        self.made["principals"].append({"group": int(fields[1]), "sid": fields[2], "name": fields[3]})

    def object(self, line: str) -> None:
        group, _, name = line[7:].partition(" ")
        self.stands(OBJECT, line, name)
        self.groups["objects"].add(number(group, line))
        self.made["objects"].append({"group": int(group), "name": name})

    def block(self, line: str) -> None:
        fields = line.split(" ")
        if len(fields) != 4 or fields[2] != "objects":
            raise Unread("diff", line)
        self.stands(BLOCK, line)
        pair: Dict[str, Any] = {"principals": number(fields[1], line), "objects": number(fields[3], line)}
        if any(pair[kind] not in groups for kind, groups in self.groups.items()):
            raise Unread("diff", line)
        self.made["changes"].append({**pair, "gained": [], "lost": []})

    def change(self, line: str) -> None:
        change = self.made["changes"][-1] if self.last == BLOCK and self.made["changes"] else None
        if change is None or (line[0] == "+" and change["lost"]):
            raise Unread("diff", line)
        change[SIGNS[line[0]]].append(right_of(line))

    def cause(self, line: str) -> None:
        word, _, rest = line.partition(" ")
        sign = rest[:1] if word in SIGNED else None
        told = (rest[2:] if word in SIGNED else rest).split("\t")
        parts = SIGNED.get(word) or CAUSES[word]
        if len(told) != len(parts) or not all(told) or (word in SIGNED and rest[:2] not in ("+ ", "- ")):
            raise Unread("diff", line)
        made = dict(zip(parts, told))
        if "sid" in made and lines.sid(made["sid"]) is None:
            raise Unread("diff", line)
        self.stands(CAUSE, line)
        self.made["causes"].append({"cause": word, "sign": sign, **made})

    def take(self, line: str) -> None:
        word, _, rest = line.partition(" ")
        if word in CAUSES or (word in SIGNED and rest[:2] in ("+ ", "- ")):
            return self.cause(line)
        kinds: Tuple[Tuple[str, Callable[[str], None]], ...] = (("principal ", self.principal), ("object ", self.object), ("principals ", self.block),
                 ("+ ", self.change), ("- ", self.change))
        for begins, of_kind in kinds:
            if line.startswith(begins):
                return of_kind(line)
        raise Unread("diff", line)


def read(text: str) -> Dict[str, List[Dict[str, Any]]]:
    """The lines: `causes`; `principals` and `objects` with the number of the group that each is in; and `changes` of a
    group of either."""
    reader = Reader()
    for line in lines.lines("diff", text.encode("utf-8", "surrogateescape")):
        reader.take(line)
    return reader.made


def alone(made: Dict[str, List[Dict[str, Any]]], sign: str) -> List[str]:
    """The names of the objects that the second store alone has (`+`), or the first (`-`)."""
    return [one["name"] for one in made["causes"] if one["cause"] == "object" and one["sign"] == sign]


def expanded(made: Dict[str, List[Dict[str, Any]]]) -> Iterator[Tuple[str, Dict[str, Any], Dict[str, Any], Dict[str, Any]]]:
    """Each change of each principal on each object: the sign, the right, the principal and the object."""
    members: Dict[str, Dict[int, List[Dict[str, Any]]]] = {kind: {} for kind in ("principals", "objects")}
    for kind, groups in members.items():
        for one in made[kind]:
            groups.setdefault(one["group"], []).append(one)
    for change in made["changes"]:
        for one in members["objects"].get(change["objects"], []):
            for principal in members["principals"].get(change["principals"], []):
                for sign, word in SIGNS.items():
                    for right in change[word]:
                        yield sign, right, principal, one
