"""What may be asked of an object of a class: the lines of `effective` (docs/profile/listings.md) with the paths on
which the library is asked for each; and those of them that are dangerous."""

from dataclasses import dataclass, field
from typing import List, Tuple

from adsd_tools.forms.rights import RIGHTS
from adsd_tools.forms.sids import guid_of_text
from adsd_tools.report import harms
from adsd_tools.report.effective import KINDS, ON_OBJECT

WHOLE = sum(RIGHTS[code] for code in ON_OBJECT)
OF_ATTRIBUTE = RIGHTS["RP"] | RIGHTS["WP"] | RIGHTS["CR"]
OF_SET = RIGHTS["RP"] | RIGHTS["WP"]
OF_CHILD = RIGHTS["CC"] | RIGHTS["DC"]
# The names of rights in the order in which `effective` spells them.
CODES = [(code, bit) for code, bit in RIGHTS.items() if bit & (WHOLE | RIGHTS["CR"])]


def codes(mask):
    return [code for code, bit in CODES if mask & bit]


@dataclass
class Question:
    """One line: its kind and name, the bits that it has, and the path of GUIDs, joined, or the places of the leaves of
    the tree that it is granted at."""

    kind: str
    name: str
    bits: int
    path: bytes = b""
    leaves: Tuple[int, ...] = ()


@dataclass
class OfClass:
    """All questions of a class in the order of `effective`; the nodes of its tree of attributes; of some of the
    questions, with the bits that are dangerous, the key of the rank."""

    lines: List[Question] = field(default_factory=list)
    nodes: object = None
    leaf_count: int = 0
    dangers: List[Tuple[Question, int, str]] = field(default_factory=list)


class Questions:
    """The questions of each class of a schema."""

    def __init__(self, schema, calls):
        self.schema, self.calls, self.known = schema, calls, {}

    def of(self, of_class):
        if of_class not in self.known:
            self.known[of_class] = self.made(of_class)
        return self.known[of_class]

    def made(self, of_class):
        """The questions of a class."""
        made, guid = OfClass(), self.schema.class_guid(of_class)
        made.lines.append(Question("object", "", WHOLE))
        names = self.schema.allowed_names(of_class)
        paths = [self.schema.attribute_path(of_class, name) for name in names]
        leaves = self.tree(made, guid, paths)
        for name, path, leaf in zip(names, paths, leaves):
            made.lines.append(Question("attribute", name, OF_ATTRIBUTE, b"".join(path), (leaf,)))
        made.lines += self.rights(of_class, guid, leaves)
        made.lines += [Question("child", self.schema.class_names[one], OF_CHILD, self.schema.class_guid(one))
                       for one in self.below(of_class)]
        self.dangers(made)
        return made

    def tree(self, made, guid, paths):
        """Makes the tree of some attributes; the place of each one's leaf."""
        pairs, leaves, sets = [(0, guid)], [0] * len(paths), {}
        for at, path in enumerate(paths):
            if len(path) == 3:
                sets.setdefault(path[1], []).append(at)
        for of_set, members in sets.items():
            pairs.append((1, of_set))
            for at in members:
                leaves[at] = len(pairs)
                pairs.append((2, paths[at][2]))
        for at, path in enumerate(paths):
            if len(path) == 2:
                leaves[at] = len(pairs)
                pairs.append((1, path[1]))
        made.nodes, made.leaf_count = self.calls.nodes(pairs), len(pairs)
        return leaves

    def rights(self, of_class, guid, leaves):
        """The lines of property sets, extended rights and validated writes that apply to a class, in schema order."""
        chain = {self.schema.class_guid(one) for one in self.schema.chain(of_class)}
        names = self.schema.allowed_names(of_class)
        for own, one, title in zip(self.schema.right_guids, self.schema.rights, self.schema.right_titles):
            if not chain & {guid_of_text(text) for text in one.many("appliesTo")}:
                continue
            kind = next((kind for kind, numbers in KINDS.items() if one.number("validAccesses") in numbers), None)
            if kind == "set":
                inside = set(self.schema.in_set(of_class, own))
                held = tuple(leaf for name, leaf in zip(names, leaves) if name in inside)
                yield Question("set", title, OF_SET, guid + own, held)
            elif kind:
                yield Question(kind, title, RIGHTS["CR" if kind == "right" else "SW"], own)

    def below(self, of_class):
        """The places of the structural classes whose objects may stand below one of a class."""
        names = {self.schema.class_names[one].lower() for one in self.schema.chain(of_class)}
        for place, one in enumerate(self.schema.classes):
            if int(one.text("objectClassCategory", "1")) in (2, 3):
                continue
            above = {name for up in self.schema.chain(place)
                     for name in self.schema.classes[up].many("possSuperiors", "systemPossSuperiors")}
            if above & names:
                yield place

    def dangers(self, made):
        """Which of the questions are dangerous, by the report's list of harms."""
        for one in made.lines:
            for code in codes(one.bits):
                word = harms.harm_of((one.kind, one.name, code), self.schema)
                if word:
                    bits = RIGHTS[code] | (RIGHTS["RP"] if word == "confidential" else 0)
                    made.dangers.append((one, bits, word))


def triples(line, mask):
    """The rights of a mask on a line, as the report has them."""
    return [(line.kind, line.name, code) for code in codes(mask)]
