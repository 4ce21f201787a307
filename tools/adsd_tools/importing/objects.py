"""Which objects of an export are taken."""

from typing import Dict, List, Optional, Set, Tuple

from adsd_tools.forms import names
from adsd_tools.shown import brief

from .domains import Domains
from .index import Key, Object
from .report import ACCOUNTS, PARENTS, SCHEMA, TAKING, Refused, Report
from .schema import Schema

MOST_OBJECTS, MOST_ABOVE = 65536, 64
# Why an object isn't taken that the export lacks something for, and what that is.
NO_CLASS, NO_PARENT = "class not in the schema:", "parent not in the export"
NO_SID = "its objectSid can't be read, and entries for the principal itself would miss it"
LACKING = {NO_CLASS: SCHEMA, NO_PARENT: PARENTS, NO_SID: ACCOUNTS}
# A class in lower case, those that are named besides, and why there is none.
Class = Tuple[str, Tuple[str, ...], str]


def top_of(found: List[Object]) -> Object:
    """The object that has most below it, of those without a parent here."""
    tops: Dict[Key, Object] = {}
    below: Dict[Key, int] = {}
    for one in found:
        top = tops.setdefault(one.key, tops.get(one.key[1:], one))
        below[top.key] = below.get(top.key, 0) + 1
    return max(found, key=lambda one: below.get(one.key, 0))


def root_of(found: List[Object], base: Optional[names.Name]) -> Object:
    """The root: the one named, or of those without a parent here the one that has most below it."""
    if base is not None:
        key = base.key()
        for one in found:
            if one.key == key:
                return one
        raise Refused(f"the base {base.text().decode()} isn't in the export")
    if not found:
        raise Refused("no object in the export")
    return top_of(found)


class Classes:
    """The classes of objects, worked out once for all that are told alike."""

    def __init__(self, schema: Schema) -> None:
        self.schema = schema
        self.known: Dict[Tuple[str, ...], Class] = {}

    def of(self, told: Tuple[str, ...]) -> Class:
        found = self.known.get(told)
        if found is None:
            found = self.known[told] = class_of(told, self.schema)
        return found


def class_of(told: Tuple[str, ...], schema: Schema) -> Class:
    """The class of an object, the auxiliary classes that are named besides, and why it has no class."""
    for name in told:
        if name not in schema.classes:
            return "", (), f"{NO_CLASS} {brief(name)}"
    category = {name: schema.classes[name].value("objectClassCategory", b"1") for name in told}
    for name in told:
        chain = schema.chain(name)
        rest = tuple(other for other in told if other not in chain)
        if category[name] not in (b"2", b"3") and all(category[other] == b"3" for other in rest):
            if all(other == name or name not in schema.chain(other) for other in told):
                return name, rest, ""
    return "", (), "its classes aren't one chain to a class that may have objects"


class Taking:
    """Goes over the objects, parents first, and decides which are taken."""

    def __init__(self, root: Object, schema: Schema, classes: Classes, given: Set[Key]) -> None:
        self.root, self.schema, self.classes, self.given = root, schema, classes, given
        self.kept: Dict[Key, Object] = {}
        self.sids: Dict[bytes, Object] = {}
        self.types: Set[str] = set()

    def same_name(self, one: Object) -> Optional[Object]:
        """The object beside it that has its name's value, whatever the type."""
        value, above = one.key[0][1], one.key[1:]
        for kind in self.types:
            other = self.kept.get(((kind, value), *above))
            if other is not None:
                return other
        return None

    def why_not(self, one: Object) -> str:
        """Why an object can't be taken; empty where it can, and then its class is set."""
        if one.is_broken:
            return "a line of its objectClass can't be read"
        if one is not self.root:
            if one.key[1:] not in self.kept:
                return "parent was left out" if one.key[1:] in self.given else NO_PARENT
            if len(one.key) - len(self.root.key) > MOST_ABOVE:
                return "more than 64 objects stand above it"
        of_class, _, why = self.classes.of(one.told)
        if why:
            return why
        if self.schema.naming(of_class) != one.key[0][0]:
            return f"its name doesn't begin with {self.schema.naming(of_class)}, as those of class {of_class} do"
        other = None if one is self.root else self.same_name(one)
        if other is not None:
            return f"duplicate name: {other.words()} ({other.where}) has it"
        one.of_class = of_class
        return ""

    def take(self, one: Object) -> str:
        """Takes an object, or says why not."""
        why = self.why_not(one)
        if why:
            return why
        if one.sid is not None and one.sid in self.sids:
            return f"duplicate SID: second object dropped, the first is {self.sids[one.sid].words()}"
        if one.sid is None and one.has_sid:
            return NO_SID
        one.is_kept = True
        if one is not self.root:
            self.kept[one.key[1:]].has_children = True
        self.kept[one.key] = one
        self.types.add(one.key[0][0])
        if one.sid is not None:
            self.sids[one.sid] = one
        return ""


def not_taken(one: Object, why: str, report: Report) -> None:
    """Reports an object that isn't taken."""
    sort = next((sort for lacking, sort in LACKING.items() if why.startswith(lacking)), None)
    if sort is None:
        report.loss(one.where, f"object {one.words()}", why)
    else:
        report.missing(one.where, sort, f"object {one.words()}", why)


def take_all(found: List[Object], root: Object, schema: Schema, domains: Domains, report: Report) -> Taking:
    """Decides of all objects, of which those of fewer parts stand first."""
    if schema.of_sid() != "2.5.5.17":
        for one in found:
            one.sid = None
    taking = Taking(root, schema, Classes(schema), {one.key for one in found})
    for order, one in enumerate(found):
        report.step = (TAKING, order)
        if one is not root and len(one.key) <= len(root.key):
            if not domains.is_elsewhere(one):
                why = f"duplicate name: {root.where} has it" if one.key == root.key else f"it isn't below {root.words()}"
                report.loss(one.where, f"object {one.words()}", why)
            continue
        if domains.is_elsewhere(one):
            continue
        why = taking.take(one)
        if why and one is root:
            raise Refused(f"{one.where}: the root {one.words()} can't be taken: {why}")
        if why:
            not_taken(one, why, report)
    if len(taking.kept) > MOST_OBJECTS:
        raise Refused(f"{len(taking.kept)} objects, and a directory has 65,536 at most: take a part by --base")
    return taking
