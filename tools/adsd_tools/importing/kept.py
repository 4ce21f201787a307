"""The lines of the objects that are taken: which are kept, and what is mended in their values."""

import re
from dataclasses import dataclass, field
from typing import Dict, List, NamedTuple, Optional, Set, Tuple, Union

from adsd_tools.shown import brief

from . import values
from .domains import Domains
from .index import MARK, Key, Object
from .objects import Classes
from .report import LINKING, MEMBERS, SCHEMA, TEXTS, Report
from .schema import Schema
from .text import Line, Record

RANGE = re.compile(r"range=([0-9]+)-([0-9]+|\*)", re.I)
# What becomes of a line by its name: it is a descriptor, isn't known, is computed by loading, goes, or is read.
DESCRIPTOR, UNKNOWN, COMPUTED, GOES, READ = range(5)
# By what look it is told of nearly all values that they are of their syntax as they stand: a text of ASCII; a number of
# so many digits, which fits whatever they are; bytes. None tells of the others.
TEXT, BYTES, NO_LOOK = 0, 1, 2
DIGITS = {"2.5.5.9": 9, "2.5.5.16": 18}
# Of an attribute the value that is there, while there is one alone, and then what all values have in common.
Seen = Dict[str, Union[bytes, Set[values.Key]]]


class Fate(NamedTuple):
    """What becomes of lines of a name: that, the name without options, that in lower case, its syntax; and how a value
    is looked at."""

    fate: int
    name: str
    low: str
    syntax: str = ""
    is_single: bool = False
    is_link: bool = False
    look: int = NO_LOOK


@dataclass
class Held:
    """What is kept of an object: its record, the lines of its descriptor, its links."""

    one: Object
    record: Record
    descriptors: List[Line] = field(default_factory=list)
    links: List[Tuple[Line, Key]] = field(default_factory=list)


def whole_ranges(one: Object, lines: List[Line], report: Report) -> None:
    """Reports attributes of which an object has ranges (`member;range=0-1499`), but not all from 0 to the end (`*`)."""
    found: Dict[str, Dict[int, Tuple[str, Line]]] = {}
    for line in lines:
        name, _, option = line.name.partition(";")
        told = RANGE.fullmatch(option)
        if told:
            found.setdefault(name.lower(), {})[int(told[1])] = (told[2], line)
    for ranges in found.values():
        wanted = 0
        for first, (last, line) in sorted(ranges.items(), key=lambda item: item[0]):
            if first != wanted or last == "*":
                break
            wanted = int(last) + 1
        if first != wanted or last != "*":
            what = f"{line.name} of {one.words()}"
            report.missing(line.where, MEMBERS, what, f"only a range of the values: those from {wanted} on are missing")


def is_of_elsewhere(target: Key) -> bool:
    """Whether a name is that of a foreign principal which is an account of another domain. (Everybody has the
    well-known ones, as S-1-5-11: without their objects the groups that these are in are missed.)"""
    return (("CN", "foreignsecurityprincipals") in target[1:2] and target[0][0] == "CN"
            and target[0][1].startswith("s-1-5-21-"))


def look_of(syntax: str) -> int:
    """How values of a syntax are looked at: TEXT, BYTES, NO_LOOK, or so many digits."""
    if syntax in values.TEXTS:
        return TEXT
    return BYTES if syntax == "2.5.5.10" else DIGITS.get(syntax, NO_LOOK)


def is_plain(look: int, value: bytes) -> bool:
    """Whether a value is one of its syntax as it stands, as far as a look tells it."""
    if look == TEXT:
        return value.isascii() and len(value) <= values.MOST
    if look == BYTES:
        return len(value) != 36 and len(value) <= values.MOST
    return look != NO_LOOK and value.isdigit() and len(value) <= look and (value[0] != 0x30 or len(value) == 1)


class Keeping:
    """Goes over objects' lines, and keeps those that are taken."""

    def __init__(self, schema: Schema, classes: Classes, kept: Dict[Key, Object], domains: Domains,
                 report: Report) -> None:
        self.schema, self.classes, self.kept, self.domains, self.report = schema, classes, kept, domains, report
        self.fates: Dict[str, Fate] = {}

    def fate(self, name: str) -> Fate:
        """What becomes of lines of a name, as it is written."""
        plain, _, option = name.partition(";")
        low = plain.lower()
        if low == MARK and not option:
            return Fate(GOES, plain, low)
        if option and option.lower() != "binary" and not RANGE.fullmatch(option):
            return Fate(GOES, "", low)
        if low == "ntsecuritydescriptor":
            return Fate(DESCRIPTOR, plain, low)
        if low not in self.schema.attributes:
            return Fate(UNKNOWN, plain, low)
        facts = self.schema.of(low)
        fate = COMPUTED if low in ("objectclass", "distinguishedname", "name") or facts.is_back_link else READ
        return Fate(fate, plain, low, facts.syntax, facts.is_single, facts.is_link, look_of(facts.syntax))

    def keep(self, one: Object, record: Record) -> Held:
        """What is kept of an object's record."""
        _, rest, _ = self.classes.of(one.told)
        if rest:
            self.without(one, record, set(rest))
        seen: Seen = {}
        made, kept, fates, naming, has_options = Held(one, record), list[Line](), self.fates, one.naming, False
        for line in record.lines:
            fate = fates.get(line.name)
            if fate is None:
                fate = fates[line.name] = self.fate(line.name)
            what, name, low, _, _, _, look = fate
            if low == "instancetype" and line.value.isdigit() and int(line.value) % 2 == 1:
                one.is_head = True
            if name != line.name:
                if not has_options:
                    whole_ranges(one, record.lines, self.report)
                    has_options = True
                if not self.renamed(one, line, fate):
                    continue
            if what == READ and low != naming:
                if low not in seen and is_plain(look, line.value):
                    seen[low] = line.value
                elif not self.take(made, line, fate, seen):
                    continue
                kept.append(line)
            elif what == DESCRIPTOR:
                made.descriptors.append(line)
            elif what != GOES and (what != UNKNOWN and line.value.isascii() or self.computed(one, line, fate)):
                kept.append(line)
        record.lines = kept
        return made

    def without(self, one: Object, record: Record, rest: Set[str]) -> None:
        """Takes out the lines that name auxiliary classes of a single object."""
        lines = record.lines
        record.lines = []
        for line in lines:
            if line.name.lower() == "objectclass" and line.value.decode("utf-8", "replace").lower() in rest:
                what = f"objectClass {brief(line.value)} of {one.words()}"
                self.report.loss(line.where, what, "auxiliary class of a single object")
            else:
                record.lines.append(line)

    def renamed(self, one: Object, line: Line, fate: Fate) -> bool:
        """Takes the options off a line's name; False where the line is left out for them."""
        if not fate.name:
            self.report.left_out(line.where, f"{line.name} of {one.words()}", "attribute option not supported")
            return False
        self.report.mended(line.where, f"{line.name} of {one.words()}", f"written as {fate.name}")
        line.name = fate.name
        return True

    def computed(self, one: Object, line: Line, fate: Fate) -> bool:
        """Whether a line is kept whose value isn't looked at; that of an attribute that the schema hasn't isn't."""
        if fate.fate == UNKNOWN:
            self.report.missing(line.where, SCHEMA, f"{fate.name} of {one.words()}", "attribute not in the schema")
            return False
        if values.is_foreign(fate.syntax, line.value):
            what = f"{line.name} {brief(line.value, 40)} of {one.words()}"
            self.report.missing(line.where, TEXTS, what, "it isn't UTF-8")
            return False
        return True

    def take(self, made: Held, line: Line, fate: Fate, seen: Seen) -> bool:
        """Whether a line with a value of its own is kept."""
        one, low = made.one, fate.low

        def what() -> str:
            return f"{line.name} {brief(line.value, 40)} of {one.words()}"

        try:
            value, key, mend = values.read(low, fate.syntax, line.value)
        except values.NoText as fault:
            self.report.missing(line.where, TEXTS, what(), str(fault))
            return False
        except values.NoValue as fault:
            if low == "member":
                self.report.missing(line.where, MEMBERS, what(), str(fault))
            else:
                self.report.loss(line.where, what(), str(fault))
            return False
        before = seen.get(low, set())
        if isinstance(before, bytes):
            before = {values.read(low, fate.syntax, before)[1]}
        if before and (fate.is_single or key in before):
            why = "duplicate value" if key in before else "second value of a single-valued attribute"
            self.report.loss(line.where, what(), why)
            return False
        if mend:
            self.report.mended(line.where, what(), mend)
        line.value = value
        before.add(key)
        seen[low] = before
        if fate.is_link and isinstance(key, tuple):
            made.links.append((line, key))
        return True

    def follow(self, made: Held, order: int) -> None:
        """Takes out the links that lead to no object that is kept."""
        gone: Set[int] = set()
        for line, target in made.links:
            if target in self.kept:
                continue
            self.report.step = (LINKING, order)
            gone.add(id(line))
            what = f"{line.name} of {made.one.words()}"
            other = self.domains.crosses(line.name, target)
            if other is not None:
                why = f"{brief(line.value, 120)} is of the domain {other}, which isn't imported"
                self.report.loss(line.where, what, why)
                continue
            why = f"{brief(line.value, 120)} isn't an object of the export"
            if line.name.lower() != "member" or is_of_elsewhere(target):
                self.report.loss(line.where, what, why)
            else:
                self.report.missing(line.where, MEMBERS, what, why)
        if gone:
            made.record.lines = [line for line in made.record.lines if id(line) not in gone]
