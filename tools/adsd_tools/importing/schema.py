"""The schema of an export: which of its records are taken, what is mended in them, and its names."""

import re
from dataclasses import dataclass, field
from typing import Dict, Iterable, List, Optional, Set, Tuple, overload

from adsd_tools.forms import names
from adsd_tools.forms.descriptor import Lost, Unreadable
from adsd_tools.forms.sids import GUID, guid_of_text
from adsd_tools.shown import brief

from . import sddl
from .report import RIGHTS, SCHEMA, Refused, Report
from .text import MOST, Line, Record

KINDS = {"attributeschema": "attribute", "classschema": "class", "controlaccessright": "right"}
REQUIRED: Dict[str, Tuple[str, ...]] = {"attribute": ("lDAPDisplayName", "attributeSyntax", "schemaIDGUID"),
            "class": ("lDAPDisplayName", "schemaIDGUID", "subClassOf"), "right": ("cn", "rightsGuid", "validAccesses")}
SINGLE: Dict[str, Tuple[str, ...]] = {"attribute": ("isSingleValued", "attributeSecurityGUID", "searchFlags", "linkID"),
          "class": ("objectClassCategory", "rDNAttID", "defaultSecurityDescriptor"), "right": ()}
ATTRIBUTE_LISTS = ("mustcontain", "maycontain", "systemmustcontain", "systemmaycontain")
CLASS_LISTS = ("posssuperiors", "auxiliaryclass", "systemposssuperiors", "systemauxiliaryclass")
LISTS: Dict[str, Tuple[str, ...]] = {"attribute": (), "class": ATTRIBUTE_LISTS + CLASS_LISTS, "right": ("appliesto",)}
NUMBERS = {"linkid": (0, 2**32), "validaccesses": (0, 2**32), "objectclasscategory": (0, 2**8),
           "searchflags": (-(2**31), 2**31)}
LINE_NAME = re.compile(r"[A-Za-z0-9;-]+")
UNTOLD = ("objectclass", "distinguishedname", "name", "unicodepwd", "ntsecuritydescriptor")
CONFIDENTIAL = b"128"
VALIDATED_WRITE = 8
NO_SET = "its property set can't be read, so entries for the set would miss it"


@dataclass
class SchemaRecord:
    """A record of the schema: its kind, the record, and its lines of the table by name in lower case."""

    kind: str
    record: Record
    told: Dict[str, List[Line]] = field(default_factory=dict)

    @overload
    def value(self, name: str) -> Optional[bytes]: ...

    @overload
    def value(self, name: str, other: bytes) -> bytes: ...

    def value(self, name: str, other: Optional[bytes] = None) -> Optional[bytes]:
        lines = self.told.get(name.lower())
        return lines[0].value if lines else other

    def required(self, name: str) -> bytes:
        """The value of a line that each record of its kind has that is taken."""
        return self.told[name.lower()][0].value

    def name(self) -> str:
        return self.value("cn" if self.kind == "right" else "lDAPDisplayName", b"").decode("utf-8", "replace")

    def is_validated_write(self) -> bool:
        return self.kind == "right" and int(self.required("validAccesses")) == VALIDATED_WRITE

    def drop(self, line: Line) -> None:
        """Takes a line out."""
        self.record.lines.remove(line)
        self.told[line.name.lower()].remove(line)


@dataclass(frozen=True)
class Facts:
    """What is asked of an attribute for each of its values."""

    syntax: str
    is_link: bool
    is_back_link: bool
    is_single: bool


def facts_of(name: str, one: SchemaRecord) -> Facts:
    """The facts of an attribute's record."""
    syntax, number = one.required("attributeSyntax").decode("latin-1"), one.value("linkID")
    odd = None if number is None or name in UNTOLD else int(number) % 2
    return Facts(syntax, odd == 0 and syntax == "2.5.5.1", odd == 1,
                 one.value("isSingleValued", b"").upper() == b"TRUE")


@dataclass
class Schema:
    """The records that are taken, in order, and the attributes and classes among them by name in lower case."""

    records: List[SchemaRecord]
    attributes: Dict[str, SchemaRecord]
    classes: Dict[str, SchemaRecord]
    dropped: Dict[str, str] = field(default_factory=dict)
    facts: Dict[str, "Facts"] = field(default_factory=dict)

    def of(self, name: str) -> Facts:
        """The facts of an attribute, by its name in lower case; they are worked out once."""
        found = self.facts.get(name)
        if found is None:
            found = self.facts[name] = facts_of(name, self.attributes[name])
        return found

    def syntax(self, name: str) -> str:
        return self.of(name).syntax

    def is_link(self, name: str) -> bool:
        return self.of(name).is_link

    def is_back_link(self, name: str) -> bool:
        return self.of(name).is_back_link

    def is_single(self, name: str) -> bool:
        return self.of(name).is_single

    def of_sid(self) -> str:
        """The syntax of objectSid; empty where the schema hasn't that."""
        return self.syntax("objectsid") if "objectsid" in self.attributes else ""

    def above(self, name: str) -> Optional[str]:
        """The class above a class, by name in lower case; None where there is none."""
        other = lower(self.classes[name].required("subClassOf"))
        return None if other == name else other

    def chain(self, name: str) -> List[str]:
        """A class and all above it."""
        made: List[str] = []
        at: Optional[str] = name
        while at is not None and at in self.classes and at not in made:
            made.append(at)
            at = self.above(at)
        return made

    def naming(self, name: str) -> str:
        """The type of the names of a class, in upper case."""
        for one in self.chain(name):
            told = self.classes[one].value("rDNAttID")
            if told is not None:
                return told.decode("latin-1").upper()
        return "CN"

    def guid(self, name: str) -> bytes:
        return self.classes[name].required("schemaIDGUID")


def sort_of(kind: str) -> str:
    """What an export lacks that lacks a record of a kind."""
    return RIGHTS if kind == "right" else SCHEMA


def lower(value: bytes) -> str:
    return value.decode("utf-8", "replace").lower()


def kind_of(record: Record) -> Optional[str]:
    """The kind that the first line of objectClass names that names one; None for an object."""
    for line in record.lines:
        if line.name.lower() == "objectclass" and lower(line.value) in KINDS:
            return KINDS[lower(line.value)]
    return None


def readable(name: str, value: bytes) -> Optional[bytes]:
    """The value of a line of the table in the form that is taken; None where it has none."""
    text = value.decode("latin-1").strip()
    if name == "ldapdisplayname":
        return value.strip() if names.TYPE.fullmatch(value.strip()) else None
    if name in ("schemaidguid", "attributesecurityguid"):
        if len(value) == 16:
            return value
        return guid_of_text(text.strip("{}"))
    if name in ("rightsguid", "appliesto"):
        return text.strip("{}").encode() if GUID.fullmatch(text.strip("{}")) else None
    if name == "issinglevalued":
        return value.strip() if value.strip().upper() in (b"TRUE", b"FALSE") else None
    if name in NUMBERS:
        least, end = NUMBERS[name]
        good = re.fullmatch(r"[+-]?[0-9]+", text) and least <= int(text) < end
        return b"%d" % int(text) if good else None
    return value if len(value) <= MOST else None


def read_record(kind: str, record: Record, report: Report) -> Optional[SchemaRecord]:
    """The record with its lines mended; None, and reported, where it can't be taken."""
    made = SchemaRecord(kind, record)
    once = [name.lower() for name in REQUIRED[kind] + SINGLE[kind]]
    what = f"{kind} {brief(record.dn)}"
    for line in list(record.lines):
        name = line.name.lower()
        if name not in once and name not in LISTS[kind]:
            # What the table hasn't is kept with the record, as far as it can be.
            if len(line.value) > MOST or not LINE_NAME.fullmatch(line.name):
                report.left_out(line.where, f"{line.name} of {what}", "its name, or more than 1,048,576 bytes")
                record.lines.remove(line)
            continue
        value = readable(name, line.value)
        if name == "searchflags" and (value is None or name in made.told):
            why = "not a number, or a second one: taken as confidential"
            report.mended(line.where, f"{line.name} of {what}", why)
            value = CONFIDENTIAL
            for other in made.told.get(name, ()):
                other.value = CONFIDENTIAL
        if value is None and name == "attributesecurityguid":
            report.missing(line.where, SCHEMA, what, NO_SET)
            return None
        if value is None or (name in once and name in made.told):
            why = "unreadable value" if value is None else "second value of a single-valued attribute"
            report.left_out(line.where, f"{line.name} of {what}", why)
            record.lines.remove(line)
            continue
        if value not in (line.value, CONFIDENTIAL):
            is_guid = name in ("schemaidguid", "attributesecurityguid")
            why = "GUID text written as bytes" if is_guid else "value normalized"
            report.mended(line.where, f"{line.name} of {what}", why)
        line.value = value
        made.told.setdefault(name, []).append(line)
    return completed(made, what, report)


def completed(made: SchemaRecord, what: str, report: Report) -> Optional[SchemaRecord]:
    """A record without the lines that can't be read, so that it grants nothing more; None where it can't be taken."""
    record = made.record
    for name in REQUIRED[made.kind]:
        if name.lower() not in made.told:
            report.missing(record.where, sort_of(made.kind), what, f"it has no {name}")
            return None
    if "attributesecurityguid" in record.broken:
        report.missing(record.where, SCHEMA, what, NO_SET)
        return None
    for name, value in (("searchFlags", CONFIDENTIAL), ("defaultSecurityDescriptor", b"D:P")):
        if name.lower() in record.broken and name in SINGLE[made.kind] and name.lower() not in made.told:
            report.mended(record.where, f"{name} of {what}", f"unreadable, written as {value.decode()}")
            line = Line(record.where, name, value)
            record.lines.append(line)
            made.told[name.lower()] = [line]
    return made


def told_once(found: List[SchemaRecord], report: Report) -> List[SchemaRecord]:
    """The records without those of a name or a GUID that another one has. Live ones go before defunct ones, and a
    validated write before other rights of its GUID: each real schema has one that is also that of a property set, and
    attributes name their set by the GUID, whether it has a record or not."""
    def is_defunct(one: SchemaRecord) -> bool:
        return any(line.name.lower() == "isdefunct" and line.value.upper() == b"TRUE" for line in one.record.lines)

    def key(one: SchemaRecord) -> Tuple[str, str]:
        return one.kind, lower(one.required("rightsGuid" if one.kind == "right" else "lDAPDisplayName"))

    first: Dict[Tuple[str, str], SchemaRecord] = {}
    for one in sorted(found, key=lambda one: (is_defunct(one), not one.is_validated_write())):
        first.setdefault(key(one), one)
    for one in found:
        other = first[key(one)]
        if other is not one:
            same = "rightsGuid" if one.kind == "right" else "lDAPDisplayName"
            kept = "kept, a validated write" if other.is_validated_write() and not one.is_validated_write() else "kept"
            why = f"duplicate {same}: {brief(other.name())} ({other.record.where}) is {kept}"
            report.left_out(one.record.where, f"{one.kind} {brief(one.name())}", why)
    return [one for one in found if first[key(one)] is one]


def without_broken_chains(classes: Dict[str, SchemaRecord], report: Report) -> Dict[str, SchemaRecord]:
    """The classes whose chain ends, by name in lower case."""
    good, again = dict(classes), True
    while again:
        again = False
        for name, one in list(good.items()):
            above = lower(one.required("subClassOf"))
            if above not in good:
                why = f"superclass {brief(above)} isn't there"
                report.missing(one.record.where, SCHEMA, f"class {one.name()}", why)
                del good[name]
                again = True
    for name in list(good):
        seen: Set[str] = set()
        at = name
        while at not in seen and at in good:
            seen.add(at)
            at = lower(good[at].required("subClassOf"))
        if at not in good or lower(good[at].required("subClassOf")) != at:
            what = f"class {good[name].name()}"
            report.missing(good[name].record.where, SCHEMA, what, "superclass loop")
            del good[name]
    return good


def drop_unknown(schema: Schema, report: Report) -> None:
    """Takes out the lines of classes that name attributes or classes that aren't there."""
    for one in schema.classes.values():
        for name in ATTRIBUTE_LISTS + CLASS_LISTS + ("rdnattid",):
            known = schema.classes if name in CLASS_LISTS else schema.attributes
            for line in list(one.told.get(name, ())):
                if lower(line.value) not in known:
                    what = f"{line.name} of class {one.name()}"
                    report.missing(line.where, SCHEMA, what, f"{brief(line.value)} isn't there")
                    one.drop(line)


def read(records: Iterable[Record], report: Report) -> Schema:
    """The schema of the records that are of it."""
    found: List[SchemaRecord] = []
    for record in records:
        kind = kind_of(record)
        if kind is None:
            continue
        try:
            name = names.read(record.dn)
        except names.NoName as why:
            what = f"{kind} {brief(record.dn)}"
            report.missing(record.where, sort_of(kind), what, f"unreadable name: {why}")
            continue
        record.dn = name.text() if name.mended else record.dn
        one = read_record(kind, record, report)
        if one is not None:
            found.append(one)
    if not found:
        raise Refused("no record of a schema: give also exports of CN=Schema,CN=Configuration and CN=Extended-Rights")
    found = told_once(found, report)
    attributes = {one.name().lower(): one for one in found if one.kind == "attribute"}
    classes = without_broken_chains({one.name().lower(): one for one in found if one.kind == "class"}, report)
    kept = [one for one in found if one.kind != "class" or one.name().lower() in classes]
    for wanted in ("cn", "objectClass"):
        if wanted.lower() not in attributes:
            raise Refused(f"no attribute {wanted} in the schema: is the whole of CN=Schema,CN=Configuration here?")
    schema = Schema(kept, attributes, classes)
    drop_unknown(schema, report)
    return schema


def lost_entries(lost: Iterable[Lost], where: str, what: str, report: Report) -> None:
    """Reports what a descriptor lost."""
    for one in lost:
        (report.denies if one.denies else report.loss)(where, f"entry {brief(one.text, 200)} of {what}", one.why)


def mend_defaults(schema: Schema, domain: Optional[bytes], report: Report) -> None:
    """Brings the default descriptors of classes into the form that is taken. `domain` is the root's SID or None."""
    for one in schema.classes.values():
        for line in one.told.get("defaultsecuritydescriptor", ()):
            what = f"the default of class {one.name()}"
            try:
                made, lost, mends = sddl.read(line.value.decode("latin-1"), domain)
            except Unreadable as why:
                report.loss(line.where, what, f"{why}; replaced by one that grants nothing")
                line.value = b"D:P"
                continue
            lost_entries(lost, line.where, what, report)
            if mends or lost or made.dacl is None:
                if made.dacl is None:
                    report.loss(line.where, what, "no DACL; replaced by one that grants nothing")
                if mends:
                    report.mended(line.where, what, ", ".join(mends))
                line.value = sddl.lists_text(made).encode()
