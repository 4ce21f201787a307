"""What becomes of the objects' descriptors, so that nobody gets a right that the export didn't give.

Loading drops what an object inherited and computes it from the root again. Where that would give more than the list of
the export, the list is kept entry by entry, as one of the object's own, and protected. Of all others the explicit
entries alone are written, which are few of many. The text says so by a line before its first record, and each such list
by a bit of its own, which asks that it be computed; so an import of that text takes what is inherited as there.

What becomes of a descriptor hangs on its bytes, the list of the parent, the class, and whether the object heads a
naming context. So it is decided once for all objects that have these in common; what is reported is told of each.
"""

from dataclasses import dataclass, replace
from typing import Dict, List, Optional, Tuple

from adsd_tools.forms.descriptor import (ALLOW, DENY, INHERIT_ONLY, INHERITED, Acl, Descriptor, Entry, Lost, Unreadable,
                                         entry_bytes, written)
from adsd_tools.forms.descriptor import read as read_bytes
from adsd_tools.forms.sids import NOBODY, OWNER_RIGHTS, sid_of_text

from . import sddl
from .domains import Domains
from .index import Key, Object
from .kept import Held
from .loading import whole
from .report import DESCRIPTORS, Report
from .schema import Schema, lost_entries
from .text import Line

# What an entry does: its kind, its rights, its object type and its identifier.
Effect = Tuple[int, int, Optional[bytes], bytes]
# So many texts and decisions are kept: what is met more rarely is read and decided anew.
MOST_KNOWN = 4096
GENERIC = {0x10000000: 0xF01FF, 0x20000000: 0x20004, 0x40000000: 0x20028, 0x80000000: 0x20094}


def closed() -> Descriptor:
    """A descriptor that grants nothing to anybody."""
    return Descriptor(NOBODY, NOBODY, Acl([], True), None)


def mapped(mask: int) -> int:
    """A mask without generic rights, with what they represent."""
    for bit, rights in GENERIC.items():
        if mask & bit:
            mask = mask & ~bit | rights
    return mask


def effects(entries: List[Entry]) -> List[Effect]:
    """What the entries do on the object itself, in order: (kind, rights, object type, identifier)."""
    made = [(one.kind, mapped(one.mask), one.object, one.sid) for one in entries
            if one.kind in (ALLOW, DENY) and not one.flags & INHERIT_ONLY]
    return [one for place, one in enumerate(made) if place == 0 or one != made[place - 1]]


def takes_away(effect: Effect) -> bool:
    return effect[0] == DENY or effect[3] == OWNER_RIGHTS


def covered(effect: Effect, given: List[Effect]) -> bool:
    """Whether the allowed rights of an effect are all allowed by others to the same identifier."""
    rights = 0
    for kind, mask, of_type, sid in given:
        if kind == ALLOW and sid == effect[3] and of_type in (None, effect[2]):
            rights |= mask
    return effect[1] & ~rights == 0


def may_differ(exported: List[Entry], loaded: List[Entry]) -> bool:
    """Whether a list as loading makes it may give other rights than the one of the export. In doubt it may."""
    before, after = effects(exported), effects(loaded)
    if before == after:
        return False
    # From the first effect on that takes away, the order may tell. Before it all allow, and their order says nothing.
    allowing = [(one, after) for one in before] + [(one, before) for one in after]
    same = all(covered(one, given) for one, given in allowing if one[0] == ALLOW)
    return from_denial(before) != from_denial(after) or not same


def from_denial(all_effects: List[Effect]) -> List[Effect]:
    """The effects from the first on that takes away; none where none does."""
    first = next((place for place, one in enumerate(all_effects) if takes_away(one)), len(all_effects))
    return all_effects[first:]


@dataclass
class Read:
    """What a descriptor's bytes or text say: the descriptor or why it can't be read, what is lost, what was mended."""

    made: Optional[Descriptor]
    lost: List[Lost]
    mends: Optional[List[str]]
    fault: str = ""


@dataclass
class Decision:
    """What becomes of a descriptor at an object: why its list was changed, why it can't be written (empty where it
    wasn't, or can), the bytes that are written, and the list that loading makes of it."""

    why: str
    fault: str
    value: bytes
    whole: List[Entry]


class Rights:
    """Goes over the objects, parents first, and gives each the line of its descriptor."""

    def __init__(self, schema: Schema, domain: Optional[bytes], defaults: bool, report: Report,
                 domains: Optional[Domains] = None) -> None:
        self.schema, self.domain, self.defaults, self.report, self.domains = schema, domain, defaults, report, domains
        # The lists that loading makes of the objects that have children, and their numbers: equal ones have one.
        self.lists: Dict[Key, List[Entry]] = {}
        self.numbers: Dict[Key, int] = {}
        self.numbered: Dict[bytes, Tuple[int, List[Entry]]] = {}
        # What the root inherited, where the text has it above the root and not at it.
        self.above: Optional[List[Entry]] = None
        # What was read of each text or bytes, and what was decided of it.
        self.known: Dict[bytes, Read] = {}
        self.decided: Dict[Tuple[bytes, int, str, bool, bool], Decision] = {}

    def keep(self, one: Object, entries: List[Entry]) -> None:
        """Keeps the list of an object, where others may inherit of it."""
        if one.has_children:
            text = b"".join(map(entry_bytes, entries))
            self.numbers[one.key], self.lists[one.key] = self.numbered.setdefault(text, (len(self.numbered), entries))

    def closes(self, where: str, what: str, why: str) -> None:
        """Reports a descriptor that grants nothing now."""
        self.report.missing(where, DESCRIPTORS, what, f"{why}; replaced by one that grants nothing")

    def told(self, held: Held) -> Tuple[Descriptor, Line]:
        """The descriptor of an object's lines with its place; a closed one where it can't be read."""
        one = held.one
        line = held.descriptors[0]
        found = self.known.get(line.value)
        if found is None:
            if len(self.known) >= MOST_KNOWN:
                self.known.clear()
            found = self.known[line.value] = self.read(line.value)
        for other in held.descriptors[1:]:
            self.report.loss(other.where, f"the descriptor of {one.words()}", "a second one")
        if found.made is None:
            self.closes(line.where, f"the descriptor of {one.words()}", found.fault)
            return closed(), line
        if found.mends is not None:
            mends = ", ".join(["SDDL text written as bytes"] + found.mends)
            self.report.mended(line.where, f"the descriptor of {one.words()}", mends)
        if found.lost:
            lost_entries(found.lost, line.where, one.words(), self.report)
        made = found.made
        if made.owner is None or made.group is None or made.dacl is None:
            made = self.filled(replace(made), line, f"the descriptor of {one.words()}")
        return made, line

    def read(self, value: bytes) -> Read:
        """What some bytes or a text say."""
        try:
            if value[:1] == b"\x01":
                found = Read(*read_bytes(value), None)
            else:
                found = Read(*sddl.read(value.decode("latin-1"), self.domain))
        except Unreadable as why:
            return Read(None, [], None, str(why))
        if self.domains is not None and found.made is not None:
            self.domains.listed_in(found.made)
        return found

    def filled(self, made: Descriptor, line: Line, what: str) -> Descriptor:
        """A descriptor with all parts that it has to have."""
        if made.dacl is None:
            why = "null DACL, which grants everything to everyone" if made.null else "no DACL"
            self.closes(line.where, what, why)
            made.dacl = Acl([], True)
        if made.owner is None:
            self.report.missing(line.where, DESCRIPTORS, what, "no owner: S-1-0-0 (nobody) written")
        if made.group is None:
            self.report.mended(line.where, what, "no group: S-1-0-0 (nobody) written")
        made.owner, made.group = made.owner or NOBODY, made.group or NOBODY
        return made

    def fitted(self, one: Object, made: Descriptor, line: Line) -> Descriptor:
        """A descriptor whose lists, as loading makes them, give nothing more than those of the export."""
        made, why = self.fit(one, made)
        if why:
            self.report.mended(line.where, f"the list of {one.words()}", why)
        return made

    def fit(self, one: Object, made: Descriptor, is_computed: bool = False) -> Tuple[Descriptor, str]:
        """The same, and why its list was changed; empty where it wasn't. `is_computed` says that what the object
        inherited isn't in the list, and is what loading makes."""
        parent = self.lists.get(one.key[1:])
        dacl, sacl = replace(made.dacl or Acl([], True)), made.sacl and replace(made.sacl)
        made = replace(made, dacl=dacl, sacl=sacl)
        if is_computed and parent is None and self.above is not None:
            dacl.entries = self.whole(one, made, self.above)
        acls = [dacl] if sacl is None else [dacl, sacl]
        inherited = any(entry.flags & INHERITED for acl in acls for entry in acl.entries)
        why = ""
        if parent is None:
            why = "root of this import: inherited entries made explicit" if inherited else ""
        elif one.is_head and not dacl.protected:
            why = "head of a naming context, which inherits nothing: list marked protected"
        elif not is_computed and may_differ(dacl.entries, self.whole(one, made, parent)):
            why = "inheriting here would give other rights: list made explicit and protected"
        if why:
            frozen(dacl, parent is not None)
            if sacl is not None and (parent is None or one.is_head):
                frozen(sacl, parent is not None)
        return made, why

    def whole(self, one: Object, made: Descriptor, parent: List[Entry]) -> List[Entry]:
        of_class = self.schema.guid(one.of_class)
        return whole(made.dacl or Acl([], True), parent, of_class, made.owner or NOBODY, made.group or NOBODY)

    def default(self, one: Object) -> Descriptor:
        """The descriptor that loading gives an object of a class that has none."""
        text = self.schema.classes[one.of_class].value("defaultSecurityDescriptor", b"D:(A;;GA;;;BA)(A;;GA;;;SY)")
        made, _, _ = sddl.read(text.decode("latin-1"), self.domain)
        made.owner = made.group = sid_of_text("S-1-5-32-544")
        return made

    def decide(self, one: Object, made: Descriptor, is_computed: bool) -> Decision:
        """What becomes of a descriptor at an object."""
        parent = self.lists.get(one.key[1:], [])
        made, why = self.fit(one, made, is_computed)
        try:
            return Decision(why, "", written(explicit(made), True), self.whole(one, made, parent))
        except Unreadable as fault:
            return Decision(why, str(fault), written(closed(), True), self.whole(one, closed(), parent))

    def settled(self, one: Object, made: Descriptor, line: Line) -> Tuple[bytes, List[Entry]]:
        """The bytes of an object's descriptor, and the list that loading makes of it, after it was reported."""
        is_computed = one.source.is_explicit and asks_computing(line.value)
        common = line.value, self.numbers.get(one.key[1:], -1), one.of_class, one.is_head, is_computed
        found = self.decided.get(common)
        if found is None:
            if len(self.decided) >= MOST_KNOWN:
                self.decided.clear()
            found = self.decided[common] = self.decide(one, made, is_computed)
        if found.why:
            self.report.mended(line.where, f"the list of {one.words()}", found.why)
        if found.fault:
            self.closes(line.where, f"the descriptor of {one.words()}", found.fault)
        return found.value, found.whole

    def give(self, held: Held) -> None:
        """Gives an object its descriptor, as the last of its lines."""
        one, record = held.one, held.record
        if not held.descriptors:
            what = f"the descriptor of {one.words()}"
            if self.defaults:
                why = "not in the export: loading gives the class's default"
                self.report.denies(record.where, what, why)
                self.report.missing(record.where, DESCRIPTORS, what, why)
                self.keep(one, self.whole(one, self.default(one), self.lists.get(one.key[1:], [])))
                return
            self.closes(record.where, what, "it isn't in the export")
            made, line = closed(), Line(record.stands, "nTSecurityDescriptor", b"")
        else:
            made, line = self.told(held)
        value, entries = self.settled(one, made, line)
        self.keep(one, entries)
        record.lines.append(Line(line.stands, "nTSecurityDescriptor", value, line.at))


def asks_computing(data: bytes) -> bool:
    """Whether a descriptor's bytes ask that its list be computed (SE_DACL_AUTO_INHERIT_REQ)."""
    return data[:1] == b"\x01" and len(data) >= 20 and bool(data[3] & 1)


def explicit(made: Descriptor) -> Descriptor:
    """A descriptor without the entries that loading drops and computes."""
    dacl, sacl = made.dacl and replace(made.dacl), made.sacl and replace(made.sacl)
    for acl in filter(None, (dacl, sacl)):
        acl.entries = [entry for entry in acl.entries if not entry.flags & INHERITED]
    return replace(made, dacl=dacl, sacl=sacl)


def frozen(acl: Acl, protected: bool) -> None:
    """Makes all entries of a list its own."""
    acl.entries = [replace(entry, flags=entry.flags & ~INHERITED) for entry in acl.entries]
    acl.protected = acl.protected or protected
