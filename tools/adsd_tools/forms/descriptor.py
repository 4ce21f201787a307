"""Security descriptors as bytes ([MS-DTYP] 2.4.6): how they are read, with what can't be carried over, and written."""

import struct
from dataclasses import dataclass, field
from typing import Callable, Optional, TypeVar, Union

from .sids import OWNER_RIGHTS, sid_at, text_of_guid, text_of_sid

ALLOW, DENY, AUDIT = 0, 1, 2
KIND_WORDS = ("allow", "deny", "audit")
CARRIED = {0: ALLOW, 1: DENY, 2: AUDIT, 5: ALLOW, 6: DENY, 7: AUDIT}
INHERIT_ONLY, INHERITED = 0x08, 0x10
# The types that aren't carried over: a word, and whether an entry of that type takes rights away.
NOT_CARRIED = {
    3: ("alarm", False), 4: ("compound allow", False), 8: ("object alarm", False), 9: ("conditional allow", False),
    10: ("conditional deny", True), 11: ("conditional object allow", False), 12: ("conditional object deny", True),
    13: ("conditional audit", False), 14: ("conditional alarm", False), 15: ("conditional object audit", False),
    16: ("conditional object alarm", False), 17: ("mandatory label", True), 18: ("resource attribute", False),
    19: ("central policy", True), 20: ("process trust label", True), 21: ("access filter", True),
}
WITH_TYPES = {5, 6, 7, 8, 11, 12, 15, 16}
Part = TypeVar("Part")


class Unreadable(Exception):
    """Bytes or a text that are no descriptor, with why."""


@dataclass
class Entry:
    """One entry: kind 0 to 2, flags and mask as numbers, GUIDs of 16 bytes or None, and an identifier's bytes."""

    kind: int
    flags: int
    mask: int
    object: Optional[bytes]
    inherited: Optional[bytes]
    sid: bytes

    def text(self) -> str:
        types = [text_of_guid(guid) if guid else "" for guid in (self.object, self.inherited)]
        fields = [KIND_WORDS[self.kind], f"0x{self.flags:x}", f"0x{self.mask:x}", *types, text_of_sid(self.sid)]
        return "(" + ";".join(fields) + ")"


@dataclass
class Lost:
    """An entry that can't be carried over: its text, why, and whether it takes rights away."""

    text: str
    why: str
    denies: bool


@dataclass
class Acl:
    """A list of entries, and its mark."""

    entries: list[Entry] = field(default_factory=list)
    protected: bool = False


@dataclass
class Descriptor:
    """The four parts, None where one is absent. `null` says that the discretionary list is there and null."""

    owner: Optional[bytes] = None
    group: Optional[bytes] = None
    dacl: Optional[Acl] = None
    sacl: Optional[Acl] = None
    null: bool = False


def entry_at(data: bytes, at: int, end: int) -> Union[Entry, Lost]:
    """The entry of some bytes from one place to another: an Entry, or what is lost of it."""
    kind, flags = data[at], data[at + 1]
    where = at + 8
    types: list[Optional[bytes]] = [None, None]
    if kind in WITH_TYPES and end - at >= 12:
        bits = struct.unpack_from("<I", data, where)[0]
        where += 4
        for place in (0, 1):
            if bits >> place & 1:
                types[place] = data[where : where + 16]
                where += 16
    sid = sid_at(data, where, end)
    if kind in CARRIED:
        if sid is None or (kind in WITH_TYPES and end - at < 12):
            raise Unreadable("an entry is cut short or has no identifier")
        mask = struct.unpack_from("<I", data, at + 4)[0]
        return Entry(CARRIED[kind], flags & 0xDF, mask, types[0], types[1], sid)
    word, denies = NOT_CARRIED.get(kind, ("unknown", True))
    who = text_of_sid(sid) if sid else "-"
    denies = denies or sid == OWNER_RIGHTS
    return Lost(f"{kind} ({word}) for {who}", "unsupported entry type", denies)


def list_at(data: bytes, at: int, lost: list[Lost]) -> list[Entry]:
    """The list that begins at a place: its entries, and appended to `lost` what can't be carried over."""
    if len(data) - at < 8:
        raise Unreadable("a list is cut short")
    revision, _, size, count, _ = struct.unpack_from("<BBHHH", data, at)
    if revision not in (2, 3, 4) or size < 8 or at + size > len(data):
        raise Unreadable("a list has another revision or size")
    entries: list[Entry] = []
    end, at = at + size, at + 8
    for _ in range(count):
        length = struct.unpack_from("<H", data, at + 2)[0] if end - at >= 4 else 0
        if length < 8 or at + length > end:
            raise Unreadable("an entry has another size")
        found = entry_at(data, at, at + length)
        if isinstance(found, Lost):
            lost.append(found)
        else:
            entries.append(found)
        at += length
    return entries


def read(data: bytes) -> tuple[Descriptor, list[Lost]]:
    """The descriptor of some bytes, and the list of what can't be carried over."""
    if len(data) < 20 or data[0] != 1:
        raise Unreadable("it is shorter than a header or of another revision")
    _, _, control, *offsets = struct.unpack_from("<BBHIIII", data)
    lost: list[Lost] = []

    def part(place: int, reader: Callable[[int], Part]) -> Part:
        if not 0 < offsets[place] < len(data):
            raise Unreadable("a part lies outside")
        return reader(offsets[place])

    def sid(at: int) -> bytes:
        found = sid_at(data, at, len(data))
        if found is None:
            raise Unreadable("owner or group isn't a SID")
        return found

    made = Descriptor()
    made.owner = part(0, sid) if offsets[0] else None
    made.group = part(1, sid) if offsets[1] else None
    if control & 0x10 and offsets[2]:
        made.sacl = Acl(part(2, lambda at: list_at(data, at, lost)), bool(control & 0x2000))
    if control & 4 and offsets[3]:
        made.dacl = Acl(part(3, lambda at: list_at(data, at, lost)), bool(control & 0x1000))
    made.null = bool(control & 4) and not offsets[3]
    return made, lost


def entry_bytes(entry: Entry) -> bytes:
    types = [guid for guid in (entry.object, entry.inherited) if guid is not None]
    body = struct.pack("<I", entry.mask)
    if types:
        body += struct.pack("<I", (entry.object is not None) + 2 * (entry.inherited is not None)) + b"".join(types)
    body += entry.sid
    return struct.pack("<BBH", entry.kind + (5 if types else 0), entry.flags, 4 + len(body)) + body


def list_bytes(acl: Acl) -> bytes:
    """The bytes of a list; Unreadable where it is longer than a list can be."""
    entries = [entry_bytes(entry) for entry in acl.entries]
    size = 8 + sum(map(len, entries))
    if size > 65535:
        raise Unreadable("a list has more than 65,535 bytes")
    with_types = any(entry.object is not None or entry.inherited is not None for entry in acl.entries)
    return struct.pack("<BBHHH", 4 if with_types else 2, 0, size, len(entries), 0) + b"".join(entries)


def written(descriptor: Descriptor, computed: bool = False) -> bytes:
    """The self-relative bytes of a descriptor with owner, group and discretionary list. `computed` sets the bit that
    asks to compute what a list inherits, where that isn't protected."""
    control, made, offsets, dacl = 0x8404, b"", [0, 0, 0, 0], descriptor.dacl or Acl()
    control |= 0x1000 if dacl.protected else 0x0100 if computed else 0
    parts = [descriptor.owner, descriptor.group, None, list_bytes(dacl)]
    if descriptor.sacl is not None:
        control |= 0x0810 | (0x2000 if descriptor.sacl.protected else 0)
        parts[2] = list_bytes(descriptor.sacl)
    for place, part in enumerate(parts):
        if part is not None:
            offsets[place] = 20 + len(made)
            made += part
    return struct.pack("<BBHIIII", 1, 0, control, *offsets) + made
