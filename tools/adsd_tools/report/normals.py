"""Descriptors in normal bytes, taken apart and put together (docs/profile/descriptors.md)."""

import struct
from dataclasses import dataclass, replace
from typing import Dict, Iterable, List, Optional, Tuple

from adsd_tools.forms.descriptor import ALLOW, DENY, INHERIT_ONLY

MARK_DACL, MARK_SACL = 1, 2
OBJECT_KINDS = (5, 6, 7)
ALLOW_ALL = 0x10000000


@dataclass(frozen=True)
class Parts:
    """Normal bytes in pieces: the marks, owner and group, and the entries of both lists, each in its bytes."""

    marks: int
    owner: bytes
    group: bytes
    dacl: Tuple[bytes, ...]
    sacl: Tuple[bytes, ...]

    def normal(self, dacl: Optional[Tuple[bytes, ...]] = None) -> bytes:
        """The normal bytes, with other entries in the discretionary list where they are given."""
        entries = self.dacl if dacl is None else dacl
        return b"".join([bytes([self.marks]), self.owner, self.group, struct.pack(">Q", len(entries)), *entries,
                         struct.pack(">Q", len(self.sacl)), *self.sacl])

    def only(self, places: Iterable[int]) -> "Parts":
        """The same with some entries alone in the discretionary list."""
        return replace(self, dacl=tuple(self.dacl[place] for place in places))


def sid_size(data: bytes, at: int) -> int:
    return 8 + 4 * data[at + 1]


def entries_at(data: bytes, at: int) -> Tuple[Tuple[bytes, ...], int]:
    """The entries of the list that begins at a place, and the place after them."""
    count, at = int.from_bytes(data[at : at + 8], "big"), at + 8
    made = []
    for _ in range(count):
        size = struct.unpack_from("<H", data, at + 2)[0]
        made.append(data[at : at + size])
        at += size
    return tuple(made), at


def parts_of(normal: bytes) -> Parts:
    """The pieces of normal bytes."""
    at = 1 + sid_size(normal, 1)
    behind = at + sid_size(normal, at)
    dacl, end = entries_at(normal, behind)
    sacl, _ = entries_at(normal, end)
    return Parts(normal[0], normal[1:at], normal[at:behind], dacl, sacl)


@dataclass(frozen=True)
class Ace:
    """An entry of a list: its type of [MS-DTYP] 2.4.4, flags, mask, the GUIDs of its types or None, an identifier."""

    kind: int
    flags: int
    mask: int
    object: Optional[bytes]
    inherited: Optional[bytes]
    sid: bytes
    data: bytes

    @property
    def is_denial(self) -> bool:
        return self.kind % 5 == DENY

    @property
    def is_inherit_only(self) -> bool:
        """Whether it is for what stands below alone."""
        return bool(self.flags & INHERIT_ONLY)

    @property
    def word(self) -> str:
        return ("allow", "deny", "audit")[self.kind % 5]


def ace_of(data: bytes) -> Ace:
    """An entry of its bytes, as they stand in normal bytes."""
    kind, flags, mask, at = data[0], data[1], struct.unpack_from("<I", data, 4)[0], 8
    types: List[Optional[bytes]] = [None, None]
    if kind in OBJECT_KINDS:
        bits, at = struct.unpack_from("<I", data, 8)[0], 12
        for place in (0, 1):
            if bits >> place & 1:
                types[place], at = data[at : at + 16], at + 16
    return Ace(kind, flags, mask, types[0], types[1], data[at:], data)


def entry(mask: int, sid: bytes, kind: int = ALLOW) -> bytes:
    """An entry that allows an identifier the rights of a mask, or denies them."""
    return struct.pack("<BBHI", kind, 0, 8 + len(sid), mask) + sid


class Known:
    """The pieces of normal bytes, each taken apart once."""

    def __init__(self) -> None:
        self.parts: Dict[bytes, Parts] = {}
        self.aces: Dict[bytes, Ace] = {}

    def of(self, normal: bytes) -> Parts:
        if normal not in self.parts:
            self.parts[normal] = parts_of(normal)
        return self.parts[normal]

    def entry(self, data: bytes) -> Ace:
        if data not in self.aces:
            self.aces[data] = ace_of(data)
        return self.aces[data]

    def list_of(self, normal: bytes) -> List[Ace]:
        return [self.entry(one) for one in self.of(normal).dacl]

    def system_list_of(self, normal: bytes) -> List[Ace]:
        return [self.entry(one) for one in self.of(normal).sacl]
