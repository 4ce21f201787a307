"""Texts of descriptors ([MS-DTYP] 2.5.1): read with more forms than `adsd` takes, written in one that it takes."""

import re
from typing import List, Optional, Set, Tuple

from adsd_tools.forms.descriptor import ALLOW, AUDIT, DENY, Acl, Descriptor, Entry, Lost, Unreadable
from adsd_tools.forms.rights import FLAGS, RIGHTS
from adsd_tools.forms.sids import OWNER_RIGHTS, guid_of_text, sid_of_alias, sid_of_text, text_of_guid, text_of_sid

KINDS = {"A": ALLOW, "D": DENY, "AU": AUDIT, "OA": ALLOW, "OD": DENY, "OU": AUDIT}
# The other types, and whether an entry of that type takes rights away.
NOT_CARRIED = {"XA": False, "ZA": False, "XU": False, "AL": False, "OL": False, "RA": False, "XD": True, "ML": True,
               "SP": True, "TL": True, "FL": True}
# Codes for files, registry keys and labels, which `adsd` doesn't read.
OTHER_RIGHTS = {"FA": 0x1F01FF, "FR": 0x120089, "FW": 0x120116, "FX": 0x1200A0, "KA": 0xF003F, "KR": 0x20019,
                "KW": 0x20006, "KX": 0x20019, "NW": 1, "NR": 2, "NX": 4}
PART = re.compile(r"([OGDS])\s*:", re.I)
LIST_FLAGS = re.compile(r"(?:\s|P|AR|AI)*", re.I)
IDENTIFIER = re.compile(r"\s*(S-1-(?:0x[0-9A-F]{1,12}|[0-9]+)(?:-[0-9]+)+|[A-Z]{2})", re.I)


class Cannot(Exception):
    """A field that can't be carried over, with why."""


class Reader:
    """Reads one text. `mends` says which forms stand in it that `adsd` doesn't take; `lost` has what is lost."""

    def __init__(self, text: str, domain: Optional[bytes]) -> None:
        self.text, self.domain, self.at = text, domain, 0
        self.mends: List[str] = []
        self.lost: List[Lost] = []

    def mend(self, why: str) -> None:
        if why not in self.mends:
            self.mends.append(why)

    def skip(self) -> None:
        """Passes over blanks, which stand nowhere in the strict form."""
        while self.at < len(self.text) and self.text[self.at].isspace():
            self.at += 1
            self.mend("blanks")

    def identifier(self, text: str) -> bytes:
        """The bytes of an identifier or of an alias."""
        name = text.strip()
        if name != text:
            self.mend("blanks")
        sid, known = sid_of_text(name), True
        if sid is not None and text_of_sid(sid).upper() != name.upper():
            self.mend("SIDs normalized")
        if sid is None:
            sid, known = sid_of_alias(name, self.domain)
        if sid is None:
            raise Cannot(f"{name or 'nothing'} is not a SID or a known alias")
        if not known:
            self.mend("aliases written as SIDs")
        return sid

    def number(self, text: str) -> int:
        """The mask of a field of rights."""
        text = text.strip().upper()
        if re.fullmatch(r"0X[0-9A-F]{1,8}", text):
            return int(text, 16)
        if re.fullmatch(r"0[0-7]*|[1-9][0-9]{0,9}", text):
            self.mend("rights written as a mask")
            mask = int(text, 8 if text[0] == "0" else 10)
            if mask >= 2**32:
                raise Cannot(f"{text} are not rights")
            return mask
        mask = 0
        for at in range(0, len(text), 2):
            code = text[at : at + 2]
            if code not in RIGHTS:
                if code not in OTHER_RIGHTS:
                    raise Cannot(f"{code} is not a right")
                self.mend("rights written as a mask")
            mask |= RIGHTS.get(code, OTHER_RIGHTS.get(code, 0))
        return mask

    def guid(self, text: str) -> Optional[bytes]:
        name = text.strip()
        if not name:
            return None
        if name[0] == "{" and name[-1] == "}":
            name = name[1:-1]
            self.mend("braces round a GUID")
        guid = guid_of_text(name)
        if guid is None:
            raise Cannot(f"{name} is not a GUID")
        return guid

    def flags(self, text: str) -> int:
        made, text = 0, text.strip().upper()
        for at in range(0, len(text), 2):
            code = text[at : at + 2]
            if code == "CR":
                self.mend("flag without effect dropped")
            elif code in FLAGS:
                made |= FLAGS[code]
            else:
                raise Cannot(f"{code} is not a flag")
        return made

    def fields(self, fields: List[str]) -> Entry:
        """The entry of its six fields."""
        kind = fields[0].strip().upper()
        if kind not in KINDS:
            raise Cannot("unsupported entry type")
        types = self.guid(fields[3]), self.guid(fields[4])
        if kind in ("A", "D", "AU") and types != (None, None):
            raise Cannot("this type has no GUIDs")
        return Entry(KINDS[kind], self.flags(fields[1]), self.number(fields[2]), *types, self.identifier(fields[5]))

    def entry(self) -> Optional[Entry]:
        """The entry that begins here, put to the lost ones where it can't be carried over; None then."""
        end = closing(self.text, self.at)
        text, self.at = self.text[self.at : end + 1], end + 1
        fields = text[1:-1].split(";")
        if any(field != field.strip() for field in fields[:6]):
            self.mend("blanks")
        try:
            if len(fields) < 6 or (len(fields) > 6 and fields[0].strip().upper() in KINDS):
                raise Cannot("an entry has six fields")
            return self.fields(fields)
        except Cannot as why:
            kind = fields[0].strip().upper()
            denies = KINDS[kind] == DENY if kind in KINDS else NOT_CARRIED.get(kind, True)
            self.lost.append(Lost(text, str(why), denies or self.names_owner_rights(fields)))
            return None

    def names_owner_rights(self, fields: List[str]) -> bool:
        """Whether an entry is for owner rights: where it stands, an owner has less by itself."""
        who = fields[5].strip().upper() if len(fields) > 5 else ""
        return who == "OW" or sid_of_text(who) == OWNER_RIGHTS

    def list(self) -> Optional[Acl]:
        """The list after `D:` or `S:`; None where it is null."""
        if self.text[self.at :].strip().upper().startswith("NO_ACCESS_CONTROL"):
            self.at = self.text.upper().index("NO_ACCESS_CONTROL", self.at) + len("NO_ACCESS_CONTROL")
            return None
        found = LIST_FLAGS.match(self.text, self.at)
        marks = found[0] if found else ""
        self.at += len(marks)
        if any(c.isspace() for c in marks):
            self.mend("blanks")
        made = Acl([], "P" in marks.upper())
        while self.at < len(self.text) and self.text[self.at] == "(":
            entry = self.entry()
            if entry is not None:
                made.entries.append(entry)
            self.skip()
        return made


def closing(text: str, at: int) -> int:
    """The place of the bracket that closes the one at a place; conditions have brackets and quotes of their own."""
    depth, quoted = 0, False
    for place in range(at, len(text)):
        letter = text[place]
        if letter == '"':
            quoted = not quoted
        elif not quoted and letter in "()":
            depth += 1 if letter == "(" else -1
            if depth == 0:
                return place
    raise Unreadable("missing closing bracket")


def read_identifier(reader: Reader, what: str) -> Optional[bytes]:
    """The owner or the group that begins here, None where it can't be carried over."""
    found = IDENTIFIER.match(reader.text, reader.at)
    if not found:
        raise Unreadable(f"no identifier of the {what} at {reader.at}")
    reader.at = found.end()
    try:
        return reader.identifier(found[0])
    except Cannot as why:
        reader.lost.append(Lost(what, str(why), False))
        return None


def read(text: str, domain: Optional[bytes]) -> Tuple[Descriptor, List[Lost], List[str]]:
    """The descriptor of a text, what is lost of it, and the forms that were mended."""
    reader, made = Reader(text, domain), Descriptor()
    seen: Set[str] = set()
    reader.skip()
    while reader.at < len(text):
        found = PART.match(text, reader.at)
        if not found or found[1].upper() in seen:
            raise Unreadable(f"no part of a descriptor at {reader.at}")
        part = found[1].upper()
        seen.add(part)
        reader.at = found.end()
        if part in "OG":
            sid = read_identifier(reader, "owner" if part == "O" else "group")
            made.owner, made.group = (sid, made.group) if part == "O" else (made.owner, sid)
        else:
            acl = reader.list()
            made.null = made.null or (part == "D" and acl is None)
            made.dacl, made.sacl = (acl, made.sacl) if part == "D" else (made.dacl, acl)
        reader.skip()
    if not seen:
        raise Unreadable("it is empty")
    return made, reader.lost, reader.mends


def entry_text(entry: Entry) -> str:
    """The text of an entry, with its rights and its identifier as numbers."""
    typed = entry.object is not None or entry.inherited is not None
    kind = ("OA", "OD", "OU")[entry.kind] if typed else ("A", "D", "AU")[entry.kind]
    flags = "".join(name for name, bit in FLAGS.items() if entry.flags & bit)
    types = [text_of_guid(guid) if guid else "" for guid in (entry.object, entry.inherited)]
    return f"({kind};{flags};0x{entry.mask:x};{types[0]};{types[1]};{text_of_sid(entry.sid)})"


def lists_text(descriptor: Descriptor) -> str:
    """The two lists of a descriptor as text; an absent discretionary one is written as one that grants nothing."""
    dacl = descriptor.dacl or Acl([], True)
    text = "D:" + ("P" if dacl.protected else "") + "".join(map(entry_text, dacl.entries))
    if descriptor.sacl is not None:
        text += "S:" + ("P" if descriptor.sacl.protected else "") + "".join(map(entry_text, descriptor.sacl.entries))
    return text
