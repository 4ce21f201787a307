"""Security identifiers and GUIDs: their bytes, their texts, and the aliases of SDDL.

An identifier is kept as its bytes ([MS-DTYP] 2.4.2.2), a GUID as its 16 bytes in packet order.
"""

import re
import struct
import uuid
from typing import Optional

NUMERIC = re.compile(r"S-1-(0|[1-9][0-9]*|0x[0-9a-f]{1,12})((?:-[0-9]+){1,15})", re.I)
GUID = re.compile(r"[0-9a-f]{8}(?:-[0-9a-f]{4}){3}-[0-9a-f]{12}", re.I)

# Those that `adsd` reads itself.
KNOWN = {
    "WD": "S-1-1-0", "CO": "S-1-3-0", "CG": "S-1-3-1", "OW": "S-1-3-4", "NU": "S-1-5-2", "IU": "S-1-5-4",
    "SU": "S-1-5-6", "AN": "S-1-5-7", "ED": "S-1-5-9", "PS": "S-1-5-10", "AU": "S-1-5-11", "RC": "S-1-5-12",
    "SY": "S-1-5-18", "LS": "S-1-5-19", "NS": "S-1-5-20",
} | {name: f"S-1-5-32-{number}" for name, number in {
    "BA": 544, "BU": 545, "BG": 546, "PU": 547, "AO": 548, "SO": 549, "PO": 550, "BO": 551, "RE": 552, "RU": 554,
    "RD": 555, "NO": 556}.items()}
KNOWN_OF_DOMAIN = {"LA": 500, "LG": 501, "DA": 512, "DU": 513, "DG": 514, "DC": 515, "DD": 516, "CA": 517, "SA": 518,
                   "EA": 519, "PA": 520, "RS": 553}
# Those of newer systems, which are written as numbers.
NEWER = {
    "WR": "S-1-5-33", "AC": "S-1-15-2-1", "AS": "S-1-18-1", "SS": "S-1-18-2", "LW": "S-1-16-4096", "ME": "S-1-16-8192",
    "MP": "S-1-16-8448", "HI": "S-1-16-12288", "SI": "S-1-16-16384", "UD": "S-1-5-84-0-0-0-0-0",
} | {name: f"S-1-5-32-{number}" for name, number in {
    "MU": 558, "LU": 559, "IS": 568, "CY": 569, "ER": 573, "CD": 574, "RA": 575, "ES": 576, "MS": 577, "HA": 578,
    "AA": 579, "RM": 580}.items()}
NEWER_OF_DOMAIN = {"RO": 498, "CN": 522, "AP": 525, "KA": 526, "EK": 527}


def sid_of_text(text: str) -> Optional[bytes]:
    """The bytes of an identifier from its numeric text, or None."""
    found = NUMERIC.fullmatch(text)
    if not found:
        return None
    authority = int(found[1], 0) if found[1].lower().startswith("0x") else int(found[1])
    subs = [int(number) for number in found[2].split("-")[1:]]
    if authority >= 2**48 or any(sub >= 2**32 for sub in subs):
        return None
    return bytes([1, len(subs)]) + authority.to_bytes(6, "big") + struct.pack(f"<{len(subs)}I", *subs)


def sid_at(data: bytes, at: int, end: int) -> Optional[bytes]:
    """The identifier that begins at a place of some bytes and ends before another, as bytes, or None."""
    if end - at < 12 or data[at] != 1 or not 1 <= data[at + 1] <= 15 or at + 8 + 4 * data[at + 1] > end:
        return None
    return data[at : at + 8 + 4 * data[at + 1]]


def text_of_sid(sid: bytes) -> str:
    """The numeric text of an identifier's bytes."""
    authority = int.from_bytes(sid[2:8], "big")
    head = str(authority) if authority < 2**32 else f"0x{authority:012x}"
    return f"S-1-{head}" + "".join(f"-{sub}" for sub in struct.unpack(f"<{sid[1]}I", sid[8:]))


def below(domain: Optional[bytes], number: int) -> Optional[bytes]:
    """The identifier of a number below a domain's, or None where there is no domain or no room for one more."""
    if domain is None or domain[1] == 15:
        return None
    return bytes([1, domain[1] + 1]) + domain[2:] + struct.pack("<I", number)


def sid_of_alias(name: str, domain: Optional[bytes]) -> tuple[Optional[bytes], bool]:
    """The identifier of an alias in SDDL and whether `adsd` knows the alias; (None, False) where there is none."""
    name = name.upper()
    for known, fixed, of_domain in ((True, KNOWN, KNOWN_OF_DOMAIN), (False, NEWER, NEWER_OF_DOMAIN)):
        if name in fixed:
            return sid_of_text(fixed[name]), known
        if name in of_domain:
            return below(domain, of_domain[name]), known
    return None, False


def guid_of_text(text: str) -> Optional[bytes]:
    """The 16 bytes of a GUID from its text of 36 characters, or None."""
    return uuid.UUID(text).bytes_le if GUID.fullmatch(text) else None


def text_of_guid(guid: bytes) -> str:
    return str(uuid.UUID(bytes_le=bytes(guid)))


def known_sid(text: str) -> bytes:
    """The bytes of an identifier whose text stands in the code."""
    made = sid_of_text(text)
    if made is None:
        raise ValueError(f"{text} is no identifier")
    return made


NOBODY = known_sid("S-1-0-0")
OWNER_RIGHTS = known_sid("S-1-3-4")
CREATOR_OWNER = known_sid("S-1-3-0")
CREATOR_GROUP = known_sid("S-1-3-1")
