"""Distinguished names (RFC 4514), one type and value a part: read with some older forms, written in one."""

import re
from dataclasses import dataclass
from functools import lru_cache
from typing import List, Optional, Tuple

from adsd_tools.shown import shown_bytes

TYPE = re.compile(rb"[A-Za-z][A-Za-z0-9-]*")
ESCAPED = b'"+,;<>\\ #='
HEX = re.compile(rb"[0-9A-Fa-f]{2}")
UNPLAIN = re.compile(rb'["+;<>\\\0]')
# A part: its type in upper case, and its value's UTF-8.
Part = Tuple[str, bytes]


class NoName(Exception):
    """Bytes that are no name, with why."""


class NoText(NoName):
    """A name with bytes that aren't UTF-8."""


@dataclass(frozen=True)
class Name:
    """A name: parts from the object up, each a type in upper case and a value's UTF-8; and whether it was mended."""

    parts: Tuple[Part, ...]
    mended: bool = False

    def key(self) -> Tuple[Tuple[str, str], ...]:
        """What two texts of one name have in common: types, and values after case folding."""
        return tuple(map(folded, self.parts))

    def text(self) -> bytes:
        return b",".join(kind.encode() + b"=" + value_text(value) for kind, value in self.parts)


@lru_cache(maxsize=65536)
def folded(part: Part) -> Tuple[str, str]:
    """A part with its value after case folding; the parts above an object are those of many."""
    return part[0], part[1].decode().casefold()


@lru_cache(maxsize=65536)
def plain_part(text: bytes) -> Optional[Part]:
    """The part of a text in which nothing is escaped, quoted or to be mended, as in nearly all; None of another."""
    kind, equals, value = text.partition(b"=")
    if not equals or not TYPE.fullmatch(kind) or not 1 <= len(value) <= 1024 or value[0] in b" #" or value[-1] == 0x20:
        return None
    return (kind.decode().upper(), value) if value.isascii() else None


def plain(text: bytes) -> Optional[Name]:
    """The name of a text in which nothing is escaped, quoted or to be mended; None of another one."""
    if not text or UNPLAIN.search(text):
        return None
    parts = []
    for one in text.split(b","):
        part = plain_part(one)
        if part is None:
            return None
        parts.append(part)
    return Name(tuple(parts))


def after_blanks(text: bytes, at: int) -> int:
    """The place after the blanks at a place."""
    while text[at : at + 1] == b" ":
        at += 1
    return at


def value_text(value: bytes) -> bytes:
    """The written text of a value: what parts a name is escaped by itself, and what isn't to be printed is spelled."""
    made = bytearray()
    for at, byte in enumerate(value):
        edge = (byte == 0x20 and at in (0, len(value) - 1)) or (byte == 0x23 and at == 0)
        if edge or byte in b'"+,;<>\\':
            made += b"\\" + bytes([byte])
        else:
            made.append(byte)
    return shown_bytes(bytes(made))


def escape_at(text: bytes, at: int) -> Tuple[int, int]:
    """The byte that an escape at a place represents, and the place after it."""
    found = HEX.match(text, at + 1)
    if found:
        return int(found[0], 16), at + 3
    if at + 1 < len(text) and text[at + 1] in ESCAPED:
        return text[at + 1], at + 2
    raise NoName(f"invalid escape at {at}")


def quoted_value(text: bytes, at: int) -> Tuple[bytes, int]:
    """A value in quotes, as older texts have it, and the place after it."""
    made, at = bytearray(), at + 1
    while at < len(text) and text[at] != 0x22:
        byte, at = escape_at(text, at) if text[at] == 0x5C else (text[at], at + 1)
        made.append(byte)
    if at == len(text):
        raise NoName("missing closing quote")
    return bytes(made), after_blanks(text, at + 1)


def value_at(text: bytes, at: int) -> Tuple[bytes, int]:
    """The value that begins at a place, without the blanks after it, and the place after these."""
    made, end = bytearray(), 0
    if text[at : at + 1] == b"#":
        raise NoName(f"a value by its encoding at {at}")
    while at < len(text) and text[at] != 0x2C:
        byte = text[at]
        if byte == 0x5C:
            byte, at = escape_at(text, at)
            made.append(byte)
            end = len(made)
            continue
        if byte in b'"+;<>\0':
            raise NoName("a multi-valued RDN" if byte == 0x2B else f"a byte at {at} that has to be escaped")
        made.append(byte)
        end = end if byte == 0x20 else len(made)
        at += 1
    return bytes(made[:end]), at


def read(text: bytes) -> Name:
    """The name of a text; the empty text is the name without parts."""
    name = plain(text)
    if name is not None:
        return name
    parts: List[Part] = []
    mended = text != text.strip(b" ") and not text.endswith(b"\\ ")
    at, text = after_blanks(text, 0), text if text.endswith(b"\\ ") else text.rstrip(b" ")
    while at < len(text) or parts:
        kind = TYPE.match(text, at)
        equals = after_blanks(text, kind.end()) if kind else at
        if not kind or text[equals : equals + 1] != b"=":
            raise NoName(f"no type at {at}")
        at = after_blanks(text, equals + 1)
        quoted = text[at : at + 1] == b'"'
        value, at = (quoted_value if quoted else value_at)(text, at)
        mended = mended or quoted
        if not 1 <= len(value) <= 1024:
            raise NoName("a value of no or of more than 1,024 bytes")
        try:
            value.decode()
        except UnicodeDecodeError:
            raise NoText("a value that isn't UTF-8") from None
        parts.append((kind[0].decode().upper(), value))
        if at == len(text):
            break
        if text[at] != 0x2C:
            raise NoName(f"no comma at {at}")
        at = after_blanks(text, at + 1)
    return Name(tuple(parts), mended)
