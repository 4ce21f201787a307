"""Values by their attribute's syntax ([MS-ADTS] 3.1.1.2.2.2): what is taken and mended, and when two are equal."""

import re
from functools import lru_cache
from typing import Tuple, Union

from adsd_tools.forms import names
from adsd_tools.forms.sids import guid_of_text, sid_at, sid_of_text, text_of_sid

MOST = 1048576
# How ldbsearch shows two numbers of 32 bits in one of 64, the lower one first.
POOL = re.compile(rb"([0-9]{1,10})-([0-9]{1,10})")
NUMBER = re.compile(rb"[+-]?[0-9]+")
# The syntaxes of texts: of object identifiers, of letters with and without their case, of ASCII, of digits, of names
# with something, of times, of Unicode.
TEXTS = tuple(f"2.5.5.{number}" for number in (2, 3, 4, 5, 6, 7, 11, 12, 14))
BITS = {"2.5.5.9": 32, "2.5.5.16": 64}
EXTENDED = re.compile(rb"(?:<(?:GUID|SID|WKGUID|RMD_[A-Z]+)=[^>]*>;)+", re.I)


# What two values that are equal have in common, and a value as it is written with that and with what was mended.
Key = Union[bytes, str, int, Tuple[Tuple[str, str], ...]]
Taken = Tuple[bytes, Key, str]


class NoValue(Exception):
    """Bytes that are no value of a syntax, with why."""


class NoText(NoValue):
    """Bytes that aren't UTF-8, where a text is meant."""


@lru_cache(maxsize=4096)
def name_value(value: bytes) -> Tuple[bytes, Tuple[Tuple[str, str], ...], str]:
    """A name: its bytes, its key and what was mended. An extended name has its GUID and its identifier taken off."""
    plain = EXTENDED.sub(b"", value) if b"<" in value else value
    try:
        name = names.read(plain)
    except names.NoText as why:
        raise NoText(f"not a distinguished name: {why}") from None
    except names.NoName as why:
        raise NoValue(f"not a distinguished name: {why}") from None
    if name.mended:
        return name.text(), name.key(), "name normalized"
    return plain, name.key(), "an extended name" if plain != value else ""


def number_value(value: bytes, bits: int) -> Taken:
    """A signed number in decimal."""
    text = value.strip()
    pool = POOL.fullmatch(text) if bits == 64 else None
    if pool:
        both = int(pool[1]) + (int(pool[2]) << 32)
        return b"%d" % both, both, "RID pool written as one number"
    if not NUMBER.fullmatch(text) or not -(2 ** (bits - 1)) <= int(text) < 2 ** (bits - 1):
        raise NoValue(f"not a signed number of {bits} bits")
    number = b"%d" % int(text)
    return number, int(text), "" if number == value else "number normalized"


def octets_value(attribute: str, value: bytes) -> Taken:
    """Bytes; of an attribute of GUIDs also its text, which ldbsearch writes."""
    guid = None
    if len(value) == 36 and (attribute.lower().endswith("guid") or attribute.lower() == "invocationid"):
        guid = guid_of_text(value.decode("latin-1"))
    return (value, value, "") if guid is None else (guid, guid, "GUID text written as bytes")


def sid_value(value: bytes) -> Tuple[bytes, bytes, str]:
    """An identifier's bytes or its text; the key is its bytes."""
    sid = sid_at(value, 0, len(value))
    if sid is None or sid != value:
        sid = sid_of_text(value.decode("latin-1").strip())
    if sid is None:
        raise NoValue("not a SID")
    if sid == value:
        return value, sid, ""
    text = text_of_sid(sid).encode()
    return (value, sid, "") if value.upper() == text.upper() else (text, sid, "SID normalized")


def is_foreign(syntax: str, value: bytes) -> bool:
    """Whether a value isn't UTF-8 where its syntax is a text or a name."""
    if value.isascii() or (syntax not in TEXTS and syntax != "2.5.5.1"):
        return False
    try:
        value.decode()
    except UnicodeDecodeError:
        return True
    return False


def text_value(value: bytes, syntax: str) -> Taken:
    """A text: those of object identifiers are ASCII, and of the syntaxes without a rule here only UTF-8 is asked."""
    try:
        text = value.decode()
        if syntax == "2.5.5.2":
            value.decode("ascii")
    except UnicodeDecodeError:
        raise NoText("it isn't " + ("ASCII" if syntax == "2.5.5.2" else "UTF-8")) from None
    if syntax == "2.5.5.2":
        return value, text.lower(), ""
    return value, text.casefold() if syntax == "2.5.5.12" else value, ""


def read(attribute: str, syntax: str, value: bytes) -> Taken:
    """A value as it is written, its key, and what was mended (a text, empty for nothing)."""
    if len(value) > MOST:
        raise NoValue("longer than 1,048,576 bytes")
    if attribute.lower() == "unicodepwd":
        return value, value, ""
    if syntax == "2.5.5.1":
        return name_value(value)
    if syntax in BITS:
        return number_value(value, BITS[syntax])
    if syntax == "2.5.5.8":
        if value.strip().upper() not in (b"TRUE", b"FALSE"):
            raise NoValue("neither TRUE nor FALSE")
        return value.strip(), value.strip().upper(), "" if value == value.strip() else "blanks"
    if syntax == "2.5.5.10":
        return octets_value(attribute, value)
    if syntax == "2.5.5.17":
        return sid_value(value)
    if syntax in TEXTS:
        return text_value(value, syntax)
    return value, value, ""
