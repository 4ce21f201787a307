"""Security identifiers and GUIDs, as texts and as bytes."""

import uuid
from typing import Optional, Union

from . import _arguments as arguments
from ._library import AdsdError, answer, given

SidLike = Union[str, bytes]
GuidLike = Union[str, bytes, uuid.UUID]
GUID_SIZE, NO_GUID = 16, 10


def sid_of(sid: SidLike, name: str) -> bytes:
    """The bytes of an identifier that an argument of this name gives. Where they are given, the library reads them:
    they are one identifier, whole and nothing after it."""
    if isinstance(sid, str):
        return answer("adsd_sid_from_text", *given(arguments.text(sid, name)), about=name)
    if not isinstance(sid, arguments.BYTES):
        raise arguments.other_kind(sid, name, "an identifier as a text or bytes")
    data = bytes(sid)
    answer("adsd_sid_to_text", *given(data), about=name)
    return data


def sid_if(sid: Optional[SidLike], name: str) -> bytes:
    """The same; no bytes where none is given, which is told by None alone."""
    return b"" if sid is None else sid_of(sid, name)


def guid_of(guid: GuidLike, name: str) -> bytes:
    """The bytes of a GUID that an argument of this name gives."""
    if isinstance(guid, uuid.UUID):
        return guid.bytes_le
    if isinstance(guid, str):
        return answer("adsd_guid_from_text", *given(arguments.text(guid, name)), about=name)
    if not isinstance(guid, arguments.BYTES):
        raise arguments.other_kind(guid, name, "a GUID as a text, a UUID or bytes")
    data = bytes(guid)
    if len(data) != GUID_SIZE:
        raise AdsdError(NO_GUID, argument=name)
    return data


def sid_bytes(sid: SidLike) -> bytes:
    """The bytes of an identifier, which is given as a text or as bytes.

    >>> sid_bytes("S-1-5-11").hex()
    '01010000000000050b000000'
    >>> sid_bytes(b"")
    Traceback (most recent call last):
    adsd._library.AdsdError: sid: no security identifier
    """
    return sid_of(sid, "sid")


def sid_text(sid: bytes) -> str:
    """The text of an identifier.

    >>> sid_text(bytes.fromhex("01010000000000050b000000"))
    'S-1-5-11'
    """
    return answer("adsd_sid_to_text", *given(arguments.octets(sid, "sid")), about="sid").decode("ascii")


def guid_bytes(guid: GuidLike) -> bytes:
    """The 16 bytes of a GUID in packet order, which is given as a text, a UUID or bytes.

    >>> guid_bytes("bf967aba-0de6-11d0-a285-00aa003049e2").hex()
    'ba7a96bfe60dd011a28500aa003049e2'
    """
    return guid_of(guid, "guid")


def guid_text(guid: bytes) -> str:
    """The text of a GUID.

    >>> guid_text(bytes.fromhex("ba7a96bfe60dd011a28500aa003049e2"))
    'bf967aba-0de6-11d0-a285-00aa003049e2'
    """
    return answer("adsd_guid_to_text", *given(arguments.octets(guid, "guid")), about="guid").decode("ascii")
