"""The elements of BER that LDAP has (RFC 4511 5.1): definite lengths, as few bytes as they need."""

from typing import Iterable

SEQUENCE, SET, BOOLEAN, INTEGER, OCTETS, ENUMERATED = 0x30, 0x31, 0x01, 0x02, 0x04, 0x0A


class Broken(Exception):
    """Bytes that are no elements."""


def element(tag: int, body: bytes) -> bytes:
    size = len(body)
    if size < 128:
        return bytes([tag, size]) + body
    length = size.to_bytes((size.bit_length() + 7) // 8, "big")
    return bytes([tag, 0x80 | len(length)]) + length + body


def number(value: int, tag: int = INTEGER) -> bytes:
    return element(tag, value.to_bytes(value.bit_length() // 8 + 1, "big", signed=True))


def octets(value: bytes, tag: int = OCTETS) -> bytes:
    return element(tag, value)


def truth(value: bool, tag: int = BOOLEAN) -> bytes:
    return element(tag, b"\xff" if value else b"\x00")


def sequence(*parts: bytes, tag: int = SEQUENCE) -> bytes:
    return element(tag, b"".join(parts))


def attribute(name: str, values: Iterable[bytes]) -> bytes:
    """An attribute's name and its values."""
    return sequence(octets(name.encode()), sequence(*map(octets, values), tag=SET))


def parts(data: bytes, most: int = 0) -> list[tuple[int, bytes]]:
    """The elements that stand one after the other: pairs of tag and body. Where there are more than `most`, if that is
    given, they are Broken."""
    found: list[tuple[int, bytes]] = []
    at = 0
    while at < len(data):
        if most and len(found) == most:
            raise Broken(f"more than {most} elements")
        if at + 2 > len(data):
            raise Broken("an element is cut short")
        tag, size, start = data[at], data[at + 1], at + 2
        if size & 0x80:
            start += size & 0x7F
            size = int.from_bytes(data[at + 2 : start], "big")
        if start + size > len(data):
            raise Broken("an element is cut short")
        found.append((tag, data[start : start + size]))
        at = start + size
    return found
