"""Filters as text (RFC 4515), and as the elements of a search (RFC 4511 4.5.1)."""

import re
from typing import NoReturn, Optional

from . import ber

ATTRIBUTE = re.compile(r"[A-Za-z0-9.;-]+")
CHOICES = {"&": 0xA0, "|": 0xA1}
COMPARES = {">=": 0xA5, "<=": 0xA6, "~=": 0xA8}


class NoFilter(Exception):
    """A text that is no filter, with the place and why."""


class Reader:
    def __init__(self, text: str) -> None:
        self.text, self.at = text, 0

    def fail(self, why: str) -> NoReturn:
        raise NoFilter(f"{why} at {self.at} of {self.text!r}")

    def take(self, piece: str) -> None:
        if not self.text.startswith(piece, self.at):
            self.fail(f"no {piece!r}")
        self.at += len(piece)

    def value(self, end: str = "()") -> list[Optional[bytes]]:
        """The bytes up to a parenthesis, with `\\XX` as a byte; a star is kept as None."""
        made: list[Optional[bytes]] = []
        run = bytearray()
        while self.at < len(self.text) and self.text[self.at] not in end:
            letter = self.text[self.at]
            if letter == "*":
                made += [bytes(run), None]
                run = bytearray()
                self.at += 1
            elif letter == "\\":
                digits = self.text[self.at + 1 : self.at + 3]
                if not re.fullmatch("[0-9A-Fa-f]{2}", digits):
                    self.fail("expected two hexadecimal digits")
                run.append(int(digits, 16))
                self.at += 3
            else:
                run += letter.encode()
                self.at += 1
        return made + [bytes(run)]

    def item(self) -> bytes:
        found = ATTRIBUTE.match(self.text, self.at)
        if not found:
            self.fail("no attribute")
        self.at = found.end()
        name = ber.octets(found[0].encode())
        for sign, tag in COMPARES.items():
            if self.text.startswith(sign, self.at):
                self.at += len(sign)
                return ber.sequence(name, ber.octets(self.whole()), tag=tag)
        self.take("=")
        value = self.value()
        if value == [b"", None, b""]:
            return ber.octets(found[0].encode(), tag=0x87)
        given = [piece for piece in value if piece is not None]
        if len(given) < len(value):
            return ber.sequence(name, pieces(given), tag=0xA4)
        return ber.sequence(name, ber.octets(given[0]), tag=0xA3)

    def whole(self) -> bytes:
        first, *others = self.value()
        if first is None or others:
            self.fail("a * in a value of a comparison")
        return first

    def filter(self) -> bytes:
        self.take("(")
        sign = self.text[self.at : self.at + 1]
        if sign in CHOICES:
            self.at += 1
            inner = []
            while self.text.startswith("(", self.at):
                inner.append(self.filter())
            made = ber.sequence(*inner, tag=CHOICES[sign])
        elif sign == "!":
            self.at += 1
            made = ber.sequence(self.filter(), tag=0xA2)
        else:
            made = self.item()
        self.take(")")
        return made


def pieces(values: list[bytes]) -> bytes:
    first, middle, last = values[0], values[1:-1], values[-1]
    made = [ber.octets(first, tag=0x80)] if first else []
    made += [ber.octets(piece, tag=0x81) for piece in middle if piece]
    made += [ber.octets(last, tag=0x82)] if last else []
    return ber.sequence(*made)


def read(text: str) -> bytes:
    """The element of a filter."""
    reader = Reader(text)
    made = reader.filter()
    if reader.at != len(text):
        reader.fail("text behind the filter")
    return made
