"""Simple paged results (RFC 2696): what one search found is kept, and given page by page.

A cookie is the number of a kept answer and a place in it. It counts on its connection alone, until the last page was
given, the client binds anew, or the answer had to make room."""

import struct
from dataclasses import dataclass, replace

from adsd_tools.forms import ber

from . import messages, searches
from .searches import Found, Refused

PAGED = b"1.2.840.113556.1.4.319"
# So many answers of a connection are kept, and so many bytes of one and of all connections.
MOST_ANSWERS, MOST_BYTES, MOST_OF_ALL = 8, 134_217_728, 268_435_456
COOKIE = struct.Struct(">QI")
LAST_SIZE = 2**31 - 1


@dataclass(frozen=True)
class Page:
    """What is asked for: a number of entries, and the place where they begin."""

    size: int
    cookie: bytes


@dataclass(frozen=True)
class Kept:
    """An answer, the search that it is the answer to, and the controls that stand behind each of its pages."""

    mark: bytes
    found: Found
    controls: tuple


def asked(control):
    """The page that a control asks for."""
    try:
        ((outer, held),) = ber.parts(control.value or b"")
        (first, size), (second, cookie) = ber.parts(held)
    except (ber.Broken, ValueError):
        raise Refused(messages.PROTOCOL_ERROR, "no control of paged results") from None
    size = int.from_bytes(size, "big", signed=True)
    if (outer, first, second) != (ber.SEQUENCE, ber.INTEGER, ber.OCTETS) or not 0 <= size <= LAST_SIZE:
        raise Refused(messages.PROTOCOL_ERROR, "no control of paged results")
    return Page(size, cookie)


def told(total, cookie=b""):
    """The control of an answer: of how many entries it is a page, and where the next one begins."""
    return searches.control(PAGED, ber.sequence(ber.number(total), ber.octets(cookie)))


class Shelf:
    """The room for the answers of all connections. Where it is full, the connection that has most of it gives way."""

    def __init__(self, most=MOST_OF_ALL):
        self.most, self.all = most, set()

    def make_room(self, weight):
        while self.all and sum(one.weight for one in self.all) + weight > self.most:
            max(self.all, key=lambda one: one.weight).forget_oldest()


class Pages:
    """The answers of one connection that are kept."""

    def __init__(self, shelf):
        self.shelf, self.kept, self.last, self.weight = shelf, {}, 0, 0

    def keep(self, answer):
        """Keeps an answer behind those that are kept; its number."""
        weight = answer.found.weight()
        while self.kept and (len(self.kept) >= MOST_ANSWERS or self.weight + weight > MOST_BYTES):
            self.forget_oldest()
        self.shelf.make_room(weight)
        self.shelf.all.add(self)
        self.last, self.weight = self.last + 1, self.weight + weight
        self.kept[self.last] = answer
        return self.last

    def forget(self, number):
        self.weight -= self.kept.pop(number).found.weight()
        if not self.kept:
            self.shelf.all.discard(self)

    def forget_oldest(self):
        self.forget(next(iter(self.kept)))

    def forget_all(self):
        while self.kept:
            self.forget_oldest()

    def kept_at(self, cookie, mark):
        """The number that a cookie says, of an answer that is kept for the same search; None where there is none."""
        number = int.from_bytes(cookie, "big")
        return number if number in self.kept and self.kept[number].mark == mark else None

    def place(self, cookie, mark):
        """The number of the answer and the place in it that a cookie says."""
        number, at = COOKIE.unpack(cookie) if len(cookie) == COOKIE.size else (0, 0)
        answer = self.kept.get(number)
        if answer is None or at > len(answer.found.entries):
            raise Refused(messages.UNWILLING, "the cookie isn't one of this connection, or not any more", (told(0),))
        if answer.mark != mark:
            raise Refused(messages.UNWILLING, "the cookie is that of another search", (told(0),))
        return number, at

    def first(self, page, answer, number):
        """The first page of an answer, which is kept where it has more."""
        if page.size >= len(answer.found.entries):
            return searches.reply_of(number, answer.found, (*answer.controls, told(len(answer.found.entries))))
        return self.next(page, self.keep(answer), 0, number)

    def next(self, page, kept, at, number):
        """The page at a place of a kept answer. Behind the last one, and where no entry is asked for at a cookie, the
        answer is forgotten."""
        answer, total = self.kept[kept], len(self.kept[kept].found.entries)
        end = min(at + page.size, total)
        if page.cookie and not page.size:
            self.forget(kept)
            return searches.reply_of(number, Found(), (told(0),))
        if end == total:
            self.forget(kept)
            last = replace(answer.found, entries=answer.found.entries[at:])
            return searches.reply_of(number, last, (*answer.controls, told(total)))
        behind = told(total, COOKIE.pack(kept, end))
        return searches.reply_of(number, Found(answer.found.entries[at:end]), (*answer.controls, behind))
