"""Exports as text: LDIF (RFC 2849) with what ldifde, ldbsearch and ldapsearch write besides. Gives records."""

import base64
import binascii
import re
import sys
from functools import lru_cache
from typing import Iterable, Iterator, List, Optional, Set, Tuple, Union

from adsd_tools.shown import brief

from .report import ENDS, LINES, READ, Report

MOST = 1048576
# Ranges of values (`member;range=0-1499`) stand in names too.
NAME = re.compile(rb"[A-Za-z0-9.;=*_-]+")
DN = re.compile(rb"dn\s*:", re.I)
VERSION = re.compile(rb"version\s*:", re.I)
BEGINNING = re.compile(rb"^[A-Za-z0-9-]*")
# How many records there are, as adsd-export, ldbsearch and ldapsearch tell behind them; and what these write before.
TOLD = re.compile(rb"^# (?:returned|numEntries:) ([0-9]{1,15})(?: records)?\r?$")
TELLING = re.compile(rb"^# (?:record [0-9]+|extended LDIF|LDAPv3|adsd-export: .*)\r?$")
# What adsd-export says that its account may not read.
UNREAD = re.compile(rb"^# missing: (.*): ([0-9]{1,15}) \((.*)\)\r?$")
# What ldapsearch with -LL or -LLL writes behind a page of a search, with nothing behind cookie= behind the last one.
PAGE = re.compile(rb"^# pagedresults:.*\bcookie=(\S*)\r?$")
# A logical line and where it stands; None for what parts records.
Placed = Tuple[str, Optional[bytes]]
Block = List[Tuple[str, bytes]]
# The line before the first record that says that inherited entries aren't there, and are computed by loading.
EXPLICIT = b"# adsd-import: lists are explicit, and loading computes what they inherit"
TRAILERS = (b"ref", b"search", b"result", b"matcheddn", b"text", b"control")


class Origin:
    """Where a record stands that was read whole: its file, the number of the line of its dn, and its bytes from there
    on. The number of a line is worked out where it is asked for: few are."""

    __slots__ = ("file", "number", "body")

    def __init__(self, file: str, number: int, body: bytes) -> None:
        self.file, self.number, self.body = file, number, body

    def place(self, at: int) -> str:
        """The place (`FILE:LINE`) of the logical line of this number, counted from the dn's, which is 0."""
        number = self.number
        for line in self.body.split(b"\n")[1:] if at else ():
            number += 1
            at -= line[:1] != b" "
            if at == 0:
                break
        return f"{self.file}:{number}"


# Where something stands: its place, or the record of which it is a line.
Stands = Union[str, Origin]


class Line:
    """One line of an attribute: its name as written, and its value's bytes; and where it stands: its place, or its
    record and its number there."""

    __slots__ = ("stands", "name", "value", "at")

    def __init__(self, stands: Stands, name: str, value: bytes, at: int = 0) -> None:
        self.stands, self.name, self.value, self.at = stands, name, value, at

    @property
    def where(self) -> str:
        """Its place, `FILE:LINE`."""
        return self.stands if isinstance(self.stands, str) else self.stands.place(self.at)


class Record:
    """One record: where its `dn` stands, that name's bytes, and its lines in order.

    `broken` has the names, in lower case, of the lines that can't be read.
    """

    __slots__ = ("stands", "dn", "lines", "broken")

    def __init__(self, stands: Stands, dn: bytes) -> None:
        self.stands, self.dn = stands, dn
        self.lines: List[Line] = []
        self.broken: Set[str] = set()

    @property
    def where(self) -> str:
        """The place of its dn, `FILE:LINE`."""
        return self.stands if isinstance(self.stands, str) else self.stands.place(0)


class Ends:
    """What the lines of a file say of its end, as they go by: how many records began, and what its tool tells."""

    def __init__(self) -> None:
        self.begun, self.last, self.tells = 0, 0, False
        self.told: List[Tuple[int, int]] = []
        self.pages: List[Tuple[int, bytes]] = []
        self.unread: List["re.Match[bytes]"] = []

    def look(self, number: int, line: bytes) -> None:
        """Looks at a line, without its end."""
        if line[:2] in (b"dn", b"DN", b"Dn", b"dN"):
            if DN.match(line):
                self.begun, self.last = self.begun + 1, number
        elif line[:2] == b"# ":
            self.comment(number, line)

    def comment(self, number: int, line: bytes) -> None:
        told, page, unread = TOLD.match(line), PAGE.match(line), UNREAD.match(line)
        if told:
            self.told.append((number, int(told[1])))
        elif page:
            self.pages.append((number, page[1]))
        elif unread:
            self.unread.append(unread)
        elif TELLING.match(line):
            self.tells = True


class Logical:
    """The logical lines of an export in order, each (where, bytes), and (where, None) for what parts records. Comments
    go. What the lines say of the end is in `ends`, and `number` has the number of line ends that there were."""

    def __init__(self, file: str, report: Report) -> None:
        self.file, self.report, self.ends, self.number = file, report, Ends(), 0
        self.pieces: Optional[List[bytes]] = None
        self.at = ""

    def read(self, lines: Iterable[Tuple[int, bytes]]) -> Iterator[Placed]:
        """The logical lines of some numbered lines, which begin behind an empty one and come without their ends."""
        in_comment = False
        for number, line in lines:
            self.ends.look(number, line)
            line = line[:-1] if line.endswith(b"\r") else line
            begins = line[:1]
            if begins == b" " or begins == b"\t":
                if not in_comment:
                    yield from self.joined(f"{self.file}:{number}", line)
                continue
            if begins == b"#":
                in_comment = True
                continue
            in_comment = False
            yield from self.flushed()
            if line:
                self.at, self.pieces = f"{self.file}:{number}", [line]
            else:
                yield f"{self.file}:{number}", None
        yield from self.flushed()

    def flushed(self) -> Iterator[Placed]:
        """The line that was being joined, where there is one."""
        if self.pieces is not None:
            pieces, self.pieces = self.pieces, None
            yield self.at, pieces[0] if len(pieces) == 1 else b"".join(pieces)

    def joined(self, where: str, line: bytes) -> Iterator[Placed]:
        """Joins a continuation to the line before it, where one stands."""
        if self.pieces is not None:
            if line[:1] == b"\t":
                self.report.mended(where, "continuation", "it begins with a tab")
            self.pieces.append(line[1:])
        elif line.strip(b" \t"):
            self.report.denies(where, f"line `{brief(line)}`", "continuation of no line: the line before it may be cut off")
        else:
            self.report.mended(where, "line of blanks", "taken as an empty one")
            yield where, None


@lru_cache(maxsize=8192)
def names_of(name: bytes) -> str:
    """An attribute's name as written, as a text; each is kept once."""
    return sys.intern(name.decode())


def decoded(where: str, name: bytes, text: bytes, report: Report) -> Optional[bytes]:
    """The bytes of base64, also with blanks in it or without its padding; None where it is none."""
    try:
        value = base64.b64decode(text, validate=True)
        if base64.b64encode(value) == text:
            return value
    except (binascii.Error, ValueError):
        pass
    tidy = re.sub(rb"\s", b"", text)
    try:
        value = base64.b64decode(tidy + b"=" * (-len(tidy) % 4), validate=True)
    except (binascii.Error, ValueError):
        return None
    if base64.b64encode(value) != text:
        report.mended(where, brief(name), "non-strict base64")
    return value


def line_of(where: str, text: bytes, report: Report) -> Optional[Line]:
    """The line of an attribute that a logical line is; None where it can't be read, which is reported."""
    name, colon, rest = text.partition(b":")
    if not colon or not NAME.fullmatch(name) or b"\0" in text:
        report.missing(where, LINES, f"line `{brief(text)}`", "not a line of LDIF: no colon, a NUL, or no attribute name")
        return None
    if rest[:1] == b"<":
        report.missing(where, LINES, brief(name), "value given by URL")
        return None
    if rest[:1] != b":":
        return Line(where, names_of(name), rest.lstrip(b" \t"))
    value = decoded(where, name, rest[1:].lstrip(b" \t"), report)
    if value is None:
        report.missing(where, LINES, brief(name), "invalid base64")
        return None
    return Line(where, names_of(name), value)


def trailer(lines: Block, report: Report) -> None:
    """Reports a block of lines that is no record. A result other than 0 says that the export isn't whole."""
    where, first = lines[0]
    name = first.partition(b":")[0].lower()
    for at, text in lines:
        found = re.match(rb"result:\s*([0-9]+)", text)
        if found and int(found[1]):
            report.missing(at, ENDS, f"`{brief(text)}`", "the search ended early, so the export is incomplete")
    if name in TRAILERS:
        report.left_out(where, f"`{brief(first)}`", "referral or end of a search, not an object")
    else:
        report.missing(where, LINES, f"block of `{brief(first)}`", "it has no dn")


def record_of(lines: Block, report: Report) -> Optional[Record]:
    """The record of a block of logical lines, or None, which is reported where something stands there."""
    if VERSION.match(lines[0][1]):
        where, text = lines[0]
        if text.partition(b":")[2].strip() != b"1":
            report.mended(where, f"`{brief(text)}`", "taken as version 1")
        elif len(lines) == 1:
            report.mended(where, "`version: 1`", "empty line after it")
        lines = lines[1:]
    if not lines:
        return None
    if lines[0][1].partition(b":")[0].lower() != b"dn":
        trailer(lines, report)
        return None
    first = line_of(*lines[0], report)
    if first is None or len(first.value) > MOST:
        report.missing(lines[0][0], LINES, "record", "its dn is too long or unreadable")
        return None
    record = Record(first.where, first.value)
    for place, (where, text) in enumerate(lines[1:]):
        if place == 0 and re.match(rb"changetype\s*:", text, re.I):
            if text.partition(b":")[2].strip() != b"add":
                report.left_out(record.where, f"record {brief(record.dn)}", f"`{brief(text)}` changes an object")
                return None
            continue
        line = line_of(where, text, report)
        if line is not None:
            record.lines.append(line)
            continue
        if record.lines and record.lines[-1].name.lower() == "ntsecuritydescriptor":
            report.loss(where, f"descriptor of {brief(record.dn)}", "an unreadable line follows, so it may be cut off")
            record.lines[-1].value = b""
        name = BEGINNING.findall(text)[0].decode().lower()
        record.broken.add(name)
        if name == "ntsecuritydescriptor":
            # A descriptor that can't be read isn't an absent one.
            record.lines.append(Line(where, "nTSecurityDescriptor", b""))
    return record


def ended(lines: List[Placed], last: Block, report: Report) -> None:
    """Reports a last record that may be cut off: each tool writes an empty line after it. (The split at the ends of
    lines gives an empty one after the last of these.)"""
    if [text for _, text in lines[-2:]] == [None, None]:
        return
    where, text = last[-1]
    how = "after it, without an empty line" if lines[-1][1] is None else "within it"
    report.missing(where, ENDS, f"last line `{brief(text)}`", f"the export ends {how}, so it may be cut off")
    if re.match(rb"nTSecurityDescriptor\s*:", text, re.I):
        name = next(line for _, line in last if DN.match(line))
        report.denies(where, f"the descriptor of `{brief(name)}`", "the export ends within it, so it may be cut off")


def counted(logical: Logical, file: str, report: Report) -> None:
    """Reports an export that has other records than it says, or that doesn't end as the tool ends it that made it."""
    ends, where, what = logical.ends, f"{file}:{logical.number}", f"end of {file}"
    for found in ends.unread:
        why = f"the account that exported may not read it, as of {brief(found[3], 120)}"
        report.missing(where, READ, brief(found[1]), why, int(found[2]))
    if ends.told:
        said = sum(count for _, count in ends.told)
        report.file(file, ends.begun, f"it says that there are {said}")
        if said != ends.begun:
            report.missing(where, ENDS, what, f"it says that it has {said} records, and {ends.begun} are there")
        elif ends.begun and ends.told[-1][0] < ends.last:
            report.missing(where, ENDS, what, "its last lines don't tell how many records it has")
    elif ends.begun and ends.pages and not ends.tells:
        report.file(file, ends.begun, "it says where its last page ends, or should")
        if ends.pages[-1][1] or ends.pages[-1][0] < ends.last:
            report.missing(where, ENDS, what, "the last page is missing or cut off")
    elif ends.begun and ends.tells:
        report.file(file, ends.begun, "it should say how many there are, and doesn't")
        report.missing(where, ENDS, what, "the exporting tool's last lines are missing, so it is cut off")
    elif ends.begun:
        report.untold.append((file, ends.begun))
        report.file(file, ends.begun, "it doesn't say how many there should be, so a cut between two isn't seen")
    else:
        report.file(file, 0, "it is empty")
        report.missing(f"{file}:1", ENDS, what, "no records")
