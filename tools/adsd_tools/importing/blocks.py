"""Files of LDIF record by record, each with the place where it can be read again.

Nearly all records of an export are of one form: comments, then `dn:` and lines with a name and a value, continued by a
blank, and an empty line. These are found and looked over as a whole, and their lines are made where they are wanted.
All others go to `text`, line by line, which reports what is wrong with them."""

import binascii
import itertools
import re
from functools import lru_cache
from typing import Dict, Iterator, List, NamedTuple, Optional, Tuple, Union

from adsd_tools import incomplete
from adsd_tools.shown import brief

from .opened import Source, Twice
from .report import Report
from .text import (DN, EXPLICIT, NAME, VERSION, Block, Line, Logical, Origin, Placed, Record, counted, ended, names_of,
                   record_of)

PARTED = re.compile(rb"\n\r?\n")
# Longer ones are read line by line.
MOST = 1 << 24
# So many texts of long values are kept, with their bytes: objects have descriptors in common.
MOST_VALUES, LONG = 4096, 64
# What a name is: none; of a line that is asked of each record at once; another one.
NO_NAME, TELLS, OTHER = range(3)
TELLING = (b"objectclass", b"objectsid", incomplete.ATTRIBUTE.lower().encode())


class Found(NamedTuple):
    """A record of a file and how it is read again: the block of lines that it is in, where that begins, the number of
    its first line, and the record's number among those of the block, -1 where it is the block."""

    record: Union["Whole", Record]
    data: bytes
    offset: int
    number: int
    which: int


def parts_of(pieces: Iterator[bytes], offset: int) -> Iterator[Tuple[int, int, bytes, bool]]:
    """A text cut behind each empty line: (where the part begins, the number of its first line, the part, whether it is
    the last one, which may be empty)."""
    number, pending, last = 1, [b""], b""
    for piece in pieces:
        behind_last = last + piece
        last = behind_last[-2:]
        if PARTED.search(behind_last) is None:
            pending.append(piece)
            continue
        data, at = b"".join([*pending, piece]), 0
        for found in PARTED.finditer(data):
            part, at = data[at : found.end()], found.end()
            yield offset, number, part, False
            offset, number = offset + len(part), number + part.count(b"\n")
        pending, last = [data[at:]], data[at:][-2:]
    yield offset, number, b"".join(pending), True


@lru_cache(maxsize=8192)
def sort_of(name: bytes) -> int:
    """Whether a line of a record may begin by a name, other than dn, and whether it is asked of each record at once."""
    low = name.lower()
    if NAME.fullmatch(name) is None or low == b"dn":
        return NO_NAME
    return TELLS if low.partition(b";")[0] in TELLING else OTHER


def kept_strict(rest: bytes, values: Dict[bytes, bytes]) -> bool:
    """Whether base64 is in its strict form. The bytes of a long one are kept."""
    text = rest[1:].lstrip(b" \t")
    try:
        value = binascii.a2b_base64(text)
    except binascii.Error:
        return False
    if binascii.b2a_base64(value, newline=False) != text:
        return False
    if len(rest) >= LONG:
        if len(values) >= MOST_VALUES:
            values.clear()
        values[rest] = value
    return True


def begins(data: bytes) -> int:
    """The place behind the empty lines and the comments at the start of some bytes."""
    at = 0
    while data[at : at + 1] in (b"\n", b"#"):
        is_comment = data[at : at + 1] == b"#"
        at = data.index(b"\n", at) + 1
        while is_comment and data[at : at + 1] == b" ":
            at = data.index(b"\n", at) + 1
    return at


class Whole:
    """A block of the common form, from its dn to the end of its last line: one record."""

    __slots__ = ("origin", "lines", "telling")

    def __init__(self, file: str, number: int, body: bytes) -> None:
        self.origin = Origin(file, number, body)
        self.lines = body[:-1].replace(b"\n ", b"").split(b"\n")
        # The names in lower case and the values of the lines that are asked of each record at once.
        self.telling: List[Tuple[str, bytes]] = []

    def is_common(self, values: Dict[bytes, bytes]) -> bool:
        """Whether each line is a name and a value, of one dn, of no change and by no URL, and all that is in base64 is
        so in its strict form. `values` gets the bytes of long texts of base64. The lines that tell are kept."""
        if len(self.lines) > 1 and self.lines[1][:10].lower() == b"changetype":
            return False
        for line in self.lines[1:]:
            name, colon, rest = line.partition(b":")
            sort = sort_of(name)
            if sort == NO_NAME or not colon:
                return False
            if rest[:1] == b":":
                if rest not in values and not kept_strict(rest, values):
                    return False
            elif rest[:1] == b"<":
                return False
            if sort == TELLS:
                self.telling.append((names_of(name).lower(), value_of(rest)))
        rest = self.lines[0].partition(b":")[2]
        return rest[:1] != b"<" and (rest[:1] != b":" or kept_strict(rest, values))

    def dn(self) -> bytes:
        return value_of(self.lines[0].partition(b":")[2])

    def record(self, values: Dict[bytes, bytes]) -> Record:
        """The record with its lines; `values` has the bytes of long texts of base64."""
        made: List[Line] = []
        origin, add = self.origin, made.append
        for at, line in enumerate(self.lines):
            name, _, rest = line.partition(b":")
            if rest[:1] != b":":
                value = rest.lstrip(b" \t")
            elif len(rest) < LONG:
                value = binascii.a2b_base64(rest[1:])
            else:
                known = values.get(rest)
                if known is None:
                    if len(values) >= MOST_VALUES:
                        values.clear()
                    known = values[rest] = binascii.a2b_base64(rest[1:])
                value = known
            add(Line(origin, names_of(name), value, at))
        record = Record(origin, made[0].value)
        record.lines = made[1:]
        return record


def value_of(rest: bytes) -> bytes:
    """The value of what stands behind a line's colon, where that is a text or strict base64."""
    return binascii.a2b_base64(rest[1:]) if rest[:1] == b":" else rest.lstrip(b" \t")


def whole_of(file: str, number: int, data: bytes, values: Dict[bytes, bytes]) -> Optional[Tuple[Whole, bytes]]:
    """The block of the common form that some bytes are, which end by an empty line, and the comments before it; None
    where they aren't."""
    at = begins(data)
    if data[at : at + 3].lower() != b"dn:" or len(data) > MOST or any(sign in data for sign in (b"\0", b"\r", b"\n\t")):
        return None
    if data.find(b"\n#", at) >= 0:
        return None
    made = Whole(file, number + data.count(b"\n", 0, at), data[at:-1])
    return (made, data[:at]) if made.is_common(values) else None


class Reading:
    """Reads a file part by part, and keeps what its end is judged by."""

    def __init__(self, file: str, report: Report) -> None:
        self.file, self.report = file, report
        self.logical = Logical(file, report)
        self.last: Optional[Block] = None
        self.tail: List[Placed] = []
        self.whole: Optional[Whole] = None

    def passed(self, whole: Whole, before: bytes, number: int) -> None:
        """A block of the common form goes by."""
        for line in before.split(b"\n"):
            self.logical.ends.look(number, line)
            number += 1
        ends = self.logical.ends
        ends.begun, ends.last = ends.begun + 1, whole.origin.number
        self.whole, self.tail = whole, []

    def slowly(self, number: int, data: bytes, is_last: bool) -> Iterator[Record]:
        """The records of a part that isn't of the common form, line by line."""
        lines = data.split(b"\n")
        if data[-1:] == b"\n" and not is_last:
            lines.pop()
        block: Block = []
        numbered = ((number + at, line) for at, line in enumerate(lines))
        end: List[Placed] = [("", None)]
        for placed in (self.logical.read(numbered), end):
            for where, text in placed:
                starts = False
                if text is not None and DN.match(text) and any(not VERSION.match(line) for _, line in block):
                    starts = True
                    self.report.mended(where, f"`{brief(text)}`", "no empty line before it")
                if block and (starts or text is None):
                    record, self.last, self.whole = record_of(block, self.report), block, None
                    block = []
                    if record is not None:
                        yield record
                if text is not None:
                    block.append((where, text))
                if where:
                    self.tail = [*self.tail[-1:], (where, text)]

    def finish(self) -> None:
        """Reports what the end of the file says."""
        if self.whole is not None:
            place = self.whole.origin.place
            self.last = [(place(at), line) for at, line in enumerate(self.whole.lines)]
            self.tail = [self.last[-1], ("", None), *self.tail]
        if self.last is not None and any(DN.match(text) for _, text in self.last):
            ended(self.tail, self.last, self.report)
        counted(self.logical, self.file, self.report)


def records(twice: Twice, file: str, source: Source, values: Dict[bytes, bytes], report: Report) -> Iterator[Found]:
    """The records of a file in order, each with its place."""
    reading = Reading(source.name, report)
    pieces = twice.pieces(file, source)
    next(pieces)
    is_first = True
    for offset, number, data, is_last in parts_of(pieces, twice.start):
        if is_first:
            source.is_explicit = any(line.rstrip(b"\r") == EXPLICIT for line in data.split(b"\n", 3)[:2])
            is_first = False
        text = data.replace(b"\r\n", b"\n") if b"\r" in data else data
        found = None if is_last else whole_of(source.name, number, text, values)
        if found is not None:
            whole, before = found
            reading.passed(whole, before, number)
            at = behind(data, before.count(b"\n"))
            yield Found(whole, data[at:], offset + at, whole.origin.number, -1)
            continue
        for which, record in enumerate(reading.slowly(number, data, is_last)):
            yield Found(record, data, offset, number, which)
        if is_last:
            reading.logical.number = number - 1 + data.count(b"\n")
    reading.finish()


def behind(data: bytes, lines: int) -> int:
    """The place behind so many lines."""
    at = 0
    for _ in range(lines):
        at = data.index(b"\n", at) + 1
    return at


def record_again(data: bytes, file: str, number: int, which: int, values: Dict[bytes, bytes], muted: Report) -> Record:
    """A record that was read before, of the bytes of its block."""
    if which < 0:
        text = data.replace(b"\r\n", b"\n") if b"\r" in data else data
        return Whole(file, number, text[:-1]).record(values)
    return next(itertools.islice(Reading(file, muted).slowly(number, data, False), which, None))
