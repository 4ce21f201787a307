"""The first pass over an export: the schema's records, and of each other record what it is found by.

That is its name, its classes and its identifier, and where it can be read again; so memory goes by the number of
objects, and not by the length of the text."""

import sys
import zlib
from typing import Dict, Iterable, List, Optional, Tuple

from adsd_tools import incomplete
from adsd_tools.forms import names
from adsd_tools.shown import brief, shown, text_of

from . import blocks, values
from .opened import Source, Twice
from .report import NAMING, READING, TEXTS, Muted, Report
from .schema import KINDS, lower
from .text import Record

# What an object is found by: its parts, each a type and a value after case folding.
Key = Tuple[Tuple[str, str], ...]
MARK = incomplete.ATTRIBUTE.lower()
OPTIONS = ("", "binary")


class Object:
    """An object: where its record can be read again, its name, its classes as told, its identifier; then its class in
    lower case, and what the two passes found of it."""

    __slots__ = ("source", "offset", "size", "number", "which", "sum", "line", "dn", "key", "told", "sid", "has_sid",
                 "is_broken", "of_class", "is_kept", "has_children", "is_head")

    def __init__(self, source: Source, found: blocks.Found, line: int, dn: bytes, key: Key) -> None:
        self.source, self.offset, self.size, self.number = source, found.offset, len(found.data), found.number
        self.which, self.sum, self.line = found.which, zlib.crc32(found.data), line
        self.dn, self.key = dn, key
        self.told: Tuple[str, ...] = ()
        self.sid: Optional[bytes] = None
        self.has_sid = self.is_broken = self.is_kept = self.has_children = self.is_head = False
        self.of_class = ""

    def words(self) -> str:
        return brief(self.dn, 200)

    @property
    def where(self) -> str:
        """The place of its record's dn."""
        return f"{self.source.name}:{self.line}"

    @property
    def naming(self) -> str:
        """The attribute that names it, in lower case."""
        return self.key[0][0].lower()


class Index:
    """What the first pass finds."""

    def __init__(self, twice: Twice, report: Report) -> None:
        self.twice, self.report = twice, report
        self.schema: List[Record] = []
        self.objects: List[Object] = []
        # What earlier imports missed, as they wrote it.
        self.before: List[str] = []
        self.classes: Dict[Tuple[str, ...], Tuple[str, ...]] = {}
        self.long: Dict[bytes, bytes] = {}
        self.muted = Muted()

    def read(self, files: Iterable[str]) -> None:
        """Reads files in their order."""
        for file in files:
            source = Source("stdin" if file == "-" else file)
            self.report.step = (READING, 0)
            for found in blocks.records(self.twice, file, source, self.long, self.report):
                self.add(found, source)
                self.report.step = (READING, 0)

    def add(self, found: blocks.Found, source: Source) -> None:
        """Takes a record."""
        one = found.record
        if isinstance(one, Record):
            dn, told, broken = one.dn, [(line.name.lower(), line.value) for line in one.lines], one.broken
        else:
            dn, told, broken = one.dn(), one.telling, set()
        self.before += [text for name, value in told if name == MARK for text in shown(text_of(value)).split("; ")]
        classes = [lower(value) for name, value in told if name == "objectclass"]
        if any(name in KINDS for name in classes):
            record = one if isinstance(one, Record) else one.record(self.long)
            record.lines = [line for line in record.lines if line.name.lower() != MARK]
            self.schema.append(record)
            return
        where = one.where if isinstance(one, Record) else one.origin.place(0)
        made = self.named(found, source, dn, where)
        if made is None:
            return
        made.told = self.classes.setdefault(tuple(classes), tuple(map(sys.intern, classes)))
        made.is_broken = "objectclass" in broken
        made.has_sid = "objectsid" in broken or any(name == "objectsid" for name, _ in told)
        made.sid = next(filter(None, (sid_of(name, value) for name, value in told)), None)
        self.objects.append(made)

    def named(self, found: blocks.Found, source: Source, dn: bytes, where: str) -> Optional[Object]:
        """The object of a name; None where that is none, which is reported."""
        self.report.step = (NAMING, 0)
        try:
            name = names.read(dn)
        except names.NoText as why:
            self.report.missing(where, TEXTS, f"object {brief(dn)}", f"unreadable name: {why}")
            return None
        except names.NoName as why:
            self.report.loss(where, f"object {brief(dn)}", f"unreadable name: {why}")
            return None
        if not name.parts:
            self.report.left_out(where, "record", "its dn is empty: the server's own, and no object")
            return None
        if name.mended:
            self.report.mended(where, f"name {brief(dn)}", "name normalized")
            dn = name.text()
        return Object(source, found, int(where.rpartition(":")[2]), dn, name.key())

    def record(self, one: Object) -> Record:
        """The record of an object, read again, with its name as it is written."""
        data = self.twice.again(one.source, one.offset, one.size)
        if zlib.crc32(data) != one.sum:
            raise OSError(None, "it was changed while it was read", one.source.name)
        made = blocks.record_again(data, one.source.name, one.number, one.which, self.long, self.muted)
        made.dn = one.dn
        return made


def sid_of(name: str, value: bytes) -> Optional[bytes]:
    """The identifier that a line of objectSid has, if it is one that can be read."""
    plain, _, option = name.partition(";")
    if plain != "objectsid" or option not in OPTIONS or len(value) > values.MOST:
        return None
    try:
        return values.sid_value(value)[1]
    except values.NoValue:
        return None
