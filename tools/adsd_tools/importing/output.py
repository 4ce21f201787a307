"""The LDIF that is written, and its limit."""

import base64
import re
from dataclasses import dataclass
from functools import lru_cache
from typing import Callable, Dict, Iterable, Iterator, List, Optional, Protocol, Set, Tuple

from adsd_tools import incomplete
from adsd_tools.shown import shown

from .report import Refused, Report
from .schema import LISTS, REQUIRED, SINGLE, Schema
from .text import EXPLICIT, Line, Record

LIMIT = 67108864
# What rules look at. No file is too long for these: where they alone are, nothing is written.
NEEDED = {"objectclass", "ntsecuritydescriptor", "objectsid", "samaccountname", "member", "primarygroupid",
          "dsheuristics", "admincount", "unicodepwd", "serviceprincipalname", "dnshostname", "instancetype",
          "objectcategory"}


DESCRIPTOR = "nTSecurityDescriptor"
Lines = List[Tuple[Record, Line]]
PLAIN = re.compile(rb"[!-9;=-~](?:[ -~]*[!-~])?")
# What may be left out for the limit: a group, and what it is. Group 0 is what the schema's rules don't read, 1 what
# loading drops or computes, 2 an attribute that no rule needs.
What = Tuple[int, str]
OF_SCHEMA: What = (0, "lines of the schema that no rule reads")


class Objects(Protocol):
    """The text of the objects, line by line and piece by piece."""

    size: int

    def lines(self) -> Iterator[bytes]: ...

    def pieces(self) -> Iterator[bytes]: ...


@dataclass
class Share:
    """What could be left out: how many values and bytes, and the number of the object that has the first."""

    count: int = 0
    size: int = 0
    first: int = 0
    where: str = ""


def is_plain(value: bytes) -> bool:
    """Whether a value stands as text: letters of ASCII that are seen, and blanks neither first nor last."""
    return PLAIN.fullmatch(value) is not None


def line_text(name: str, value: bytes) -> bytes:
    """One line, without its end."""
    if value == b"" or is_plain(value):
        return name.encode() + b": " + value
    return name.encode() + b":: " + (encoded(value) if name == DESCRIPTOR else base64.b64encode(value))


@lru_cache(maxsize=1024)
def encoded(value: bytes) -> bytes:
    """A descriptor in base64: objects have them in common."""
    return base64.b64encode(value)


def line_size(name: str, value: bytes) -> int:
    """How many bytes a line has, with its end."""
    if value == b"" or is_plain(value):
        return len(name) + len(value) + 3
    return len(name) + 4 * ((len(value) + 2) // 3) + 4


def record_size(record: Record) -> int:
    return line_size("dn", record.dn) + 1 + sum(line_size(line.name, line.value) for line in record.lines)


def record_text(record: Record) -> bytes:
    """A record's text, with an empty line after it."""
    lines, is_plain, begun = [line_text("dn", record.dn)], PLAIN.fullmatch, beginning
    for line in record.lines:
        value = line.value
        if is_plain(value) is not None:
            lines.append(begun(line.name) + value)
        else:
            lines.append(line_text(line.name, value))
    return b"\n".join(lines) + b"\n\n"


@lru_cache(maxsize=8192)
def beginning(name: str) -> bytes:
    """What stands before a value as text."""
    return name.encode() + b": "


def comment(lacked: str) -> bytes:
    """The first lines of the text: what the export lacks, where it lacks something, and that lists are explicit."""
    told = f"# {incomplete.sentence(shown(lacked))}\n".encode("utf-8", "backslashreplace") if lacked else b""
    return told + EXPLICIT + b"\n"


def table_of(kind: str) -> Set[str]:
    return {name.lower() for name in REQUIRED[kind] + SINGLE[kind] + LISTS[kind]} | {"objectclass"}


def of_schema(schema: Schema) -> Lines:
    """The lines of the schema that no rule reads."""
    made: Lines = []
    for one in schema.records:
        table = table_of(one.kind)
        made += [(one.record, line) for line in one.record.lines
                 if line.name.lower() not in table and line.name != incomplete.ATTRIBUTE]
    return made


class Shares:
    """Which lines of the objects' text may be left out, and what they are counted as."""

    def __init__(self, schema: Schema) -> None:
        self.schema, self.known = schema, dict[Tuple[str, str], Optional[What]]()

    def what(self, name: str, naming: str) -> Optional[What]:
        """What a line of a name is counted as, at an object that an attribute names; None where it has to stay."""
        key = name, naming
        if key not in self.known:
            low = name.lower()
            stays = low in NEEDED or low not in self.schema.attributes
            dropped = low in ("distinguishedname", "name", naming) or (not stays and self.schema.is_back_link(low))
            self.known[key] = None if stays else (1 if dropped else 2, f"attribute {name}")
        return self.known[key]

    def told(self, lines: Iterable[bytes]) -> Iterator[Tuple[int, bytes, Optional[What]]]:
        """The lines of the text of objects, each with the number of its object and what it is counted as."""
        number, naming, begins = -1, "", True
        for line in lines:
            name, _, rest = line.partition(b":")
            if begins:
                number, begins = number + 1, False
                text = base64.b64decode(rest[1:]) if rest[:1] == b":" else rest.strip()
                naming = text.partition(b"=")[0].decode("latin-1").lower()
                yield number, line, None
            else:
                begins = line == b"\n"
                yield number, line, None if begins else self.what(name.decode("latin-1"), naming)


def shares_of(schema: Schema, objects: Objects) -> Dict[What, Share]:
    """What may be left out for the limit."""
    rest = of_schema(schema)
    found: Dict[What, Share] = {}
    if rest:
        size = sum(line_size(line.name, line.value) for _, line in rest)
        found[OF_SCHEMA] = Share(len(rest), size, 0, rest[0][1].where)
    for number, line, what in Shares(schema).told(objects.lines()):
        if what is not None:
            one = found.get(what)
            if one is None:
                one = found[what] = Share(first=number)
            one.count, one.size = one.count + 1, one.size + len(line)
    return found


def fit(schema: Schema, objects: Objects, limit: int, lacked: str, place: Callable[[int, str], str],
        report: Report) -> Set[What]:
    """What is left out so that the text has at most `limit` bytes: by groups, and in a group the greatest first. `place`
    tells where the first line of a name stands of the object of a number."""
    total = len(comment(lacked)) + sum(record_size(one.record) for one in schema.records) + objects.size
    gone: Set[What] = set()
    if total <= limit:
        return gone
    for what, share in sorted(shares_of(schema, objects).items(), key=lambda item: (item[0][0], -item[1].size)):
        if total <= limit:
            break
        tell = report.loss if what[0] == 2 else report.left_out
        where = share.where or place(share.first, what[1].partition(" ")[2])
        tell(where, f"{what[1]}, {share.count} values", f"the text is above {limit} bytes")
        gone.add(what)
        total -= share.size
    if total > limit:
        raise Refused(f"{total} bytes are left without what no rule needs, and a text has {limit} at most: "
                      "take a part by --base")
    if OF_SCHEMA in gone:
        going = {id(line) for _, line in of_schema(schema)}
        for one in schema.records:
            one.record.lines = [line for line in one.record.lines if id(line) not in going]
    return gone


def text_of(schema: Schema, objects: Objects, gone: Set[What], lacked: str) -> Iterator[bytes]:
    """The whole text, piece by piece, without what is `gone`; `lacked` is what is missing of the export."""
    yield comment(lacked)
    yield from (record_text(one.record) for one in schema.records)
    if gone - {OF_SCHEMA}:
        piece: List[bytes] = []
        for _, line, what in Shares(schema).told(objects.lines()):
            if what not in gone:
                piece.append(line)
                if len(piece) == 4096:
                    yield b"".join(piece)
                    piece.clear()
        yield b"".join(piece)
        return
    yield from objects.pieces()
