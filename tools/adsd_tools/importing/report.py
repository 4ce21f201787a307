"""What an import says of what it did: one line for each thing that it mended, left out or lost."""

import re
import tempfile
from array import array
from typing import BinaryIO, Dict, Iterator, List, NamedTuple, Optional, Tuple, cast

from adsd_tools.shown import brief, shown

MENDED, LEFT_OUT, LOSS, MISSING, DENIES = "mended", "left out", "loss", "missing", "denies"
# What is worst stands first.
KINDS = (DENIES, MISSING, LOSS, LEFT_OUT, MENDED)
# What an export may lack, in the order in which it is told. tools/README.md says of each what is looked at.
SORTS = ("ends of files", "lines that can't be read", "texts that aren't UTF-8", "parts of the schema",
         "extended rights", "head of the domain", "built-in groups", "descriptors",
         "identifiers and primary groups of accounts", "parents", "members and groups",
         "what the account of the export may not read")
ENDS, LINES, TEXTS, SCHEMA, RIGHTS, HEAD, GROUPS, DESCRIPTORS, ACCOUNTS, PARENTS, MEMBERS, READ = SORTS
# What a reason has of one thing alone: a name of parts, and where another thing stands.
OF_ONE = re.compile(r"\S+ \([^()]*:[0-9]+\)|\b[A-Za-z][A-Za-z0-9.-]*=.*?(?= has | isn't | is |$)")
# So many reasons of a kind stand in the summary.
MOST_REASONS = 10
# So many reasons are kept with what they have in common with others.
MOST_KNOWN = 4096
# The step that finds something, and its place among the steps of its kind: what comes first is told first.
Step = Tuple[int, int]
# Files and the schema are read; objects are named, and taken; links are followed, lists given; all is judged.
READING, SHAPING, NAMING, TAKING, LINKING, DEFAULTING, GIVING, JUDGING, FITTING = range(9)


class Thing(NamedTuple):
    """What was done or found: where (`FILE:LINE`), its kind, what it is, and why."""

    where: str
    kind: str
    what: str
    why: str


class Refused(Exception):
    """An input that can't be imported at all: one line that names it and says why."""


class Miss(NamedTuple):
    """Of a sort of what is missing: the first thing by the step that found it, that step, how many, in how many lines."""

    first: Thing
    step: Step
    many: int
    lines: int


class Told:
    """Lines that were told, kept in a file without a name, and where each has to stand."""

    def __init__(self) -> None:
        self.file: Optional[BinaryIO] = None
        self.files: Dict[str, int] = {}
        self.size = 0
        # Of each line: its file, its number there, the step that told it (two numbers), its kind, where its text begins.
        self.columns = tuple(array("Q") for _ in range(6))

    def add(self, where: str, step: Step, kind: str, text: str) -> None:
        if self.file is None:
            self.file = cast(BinaryIO, tempfile.TemporaryFile(prefix="adsd-report-"))
        file, _, line = where.rpartition(":")
        data = text.encode("utf-8", "surrogatepass")
        row = (self.files.setdefault(file, len(self.files)), int(line), *step, KINDS.index(kind), self.size)
        for column, value in zip(self.columns, row):
            column.append(value)
        self.file.write(data)
        self.size += len(data)

    def lines(self, kinds: Tuple[str, ...]) -> Iterator[str]:
        """The texts of some kinds by file and line, and of one line as they were found."""
        files, numbers, first, second, kind_of, begins = self.columns
        rank = {number: place for place, (_, number) in enumerate(sorted(self.files.items()))}
        wanted = {KINDS.index(kind) for kind in kinds}
        places = [place for place, kind in enumerate(kind_of) if kind in wanted]
        places.sort(key=lambda at: (rank[files[at]], numbers[at], first[at], second[at]))
        for place in places:
            if self.file is not None:
                end = begins[place + 1] if place + 1 < len(begins) else self.size
                self.file.seek(begins[place])
                yield self.file.read(end - begins[place]).decode("utf-8", "surrogatepass")


class Report:
    """The things that were found, each by a step: steps are told in their order, though they may run otherwise."""

    def __init__(self) -> None:
        self.step: Step = (0, 0)
        # Of each sort of what is missing the first one, how many there are, and in how many lines.
        self.misses: Dict[str, Miss] = {}
        self.told = Told()
        self.reasons: Dict[str, Dict[str, int]] = {kind: {} for kind in KINDS}
        self.known: Dict[str, str] = {}
        self.denying: Optional[Tuple[Step, Thing]] = None
        self.files: List[str] = []
        self.crossing: List[str] = []
        self.untold: List[Tuple[str, int]] = []

    def add(self, where: str, kind: str, what: str, why: str) -> Thing:
        reason = self.known.get(why)
        if reason is None:
            if len(self.known) >= MOST_KNOWN:
                self.known.clear()
            reason = self.known[why] = OF_ONE.sub("..", why)
        self.reasons[kind][reason] = self.reasons[kind].get(reason, 0) + 1
        self.told.add(where, self.step, kind, shown(f"{where}: {kind}: {what}: {why}"))
        return Thing(where, kind, what, why)

    def mended(self, where: str, what: str, why: str) -> None:
        """Something stands in the output otherwise than in the export, and means the same or grants less."""
        self.add(where, MENDED, what, why)

    def left_out(self, where: str, what: str, why: str) -> None:
        """Something that says nothing of who may do what isn't in the output."""
        self.add(where, LEFT_OUT, what, why)

    def loss(self, where: str, what: str, why: str) -> None:
        """Something of which rights may hang isn't in the output. Less is granted than by the export, never more."""
        self.add(where, LOSS, what, why)

    def missing(self, where: str, sort: str, what: str, why: str, count: int = 1) -> None:
        """The export lacks something without which answers mislead. So the import stops, unless a part is asked for."""
        thing = self.add(where, MISSING, what, why)
        first, step, many, lines = self.misses.get(sort, Miss(thing, self.step, 0, 0))
        if self.step < step:
            first, step = thing, self.step
        self.misses[sort] = Miss(first, step, many + count, lines + 1)

    def denies(self, where: str, what: str, why: str) -> None:
        """Something that takes rights away isn't in the output. So more might be granted, and the import stops."""
        thing = self.add(where, DENIES, what, why)
        if self.denying is None or self.step < self.denying[0]:
            self.denying = self.step, thing

    def count(self, kind: str) -> int:
        """How many things there are of a kind."""
        return sum(self.reasons[kind].values())

    def file(self, name: str, count: int, told: str) -> None:
        """How many records a file has, and what it tells of that itself. (`untold` has those that tell nothing.)"""
        self.files.append(f"{name}: {count} records; {told}")

    def summary(self) -> List[str]:
        """The first lines of the report: what there is of each kind, the worst first, and how many for each reason; and
        what crosses to other domains."""
        made = []
        for kind in KINDS:
            made.append(f"{kind} {self.count(kind)}")
            often = sorted(self.reasons[kind].items(), key=lambda item: (-item[1], item[0]))
            made += [f"  {count} {reason}" for reason, count in often[:MOST_REASONS]]
            left = sum(count for _, count in often[MOST_REASONS:])
            made += [f"  {left} by {len(often) - MOST_REASONS} further reasons"] if left else []
        return [shown(f"# {line}") for line in made + self.files + self.crossing]

    def lines(self, kinds: Tuple[str, ...] = KINDS) -> Iterator[str]:
        """The report as lines of text, by file and line. Whatever an export says in one of them ends no line."""
        return self.told.lines(kinds)

    def missing_lines(self) -> Iterator[str]:
        return self.lines((MISSING,))

    def lacked(self) -> List[str]:
        """What the export lacks: a short text for each sort, with how many there are and what the first one is."""
        made = []
        for sort in SORTS:
            if sort in self.misses:
                first, _, count, lines = self.misses[sort]
                told = brief(first.what.replace("; ", ", "), 100)
                made.append(f"{sort}: {count} ({told}{', ..' if lines > 1 else ''})")
        return made

    def first_misses(self) -> Iterator[str]:
        """A line for the first miss of each sort, and how many more there are."""
        for sort in SORTS:
            if sort in self.misses:
                (where, _, what, why), _, _, lines = self.misses[sort]
                yield f"{where}: missing: {what}: {why}" + (f" ({lines - 1} more such)" if lines > 1 else "")

    def counts(self) -> str:
        """How many things there are of each kind, in words."""
        return ", ".join(f"{kind} {self.count(kind)}" for kind in KINDS)


class Muted(Report):
    """Keeps nothing: for what was read and told before."""

    def add(self, where: str, kind: str, what: str, why: str) -> Thing:
        return Thing(where, kind, what, why)

    def file(self, name: str, count: int, told: str) -> None:
        pass
