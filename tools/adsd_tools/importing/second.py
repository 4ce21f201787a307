"""The second pass over an export: each object that is taken is read again, mended, given its descriptor and judged, and
its text is written to a file without a name."""

import tempfile
from typing import BinaryIO, Iterable, Iterator, List, cast

from .complete import Accounts
from .domains import Domains
from .index import Index, Key, Object
from .kept import Keeping
from .objects import Taking
from .output import record_text
from .report import GIVING, JUDGING, TAKING, Muted, Report
from .rights import Rights
from .schema import Schema


class Texts:
    """The text of the objects, in order, in a file without a name."""

    def __init__(self) -> None:
        self.file = cast(BinaryIO, tempfile.TemporaryFile(prefix="adsd-import-"))
        self.size = 0

    def add(self, data: bytes) -> None:
        self.file.write(data)
        self.size += len(data)

    def lines(self) -> Iterator[bytes]:
        """The lines again, each with its end."""
        self.file.seek(0)
        return iter(self.file)

    def pieces(self) -> Iterator[bytes]:
        self.file.seek(0)
        return iter(lambda: self.file.read(1 << 20), b"")


class Second:
    """The second pass."""

    def __init__(self, index: Index, taking: Taking, schema: Schema, domains: Domains, defaults: bool,
                 report: Report) -> None:
        self.index, self.taking, self.domains, self.report = index, taking, domains, report
        self.keeping = Keeping(schema, taking.classes, taking.kept, domains, report)
        self.rights = Rights(schema, taking.root.sid, defaults, report, domains)
        self.accounts = Accounts(schema, taking, domains, report)
        self.texts = Texts()

    def place(self, one: Object, name: str) -> str:
        """Where the first line of a name stands of an object."""
        lines = self.index.record(one).lines
        return next((line.where for line in lines if self.keeping.fate(line.name).name == name), one.where)

    def run(self, found: Iterable[Object]) -> None:
        """Goes over the objects, parents first. Those that were left out for their identifier are told with the rest."""
        for order, one in enumerate(found):
            if not one.of_class:
                continue
            self.report.step = (TAKING, order)
            held = self.keeping.keep(one, self.index.record(one))
            if not one.is_kept:
                continue
            self.keeping.follow(held, order)
            self.report.step = (GIVING, order)
            self.rights.give(held)
            self.report.step = (JUDGING, 1 + order)
            self.accounts.judge(held)
            self.domains.look(one, held.record.lines)
            self.texts.add(record_text(held.record))


def inherited(index: Index, found: List[Object], taking: Taking, schema: Schema, rights: Rights) -> None:
    """Where the lists of the file are explicit, has the root take what it inherits of the objects above it."""
    root = taking.root
    if not root.source.is_explicit or len(root.key) < 2:
        return
    wanted = {root.key[at:] for at in range(1, len(root.key))}
    above = {one.key: one for one in found if one.key in wanted}
    chain: List[Object] = []
    key: Key = root.key[1:]
    while key in above:
        chain.insert(0, above[key])
        key = key[1:]
    muted = Muted()
    keeping, of_them = Keeping(schema, taking.classes, {}, Domains([]), muted), Rights(schema, root.sid, False, muted)
    for one in chain:
        one.of_class, _, _ = taking.classes.of(one.told)
        if not one.of_class:
            return
        one.has_children = True
        of_them.give(keeping.keep(one, index.record(one)))
        one.of_class = ""
    rights.above = of_them.lists.get(root.key[1:])
