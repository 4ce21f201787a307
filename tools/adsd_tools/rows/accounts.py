"""The accounts of a store: what each identifier is called, whose a name is, and in which groups somebody is."""

import os
import struct
from typing import Iterator, Optional

from adsd_tools.forms.known import OF_DOMAIN, WELL_KNOWN
from adsd_tools.forms.sids import below, known_sid, sid_at, text_of_sid
from adsd_tools.shown import shown, text_of

from . import store
from .schema import Schema

SID_SYNTAX, ROOT = "2.5.5.17", 1
# The groups that everybody is in who has proved an identity: authenticated users, and everyone.
EVERYBODY = ("S-1-5-11", "S-1-1-0")


class Ambiguous(Exception):
    """A name of several accounts, with what they are."""


class Accounts:
    """The objects of a store that have an identifier. The files are read as they stand, and not locked."""

    Ambiguous = Ambiguous

    def __init__(self, path: str) -> None:
        if not os.path.exists(path):
            raise store.Broken("there is no such file")
        try:
            self.directory = store.read(path)
            self.schema = Schema(self.directory.records)
        except (LookupError, ValueError, struct.error):
            raise store.Broken("its rows can't be read") from None
        self.sids: dict[int, bytes] = {}
        self.of_sid: dict[bytes, int] = {}
        # The groups above an object, once they are asked for.
        self.above: Optional[dict[int, set[int]]] = None
        place = self.schema.of_attribute.get("objectsid")
        if place is not None and self.schema.attributes[place].text("attributeSyntax") == SID_SYNTAX:
            for number, one in self.directory.objects.items():
                value = next(iter(one.values.get(place, [])), b"")
                sid = sid_at(value, 0, len(value))
                if sid is not None:
                    self.sids[number] = bytes(sid)
                    self.of_sid.setdefault(bytes(sid), number)
        domain = self.sids.get(ROOT)
        self.of_domain = {below(domain, rid): name for rid, name in OF_DOMAIN.items()} if domain else {}

    def values(self, number: int, name: str) -> list[bytes]:
        place = self.schema.of_attribute.get(name.lower())
        return [] if place is None else self.directory.objects[number].values.get(place, [])

    def names_of(self, number: int) -> list[str]:
        """What an object may be called: the name of its account, where it has one, and the first part of its name."""
        texts = [*self.values(number, "sAMAccountName")[:1], self.directory.objects[number].naming]
        return [text_of(text) for text in texts]

    def name(self, sid: bytes) -> Optional[str]:
        """What an identifier is called, on one line; None where it is nothing but its text."""
        number, text = self.of_sid.get(bytes(sid)), text_of_sid(sid)
        own = self.names_of(number)[0] if number is not None else text
        return shown(own) if own != text else WELL_KNOWN.get(text) or self.of_domain.get(bytes(sid))

    def sid(self, name: str) -> Optional[bytes]:
        """The identifier of the account of a name, whatever its case: by the names of accounts, then by the first parts
        of names. None where nobody has it."""
        wanted = name.casefold()
        called = [(number, self.names_of(number)) for number in self.of_sid.values()]
        for found in ([number for number, names in called if len(names) > 1 and names[0].casefold() == wanted],
                      [number for number, names in called if names[-1].casefold() == wanted]):
            if len(found) > 1:
                told = ", ".join(text_of_sid(self.sids[number]) for number in found[:3])
                raise Ambiguous(f"{name!r} are {len(found)} accounts: {told}")
            if found:
                return self.sids[found[0]]
        return None

    def groups(self, sid: bytes) -> list[bytes]:
        """The identifiers of all groups of the store that somebody is in, directly or by others, by `member` and by
        primaryGroupID, in the order of the store; and behind them those of everybody, whose groups count too."""
        if self.above is None:
            self.above = {}
            for number in self.directory.objects:
                for value in self.values(number, "member"):
                    self.above.setdefault(int.from_bytes(value, "big"), set()).add(number)
        everybody = [known_sid(text) for text in EVERYBODY]
        found: set[int] = set()
        todo = [self.of_sid[one] for one in (bytes(sid), *everybody) if one in self.of_sid]
        while todo:
            one = todo.pop()
            new = (self.above.get(one, set()) | self.primary(one)) - found
            found |= new
            todo += new
        made = [self.sids[number] for number in sorted(found) if number in self.sids and self.sids[number] != bytes(sid)]
        return made + [one for one in everybody if one not in made]

    def primary(self, number: int) -> set[int]:
        """The primary group of an object, as a set of at most one number."""
        value, domain = next(iter(self.values(number, "primaryGroupID")), b""), self.sids.get(ROOT)
        if domain is None or not value.isdigit() or int(value) >= 2**32:
            return set()
        return {self.of_sid[sid] for sid in [below(domain, int(value))] if sid in self.of_sid}

    def names(self) -> dict[int, str]:
        """The name of each object, as it is shown, by number."""
        return {number: text_of(name) for number, name in store.names_of(self.directory, self.schema.naming).items()}

    def lines(self) -> Iterator[str]:
        """A line of each account: its identifier, its name, and the name of its object, parted by tabs."""
        names = self.names()
        for number, sid in self.sids.items():
            yield f"{text_of_sid(sid)}\t{shown(self.names_of(number)[0])}\t{names[number]}"
