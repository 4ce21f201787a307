"""An answer that is more than the program gives at once (16,777,216 bytes), put together of several.

The names of all that is found are asked for first; the entries that the first answer hasn't are asked for by ranges of
names, and what a range can't tell, since the caller doesn't read what it goes by, one by one."""

from dataclasses import replace

from . import items, named, searches
from .heavy import beside
from .searches import BASE, Found

# So many bytes of one answer are put together, and so many names are asked for at once.
MOST_BYTES, MOST_NAMES = 134_217_728, 2000
# All that is put together at one moment, for whomever.
MOST_OF_ALL = 268_435_456
# No range is made for so few.
FEW = 8


def names_of(found):
    return [searches.entry_of(body).name for body in found.entries]


class Whole:
    """One search of which the program gave a part."""

    def __init__(self, view, search, first):
        self.view, self.search, self.first = view, search, first
        self.entries, self.weight, self.left_out, self.is_full = {}, 0, False, False

    async def found(self):
        """All that is found; what the program gave, where that can't be told."""
        names = await self.view.found(replace(self.search, attributes=(b"1.1",), types_only=False, controls=()))
        if names.code == searches.ADMIN_LIMIT or len(names.entries) == len(self.first.entries):
            return self.first
        wanted = await beside(names.weight(), names_of, names)
        try:
            await self.take(self.first)
            await self.ask([one for one in wanted if one not in self.entries])
        finally:
            self.view.bridge.made_now -= self.weight
        if self.is_full:
            return self.first
        code = searches.ADMIN_LIMIT if self.left_out else names.code
        return Found(tuple(self.entries[one] for one in wanted if one in self.entries), code)

    async def take(self, found):
        self.entries.update(zip(await beside(found.weight(), names_of, found), found.entries))
        self.weight += found.weight()
        self.view.bridge.made_now += found.weight()
        self.is_full = self.is_full or self.weight > MOST_BYTES or self.view.bridge.made_now > MOST_OF_ALL

    async def ask(self, names):
        """Asks for the entries of some names."""
        count = max(FEW, min(MOST_NAMES, len(self.first.entries) // 2))
        for at in range(0, len(names), count):
            await self.ask_some(names[at : at + count])

    async def ask_some(self, names):
        if self.is_full:
            return
        if len(names) > FEW:
            found = await self.by_range(names)
            await self.take(found)
            left = [one for one in names if one not in self.entries]
            if found.code == searches.ADMIN_LIMIT and len(left) < len(names):
                return await self.ask_some(left)
            names = left
        for name in names:
            found = await self.view.found(replace(self.search, base=name, scope=BASE, size=0))
            self.left_out = self.left_out or found.code == searches.ADMIN_LIMIT
            await self.take(found)
            if self.is_full:
                return

    async def by_range(self, names):
        """What is found among some names, as far as the caller reads what they are told by."""
        both = items.all_of(named.filter_of(names), self.search.filter)
        if items.is_deep(both) or len(both) > items.MOST_BYTES:
            return Found()
        return await self.view.found(replace(self.search, filter=both, size=0))
