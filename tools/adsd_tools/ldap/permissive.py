"""The permissive Modify (1.2.840.113556.1.4.1413): values that are added and stand there, and values that are
deleted and don't, are passed over. What stands there is what the caller reads; where that is nothing, the program
says what is so."""

from dataclasses import replace

from . import items, local, searches
from .operations import ADDS, DELETES, REPLACES
from .searches import Search

PERMISSIVE = b"1.2.840.113556.1.4.1413"


class Held:
    """The values of an object's attributes, as they are behind the items so far."""

    def __init__(self, view, name):
        self.view, self.name, self.known = view, name, {}

    async def values(self, item):
        """The values of an attribute; None where the caller doesn't read it."""
        if item.lower not in self.known:
            self.known[item.lower] = await self.read(item)
        return self.known[item.lower]

    async def read(self, item):
        present = items.present(item.name)
        found = await self.view.found(Search(1, self.name, searches.BASE, attributes=(item.name,),
                                             filter=items.any_of(present, items.no(present))))
        return list(searches.entry_of(found.entries[0]).values(item.lower)) if found.entries else None


def has(values, value):
    return any(local.is_equal(one, value) for one in values)


async def item_left(item, held):
    """What is left of an item; None where nothing is."""
    values = await held.values(item)
    if values is None or item.lower == "unicodepwd":
        return item
    if item.act == REPLACES:
        held.known[item.lower] = list(item.values)
        return item
    if item.act == DELETES and not item.values:
        held.known[item.lower] = []
        return item if values else None
    left = tuple(one for one in item.values if has(values, one) == (item.act == DELETES))
    if item.act == ADDS:
        values += left
    else:
        held.known[item.lower] = [one for one in values if not has(left, one)]
    return replace(item, values=left) if left else None


async def left(operation, view):
    """What is left of a Modify."""
    held, made = Held(view, operation.name), []
    for item in operation.items:
        one = await item_left(item, held)
        made += [one] if one else []
    return replace(operation, items=tuple(made))
