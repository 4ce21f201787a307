"""Whether the bridge's own account reads who is in which group, of all groups that the store has.

A token that lacks a group lacks what is denied to the group. So no token is made of the directory while some group
isn't known, unless --unknown-groups is given (docs/clients.md#groups-that-arent-known)."""

import asyncio
import struct

from adsd_tools.rows import store
from adsd_tools.shown import shown

from . import items, searches
from .rows import Rows
from .searches import Search

# So many objects are asked for one by one, and so many are named.
MOST_ASKED, MOST_NAMED = 1000, 100
TRIES = 3
WHY = "the reader doesn't read who is in {}, or its identifier"


class NotKnown(Exception):
    """Some groups aren't known, with why, in one line."""


def is_read(name):
    return items.any_of(items.present(name), items.no(items.present(name)))


class Groups:
    """The groups of one store."""

    def __init__(self, bridge):
        self.bridge, self.at, self.found, self.told, self.one = bridge, None, [], [], asyncio.Lock()

    async def rows(self):
        """The objects of the store's files; NotKnown where they can't be read."""
        if self.bridge.schema is None:
            raise NotKnown("the store's schema can't be read, so which groups there are isn't known")
        for attempt in range(TRIES):
            try:
                made = asyncio.get_running_loop().run_in_executor(
                    None, Rows, self.bridge.options.store, self.bridge.schema)
                return await made
            except (OSError, store.Broken, LookupError, ValueError, StopIteration, struct.error):
                await asyncio.sleep(0.05 * attempt)  # It may be rewritten just now.
        raise NotKnown("the store's rows can't be read, so which groups there are isn't known")

    async def reads(self, search):
        """The names that the reader finds."""
        data = searches.written(search)
        found = searches.found(await self.bridge.accounts.ask(data))
        return {searches.entry_of(body).name for body in found.entries}

    async def unknown(self):
        """The names of the objects of which tokens are made and which the reader doesn't read, as the directory is now.
        They are looked for again where it changed."""
        async with self.one:
            changes = self.bridge.turns.changes
            if self.at != changes:
                self.found = await self.unread((await self.rows()).sources())
                self.at = changes
            return self.found

    async def unread(self, sources):
        """Which of some objects the reader doesn't read: all are asked for at once, then those that are left by one."""
        root = self.bridge.schema.root or self.bridge.root
        classes = sorted({one.of_class for one in sources})
        if not classes or root is None:
            return [one.name for one in sources]
        both = items.all_of(items.any_of(*(items.equal(b"objectClass", one.encode()) for one in classes)),
                            is_read(b"member"), is_read(b"objectSid"))
        read = await self.reads(Search(1, root, filter=both, attributes=(b"1.1",)))
        left = [one for one in sources if one.name not in read]
        for one in left[:MOST_ASKED]:
            wanted = [is_read(b"objectSid")] + ([is_read(b"member")] if one.has_members else [])
            if await self.reads(Search(1, one.name, searches.BASE, filter=items.all_of(*wanted), attributes=(b"1.1",))):
                read.add(one.name)
        return [one.name for one in left if one.name not in read]

    async def check(self, account):
        """NotKnown where a token made now of an account could lack a group. Which ones is said where these are others
        than before."""
        if self.bridge.options.unknown_groups:
            return
        if not await self.reads_primary(account):
            raise NotKnown("the reader doesn't read its primaryGroupID")
        found = await self.unknown()
        if found != self.told:
            self.told = found
            for line in lines_of(found):
                self.bridge.log.timed(line)
        if found:
            raise NotKnown(f"the reader doesn't read who is in some groups, {len(found)} in all")

    async def reads_primary(self, account):
        """Whether the reader reads which is an account's primary group."""
        if self.bridge.schema is None or self.bridge.schema.syntax("primarygroupid") is None:
            return True
        return bool(await self.reads(Search(1, account.name, searches.BASE, filter=is_read(b"primaryGroupID"),
                                            attributes=(b"1.1",))))


def lines_of(names):
    """Lines that name groups."""
    made = [WHY.format(shown(name.decode("utf-8", "surrogateescape"))) for name in names[:MOST_NAMED]]
    left = len(names) - MOST_NAMED
    return made + ([f"and of {left} further ones neither"] if left > 0 else [])
