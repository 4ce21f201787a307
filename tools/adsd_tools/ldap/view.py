"""What a client's token reads, asked of the program: values of attributes, and who is in which group."""

from dataclasses import replace

from adsd_tools.forms import names as dns

from . import items, searches
from .heavy import beside
from .searches import Refused, Search
from .whole import Whole

# For so many tokens and links the values are kept until the directory changes.
MOST_TOKENS = 8


def key_of(name):
    """What two texts of one name have in common."""
    try:
        return dns.read(name).key()
    except dns.NoName:
        return name.lower()


class Memberships:
    """Who is in which group, by the values of `member` that are read; or so of another link."""

    def __init__(self, found, link="member"):
        self.members, self.groups, self.names = {}, {}, {}
        keys = {}
        for entry in map(searches.entry_of, found.entries):
            group = key_of(entry.name)
            self.names[group] = entry.name
            for value in entry.values(link):
                member = keys[value] if value in keys else keys.setdefault(value, key_of(value))
                self.names.setdefault(member, value)
                self.members.setdefault(group, []).append(member)
                self.groups.setdefault(member, []).append(group)

    def named(self, keys):
        return [self.names[one] for one in keys]

    def above(self, name):
        """The groups that somebody is in directly."""
        return self.named(self.groups.get(key_of(name), ()))

    def reached(self, table, name):
        """The names that are reached from one, by one step or more."""
        found, todo = {}, [key_of(name)]
        while todo:
            new = [one for one in table.get(todo.pop(), ()) if one not in found]
            found.update(dict.fromkeys(new))
            todo += new
        return self.named(found)


def different(found, name):
    """The different values of an attribute."""
    return list(dict.fromkeys(value for body in found.entries for value in searches.entry_of(body).values(name)))


def names_of(found):
    return {searches.entry_of(body).name for body in found.entries}


class View:
    """What one client reads. `ask` gives the program's reply to a message of the client."""

    def __init__(self, session, ask):
        self.session, self.bridge, self.ask = session, session.bridge, ask
        # The last filter that was looked through for items that are rewritten, and these.
        self.looked_through = b"", None

    async def found(self, search):
        """What the program finds."""
        reply = await self.ask(searches.written(search))
        return await beside(len(reply), searches.found, reply)

    async def all_found(self, search):
        """What the program finds, also where that is more than one answer has."""
        found = await self.found(search)
        return await Whole(self, search, found).found() if found.code == searches.ADMIN_LIMIT else found

    async def whole(self, search):
        """What it finds, all of it."""
        found = await self.all_found(search)
        if found.code == searches.ADMIN_LIMIT:
            raise Refused(searches.ADMIN_LIMIT, "what it is made of is more than one answer has")
        return found

    def about(self, search, name, narrow):
        """A search for the values of an attribute in the scope of another one, of objects of which a filter is true."""
        held = items.present(name) if narrow is None else items.all_of(narrow, items.present(name))
        held = items.present(name) if items.is_deep(held) else held
        return Search(search.number, search.base, search.scope, filter=held, attributes=(name,))

    async def values(self, search, name, narrow=None):
        """The different values of an attribute in the scope of a search, where a filter is true."""
        asked = self.about(search, name, narrow)
        found = await self.whole(asked)
        return await beside(found.weight(), different, found, name.decode("latin-1").lower())

    async def pairs(self, search, name, narrow=None):
        """The names of the entries in the scope of a search that have an attribute, each with its values."""
        asked = self.about(search, name, narrow)
        found = await self.whole(asked)
        key = name.decode("latin-1").lower()
        return [(entry.name, entry.values(key)) for entry in map(searches.entry_of, found.entries)]

    async def members(self, search, name):
        """The names of those who are in a group directly."""
        found = await self.whole(Search(search.number, name, searches.BASE, attributes=(b"member",)))
        return list(searches.entry_of(found.entries[0]).values("member")) if found.entries else []

    async def memberships(self):
        """Who is in which group, of the whole directory."""
        return await self.links("member")

    async def links(self, link):
        """The values of a link, of the whole directory. They are kept until the directory changes."""
        kept, changes, held = self.bridge.memberships, self.bridge.turns.changes, (self.session.token, link)
        if held in kept and kept[held][0] == changes:
            return kept[held][1]
        name = link.encode()
        asked = Search(1, self.bridge.root, filter=items.present(name), attributes=(name,))
        found = await self.whole(asked)
        made = await beside(found.weight(), Memberships, found, link.lower())
        kept.pop(held, None)
        while len(kept) >= MOST_TOKENS:
            del kept[next(iter(kept))]
        kept[held] = changes, made
        return made


def with_member_of(found, readable, memberships, schema, types_only):
    """What was found, with the values of memberOf in those entries whose names are given as readable."""
    made, spelled = [], schema.spelled("memberof")
    for body in found.entries:
        entry = searches.entry_of(body)
        groups = memberships.above(entry.name) if entry.name in readable else ()
        if groups:
            pair = spelled.encode(), () if types_only else tuple(groups)
            held = (*entry.held, pair)
            body = searches.body_of(replace(entry, held=tuple(sorted(held, key=lambda one: schema.place(one[0])))))
        made.append(body)
    return replace(found, entries=tuple(made))
