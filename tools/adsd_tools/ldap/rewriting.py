"""Items of filters that the program finds undefined, as filters that it answers exactly (docs/clients.md).

What an item asks for is looked up as the client's own token reads it, and the item becomes one for those values. It
is undefined where the attribute isn't read, as each item is."""

import re
from dataclasses import dataclass

from adsd_tools.forms import ber
from adsd_tools.forms import names as dns

from . import items, messages, named, narrowing, sorting, times
from .heavy import beside
from .items import Deep
from .searches import ADMIN_LIMIT, INAPPROPRIATE, Refused

AND_RULE, OR_RULE, CHAIN = (b"1.2.840.113556.1.4." + number for number in (b"803", b"804", b"1941"))
# So many different items of a filter are rewritten.
MOST_ITEMS = 256
# So many values of times stand in one or.
MOST_VALUES = 512
# A filter without any of these has no item that is rewritten.
MARKS = (b"memberof", b"1.2.840.113556.1.4.", b"anr", b"objectcategory")
MEMBER_OF = b"memberOf"
BITS = {sorting.INTEGER: 32, sorting.LARGE: 64}
NUMBER = re.compile(rb"-?(0|[1-9][0-9]{0,19})")
# The bit of searchFlags by which an attribute is asked for by `anr`.
ANR = 4


def number_of(value, bits):
    """A number's bits, also of one that is spelled without a sign; None where it isn't one of so many bits."""
    if not NUMBER.fullmatch(value) or not -(2 ** (bits - 1)) <= int(value) < 2**bits:
        return None
    return int(value) % 2**bits


@dataclass(frozen=True)
class Bits:
    """What an item by bits asks for: its attribute as it was sent, whether all bits or one of them, and the bits."""

    sent: bytes
    all_of_them: bool
    wanted: int

    @property
    def name(self):
        return self.sent.decode("latin-1").lower()

    def fits(self, value):
        """Whether a value has the bits."""
        if not NUMBER.fullmatch(value):
            return False
        return int(value) & self.wanted == self.wanted if self.all_of_them else bool(int(value) & self.wanted)


def is_name(value):
    try:
        return bool(dns.read(value).parts)
    except dns.NoName:
        return False


class Rewriter:
    """Rewrites the filter of one search."""

    def __init__(self, view, search):
        self.view, self.search, self.schema = view, search, view.bridge.schema
        self.narrow = None

    def known(self):
        """The items that are rewritten, which are looked for once for each filter."""
        before, found = self.view.looked_through
        if found is None or before != self.search.filter:
            found = self.foreign()
            self.view.looked_through = self.search.filter, found
        return found

    def bits(self):
        """What the items that are rewritten ask for, where all of them are by bits; else nothing."""
        told = list(self.known().items())
        if any(way is not Rewriter.by_bits for _, (way, *_) in told):
            return {}
        return {held: self.bits_of(item) for held, (_, item, _) in told}

    def bits_of(self, item):
        wanted = number_of(item.value, BITS[self.schema.syntax(item.name)])
        return Bits(item.sent, item.rule == AND_RULE, wanted)

    def way(self, item):
        """How an item is rewritten; None where it stays."""
        if item is None or self.schema is None:
            return None
        if item.rule in (AND_RULE, OR_RULE):
            bits = BITS.get(self.schema.syntax(item.name))
            return Rewriter.by_bits if bits and number_of(item.value, bits) is not None else None
        linked = self.schema.has_member_of() and self.view.bridge.root
        if item.rule == CHAIN:
            return self.way_by_links(item, linked)
        if self.schema.syntax(item.name) == times.TIME and item.tag in times.TAGS:
            return Rewriter.by_time if times.moment_of(item.value) is not None else None
        if (item.compares() or item.tag == items.PRESENT) and item.name == "memberof" and linked:
            return Rewriter.by_group if item.tag == items.PRESENT or is_name(item.value) else None
        if item.compares() and item.name == "objectcategory":
            return Rewriter.by_class if self.schema.category(item.value) else None
        return Rewriter.by_anr if item.compares() and item.name == "anr" and self.anr_terms(item) else None

    def way_by_links(self, item, linked):
        """How a chain is rewritten. Refused where it asks for one of an attribute that is no link."""
        if self.schema.syntax(item.name) is not None and self.schema.link_of(item.name) is None:
            raise Refused(INAPPROPRIATE, f"a chain goes by links, and {self.schema.spelled(item.name)} is none")
        return Rewriter.by_chain if linked and self.schema.link_of(item.name) and is_name(item.value) else None

    def of_pieces(self, body):
        """The item by equality that one by stars is asked as: `anr` compares beginnings by itself. None where it stays
        as the program has it. Refused where it would find nothing, though there may be what it asks for."""
        name, pieces = items.pieces_of(body)
        low = name.decode("latin-1").lower()
        if self.schema is None or not (low == "memberof" and self.schema.has_member_of() or
                                       low == "anr" and self.schema.searched(ANR)):
            return None
        if low == "memberof":
            raise Refused(INAPPROPRIATE, "memberOf compares whole names: ask for the groups by stars, and then by each name")
        if [kind for kind, _ in pieces] != [items.INITIAL]:
            raise Refused(INAPPROPRIATE, "anr compares beginnings: a star may stand at its end alone")
        return items.Item(items.EQUAL, name, pieces[0][1])

    def foreign(self):
        """The items that are rewritten, by tag and body: the way of each, the item, and how often it stands there.
        None where the filter is too deep, so that the program says so."""
        found = {}

        def look(tag, body):
            if (tag, body) not in found:
                item = self.of_pieces(body) if tag == items.PIECES else items.item_of(tag, body)
                found[tag, body] = [self.way(item), item, 0]
            found[tag, body][2] += 1
            return b""

        lower = self.search.filter.lower()
        marks = MARKS + (self.schema.times if self.schema else ())
        if any(mark in lower for mark in marks):
            try:
                items.changed(self.search.filter, look)
            except (Deep, ber.Broken, ValueError):
                return {}
        return {held: told for held, told in found.items() if told[0]}

    async def rewritten(self):
        """The filter to ask in the place of the search's."""
        size, made, before = len(self.search.filter), {}, self.search.filter
        found = await beside(size, self.known)
        # Only objects are found of which the other filters of an and are true, so their values are all that counts.
        self.narrow = narrowing.parted(before, found)[0] if found else None
        for held, (way, item, count) in found.items():
            made[held] = await way(self, item)
            size += count * len(made[held])
            if len(made) > MOST_ITEMS or size > messages.MOST:
                raise Refused(ADMIN_LIMIT, "the filter that would be asked in its place is too large")
        if not made:
            return before
        after = await beside(size, items.changed, before, lambda *held: made.get(held) or ber.element(*held))
        if await beside(size, items.is_deep, after):
            raise Refused(ADMIN_LIMIT, "the filter that would be asked in its place has too many levels")
        return after

    async def by_bits(self, item):
        values = await self.view.values(self.search, item.sent, self.narrow)
        return items.among(item.sent, list(filter(self.bits_of(item).fits, values)))

    async def by_time(self, item):
        """By the values that fit, or where these are many by the names of their objects."""
        wanted, held = times.moment_of(item.value), await self.view.pairs(self.search, item.sent, self.narrow)
        good, names = await beside(64 * len(held), times.fitting, item.tag, wanted, held)
        if len(good) <= MOST_VALUES:
            return items.among(item.sent, good)
        return await self.named(item.sent, names)

    async def named(self, attribute, names):
        """A filter for the objects with some names, where an attribute is read."""
        return items.where_read(attribute, await beside(sum(map(len, names)), named.filter_of, names))

    async def by_group(self, item):
        if item.tag == items.PRESENT:
            memberships = await self.view.memberships()
            return await self.named(MEMBER_OF, memberships.named(memberships.groups))
        return await self.named(MEMBER_OF, await self.view.members(self.search, item.value))

    async def by_chain(self, item):
        """By the values of the link that are read: from an object by the link, or to it by its back link."""
        forward, is_back = self.schema.link_of(item.name)
        links = await self.view.links(forward)
        return await self.named(item.sent, links.reached(links.members if is_back else links.groups, item.value))

    async def by_class(self, item):
        return items.equal(item.sent, self.schema.category(item.value))

    def anr_terms(self, item):
        """What `anr` asks for: each attribute that takes part, by its beginning, or whole behind a sign."""
        exact, value = item.value[:1] == b"=", item.value.lstrip(b"=").strip(b" ")
        terms = []
        for name in self.schema.searched(ANR) if value else ():
            whole = exact or self.schema.syntax(name.lower()) != sorting.UNICODE
            terms.append((items.equal if whole else items.begins)(name.encode(), value))
        return terms

    async def by_anr(self, item):
        terms, parts = self.anr_terms(item), item.value.strip(b" ").split(b" ", 1)
        if len(parts) == 2 and item.value[:1] != b"=":
            first, last = parts[0], parts[1].strip(b" ")
            terms += [items.all_of(items.begins(b"givenName", one), items.begins(b"sn", other))
                      for one, other in ((first, last), (last, first))]
        return items.any_of(*terms)
