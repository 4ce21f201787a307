"""Who gains and who loses: what accounts are granted before, now and after, on the objects whose descriptor changes."""

from adsd_tools.report.harms import HARMS

from .answers import worst
from .tokens import bits_of

MANY = 1 << len(HARMS)
# Where lists change in more kinds than this, dangerous rights alone are asked for: all rights are many more questions.
MOST_WHOLE = 150


class Group:
    """Objects whose descriptors change alike: their numbers, and the accounts in parts, each with the ranks before, now
    and after. The bit behind the last rank says that any right at all isn't what it was before."""

    def __init__(self, numbers, parts):
        self.numbers, self.parts = numbers, parts


class Differences:
    """Three moments side by side."""

    def __init__(self, answers, accounts, protected, moments):
        self.answers, self.accounts, self.protected, self.moments = answers, accounts, protected, moments
        self.world = answers.world
        self.groups, self.adjusted, alike = [], {}, self.alike()
        self.whole = len(alike) <= MOST_WHOLE
        for numbers in alike.values():
            self.compare(numbers)

    def alike(self):
        """The objects that change, by what decides on their rights at the three moments."""
        made, numbers = {}, set()
        for moment in self.moments:
            numbers |= moment.changed.keys()
        for number in sorted(numbers):
            normals = tuple(moment.normal(number) for moment in self.moments)
            if len(set(normals)) > 1:
                one = self.world.objects[number]
                key = (one.of_class, normals, bool(self.world.own(number)), number in self.protected)
                made.setdefault(key, []).append(number)
        return made

    def ranks_of(self, number, token):
        """The ranks at the three moments but those of all three, with a bit where the rights aren't the first ones."""
        objects = [self.answers.object(number, moment) for moment in self.moments]
        first, made = None, []
        for on in objects:
            rights = self.answers.rights(on, token) if self.whole else None
            first = rights if first is None else first
            ranks = self.answers.ranks(on, token, number in self.protected)
            made.append(ranks | (MANY if rights != first else 0))
        always = made[0] & made[1] & made[2]
        return tuple(ranks & ~always for ranks in made)

    def compare(self, numbers):
        """Compares objects that are alike: once for the accounts that don't hold the object's own identifier, and for
        those that do where the list speaks of it."""
        objects = [self.answers.object(numbers[0], moment) for moment in self.moments]
        speaks = any(self.answers.named(on.normal)[1] for on in objects)
        parts = []
        for mask, token in self.answers.split(objects[0], self.accounts, objects[1:]):
            if speaks and objects[0].own in token.held:
                token = None
            found = self.ranks_of(numbers[0], token) if token else None
            parts.append((mask, found))
        if speaks and objects[0].own:
            parts = self.apart(numbers, objects, parts)
        self.groups.append(Group(numbers, [part for part in parts if any(part[1])]))

    def apart(self, numbers, objects, parts):
        """The parts where the list speaks of the object itself: everybody as if they weren't it, and what whoever is it
        is granted otherwise."""
        named, known = [self.answers.named(on.normal)[0] for on in objects], {}
        usual = [(mask, self.stranger(numbers, mask) if found is None else found) for mask, found in parts]
        usual_of = value_at(usual)
        for number in numbers:
            for place in self.holders_of(self.world.own(number)):
                token = self.accounts.at(place)
                marks = (token.privileges, *(sids & token.held for sids in named))
                if marks not in known:
                    known[marks] = self.ranks_of(number, token)
                as_usual = usual_of(place)
                if as_usual != known[marks]:
                    self.adjusted.setdefault(place, []).append((as_usual, known[marks]))
        return usual

    def holders_of(self, sid):
        """The places of the accounts that hold an identifier; of an account's, mostly itself alone."""
        place = self.accounts.place.get(sid)
        if place is not None and sid not in self.accounts.memberships.members:
            return (place,)
        return self.accounts.places_of(self.accounts.holders.get(sid, 0))

    def stranger(self, numbers, mask):
        """What an account of a part is granted on one of some objects that it isn't; where there is none of these, on
        the first one all the same, since nobody is counted by it."""
        place = (mask & -mask).bit_length() - 1
        token = self.accounts.at(place)
        other = next((one for one in numbers if self.world.own(one) not in token.held), None)
        return self.ranks_of(other, token) if other is not None else self.ranks_of(numbers[0], token)

    def totals(self):
        """The accounts by how many objects they have of each rank before, now and after, of those objects alone where it
        comes or goes: pairs of bits of accounts and a dictionary of counts, without those to whom nothing does."""
        parts = [(self.accounts.everyone, {})] if self.accounts.everyone else []
        for group in self.groups:
            for mask, found in group.parts:
                parts = put(parts, mask, found, len(group.numbers))
        made, of = {}, value_at(parts)
        for place, changes in self.adjusted.items():
            sizes = dict(of(place))
            for usual, own in changes:
                sizes[usual] = sizes.get(usual, 0) - 1
                sizes[own] = sizes.get(own, 0) + 1
            made.setdefault(key_of(sizes), []).append(place)
        special = bits_of(self.adjusted)
        masks = {key: bits_of(places) for key, places in made.items()}
        for mask, sizes in parts:
            if mask & ~special:
                key = key_of(sizes)
                masks[key] = masks.get(key, 0) | mask & ~special
        told = {}
        for key, mask in masks.items():
            counts = counted(key)
            told[counts] = told.get(counts, 0) | mask
        return [(mask, dict(counts)) for counts, mask in told.items() if counts]


def put(parts, mask, found, size):
    """Adds so many objects to those of the accounts of some bits."""
    made = []
    for own, sizes in parts:
        inside, outside = own & mask, own & ~mask
        if inside:
            made.append((inside, {**sizes, found: sizes.get(found, 0) + size}))
        if outside:
            made.append((outside, sizes))
    return made


def key_of(sizes):
    return tuple(sorted((found, size) for found, size in sizes.items() if size and any(found)))


def counted(key):
    """The counts of each rank at the three moments, of how many objects there are of each kind; what is the same at all
    moments isn't told."""
    counts = {}
    for found, size in key:
        for at, ranks in enumerate(found):
            for place in range(len(HARMS) + 1):
                if ranks >> place & 1:
                    counts.setdefault(place, [0, 0, 0])[at] += size
    return tuple(sorted((place, tuple(row)) for place, row in counts.items() if len(set(row)) > 1))


def value_at(pairs):
    """A function that gives what stands beside those bits of some pairs that have a place."""
    rows = [(mask.to_bytes(mask.bit_length() // 8 + 1, "little"), value) for mask, value in pairs]

    def of(place):
        at, bit = place >> 3, 1 << (place & 7)
        return next(value for data, value in rows if at < len(data) and data[at] & bit)

    return of


def order(counts):
    """The worst first."""
    ranks = sum(1 << place for place in counts)
    return worst(ranks), -sum(max(row) for row in counts.values())
