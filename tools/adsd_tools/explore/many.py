"""Who has a dangerous right on many objects: of the kinds of objects those that have most, each asked once.

A kind are the objects of one class and one descriptor. What somebody may do on the own object alone isn't counted where
the kind has others."""

from adsd_tools.report.harms import HARMS

from .views import count_of

# So many kinds are looked at, the largest first; a row has at least so many objects, and so many rows are told.
MOST_KINDS, LEAST_OBJECTS, MOST_ROWS = 60, 10, 12
FEW = 3


def found_on(answers, accounts, on, other, protected):
    """Of the objects of a kind, of which two are given, the accounts that have a dangerous right: by rank, as bits. Who
    holds the first one's identifier is asked of the other one, where the list has entries for an object itself."""
    made = {}
    itself = accounts.holders.get(on.own, 0) if on.own and answers.named(on.normal)[1] else 0
    for mask, token in answers.split(on, accounts):
        ranks = answers.ranks(other if mask & itself else on, token, protected)
        for place in range(len(HARMS)):
            if ranks >> place & 1:
                made[place] = made.get(place, 0) | mask
    return made


def parted(parts, mask):
    """Some bits parted by further ones."""
    return [piece for part in parts for piece in (part & mask, part & ~mask) if piece]


def rows_of(place, found, apart):
    """Of a rank the accounts by the objects on which they have it, but for some: triples of rank, bits and objects."""
    parts = [(1 << max(mask.bit_length() for mask, _ in found)) - 1]
    for mask, _ in found:
        parts = parted(parts, mask)
    for part in parts:
        numbers = [number for mask, some in found if mask & part for number in some]
        if part & ~apart and len(numbers) >= LEAST_OBJECTS:
            yield place, part & ~apart, numbers


def many(principals, moment, apart):
    """The rows, the worst first and then those with most objects; and of how many objects they tell."""
    views, of_rank, seen = principals.views, {}, 0
    kinds = sorted(principals.kinds_of(moment).items(), key=lambda one: (-len(one[1]), one[1][0]))[:MOST_KINDS]
    for (_, _, _, protected), numbers in kinds:
        seen += len(numbers)
        on, other = (views.answers.object(number, moment) for number in (numbers[0], numbers[-1]))
        for place, mask in found_on(views.answers, views.accounts, on, other, protected).items():
            of_rank.setdefault(place, []).append((mask, numbers))
    made = [row for place, found in of_rank.items() for row in rows_of(place, found, apart)]
    made.sort(key=lambda row: (row[0], -len(row[2]), row[1]))
    return {"seen": seen, "rows": [
        {**views.rank(place), "accounts": count_of(mask), "first": views.few(mask), "count": len(numbers),
         "objects": [views.brief_name(number) for number in sorted(numbers)[:FEW]]}
        for place, mask, numbers in made[:MOST_ROWS]]}
