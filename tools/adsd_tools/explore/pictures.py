"""A moment of a what-if as lines of a tree: what is pending, what is stale, what has changed, and all that is above."""

MOST_LINES, MOST_DEPTH = 120, 12
# Up to so many objects each has a line of its own.
FEW = 40


class Picture:
    """Makes the lines of the moments of one plan, all of the same objects."""

    def __init__(self, world, first, last):
        self.world = world
        wanted = set(first.changed) | set(last.changed) | {parent for parent, _ in first.queue}
        for number in list(wanted):
            wanted.update(world.above(number))
        self.wanted = wanted
        self.children = {number: [one for one in world.children[number] if one in wanted] for number in wanted}
        self.order = [number for number in world.order if number in wanted]

    def sign(self, number, moment):
        """How an object stands: whether it is pending, stale, changed."""
        changed = number in moment.changed
        return number in moment.places, number in moment.stale, changed

    def shapes(self, moment):
        """Of each object a number for how it and all below it stand: equal ones look alike."""
        made, ids = {}, {}
        for number in reversed(self.order):
            key = self.sign(number, moment), frozenset(made[child] for child in self.children[number])
            made[number] = ids.setdefault(key, len(ids))
        return made

    def lines(self, moment):
        """The lines, and how many objects have no room. Of many objects those that look alike with all below them, and
        stand below one line, are in one."""
        shapes = self.shapes(moment) if len(self.wanted) > FEW else {}
        made, todo, shown = [], [([1], 0)] if 1 in self.wanted else [], 0
        while todo and len(made) < MOST_LINES:
            numbers, depth = todo.pop()
            made.append(self.line(numbers, depth, moment))
            shown += len(numbers)
            below = [child for number in numbers for child in self.children[number]]
            todo += [(some, depth + 1) for some in reversed(grouped(below, shapes))]
        return made, len(self.wanted) - shown

    def line(self, numbers, depth, moment):
        pending, stale, changed = self.sign(numbers[0], moment)
        made = {"n": numbers[0], "name": self.world.first_part(numbers[0]), "depth": min(depth, MOST_DEPTH),
                "count": len(numbers), "pending": pending, "stale": stale, "changed": changed}
        if pending:
            places = [moment.places[number] for number in numbers]
            made["place"], made["last"] = min(places)[0], max(places)[0]
            made["left"] = sum(left for _, left in places)
        return made


def grouped(numbers, shapes):
    """The numbers in lists of those that look alike, in the order in which they come first."""
    made = {}
    for number in numbers:
        made.setdefault(shapes.get(number, -number), []).append(number)
    return list(made.values())
