"""A moment of a propagation as a picture: the tree of what moves, with a sign for each state and what came and went."""

import unicodedata
from dataclasses import dataclass
from typing import Dict, FrozenSet, Iterable, List, NamedTuple, Optional, Sequence, Tuple, Union

from adsd_tools.shown import brief

from .differences import changed, phrases, short
from .effective import Pair, Rights
from .front import Snapshot, touched
from .html import plural, tag, text
from .state import State
from .tree import rdn

WIDE, STEP, LINE, LESS = 400, 14, 21, 15
MOST_LINES, MOST_DEPTH, MOST_PHRASES = 60, 8, 3
# The width of a letter, in parts of its height: rather too much than too little.
LETTER = 0.62


class Look(NamedTuple):
    """How an object stands at a moment: whether its descriptor changed and is stale, whether it is in the queue and how
    many children are left then; what came and what went."""

    changed: bool
    stale: bool
    queued: bool
    left: int
    came: Rights
    went: Rights


@dataclass
class Line:
    """A line of the picture: one object, or several below one line that look alike at each moment, as do those below
    them; how they look, moment by moment, and their places in the queue, the first and the last."""

    numbers: List[int]
    depth: int
    above: int
    looks: List[Optional[Look]]
    places: List[Optional[Tuple[int, int]]]


# How an object looks, moment by moment.
History = Tuple[Optional[Look], ...]


class Looks:
    """How objects stand at one moment: everything that a picture shows of them."""

    def __init__(self, shot: Snapshot, known: Dict[Pair, Pair]) -> None:
        self.shot, self.known = shot, known
        self.queue: Dict[int, Tuple[int, int]] = {}
        for place, (parent, cursor) in enumerate(shot.state.queue, 1):
            self.queue.setdefault(parent, (place, cursor))

    def came_and_went(self, number: int) -> Pair:
        pair: Pair = self.shot.rights.get(number, (frozenset(), frozenset()))
        if pair not in self.known:
            self.known[pair] = changed(pair)
        return self.known[pair]

    def of(self, number: int) -> Optional[Look]:
        """How an object looks; None where it isn't there."""
        state = self.shot.state
        if number not in state.objects:
            return None
        queued = number in self.queue
        left = len(state.left(number, self.queue[number][1])) if queued else 0
        return Look(number in self.shot.changed, number in state.stale, queued, left, *self.came_and_went(number))

    def places(self, numbers: Iterable[int]) -> Optional[Tuple[int, int]]:
        found = [self.queue[number][0] for number in numbers if number in self.queue]
        return (min(found), max(found)) if found else None


def moving(shots: Sequence[Snapshot]) -> Tuple[List[int], List[int]]:
    """The objects that move at some moment, and those above them, in the order of the tree; and the deleted ones."""
    wanted, state = touched(shots), shots[-1].state
    for number in list(wanted):
        while number in state.objects and state.objects[number].parent:
            number = state.objects[number].parent
            if number in wanted:
                break
            wanted.add(number)
    return [number for number in state.order if number in wanted], sorted(wanted - state.objects.keys())


def grouped(numbers: Iterable[int], keys: Dict[int, int]) -> List[List[int]]:
    made: Dict[int, List[int]] = {}
    for number in numbers:
        made.setdefault(keys[number], []).append(number)
    return list(made.values())


def lines_of(shots: Sequence[Snapshot]) -> Tuple[List[Line], int, List[int]]:
    """The lines of all pictures, how many objects are left out, and the deleted ones."""
    (order, gone), objects = moving(shots), shots[-1].state.objects
    known: Dict[Pair, Pair] = {}
    ids: Dict[Tuple[History, FrozenSet[int]], int] = {}
    looks = [Looks(shot, known) for shot in shots]
    below: Dict[int, List[int]] = {number: [] for number in order}
    keys: Dict[int, int] = {}
    made: List[Line] = []
    for number in order[1:]:
        below[objects[number].parent].append(number)
    for number in reversed(order):
        key = tuple(look.of(number) for look in looks), frozenset(keys[child] for child in below[number])
        keys[number] = ids.setdefault(key, len(ids))
    histories, todo = {at: history for (history, _), at in ids.items()}, [(order[:1], 0, -1)] if order else []
    while todo and len(made) < MOST_LINES:
        numbers, depth, above = todo.pop()
        places = [look.places(numbers) for look in looks]
        made.append(Line(numbers, min(depth, MOST_DEPTH), above, list(histories[keys[numbers[0]]]), places))
        further = grouped([child for number in numbers for child in below[number]], keys)
        todo += [(some, depth + 1, len(made) - 1) for some in reversed(further)]
    return made, len(order) - sum(len(line.numbers) for line in made), gone


def width(letters: str, size: int) -> float:
    """How wide a text is at most, as far as can be said without its font."""
    return sum(2 if unicodedata.east_asian_width(one) in "WF" else 1 for one in letters) * size * LETTER


def fitting(value: Union[str, bytes], pixels: float, size: int) -> str:
    """A text that has room in so many pixels."""
    made = brief(value, 400)
    if width(made, size) <= pixels:
        return made
    while made and width(made + "..", size) > pixels:
        made = made[:-1]
    return made + ".."


def sign(x: int, y: int, one: Look) -> str:
    """The sign of a state: form and colour both tell it."""
    if one.queued:
        return f'<path class="q" d="M{x - 5} {y - 6}L{x + 6} {y}L{x - 5} {y + 6}Z"/>'
    if one.stale:
        return f'<path class="s" d="M{x} {y - 7}L{x + 7} {y}L{x} {y + 7}L{x - 7} {y}Z"/>'
    return f'<circle class="{"c" if one.changed else "d"}" cx="{x}" cy="{y}" r="5"/>'


def note(one: Look, places: Optional[Tuple[int, int]]) -> str:
    """What stands at the end of a line."""
    made = []
    if one.queued and places:
        first, last = places
        made.append(f"\u25b7{first:,}" + (f"\u2013{last:,}" if last > first else "") + (
            f", {one.left:,} left" if one.left else ""))
    made += ["\u2260 stale"] if one.stale else []
    return "  ".join(made + (["\u25cf"] if one.changed else []))


def signs_of(rights: Rights, plus: str) -> List[str]:
    """Lines of what came or went, a few words each."""
    told = [plus + short(*phrase) for phrase in phrases(rights)]
    return told[:MOST_PHRASES] + ([f"{plus} and more"] if len(told) > MOST_PHRASES else [])


class Picture:
    """Draws one moment."""

    def __init__(self, state: State, lines: Sequence[Line]) -> None:
        self.state, self.lines = state, lines
        self.made: List[str] = []
        self.at: Dict[int, Tuple[int, int]] = {}
        self.y = 4

    def name(self, line: Line) -> Tuple[bytes, str]:
        first, more = rdn(self.state, line.numbers[0]), len(line.numbers) - 1
        return first, f" and {more:,} more" if more else ""

    def put(self, of: str, x: int, y: int, said: str, end: bool = False) -> None:
        mark = ' text-anchor="end"' if end else ""
        self.made.append(f'<text class="{of}" x="{x}" y="{y}"{mark}>{text(said)}</text>')

    def line(self, place: int, line: Line, moment: int, one: Look) -> None:
        """One line, with what came and went below it."""
        x, y = 10 + line.depth * STEP, self.y + 10
        if line.above in self.at:
            up_x, up_y = self.at[line.above]
            self.made.append(f'<path class="l" d="M{up_x} {up_y + 8}V{y}H{x - 8}"/>')
        self.at[place] = x, y
        said, (name, more) = note(one, line.places[moment]), self.name(line)
        self.made.append(sign(x, y, one))
        room = WIDE - x - 16 - width(said, 12) - width(more, 13)
        self.put("n", x + 11, y + 4, fitting(name, room, 13) + more)
        if said:
            self.put("e", WIDE - 3, y + 4, said, True)
        self.y += LINE
        for of, rights, plus in (("y", one.came, "+"), ("o", one.went, "\u2212")):
            for phrase in signs_of(rights, plus):
                self.put(of, x + 11, self.y + 7, fitting(phrase, WIDE - x - 14, 12))
                self.y += LESS

    def drawn(self, moment: int, label: str) -> str:
        """The picture of a moment."""
        for place, line in enumerate(self.lines):
            one = line.looks[moment]
            if one is not None:
                self.line(place, line, moment, one)
        high = self.y + 4
        return tag("svg", "".join(self.made), viewBox=f"0 0 {WIDE} {high}", width=WIDE, height=high, role="img",
                   aria_label=f"{label}: the tree of what moves; the same stands in words below")


def sorts(shot: Snapshot) -> str:
    """How a moment stands, in a few words."""
    return f"{plural(len(shot.state.stale), 'object')} stale, {len(shot.state.queue)} pending"
