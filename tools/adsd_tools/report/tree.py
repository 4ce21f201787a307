"""The tree, folded: each object that has others below it unfolds, and objects that are alike stand together."""

from typing import Dict, List, Optional, Sequence, Set, Tuple

from .html import plural, tag, text, yes_no
from .made import Made
from .names import CODES
from .state import State
from .told import Teller


def rdn(state: State, number: int) -> bytes:
    """The first part of an object's name; of the root its whole name."""
    own, name = state.objects[number], state.names[number]
    if number == 1:
        return name
    return name[: len(name) - len(state.names[own.parent]) - 1]


def queue_words(state: State, number: int) -> str:
    """Where an object stands in the pending list, in words; empty where it doesn't."""
    for place, (parent, cursor) in enumerate(state.queue, 1):
        if parent == number:
            left = state.left(parent, cursor)
            return f"pending {place}, {plural(len(left), 'child', 'children')} left"
    return ""


# So deep things unfold in each other; what is deeper stands flat, by the rest of its name.
MOST_DEPTH = 24
# Of objects the number of their card, their marks, and why they are seen.
Facts = Dict[int, Tuple[int, str, str]]


class Tree:
    """Writes the tree. `sees` has the objects that the program shows the token; `cards` has each object's card; those
    in `linked` can be led to."""

    def __init__(self, made: Made, told: Teller, linked: Set[int]) -> None:
        self.state, self.sees, self.reasons, self.cards = made.state, made.sees, made.reasons, made.of
        self.told, self.linked, self.protected = told, linked, made.protected
        self.known: Dict[Tuple[int, bool], str] = {}
        self.queued = {parent for parent, _ in self.state.queue}

    def why_seen(self, number: int) -> str:
        """Whether the token sees an object, and why."""
        key = id(self.reasons[number]), number in self.sees
        if key not in self.known:
            self.known[key] = self.told_seen(number)
        return self.known[key]

    def told_seen(self, number: int) -> str:
        granted, word, asked = self.reasons[number]
        seen = yes_no(number in self.sees, "seen", "hidden")
        if granted != (number in self.sees):
            return f"{seen}, " + tag("span", "the tool can't say why", of="mark")
        if word == "root":
            return f"{seen}, the root is seen"
        code, whose, why = [one for one in asked if one[2].granted == granted][0 if granted and word == "LC" else -1]
        card = self.cards.get(self.state.objects[number].parent if whose == "parent" else number)
        on = f"{tag('abbr', code, title=CODES[code])} on {'its parent' if whose == 'parent' else 'itself'}"
        return f"{seen}: {on}" + (f": {self.told.reason(card, why.by[0])}" if card is not None else "")

    def marks(self, number: int) -> str:
        """What is to be said of an object beside its card."""
        made = [tag("span", "protected", of="mark")] if number in self.protected else []
        made += [tag("span", "≠ stale", of="mark")] if number in self.state.stale else []
        if number in self.queued:
            made.append(tag("span", "▷ " + queue_words(self.state, number), of="mark"))
        return "".join(" " + one for one in made)

    def kind(self, number: int, marks: str) -> str:
        """The words by which the script chooses."""
        card = self.cards[number]
        made = ["s" if number in self.sees else "h"]
        made += ["w"] if card.writes or "WP" in card.codes else []
        made += ["g"] if {"WD", "WO"} & set(card.codes) else []
        return " ".join(made + (["o"] if "stale" in marks or "pending" in marks else []))

    def about(self, number: int, marks: str, seen: str, usual: str) -> str:
        """The class, the card and the marks of an object, and why it is seen where that isn't the usual."""
        card = self.cards[number]
        of_class = text(self.state.schema.class_names[self.state.objects[number].of_class])
        link = tag("a", f"{of_class}, card {card.number}", href=f"#c{card.number}")
        return f" {link}{marks}" + ("" if seen == usual else " " + tag("span", seen, of="soft"))

    def own_id(self, number: int) -> Optional[str]:
        return f"o{number}" if number in self.linked else None

    def below(self, number: int, depth: int) -> Tuple[List[int], List[int]]:
        """The objects below one that stand under it, and those of them that unfold further."""
        if depth < MOST_DEPTH:
            direct = self.state.children[number]
            return direct, [child for child in direct if self.state.children[child]]
        return [one for one, _ in self.state.in_tree_order(number) if one != number], []

    def groups(self, number: int, members: Sequence[int], facts: Facts, usual: str) -> List[str]:
        """Objects that don't unfold: together where they are alike."""
        alike: Dict[Tuple[int, str, str], List[int]] = {}
        made, above = [], self.state.names[number]
        for child in members:
            alike.setdefault(facts[child], []).append(child)
        for (_, marks, seen), same in alike.items():
            names = tag("ul", "".join(tag("li", text(self.state.names[one][: -len(above) - 1], 4000),
                                          id=self.own_id(one)) for one in same))
            about = self.about(same[0], marks, seen, usual)
            body = names + about if len(same) == 1 else f"{len(same):,}{about}{names}"
            made.append(tag("div", body, of="g" if len(same) > 1 else "g one", data_k=self.kind(same[0], marks)))
        return made

    def children(self, number: int, depth: int) -> str:
        """What is below an object: why it is seen, once where that is the same, and the objects."""
        below, unfold = self.below(number, depth)
        facts = {child: (self.cards[child].number, self.marks(child), self.why_seen(child)) for child in below}
        count: Dict[str, int] = {}
        for _, _, seen in facts.values():
            count[seen] = count.get(seen, 0) + 1
        usual, further = max(count, key=lambda seen: count[seen]) if count else "", set(unfold)
        made = [tag("p", "below it: " + usual, of="soft")] if below else []
        made += self.groups(number, [child for child in below if child not in further], facts, usual)
        return "".join(made + [self.object(child, facts[child][1:], usual, depth + 1) for child in unfold])

    def object(self, number: int, facts: Tuple[str, str], usual: str, depth: int) -> str:
        """An object with what is below it."""
        marks, seen = facts
        head = tag("b", text(rdn(self.state, number) if depth else self.state.names[number], 4000))
        return tag("details", tag("summary", head + self.about(number, marks, seen, usual)) +
                   self.children(number, depth), id=self.own_id(number), of="t", data_k=self.kind(number, marks),
                   open="" if depth == 0 else None)

    def markup(self, number: int) -> str:
        """The tree from one object on."""
        return tag("div", self.object(number, (self.marks(number), self.why_seen(number)), "", 0), id="tree")


FIND = """<div class="tools">
<div><label for="find">find a name</label><input type="search" id="find"></div>
<div><label for="which">show</label><select id="which">
<option value="">all objects</option>
<option value="s">those that the token sees</option><option value="h">those that are hidden from it</option>
<option value="w">those where it may write</option>
<option value="g">those whose list or owner it may write</option>
<option value="o">those that are stale or pending</option></select></div>
<p id="told" role="status"></p></div>"""
