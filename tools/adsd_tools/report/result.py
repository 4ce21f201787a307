"""What is dangerous, before all else on the page: how many objects by rank, and which, with what decides."""

from typing import Dict, List, Tuple

from .cards import Card
from .differences import Dangers, total
from .harms import HARMS, RANK, Finding, findings
from .html import plural, table, tag, text
from .made import Made
from .told import Teller

# So many rows stand open, and so many names of objects in a row.
MOST_ROWS, MOST_NAMES = 20, 6
HEADS = ["on", "it", "card"]


class Result:
    """Writes the section. `found` has a card and its findings for each card that has any, the worst first."""

    def __init__(self, made: Made, told: Teller) -> None:
        self.made, self.told = made, told
        pairs = [(card, findings(card, made.token, made.state.schema, made.protected)) for card in made.cards]
        self.found = sorted(((card, list_) for card, list_ in pairs if list_), key=self.order)

    def order(self, pair: Tuple[Card, List[Finding]]) -> Tuple[int, bool, List[int], int, int]:
        """The worst first; of these what is protected, then what is much."""
        card, found = pair
        ranks = [RANK[one.harm.key] for one in found]
        guarded = bool(self.made.protected & set(card.objects))
        return ranks[0], not guarded, [*ranks, len(HARMS)], -len(card.objects), card.number

    def counts(self) -> str:
        """How many objects there are of each rank, and of which there are none."""
        of = {harm.key: 0 for harm in HARMS}
        for _, found in self.found:
            for one in found:
                of[one.harm.key] += len(one.objects)
        rows = [tag("li", tag("b", f"{of[harm.key]:,}") + tag("span", tag("strong", harm.title) + tag(
            "span", ", " + harm.means, of="soft"))) for harm in HARMS if of[harm.key]]
        none = ", ".join(harm.title for harm in HARMS if not of[harm.key])
        return (tag("ol", "".join(rows), of="harms", aria_label="objects by rank") if rows else "") + (
            tag("p", f"On no object: it {none}.", of="soft") if none else "")

    def lead(self) -> str:
        """The result in a sentence."""
        who, here = text(self.made.who.name(self.made.token.user)), plural(len(self.made.numbers), "object")
        if not self.found:
            return tag("p", f"<strong>{who}</strong> has none of these rights on any of {here}.", of="lead")
        count = sum(len({number for one in found for number in one.objects}) for _, found in self.found)
        harm = self.found[0][1][0].harm
        worst = sum(len(one.objects) for _, found in self.found for one in found if one.harm is harm)
        return tag("p", f"<strong>{who}</strong> has dangerous rights on {count:,} of {here}. The worst, on "
                   f"{plural(worst, 'object')}: it {harm.title}.", of="lead")

    def coming(self) -> str:
        """On how many objects something dangerous comes or goes, where moments are shown."""
        count, dangers = [0, 0], Dangers(self.made.state.schema, self.made.protected)
        for number, pair in total(self.made.shots).items():
            for at, ranks in enumerate(dangers.ranks(number, pair)):
                count[at] += bool(ranks)
        if not any(count):
            return ""
        return tag("p", "This is how it stands after the frames. From the first moment to the last something dangerous "
                   f"comes on {plural(count[0], 'object')}, and goes on {count[1]:,}: " +
                   tag("a", "what comes and goes", href="#front") + ".", of="mark")

    def decided(self, card: Card, one: Finding) -> str:
        """What decides a danger."""
        known = [why for why in one.why if why is not None]
        if len(known) != len(one.why):
            return tag("span", "the tool can't say why", of="mark")
        return "; ".join(dict.fromkeys(self.told.reason(card, by) for why in known for by in why))

    def some(self, card: Card, one: Finding) -> str:
        """On how many of a card's objects it is, where it isn't on all."""
        if len(one.objects) == len(card.objects):
            return ""
        return " on " + self.told.links(one.objects, MOST_NAMES)

    def danger(self, card: Card, one: Finding) -> str:
        """A danger in words, with the rights that it is made of where its name doesn't say them."""
        names = list(dict.fromkeys(name for _, name, _ in one.rights if name))
        more = f" ({', '.join(map(text, names))})" if names else ""
        return tag("strong", one.harm.title) + more + self.some(card, one)

    def dangers(self, card: Card, found: List[Finding]) -> str:
        """The dangers on a card: those that the same entries decide stand together."""
        made: Dict[str, List[str]] = {}
        for one in found:
            made.setdefault(self.decided(card, one), []).append(self.danger(card, one))
        return tag("ul", "".join(tag("li", f"{', '.join(some)}: {why}") for why, some in made.items()), of="plain")

    def row(self, card: Card, found: List[Finding]) -> str:
        of_class = text(self.made.state.schema.class_names[card.key[0]])
        guarded = len(self.made.protected & set(card.objects))
        mark = f"{guarded:,} protected" if 1 < len(card.objects) != guarded else "protected"
        head = self.told.links(card.objects, MOST_NAMES) + " " + tag(
            "span", of_class if len(card.objects) == 1 else f"{len(card.objects):,} × {of_class}", of="soft")
        head += " " + tag("span", mark, of="mark keep") if guarded else ""
        return tag("tr", tag("th", head, scope="row") + tag("td", self.dangers(card, found)) + tag(
            "td", tag("a", f"card {card.number}", href=f"#c{card.number}")))

    def markup(self) -> str:
        """The section's markup after its head."""
        rows = [self.row(card, found) for card, found in self.found]
        made = self.lead() + self.coming() + self.counts()
        if rows:
            made += table("Where, the worst first: objects that are alike stand together", HEADS, rows[:MOST_ROWS],
                          of="harm", aria_label="what is dangerous")
        if len(rows) > MOST_ROWS:
            more = table("", HEADS, rows[MOST_ROWS:], of="harm", aria_label="what else is dangerous")
            made += tag("details", tag("summary", f"{plural(len(rows) - MOST_ROWS, 'more kind')} of objects") + more)
        return made
