"""The front of a propagation: what came and went in all, and each moment as a picture, with the same in words."""

from typing import Dict, List, Sequence, Tuple

from .differences import Dangers, alike, phrases, several, total
from .effective import Rights
from .front import Snapshot
from .harms import HARMS
from .html import plural, table, tag, text
from .made import Made
from .names import CODES
from .picture import Line, Picture, lines_of, sorts
from .state import State
from .told import Teller

MOST_NAMES, MOST_KINDS = 40, 40
HEADS = ["on", "came", "went", "dangerous"]
LEGEND = (("c", "its descriptor changed since the moment before"),
          ("s", "stale: its descriptor isn't the one that is computed anew from the root"),
          ("q", "pending: its place in the queue of parents whose children are still to be gone over, and how many are "
           "left of these"), ("d", "none of these"))
SIGNS = {"c": '<circle class="c" cx="8" cy="8" r="5"/>', "s": '<path class="s" d="M8 1L15 8L8 15L1 8Z"/>',
         "q": '<path class="q" d="M3 2L14 8L3 14Z"/>', "d": '<circle class="d" cx="8" cy="8" r="5"/>'}


def legend() -> str:
    made = [tag("li", tag("svg", SIGNS[sign], viewBox="0 0 16 16", width="16", height="16", aria_hidden="true") + " " +
                text(said)) for sign, said in LEGEND]
    made.append(tag("li", tag("b", "+WP", of="yes") + " " + tag("b", "\u2212WP", of="no") +
                    " a right came to the token, or went: on the object as a whole (object), on an attribute, a "
                    "property set, an extended right, a validated write or children of a class"))
    return tag("ul", "".join(made), of="legend")


class Front:
    """Writes the section. `told` gives markup of names."""

    def __init__(self, made: Made, told: Teller) -> None:
        self.made, self.told, self.shots = made, told, made.shots

    def names(self, state: State, numbers: Sequence[int], most: int = MOST_NAMES) -> str:
        made = ", ".join(text(state.objects[one].naming, 80) for one in numbers[:most])
        return made + (f" and {plural(len(numbers) - most, 'other')}" if len(numbers) > most else "")

    def targets(self, targets: Dict[str, Tuple[str, ...]]) -> str:
        """What rights are on, whole."""
        made = []
        for kind, names in targets.items():
            if kind == "object":
                made.append("the object as a whole")
            else:
                made.append(self.told.lists.listed(several(kind, len(names)), list(names)))
        return "; ".join(made)

    def signed(self, rights: Rights, sign: str) -> str:
        """What came or went, whole: codes with a sign and what they are on."""
        made = []
        for codes, targets in phrases(rights):
            shown = " ".join(tag("abbr", sign + code, title=CODES[code], of="yes" if sign == "+" else "no")
                             for code in codes)
            made.append(tag("li", f"{shown} {self.targets(targets)}"))
        return tag("ul", "".join(made), of="plain") if made else ""

    def difference(self, came: Rights, went: Rights, numbers: Sequence[int], rank: int) -> Tuple[int, str]:
        """A row of what came and went on objects where that is the same, with the rank of the worst of it."""
        mark = tag("span", HARMS[rank].title, of="mark") if rank < len(HARMS) else ""
        cells = [self.signed(came, "+"), self.signed(went, "\u2212"), mark]
        names = tag("th", self.names(self.shots[-1].state, numbers), scope="row")
        return rank, tag("tr", names + "".join(tag("td", cell) for cell in cells))

    def differences(self) -> str:
        """What came to the token and what went, from the first moment to the last."""
        pairs = {number: pair for number, pair in total(self.shots).items() if number in self.shots[-1].state.objects}
        dangers = Dangers(self.made.state.schema, self.made.protected)
        ranked = [self.difference(came, went, numbers, dangers.worst(numbers, pairs))
                  for came, went, numbers in alike(pairs)]
        rows = [row for _, row in sorted(ranked, key=lambda pair: pair[0])]
        if not rows:
            return tag("p", "The token has the same rights at the last moment as at the first, on every object that is "
                       "there at both.")
        more = plural(len(rows) - MOST_KINDS, "further kind") if len(rows) > MOST_KINDS else ""
        return table("What came to the token and what went, from the first moment to the last; what is dangerous first",
                     HEADS, rows[:MOST_KINDS], of="diff", aria_label="what came and went") + (
                         tag("p", f"Not shown: {more} of differences.", of="mark") if more else "")

    def words(self, shot: Snapshot) -> str:
        """A moment in words."""
        state = shot.state
        made: List[str] = []
        for place, (parent, cursor) in enumerate(state.queue[:MOST_NAMES], 1):
            left = plural(len(state.left(parent, cursor)), "child", "children")
            made.append(f"pending {place}: {self.names(state, [parent])}, {left} left")
        if len(state.queue) > MOST_NAMES:
            made.append(f"and {len(state.queue) - MOST_NAMES:,} further ones pending")
        made += [f"stale: {self.names(state, sorted(state.stale))}"] if state.stale else []
        there = [one for one in sorted(shot.changed) if one in state.objects]
        made += [f"changed: {self.names(state, there)}"] if there else []
        for came, went, numbers in alike({one: pair for one, pair in shot.rights.items() if pair[0] != pair[1]}):
            said = self.signed(came, "+") + self.signed(went, "\u2212")
            made.append(f"rights on {self.names(state, [one for one in numbers if one in state.objects])}: {said}")
        return tag("ul", "".join(tag("li", one) for one in made or ["nothing is stale or pending"]), of="plain")

    def moment(self, place: int, shot: Snapshot, lines: Sequence[Line]) -> str:
        label = text(shot.label)
        words = tag("details", tag("summary", "in words") + self.words(shot))
        head = tag("b", f"{place + 1}. {label}") + " " + tag("span", sorts(shot), of="soft")
        return tag("figure", tag("figcaption", head) +
                   Picture(self.shots[-1].state, lines).drawn(place, shot.label) + words, id=f"m{place + 1}")

    def markup(self) -> str:
        """The section's markup after its head."""
        lines, more, gone = lines_of(self.shots)
        figures = "".join(self.moment(place, shot, lines) for place, shot in enumerate(self.shots))
        made = self.differences() + tag("h3", plural(len(self.shots), "moment")) + legend() + tag(
            "div", figures, of="moments")
        if more or gone or self.made.left_out:
            made += tag("p", f"Not shown: {plural(more, 'further object')}, {plural(len(gone), 'deleted object')}, "
                        f"{plural(self.made.left_out, 'moment')} between the last two.", of="mark")
        return made
