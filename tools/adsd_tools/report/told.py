"""The cards in words: the list of an object entry by entry, what is granted by which, and who else has it."""

from typing import Callable, Dict, Iterable, Sequence, Tuple

from adsd_tools.forms.descriptor import AUDIT, DENY, INHERIT_ONLY, INHERITED, Acl, Descriptor, Entry
from adsd_tools.forms.rights import codes
from adsd_tools.forms.sids import NOBODY, OWNER_RIGHTS, text_of_sid
from adsd_tools.rows.schema import UNREAD, Schema

from .cards import FLAGS_SHOWN, Card, Row
from .deciding import By
from .html import code, facts, plural, table, tag, text, yes_no
from .html import row as markup_row
from .names import CODES, SELF, Principals
from .state import State
from .style import ENTRIES, MAY
from .tokens import Token

KINDS = {"object": "the object as a whole", "attribute": "attribute", "set": "property set", "right": "extended right",
         "validated": "validated write", "child": "children of class"}
SIGNS = {0: ("yes", "\u2713 allow"), 1: ("no", "\u2717 deny"), 2: ("mark", "\u25e6 audit")}


# Above so many names their list stands by itself, once for all that have the same.
MOST_NAMES = 24


class Lists:
    """Long lists of names, each of which stands once on the page."""

    def __init__(self) -> None:
        self.of_names: Dict[Tuple[str, ...], int] = {}

    def listed(self, many: str, names: Sequence[str], whole: Sequence[str] = ()) -> str:
        """Names after what they are; of many a link to their list, or to that of `whole`, where nearly all of it are
        among them, and which ones aren't."""
        if len(names) <= MOST_NAMES:
            return f"{many}: " + tag("span", ", ".join(map(text, names)), of="names")
        given = set(names)
        left = [name for name in whole if name not in given]
        if left and len(left) <= MOST_NAMES and len(whole) == len(names) + len(left):
            return f"{self.listed(many, whole)} but {tag('span', ', '.join(map(text, left)), of='names')}"
        key = tuple(sorted(names, key=lambda name: (name.lower(), name)))
        number = self.of_names.setdefault(key, len(self.of_names) + 1)
        return f"{many}: " + tag("a", f"list {number}", href=f"#n{number}")

    def markup(self) -> str:
        """All lists, for those who follow a link to one."""
        return "".join(tag("p", tag("b", f"List {number}, {plural(len(names), 'name')}: ") +
                           tag("span", ", ".join(map(text, names)), of="names"), id=f"n{number}")
                       for names, number in self.of_names.items())


class Teller:
    """Writes the cards of a page. `who` names identifiers, and `link` gives the markup of an object's name."""

    def __init__(self, token: Token, who: Principals, schema: Schema, link: Callable[[int], str]) -> None:
        self.token, self.who, self.schema, self.link = token, who, schema, link
        self.lists = Lists()

    def sid(self, sid: bytes) -> str:
        name, number = self.who.name(sid), text_of_sid(sid)
        return text(name) + ("" if name == number else " " + tag("span", code(number), of="soft"))

    def reason(self, card: Card, by: By) -> str:
        """What decides, in words."""
        if by == "privilege":
            return "the privilege take-ownership"
        if by == "owner":
            return "the token holds the owner, and no entry is for owner rights"
        if not isinstance(by, int):
            return "no entry allows it"
        entry = card.entries[by - 1]
        word = "denied by" if entry.kind == DENY else "allowed by"
        return f"{word} " + tag("a", f"entry {by}", href=f"#c{card.number}e{by}") + f" ({self.for_whom(entry)})"

    def for_whom(self, entry: Entry) -> str:
        return text(self.who.name(entry.sid))

    def whole(self, card: Card, row: Row) -> Sequence[str]:
        """All names of which those of a row are some."""
        return self.schema.allowed_names(card.key[0]) if row.kind == "attribute" else ()

    def why(self, card: Card, row: Row) -> str:
        if row.why is None:
            return tag("span", "the tool can't say", of="mark")
        said = "; ".join(self.reason(card, by) for by in row.why)
        if len(row.why) > 1 and row.kind == "set":
            return "on each of its attributes: " + said
        return said + (" (both of the token's holders)" if len(row.why) > 1 else "")

    def others(self, row: Row) -> str:
        """Who has a right, in words."""
        found = [one for one in row.others if one is not None]
        if row.why is None or len(found) != len(row.others):
            why = "the tool can't say" if row.why is None else "differs by attribute"
            return tag("span", why, of="mark")
        made = []
        for sid, by, denied in found:
            if sid is None:
                made.append("who has the privilege take-ownership")
                continue
            name = "the owner, " + text(self.who.name(sid)) if by == "owner" else text(self.who.name(sid))
            note = "the token too" if self.token.holds(sid) else ""
            if denied:
                whom = ", ".join(text(self.who.name(one)) for one in denied)
                note += ("; " if note else "") + "not who is also " + whom
            made.append(name + (tag("i", f" ({note})") if note else ""))
        return ", ".join(made) or "nobody by the list"

    def unread(self, row: Row) -> str:
        """What an entry for reading doesn't give: attributes that nobody reads, and confidential ones."""
        if row.kind != "attribute" or "RP" not in row.codes:
            return ""
        nobody = [name for name in row.names if name.lower() in UNREAD]
        more = [name for name in row.names if name not in nobody and self.schema.is_confidential(name)]
        said = [f"nobody reads {text(', '.join(nobody))}"] if nobody else []
        said += [f"to read {text(', '.join(more), 4000)} asks for control access too"] if more else []
        return "<br>" + tag("span", "; ".join(said), of="soft") if said else ""

    def row(self, card: Card, row: Row) -> str:
        what = KINDS[row.kind]
        if row.names:
            many = plural(len(row.names), "attribute") if row.kind == "attribute" else what
            what = self.lists.listed(many, row.names, self.whole(card, row)) + self.unread(row)
        rights = "<br>".join(f"{tag('code', one)} {CODES[one]}" for one in row.codes)
        granted = yes_no(row.granted, "granted", "refused")
        return markup_row((granted, what, rights, self.why(card, row), self.others(row)))

    def counts(self, card: Card, place: int, entry: Entry) -> str:
        """Whether an entry says something to the token on these objects."""
        if entry.flags & INHERIT_ONLY:
            return "only passed down"
        if entry.kind == AUDIT:
            return "audits"
        held = card.checked.held(place - 1, self.token) if card.checked else []
        if not any(held):
            return "not held"
        if not all(held):
            return "held by one of its two holders"
        return "counts, it denies" if entry.kind == DENY else "counts"

    def entry(self, card: Card, place: int, entry: Entry, link: bool) -> str:
        of, word = SIGNS[entry.kind]
        types = [text(self.schema.type_name(guid)) if guid else "" for guid in (entry.object, entry.inherited)]
        flags = " ".join(name for name, bit in FLAGS_SHOWN if entry.flags & bit)
        who = tag("span", text(self.who.name(entry.sid)), title=text_of_sid(entry.sid))
        cells = [tag("span", word, of=of + " keep"), who, code(" ".join(codes(entry.mask))), *types, flags,
                 "inherited" if entry.flags & INHERITED else "explicit"]
        cells += [self.counts(card, place, entry)] if link else []
        return tag("tr", tag("th", str(place), scope="row") + "".join(tag("td", one) for one in cells),
                   id=f"c{card.number}e{place}" if link else None)

    def entries(self, card: Card, entries: Iterable[Entry], link: bool) -> str:
        return table("The list, entry by entry" if link else "", ENTRIES[: len(ENTRIES) - (0 if link else 1)],
                     [self.entry(card, place, entry, link) for place, entry in enumerate(entries, 1)],
                     of="entries", aria_label="entries in order")

    def inherits(self, card: Card, one: Descriptor) -> str:
        if card.is_root:
            return "nothing, it is the root"
        return "no, its list is protected" if one.dacl and one.dacl.protected else "yes, from its parent"

    def both(self, card: Card, one: Descriptor) -> str:
        """The lists, entry by entry; the program's own lines where they aren't what was read of the row."""
        if not card.agrees:
            lines = "\n".join(text(line) for line in card.listing)
            return tag("p", "The program lists this object otherwise than this tool reads it, so no reasons are given.",
                       of="mark") + tag("pre", lines)
        entries = (one.dacl or Acl()).entries
        made = self.entries(card, entries, True) if entries else tag("p", "The list has no entry.")
        if one.sacl is not None and one.sacl.entries:
            made += tag("details", tag("summary", f"system list: {plural(len(one.sacl.entries), 'entry', 'entries')}") +
                        self.entries(card, one.sacl.entries, False))
        return made

    def card(self, card: Card, state: State) -> str:
        """A card whole, folded: what it is about and what is granted in few words stay seen."""
        count, of_class = len(card.objects), text(state.schema.class_names[card.key[0]])
        rows, one = [self.row(card, row) for row in card.rows], state.descriptor(card.objects[0])
        told = facts([("owner", self.sid(one.owner or NOBODY)), ("group", self.sid(one.group or NOBODY)),
                      ("inherits", self.inherits(card, one))])
        allowed = len(state.schema.allowed(card.key[0]))
        few = f"{' '.join(card.codes) or 'nothing'}; reads {card.reads}, writes {card.writes} of {allowed}"
        head = tag("h3", f"Card {card.number}: {of_class}, {plural(count, 'object')}") + tag("span", few, of="soft")
        may = table("What the token may do", MAY, rows, of="may", aria_label="what the token may do")
        return tag("details", tag("summary", head) + tag("p", self.links(card.objects, 12)) + told + may +
                   self.both(card, one), of="card", id=f"c{card.number}")

    def links(self, numbers: Sequence[int], most: int) -> str:
        """Some objects by name, and how many more there are."""
        links = ", ".join(self.link(number) for number in numbers[:most])
        return links + (f" and {plural(len(numbers) - most, 'other')}" if len(numbers) > most else "")


def describe_sid(teller: Teller, sid: bytes) -> str:
    """A row of the table of identifiers."""
    members, of = teller.who.members(sid), teller.who.of_sid.get(bytes(sid))
    named = ", ".join(teller.link(number) for number in members[:8])
    named += f" and {plural(len(members) - 8, 'other')}" if len(members) > 8 else ""
    note = "the object's own identifier" if sid == SELF else ""
    note = "the owner: takes from it what it has by itself" if sid == OWNER_RIGHTS else note
    held = "\u2713 yes" if teller.token.holds(sid) else "only denies" if sid in teller.token.deny else "no"
    return "<tr>" + tag("th", text(teller.who.name(sid)), scope="row") + "".join(tag("td", cell) for cell in (
        code(text_of_sid(sid)), held, teller.link(of) if of else "none here", named or note or "")) + "</tr>"
