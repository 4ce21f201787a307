"""What a token may do on objects of one class and descriptor, why, and who else may: once for all that are alike."""

from dataclasses import dataclass, field
from typing import Dict, Iterable, List, Optional, Set, Tuple

from adsd_tools import lines
from adsd_tools.forms.descriptor import INHERITED, KIND_WORDS, Acl, Entry
from adsd_tools.forms.rights import FLAGS, RIGHTS, codes
from adsd_tools.forms.sids import NOBODY, text_of_sid
from adsd_tools.rows.schema import Schema
from adsd_tools.shown import shown, text_of

from .deciding import By, Checked, Deciding, Other, Why
from .effective import KINDS, ON_OBJECT
from .front import Key, key_of
from .program import Copies, answered
from .state import State
from .tokens import Token

# Who else has a right; (None,) where that differs by attribute.
Others = Tuple[Optional[Other], ...]
Decides = Optional[Tuple[By, ...]]
FLAGS_SHOWN = [(name, bit) for name, bit in FLAGS.items() if bit != INHERITED]


# Whether an object is seen, a word, and for each right asked the right, whose it is, and why.
Seen = Tuple[bool, str, List[Tuple[str, str, Why]]]


@dataclass
class Row:
    """Rights on some things of one kind: their names (none for the object as a whole), the codes, whether they are
    granted, why (None where the tool can't say), and who else has them."""

    kind: str
    names: List[str]
    codes: List[str]
    granted: bool
    why: Decides
    others: Others


@dataclass
class Card:
    """All that is told of objects that are alike for the token: their numbers, the program's texts, and the rows."""

    number: int
    objects: List[int]
    key: Key
    listing: List[str] = field(default_factory=list)
    effective: List[lines.Granted] = field(default_factory=list)
    rows: List[Row] = field(default_factory=list)
    entries: List[Entry] = field(default_factory=list)
    checked: Optional[Checked] = None
    agrees: bool = True
    is_root: bool = False
    codes: List[str] = field(default_factory=list)
    reads: int = 0
    writes: int = 0


def entry_line(entry: Entry, schema: Schema) -> str:
    """The line of an entry as `list` has it (docs/profile/listings.md)."""
    rights = "".join(codes(entry.mask))
    if entry.mask & ~sum(RIGHTS.values()):
        rights = f"0x{entry.mask:x}"
    types = [schema.type_name(guid) if guid else "-" for guid in (entry.object, entry.inherited)]
    flags = "".join(name for name, bit in FLAGS_SHOWN if entry.flags & bit)
    origin = "inherited" if entry.flags & INHERITED else "explicit"
    return " ".join([KIND_WORDS[entry.kind], text_of_sid(entry.sid), rights or "-", *types, flags or "-", origin])


def listing_lines(state: State, number: int) -> List[str]:
    """The lines of `list` below the object's name, as they are made of the row."""
    one = state.descriptor(number)
    made = [f"owner {text_of_sid(one.owner or NOBODY)}", f"group {text_of_sid(one.group or NOBODY)}"]
    for word, acl in (("dacl", one.dacl or Acl()), ("sacl", one.sacl or Acl())):
        made.append(f"{word} {'protected' if acl.protected else 'inherits'}")
        made += [entry_line(entry, state.schema) for entry in acl.entries]
    return made


def paths_of(kind: str, name: str, of_class: int, schema: Schema) -> Optional[List[List[bytes]]]:
    """The paths on which a line of `effective` is granted, all of them; and the paths that a name may mean besides."""
    guid = schema.class_guid(of_class)
    if kind == "object":
        return [[]]
    if kind == "attribute":
        return [schema.attribute_path(of_class, name)]
    if kind == "child":
        return [[schema.class_guid(schema.of_class[name.lower()])]]
    found = schema.right_guid(name, KINDS[kind])
    if len(found) != 1:
        return None
    if kind != "set":
        return [found]
    inside = schema.in_set(of_class, found[0])
    return [schema.attribute_path(of_class, one) for one in inside] or [[guid, found[0]]]


class Explainer:
    """Says of each right on a card why it is granted or not, where that agrees with what the program says."""

    def __init__(self, card: Card, checked: Checked, state: State, token: Token) -> None:
        self.card, self.checked, self.state, self.token = card, checked, state, token
        self.of_class = card.key[0]

    def explained(self, kind: str, name: str, code: str, granted: bool) -> Tuple[Decides, Others]:
        """Why a right is as the program says, and who has it: (None, ()) where the tool can't say."""
        try:
            paths = paths_of(kind, name, self.of_class, self.state.schema) if self.card.agrees else None
        except (KeyError, IndexError):
            paths = None
        if not paths:
            return None, ()
        bit, checked = RIGHTS[code], self.checked
        found = [checked.of_token(self.token, path, bit) for path in paths]
        if all(why.granted for why in found) != granted:
            return None, ()
        telling = dict.fromkeys(by for why in found if why.granted == granted for by in why.by)
        others: List[Others] = [tuple(checked.others(path, bit)) for path in paths]
        return tuple(telling), others[0] if all(one == others[0] for one in others) else (None,)


def rows_of(card: Card, explain: Explainer) -> List[Row]:
    """The rows of a card: lines that have the same rights for the same reason stand in one."""
    found: Dict[Tuple[str, str, bool, Decides, Others], List[str]] = {}
    granted: Set[str] = set()
    for kind, name, given in card.effective:
        granted |= {code for code in given if kind == "object"}
        for code in given:
            why, others = explain.explained(kind, name, code, True)
            found.setdefault((kind, code, True, why, others), []).append(name)
    for code in ON_OBJECT:
        if code not in granted:
            why, others = explain.explained("object", "", code, False)
            found.setdefault(("object", code, False, why, others), []).append("")
    merged: Dict[Tuple[str, Tuple[str, ...], bool, Decides, Others], List[str]] = {}
    for (kind, code, is_granted, why, others), its in found.items():
        merged.setdefault((kind, tuple(its), is_granted, why, others), []).append(code)
    return [Row(kind, [name for name in names if name], coded, is_granted, why, others)
            for (kind, names, is_granted, why, others), coded in merged.items()]


def counted(card: Card, schema: Schema) -> None:
    """Counts what attributes the token reads and writes, and keeps the rights on the object as a whole."""
    for kind, name, given in card.effective:
        if kind == "object":
            card.codes = given
        elif kind == "attribute":
            hidden = schema.is_confidential(name) and "CR" not in given
            card.reads += "RP" in given and not hidden and not schema.is_unread(name)
            card.writes += "WP" in given


def filled(card: Card, state: State, token: Token, deciding: Deciding, listing: bytes, effective: bytes, name: bytes) -> None:
    """Puts the program's texts on a card, and what follows from them."""
    told = answered(lines.listed, listing)
    card.listing = [shown(line) for line in (f"owner {told.owner}", f"group {told.group}", *told.dacl, *told.sacl)]
    card.effective = answered(lines.effective, effective)
    number = card.objects[0]
    card.is_root = card.objects == [1]
    read = [shown(line) for line in listing_lines(state, number)]
    card.agrees = shown(told.name) == text_of(name) and card.listing == read
    card.entries = (state.descriptor(number).dacl or Acl()).entries
    card.checked = Checked(deciding, state.objects[number].normal, state.own_sid(number))
    card.rows = rows_of(card, Explainer(card, card.checked, state, token))
    counted(card, state.schema)


def all_cards(state: State, numbers: Iterable[int], token: Tuple[Token, bytes], copies: Copies,
              deciding: Deciding) -> Tuple[List[Card], Dict[int, Card]]:
    """The cards of some objects, and for each of these its card. `token` is a pair: as words gave it, and its bytes."""
    cards: Dict[Key, Card] = {}
    of: Dict[int, Card] = {}
    for number in numbers:
        key = key_of(state, number, token[0])
        card = cards.setdefault(key, Card(len(cards) + 1, [], key))
        card.objects.append(number)
        of[number] = card
    made = list(cards.values())
    names = [state.names[card.objects[0]] for card in made]
    listed: Dict[bytes, bytes] = {}
    for card, name in zip(made, names):
        listed.setdefault(card.key[1], name)
    questions = [("list", name, b"") for name in listed.values()]
    questions += [("effective", name, token[1]) for name in names]
    answers = copies.all(questions)
    listings = dict(zip(listed, zip(listed.values(), answers)))
    for card, effective in zip(made, answers[len(listed) :]):
        name, listing = listings[card.key[1]]
        filled(card, state, token[0], deciding, listing, effective, name)
    return made, of


def why_seen(state: State, number: int, token: Token, lists_objects: bool, deciding: Deciding) -> Seen:
    """Why a token sees an object or not: a word, and for each right asked the right, whose it is, and why."""
    parent = state.objects[number].parent
    if not parent:
        return True, "root", []

    def on(one: int, code: str) -> Why:
        return Checked(deciding, state.objects[one].normal, state.own_sid(one)).of_token(token, [], RIGHTS[code])

    first = on(parent, "LC")
    asked = [("LC", "parent", first)]
    if first.granted or not lists_objects:
        return first.granted, "LC", asked
    both = [("LO", "parent", on(parent, "LO")), ("LO", "object", on(number, "LO"))]
    return all(why.granted for _, _, why in both), "LO", asked + both
