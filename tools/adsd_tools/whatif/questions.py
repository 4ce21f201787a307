"""What is asked: the questions of the words, or the dangerous rights on what the frames touch and on what is protected.
Which rights are dangerous is a list (report/harms.py); who has them is the program's answer."""

from dataclasses import dataclass, field
from typing import Dict, Hashable, List, Optional, Sequence, Set, Tuple

from adsd_tools.forms.sids import guid_of_text, text_of_guid
from adsd_tools.report.effective import KINDS
from adsd_tools.report.harms import RESET, SCRIPTS, SECRETS, SELF_MEMBERSHIP, VALIDATED_SPN
from adsd_tools.report.protection import protected
from adsd_tools.report.state import State
from adsd_tools.rows.schema import Schema

from .answers import Answer
from .moments import AFTER, BEFORE, SETTLED, Moments

# What is dangerous on an object as a whole: all that GenericAll has but reading.
WHOLE = ("WD", "WO", "SD", "DT", "CC", "DC", "SW", "WP", "CR")
# (whoever replicates secrets has this right besides)
GET_CHANGES = guid_of_text("1131f6aa-9c07-11d1-f79f-00c04fc2dcd2")
BY_GUID = {"right": (RESET, GET_CHANGES, SECRETS), "validated": (SELF_MEMBERSHIP, VALIDATED_SPN)}
CODE_OF = {"right": "CR", "validated": "SW"}


@dataclass
class Question:
    """A right, and the name of the object at each moment; how many others it is asked for; its first name, where it has
    another one at last."""

    right: str
    names: Dict[str, Optional[str]]
    alike: int = 0
    shown: str = ""
    was: str = ""
    own: bool = False
    answers: Dict[str, Answer] = field(default_factory=dict)


def of_words(pairs: Sequence[str]) -> List[Question]:
    """The questions of RIGHT NAME RIGHT NAME .."""
    made = []
    for right, name in zip(pairs[::2], pairs[1::2]):
        names: Dict[str, Optional[str]] = {word: name for word in (BEFORE, AFTER, SETTLED)}
        made.append(Question(right, names, shown=name, own=True))
    return made


def rights_on(of_class: int, schema: Schema) -> List[str]:
    """The dangerous rights that there are on an object of a class, as the program takes them."""
    made = list(WHOLE)
    for name in schema.allowed_names(of_class):
        if name.lower() in SCRIPTS or name.lower() == "member":
            made.append(f"WP:{name}")
    guids = {text_of_guid(schema.class_guid(one)) for one in schema.chain(of_class)}
    for kind, wanted in BY_GUID.items():
        for guid, one in zip(schema.right_guids, schema.rights):
            applies = not one.many("appliesTo") or guids & set(one.many("appliesTo"))
            if one.number("validAccesses") in KINDS[kind] and guid in wanted and applies:
                made.append(f"{CODE_OF[kind]}:{one.text('cn')}")
    return list(dict.fromkeys(made))


class Seen:
    """The rows of the three moments, as the objects that are asked about are chosen from them."""

    def __init__(self, path: str, moments: Moments) -> None:
        self.states: Dict[str, State] = {}
        kept: Optional[State] = None
        for word, store in moments.stores.items():
            same = next((self.states[had] for had in self.states if moments.stores[had] == store), None)
            kept = self.states[word] = same or State(store, kept)
        ends = [self.states[BEFORE], self.states[SETTLED]]
        self.notes: List[str] = []
        self.protected: Set[int] = set().union(*(protected(path, moments.stores[word], state, self.notes)
                                       for word, state in zip((BEFORE, SETTLED), ends)))

    def row(self, word: str, number: int) -> Optional[bytes]:
        return self.states[word].directory.rows.get(number)

    def numbers(self) -> List[int]:
        there: Set[int] = set().union(*(state.objects for state in self.states.values()))
        return sorted(there)

    def chosen(self, all_of: bool) -> List[int]:
        """The numbers of the objects that are asked about: what the frames touch, what is protected, and what a list
        is passed down to; or all."""
        numbers = self.numbers()
        touched = [one for one in numbers if self.row(BEFORE, one) != self.row(AFTER, one)]
        later = [one for one in numbers if self.row(AFTER, one) != self.row(SETTLED, one)]
        return list(dict.fromkeys([*touched, *sorted(self.protected), *later, *(numbers if all_of else [])]))

    def key(self, number: int) -> Hashable:
        """What objects have in common that are asked about once: class, descriptor at each moment, and whether they
        have an identifier."""
        made = []
        for state in self.states.values():
            one = state.objects.get(number)
            made.append(one and (one.of_class, one.normal, state.own_sid(number) is not None))
        return tuple(made)

    def name(self, word: str, number: int) -> Optional[str]:
        name = self.states[word].names.get(number)
        return name.decode("utf-8", "surrogateescape") if name is not None and number in self.states[word].objects else None

    def about(self, number: int, alike: int) -> List[Question]:
        """The questions about an object, and so many others that are alike."""
        names = {word: self.name(word, number) for word in self.states}
        present = [(word, name) for word, name in ((word, names[word]) for word in (SETTLED, AFTER, BEFORE)) if name is not None]
        state, shown, first = self.states[present[0][0]], present[0][1], present[-1][1]
        return [Question(right, names, alike, shown, "" if first == shown else first)
                for right in rights_on(state.objects[number].of_class, state.schema)]


def of_objects(seen: Seen, each: bool, all_of: bool, most: int) -> Tuple[List[Question], int]:
    """The questions about the chosen objects, once for those that are alike unless `each`; and how many kinds of
    objects are left out, of which no more than `most` are asked about."""
    kinds: Dict[Hashable, List[int]] = {}
    for number in seen.chosen(all_of):
        kinds.setdefault(number if each else seen.key(number), []).append(number)
    chosen = list(kinds.values())
    made: List[Question] = []
    for numbers in chosen[:most]:
        made += seen.about(numbers[0], len(numbers) - 1)
    return made, max(0, len(chosen) - most)
