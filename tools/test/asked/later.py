"""Rules that a program may know already: identities without a principal, questions of intent in `who`, and all objects
at once. They are held against a program that answers for an identifier which no object has."""

from typing import Dict, FrozenSet, List, NamedTuple, Optional, Set, Tuple

from adsd_tools.forms.descriptor import Entry
from adsd_tools.forms.sids import text_of_sid

from .model import ADMINISTRATORS, ANONYMOUS, AUTHENTICATED, EVERYONE, SELF, Model, Need, TooMany, Token


class Party(NamedTuple):
    """An identity: its identifier, and the number of its principal's object."""

    sid: bytes
    number: Optional[int]


class Later(Model):
    """The same directory, by all rules."""

    # Whether it is asked what would be if no object had an identifier.
    apart = False

    def matches(self, entry: Entry, token: Token, number: int) -> bool:
        return not (self.apart and entry.sid == SELF) and super().matches(entry, token, number)

    def parties(self) -> List[Party]:
        """The identities: principals by rising number, then identifiers without one in the order of their bytes."""
        own = [Party(self.sids[number], number) for number in self.principals()]
        if not self.rules.identities:
            return own
        return own + [Party(sid, None) for sid in sorted(self.identities() - {party.sid for party in own})]

    def token_for(self, party: Party) -> Optional[Token]:
        """The token of an identity; None where it has too many groups."""
        if party.number is not None:
            try:
                return self.token(party.number)
            except TooMany:
                return None
        if party.sid == ANONYMOUS:
            return Token(ANONYMOUS, ANONYMOUS, EVERYONE, (EVERYONE,), 0)
        held = self.closed(party.sid, {EVERYONE} | ({AUTHENTICATED} if party.sid != EVERYONE else set()))
        groups = tuple(sorted(held - {party.sid}))
        return Token(party.sid, party.sid, EVERYONE, groups, 3 if ADMINISTRATORS in held else 0)

    def needs(self, text: str, number: int) -> Optional[List[List[Need]]]:
        """The requirements of a right's text: of a code alone, or of a question of intent."""
        asked = self.path(text, number)
        if asked is not None:
            return [[Need(number, asked[0], asked[1])]]
        return self.requires(text, number)

    def says(self, token: Token, text: str, number: int) -> Optional[str]:
        """The first word of a line: what decides in the last requirement; None where it isn't allowed."""
        needs = self.needs(text, number)
        if needs is None or not self.meets(token, needs):
            return None
        if not needs:
            return "-"
        found = ((one, self.granting(token, one.number, one.path, one.bit)) for one in needs[-1])
        one, decider = next((one, decider) for one, decider in found if decider is not None)
        return f"{'parent:' if one.number != number else ''}{decider}"

    def called(self, party: Party) -> str:
        return "-" if party.number is None else self.names[party.number].decode()

    def who_lines(self, text: str, number: int) -> str:
        """What `who` prints."""
        made = ""
        for party in self.parties():
            token = self.token_for(party)
            word = "none" if token is None else self.says(token, text, number)
            made += f"{word} {text_of_sid(party.sid)} {self.called(party)}\n" if word is not None else ""
        return made

    def can_lines(self, party: Party, text: str, base: Optional[int] = None) -> str:
        """What `can` prints of an identity, of an object and all below it, or of all objects."""
        token = self.token_for(party)
        some = [one for one in sorted(self.objects) if base is None or base in self.and_above(one)]
        words = ((self.says(token, text, one), one) for one in some if token is not None)
        return "".join(f"{word} {self.names[one].decode()}\n" for word, one in words if word is not None)

    def granted(self, text: str) -> Dict[str, FrozenSet[str]]:
        """What `rights` tells of all objects: the identifiers of those who have it, by the object's name."""
        made: Dict[str, FrozenSet[str]] = {}
        tokens = [(party, self.token_for(party)) for party in self.parties()]
        for number in self.objects:
            found = frozenset(text_of_sid(party.sid) for party, token in tokens
                              if token is not None and self.says(token, text, number) is not None)
            if found:
                made[self.names[number].decode()] = found
        return made

    def told(self, text: str, number: int, tokens: List[Tuple[Party, Token]], apart: bool) -> FrozenSet[int]:
        """The places of those who are told yes on an object, or would be if no object had an identifier."""
        self.apart = apart
        made = frozenset(place for place, (_, token) in enumerate(tokens) if self.says(token, text, number) is not None)
        self.apart = False
        return made

    def rights_lines(self, text: str, base: Optional[int] = None) -> str:
        """What `rights` prints of an object and all below it, or of all objects."""
        held = [(party, self.token_for(party)) for party in self.parties()]
        tokens = [(party, token) for party, token in held if token is not None]
        called = [f"{text_of_sid(party.sid)} {self.called(party)}\n" for party, _ in tokens]
        made = "".join(f"none {text_of_sid(party.sid)} {self.called(party)}\n" for party, token in held if token is None)
        sets: Dict[FrozenSet[int], int] = {}
        for number in sorted(one for one in self.objects if base is None or base in self.and_above(one)):
            others, whole = (self.told(text, number, tokens, apart) for apart in (True, False))
            itself = frozenset(place for place, (party, _) in enumerate(tokens) if party.number == number)
            by_others = others ^ whole <= itself
            told = others if by_others else whole
            if whole and told not in sets:
                sets[told] = len(sets) + 1
                made += "".join(f"in {sets[told]} {called[place]}" for place in sorted(told))
            if whole:
                sign = "" if told == whole else "+ " if itself <= whole else "- "
                made += f"on {sets[told]} {sign}{self.names[number].decode()}\n"
        return made


def read_rights(said: str, own: Dict[str, str]) -> Tuple[Dict[str, FrozenSet[str]], List[str]]:
    """The lines of `rights`: who has it on each object, and who has no token. `own` has objects' own identifiers, by
    name, which `+` adds to a set and `-` takes from it."""
    sets: Dict[str, Set[str]] = {}
    made: Dict[str, FrozenSet[str]] = {}
    without: List[str] = []
    for line in said.splitlines():
        word, number, rest = line.split(" ", 2)
        if word == "none":
            without.append(number)
        elif word == "in":
            sets.setdefault(number, set()).add(rest.split(" ", 1)[0])
        else:
            sign, name = (rest[0], rest[2:]) if rest[:2] in ("+ ", "- ") else ("", rest)
            itself = {own[name]} if sign else set()
            found = sets.get(number, set())
            made[name] = frozenset(found | itself if sign == "+" else found - itself)
    return {name: sids for name, sids in made.items() if sids}, without
