"""Chains of control in plain Python, written from docs/profile/control.md alone: the nodes of a directory, the edges
between them, and how long the shortest chain is. For tests: the program is held against it, and it against the
program."""

import re
from collections import deque
from functools import cached_property
from typing import Deque, Dict, FrozenSet, Iterable, Iterator, List, NamedTuple, Optional, Sequence, Set, Tuple

from adsd_tools.forms.descriptor import ALLOW, AUDIT, INHERIT_ONLY, Descriptor, Unreadable, read
from adsd_tools.forms.names import NoName, read as read_name
from adsd_tools.forms.rights import RIGHTS
from adsd_tools.forms.sids import below, known_sid, text_of_sid

from .kinds import EACH, GROUPS, HOLDER, KINDS, MEMBERS, PARENT, POLICIES, ROOT_ALONE, THE_ROOT, Way
from .later import Later, Party
from .model import OWNER_RIGHTS, ROOT, SELF, Rules, Token, mapped

LINK = re.compile(rb"\[ldap://([^;\]]*);([^\]]*)\]", re.IGNORECASE | re.DOTALL)
DISABLED, ENFORCED = (b"1", b"3"), (b"2", b"3")
# Where protection begins, with the bits of dSHeuristics that take operators out; and who is protected alone.
OPERATORS = {known_sid(f"S-1-5-32-{number}"): bit for bit, number in enumerate((548, 549, 550, 551))}
ALWAYS, OF_DOMAIN, ALONE = [known_sid("S-1-5-32-544"), known_sid("S-1-5-32-552")], (512, 518, 519), (500, 502, 516, 521)


class Arc(NamedTuple):
    """An edge of a kind to an object from the node at a place."""

    kind: str
    begin: int
    end: int


class Chained(Later):
    """The directory of a store, with who can come to control whom."""

    def __init__(self, path: str) -> None:
        super().__init__(path, Rules(True, True, True, True))
        others = [party for party in self.parties() if party.number is None]
        self.nodes = [Party(self.sids.get(number, b""), number) for number in sorted(self.objects)] + others
        self.place = {node.number: place for place, node in enumerate(self.nodes) if node.number is not None}
        known = set(self.principals())
        self.token_at: List[Optional[Token]] = [
            self.token_for(node) if node.number is None or node.number in known else None for node in self.nodes]
        self.held_at = [frozenset([token.user, *token.groups]) if token else frozenset() for token in self.token_at]
        self.apart_told: Dict[Tuple[object, ...], FrozenSet[int]] = {}

    @cached_property
    def holders(self) -> Dict[bytes, Set[int]]:
        """The places of those whose token has an identifier."""
        made: Dict[bytes, Set[int]] = {}
        for place, held in enumerate(self.held_at):
            for sid in held:
                made.setdefault(sid, set()).add(place)
        return made

    # ---- by questions

    def allowed(self, text: str, number: int) -> Set[int]:
        """The places of those who are told yes to a question: whoever has neither the object's own identifier nor its
        parent's is told what others are of objects of the same class and the same lists."""
        one = self.objects[number]
        above = self.objects.get(one.parent)
        both = [number, *([one.parent] if above else [])]
        key = text, one.of_class, one.normal, above.normal if above else b"", number == ROOT
        if key not in self.apart_told:
            self.apart = True
            self.apart_told[key] = frozenset(self.told_of(text, number, range(len(self.nodes)), both))
            self.apart = False
        found = set(self.apart_told[key])
        if any(entry.sid == SELF for some in both for entry in self.entries(some)):
            own = {place for some in both for place in self.holders.get(self.sids.get(some, b""), ())}
            found = found - own | self.told_of(text, number, own, both)
        return found

    def told_of(self, text: str, number: int, places: Iterable[int], both: Sequence[int]) -> Set[int]:
        """The same of some, who are judged alike where they have the same identifiers of those that the lists name."""
        named = {SELF, *(self.owner(some) for some in both), *(self.sids.get(some, b"") for some in both),
                 *(entry.sid for some in both for entry in self.entries(some))}
        needs, said, found = self.needs(text, number), dict[object, bool](), set()
        for place in places:
            token = self.token_at[place]
            if token is None or needs is None:
                continue
            key = self.held_at[place] & named, token.privileges
            if key not in said:
                said[key] = self.meets(token, needs)
            if said[key]:
                found.add(place)
        return found

    def goes(self, way: Way, number: int) -> Set[int]:
        """The places of those for whom a way goes."""
        if way.stored and not any(self.values(number, name) for name in way.stored):
            return set()
        return set.intersection(*(self.allowed(text, number) for text in way.asks))

    # ---- by descriptors that are values

    def named_in(self, name: str, bit: Optional[int], number: int) -> Set[int]:
        """The places of those to whom a descriptor in an attribute grants a right, or any."""
        value = self.first(number, name)
        try:
            sd = read(value)[0] if value is not None else None
        except (Unreadable, IndexError, ValueError):
            sd = None
        if sd is None or sd.owner is None:
            return set()
        bits = [1 << place for place in range(20)] if bit is None else [bit]
        return {place for place, token in enumerate(self.token_at)
                if token is not None and any(self.grants(sd, token, number, one) for one in bits)}

    def grants(self, sd: Descriptor, token: Token, number: int, bit: int) -> bool:
        """Whether a descriptor of no object grants a right to a token, with the object's own identifier for SELF."""
        entries = sd.dacl.entries if sd.dacl else []
        owner = token.holds(sd.owner or b"")
        if bit == RIGHTS["WO"] and token.privileges & 2:
            return True
        if bit in (RIGHTS["RC"], RIGHTS["WD"]) and owner and not any(
                one.sid == OWNER_RIGHTS and not one.flags & INHERIT_ONLY for one in entries):
            return True
        for one in entries:
            is_his = token.holds(self.sids.get(number, b"")) if one.sid == SELF else \
                owner if one.sid == OWNER_RIGHTS else token.holds(one.sid)
            if is_his and one.kind != AUDIT and not one.flags & INHERIT_ONLY and one.object is None \
                    and mapped(one.mask) & bit:
                return one.kind == ALLOW
        return False

    # ---- by the place of objects

    def by_name(self, text: bytes) -> Optional[int]:
        try:
            return self.by_key.get(read_name(text).key())
        except NoName:
            return None

    @cached_property
    def by_key(self) -> Dict[object, int]:
        return {read_name(name).key(): number for number, name in self.names.items()}

    @cached_property
    def holder(self) -> Optional[int]:
        return self.by_name(b"CN=AdminSDHolder,CN=System," + self.names[ROOT])

    @cached_property
    def protected(self) -> Set[int]:
        """The objects that a protection run protects."""
        domain = self.sids.get(ROOT)
        at = self.by_name(b"CN=Directory Service,CN=Windows NT,CN=Services,CN=Configuration," + self.names[ROOT])
        settings = (self.first(at, "dSHeuristics") or b"").decode() if at is not None else ""
        taken = int(settings[15], 16) if re.fullmatch("[0-9A-Fa-f]", settings[15:16]) else 0
        begins = {*ALWAYS, *(sid for sid, bit in OPERATORS.items() if not taken >> bit & 1),
                  *(below(domain, rid) for rid in OF_DOMAIN if domain)}
        found = {number for number, sid in self.sids.items() if sid in begins}
        size = -1
        while len(found) > size:
            size = len(found)
            groups = {self.sids.get(number) for number in found} - {None}
            for number in self.objects:
                rid = self.first(number, "primaryGroupID")
                if rid is not None and domain and rid.isdigit() and below(domain, int(rid)) in groups:
                    found.add(number)
            for group in list(found) if self.is_link("member") else ():
                found.update(int.from_bytes(one, "big") for one in self.values(group, "member"))
        alone = {below(domain, rid) for rid in ALONE} if domain else set()
        return (found | {number for number, sid in self.sids.items() if sid in alone}) & self.objects.keys()

    def policies(self, number: int) -> Iterator[int]:
        """The policies that count for an object."""
        blocked = False
        for container in list(self.and_above(number))[1:]:
            for name, marks in self.links(self.first(container, "gPLink") or b""):
                found = self.by_name(name)
                if found is not None and marks not in DISABLED and (marks in ENFORCED or not blocked):
                    yield found
            options = int(self.first(container, "gPOptions") or b"0")
            blocked = blocked or (options > 0 and options % 2 == 1)

    def links(self, text: bytes) -> Iterator[Tuple[bytes, bytes]]:
        """The pairs of a gPLink's brackets, up to the first that are of another form."""
        while b"[" in text:
            text = text[text.index(b"["):]
            found = LINK.match(text)
            if found is None:
                return
            yield found[1], found[2]
            text = text[found.end():]

    # ---- edges

    def is_of(self, of: str, number: int) -> bool:
        if of in (EACH, ROOT_ALONE):
            return of == EACH or number == ROOT
        if of == GROUPS:
            return number in self.sids and self.counts(number)
        of_class = self.objects[number].of_class
        return of.lower() in map(str.lower, self.schema.allowed_names(of_class))

    def begins(self, kind: str, number: int) -> Set[int]:
        """The places at which an edge begins by what stands where."""
        row, one, found = KINDS[kind], self.objects[number], set[Optional[int]]()
        if row.begins == THE_ROOT:
            found = {ROOT}
        elif row.begins == PARENT and number != ROOT and not self.is_protected(number):
            found = {one.parent}
        elif row.begins == HOLDER and number in self.protected:
            found = {self.holder}
        elif row.begins == POLICIES:
            found = set(self.policies(number))
        elif row.begins == MEMBERS:
            return {place for place in self.holders.get(self.sids[number], ()) if self.is_in(place, self.sids[number])}
        made = {self.place[one] for one in found if one is not None}
        for container in list(self.and_above(number))[1:] if row.above else ():
            made |= self.allowed(row.above, container)
        return made

    def is_in(self, place: int, sid: bytes) -> bool:
        token = self.token_at[place]
        return token is not None and sid in token.groups

    def is_protected(self, number: int) -> bool:
        dacl = self.parsed[self.objects[number].normal].dacl
        return dacl is not None and dacl.protected

    def edges_to(self, number: int) -> Iterator[Arc]:
        for kind, row in KINDS.items():
            if self.is_of(row.of, number):
                found = self.begins(kind, number)
                for way in row.ways:
                    found |= self.goes(way, number)
                for name, bit in row.held:
                    found |= self.named_in(name, bit, number)
                yield from (Arc(kind, place, self.place[number]) for place in sorted(found))

    @cached_property
    def arcs(self) -> List[Arc]:
        return [arc for number in sorted(self.objects) for arc in self.edges_to(number)]

    # ---- chains

    def what(self, arc: Arc) -> str:
        """What decides on the last question of the first way that goes; a hyphen where none does."""
        token, number = self.token_at[arc.begin], self.nodes[arc.end].number
        assert number is not None
        way = next((way for way in KINDS[arc.kind].ways if arc.begin in self.goes(way, number)), None)
        if token is None or way is None:
            return "-"
        return self.says(token, way.asks[-1], number) or "-"

    def least(self, start: int, back: bool) -> Tuple[Dict[int, int], Dict[int, Arc]]:
        """The least lengths of chains to a node, or from it; and a first edge of each, or a last one."""
        near: Dict[int, List[Arc]] = {}
        for arc in self.arcs:
            near.setdefault(arc.begin if back else arc.end, []).append(arc)
        lengths, steps, done = {start: 0}, dict[int, Arc](), set[int]()
        todo: Deque[int] = deque([start])
        while todo:
            place = todo.popleft()
            if place in done:
                continue
            done.add(place)
            for arc in near.get(place, ()):
                other, cost = arc.end if back else arc.begin, int(KINDS[arc.kind].counts)
                if other not in done and lengths[place] + cost < lengths.get(other, len(self.nodes) + 1):
                    lengths[other], steps[other] = lengths[place] + cost, arc
                    (todo.append if cost else todo.appendleft)(other)
        return lengths, steps

    def line_of(self, number: int, place: int) -> str:
        node = self.nodes[place]
        name = self.names[node.number].decode() if node.number is not None else "-"
        return f"object {number} {text_of_sid(node.sid) if node.sid else '-'} {name}\n"

    def lines(self, start: int, back: bool) -> str:
        """The text that tells it, by one choice of steps."""
        lengths, steps = self.least(start, back)
        numbers = {place: number for number, place in enumerate(sorted(lengths), 1)}
        made = [self.line_of(number, place) for place, number in numbers.items()]
        made += [f"step {lengths[place]} {numbers[arc.begin]} {arc.kind} {self.what(arc)} {numbers[arc.end]}\n"
                 for place, arc in sorted(steps.items())]
        return "".join(made)
