"""The rules of tokens and rights in plain Python, written from docs/profile/principals.md, access.md, who.md, search.md
and changes.md alone, as slow as they read there. For tests: the program is held against it, and it against the program.

Objects, schema and descriptors come of a store's rows. What a program doesn't know yet is switched on by `Rules`."""

import struct
from dataclasses import dataclass
from typing import Dict, FrozenSet, Iterable, Iterator, List, NamedTuple, Optional, Sequence, Set, Tuple

from adsd_tools.forms.descriptor import ALLOW, AUDIT, INHERIT_ONLY, Entry
from adsd_tools.forms.names import NoName, read as read_name
from adsd_tools.forms.rights import RIGHTS
from adsd_tools.forms.sids import below, guid_of_text, known_sid, sid_at, sid_of_text
from adsd_tools.rows import store
from adsd_tools.rows.schema import Schema

EVERYONE, AUTHENTICATED, ANONYMOUS, USERS, ADMINISTRATORS, BUILTIN, SELF, OWNER_RIGHTS = map(known_sid, (
    "S-1-1-0", "S-1-5-11", "S-1-5-7", "S-1-5-32-545", "S-1-5-32-544", "S-1-5-32", "S-1-5-10", "S-1-3-4"))
NO_IDENTITY = {SELF, OWNER_RIGHTS, known_sid("S-1-3-0"), known_sid("S-1-3-1")}
ROOT, MOST_GROUPS = 1, 1024
ASKABLE = ("CC", "DC", "LC", "SW", "RP", "WP", "DT", "LO", "CR", "SD", "RC", "WD", "WO")
AS = 0x01000000
MAPPED = {"GA": 0xF01FF, "GX": 0x20004, "GW": 0x20028, "GR": 0x20094}
PROPERTY_SET, EXTENDED, VALIDATED = 48, 256, 8
NEVER_READ = ("unicodepwd", "ntsecuritydescriptor", "allowedattributeseffective", "allowedchildclasseseffective",
              "sdrightseffective")
RESET, MEMBERSHIP = map(guid_of_text, ("00299570-246d-11d0-a768-00aa006e0529", "bf9679c0-0de6-11d0-a285-00aa003049e2"))
# What decides a right: the place of an entry, or a word; None where nothing does.
Decider = Optional[str]


@dataclass(frozen=True)
class Rules:
    """Which rules are on that came later: sIDHistory in the set, who isn't authenticated and who is a principal; questions
    of intent; identifiers without a principal; all objects at once; and `diff`, and whether it knows these identifiers."""

    principals: bool = False
    intents: bool = False
    identities: bool = False
    rights: bool = False
    diff: bool = False
    diff_identities: bool = False


class Token(NamedTuple):
    """A token without deny-only groups and restricting identifiers."""

    user: bytes
    owner: bytes
    primary: bytes
    groups: Tuple[bytes, ...]
    privileges: int

    def holds(self, sid: bytes) -> bool:
        return sid == self.user or sid in self.groups

    def data(self) -> bytes:
        marked = b"".join(b"\0" + group for group in self.groups)
        head = bytes([2, self.privileges]) + self.user + self.owner + self.primary
        return head + struct.pack(">H", len(self.groups)) + marked + struct.pack(">H", 0)


class TooMany(Exception):
    """A principal with more groups than a token may have."""


class Need(NamedTuple):
    """One alternative of a requirement: a bit on a path of an object."""

    number: int
    bit: int
    path: Tuple[bytes, ...]


def mapped(mask: int) -> int:
    """A mask after generic mapping."""
    made = mask & 0x0FFFFFFF
    for code, rights in MAPPED.items():
        if mask & RIGHTS[code]:
            made |= rights
    return made


class Model:
    """The directory of a store, and what its rules say."""

    def __init__(self, path: str, rules: Rules = Rules()) -> None:
        self.rules, self.directory = rules, store.read(path)
        self.schema = Schema(self.directory.records)
        self.objects = self.directory.objects
        self.names = store.names_of(self.directory, self.schema.naming)
        self.parsed = {one.normal: store.descriptor_of(one.normal) for one in self.objects.values()}
        self.sids: Dict[int, bytes] = {}
        for number in self.objects:
            value = self.first(number, "objectSid")
            sid = sid_at(value, 0, len(value)) if value is not None else None
            if sid is not None and self.is_sid_syntax():
                self.sids[number] = bytes(sid)
        self.tokens: Dict[Tuple[int, Tuple[bytes, ...]], Token] = {}

    # ---- values

    def values(self, number: int, name: str) -> List[bytes]:
        place = self.schema.of_attribute.get(name.lower())
        return [] if place is None else self.objects[number].values.get(place, [])

    def first(self, number: int, name: str) -> Optional[bytes]:
        return next(iter(self.values(number, name)), None)

    def is_sid_syntax(self) -> bool:
        place = self.schema.of_attribute.get("objectsid")
        return place is not None and self.schema.attributes[place].text("attributeSyntax") == "2.5.5.17"

    def is_link(self, name: str) -> bool:
        place = self.schema.of_attribute.get(name)
        return place is not None and self.schema.attributes[place].text("linkID", "1").isdigit() \
            and int(self.schema.attributes[place].text("linkID", "1")) % 2 == 0

    def entries(self, number: int) -> List[Entry]:
        dacl = self.parsed[self.objects[number].normal].dacl
        return dacl.entries if dacl else []

    def owner(self, number: int) -> bytes:
        return self.parsed[self.objects[number].normal].owner or b""

    # ---- principals and tokens

    def counts(self, number: int) -> bool:
        """Whether a group counts for access."""
        value = self.first(number, "groupType")
        if value is None:
            return True
        try:
            return bool(int(value) & 0x80000000)
        except ValueError:
            return False

    def primary(self, number: int) -> bytes:
        value, domain = self.first(number, "primaryGroupID"), self.sids.get(ROOT)
        try:
            rid = int(value) if value is not None else -1
        except ValueError:
            rid = -1
        made = below(domain, rid) if 0 <= rid < 2**32 else None
        return made if made is not None else USERS

    def principals(self) -> List[int]:
        """The principals by rising number."""
        found = sorted(self.sids)
        if self.rules.principals:
            found = [one for one in found if one != ROOT and self.sids[one] != BUILTIN
                     and self.first(one, "isDeleted") != b"TRUE"]
        return found

    def history(self, number: int) -> List[bytes]:
        if not self.rules.principals:
            return []
        found = (sid_at(value, 0, len(value)) for value in self.values(number, "sIDHistory"))
        return [bytes(sid) for sid in found if sid is not None]

    def everybody(self, number: int) -> Set[bytes]:
        """What each token has: everyone, and authenticated users."""
        sid = self.sids[number]
        guests = {ANONYMOUS, EVERYONE} | {made for made in [below(self.sids.get(ROOT), 501)] if made}
        return {EVERYONE} if self.rules.principals and sid in guests else {EVERYONE, AUTHENTICATED}

    def closed(self, user: bytes, first: Set[bytes]) -> Set[bytes]:
        """The least set that has some identifiers, and what the user and each of the set bring: the groups that they are
        in, and what their objects had before."""
        held, size = set(first), -1
        while len(held) > size:
            size = len(held)
            for number, sid in self.sids.items():
                if sid == user or sid in held:
                    held.update(self.history(number))
                members = (int.from_bytes(value, "big") for value in self.values(number, "member"))
                if self.is_link("member") and self.counts(number) and any(
                        self.sids.get(one) == user or self.sids.get(one) in held for one in members):
                    held.add(sid)
        return held

    def token(self, number: int, extra: Sequence[bytes] = ()) -> Token:
        """The token of a principal, with further identifiers."""
        key = number, tuple(extra)
        if key not in self.tokens:
            user, primary = self.sids[number], self.primary(number)
            first = {primary, *extra, *self.everybody(number)}
            held = self.closed(user, first)
            groups = tuple(sorted(held - {user}))
            if len(groups) > MOST_GROUPS:
                raise TooMany
            self.tokens[key] = Token(user, user, primary, groups, 3 if ADMINISTRATORS in held else 0)
        return self.tokens[key]

    # ---- the access check

    def decides(self, token: Token, number: int, path: Sequence[bytes], bit: int) -> Decider:
        """What decides a right of a token on an object and a path."""
        if bit == RIGHTS["WO"] and token.privileges & 2:
            return "privilege"
        entries, owner = self.entries(number), self.owner(number)
        sets_owner = any(one.sid == OWNER_RIGHTS and not one.flags & INHERIT_ONLY for one in entries)
        if bit in (RIGHTS["RC"], RIGHTS["WD"]) and token.holds(owner) and not sets_owner:
            return "owner"
        for place, one in enumerate(entries, 1):
            if self.speaks(one, path) and self.matches(one, token, number) and mapped(one.mask) & bit:
                return str(place)
        return None

    def speaks(self, entry: Entry, path: Sequence[bytes]) -> bool:
        return entry.kind != AUDIT and not entry.flags & INHERIT_ONLY and (entry.object is None or entry.object in path)

    def matches(self, entry: Entry, token: Token, number: int) -> bool:
        if entry.sid == SELF:
            return number in self.sids and token.holds(self.sids[number])
        if entry.sid == OWNER_RIGHTS:
            return token.holds(self.owner(number))
        return token.holds(entry.sid)

    def granting(self, token: Token, number: int, path: Sequence[bytes], bit: int) -> Decider:
        """What grants a right; None where it isn't granted."""
        if bit == AS:
            return "privilege" if token.privileges & 1 else None
        decider = self.decides(token, number, path, bit)
        if decider is None or not decider.isdigit():
            return decider
        return decider if self.entries(number)[int(decider) - 1].kind == ALLOW else None

    # ---- what is asked for

    def path(self, right: str, number: int) -> Optional[Tuple[int, Tuple[bytes, ...]]]:
        """The bit and the path of a text that asks for a right; None where it is no such text."""
        code, colon, name = right.partition(":")
        if code not in ASKABLE:
            return None
        if not colon:
            return RIGHTS[code], ()
        found = self.typed(code, lower(name), number)
        return None if found is None else (RIGHTS[code], found)

    def typed(self, code: str, name: str, number: int) -> Optional[Tuple[bytes, ...]]:
        if code in ("RP", "WP") and name in self.schema.of_attribute:
            return tuple(self.schema.attribute_path(self.objects[number].of_class, name))
        if code in ("CC", "DC") and name in self.schema.of_class:
            return (self.schema.class_guid(self.schema.of_class[name]),)
        if code in ("CR", "SW"):
            wanted = EXTENDED if code == "CR" else VALIDATED
            for one, guid in zip(self.schema.rights, self.schema.right_guids):
                if lower(one.text("cn")) == name and one.number("validAccesses") == wanted and guid is not None:
                    return (guid,)
        return None

    def named(self, text: str) -> Tuple[Optional[int], str]:
        """The object that a text names, or why there is none."""
        try:
            key = read_name(text.encode()).key()
            found = [number for number, name in self.names.items() if read_name(name).key() == key]
            return (found[0], "") if found else (None, "no object")
        except NoName:
            pass
        sid = sid_of_text(text)
        if sid is not None:
            found = [number for number, own in self.sids.items() if own == sid]
            return (found[0], "") if found else (None, "no object")
        for attribute in ("sAMAccountName", "userPrincipalName"):
            values = {number: self.first(number, attribute) for number in self.objects}
            found = [number for number, value in values.items()
                     if value is not None and value.decode().casefold() == text.casefold()]
            if found:
                return (found[0], "") if len(found) == 1 else (None, "several objects")
        return None, "no object"

    def who(self, right: str, number: int) -> List[Tuple[str, bytes, int]]:
        """Who has a right on an object: what grants it, the identifier, the principal."""
        asked = self.path(right, number)
        assert asked is not None
        bit, path = asked
        found = ((self.granting(self.token(one), number, path, bit), self.sids[one], one) for one in self.principals())
        return [(decider, sid, one) for decider, sid, one in found if decider is not None]

    def can(self, principal: int, right: str, base: Optional[int] = None) -> List[Tuple[str, int]]:
        """On which objects a principal has a right, at an object and below it: what grants it, and the object."""
        token, made = self.token(principal), []
        for number in sorted(self.objects):
            asked = self.path(right, number)
            assert asked is not None
            if base is None or base in self.and_above(number):
                decider = self.granting(token, number, asked[1], asked[0])
                made += [(decider, number)] if decider is not None else []
        return made

    def and_above(self, number: int) -> Iterator[int]:
        while number:
            yield number
            number = self.objects[number].parent

    # ---- questions of intent: what a request requires, each by one of its alternatives

    def lists_objects(self) -> bool:
        """Whether list-object mode is on."""
        at: Optional[int] = ROOT
        for part in ("configuration", "services", "windows nt", "directory service"):
            at = next((number for number, one in self.objects.items()
                       if one.parent == at and one.naming.decode().casefold() == part), None)
            if at is None:
                return False
        value = self.first(at or ROOT, "dSHeuristics")
        return value is not None and value.decode()[2:3] == "1"

    def sees(self, number: int) -> List[List[Need]]:
        if number == ROOT:
            return []
        parent, bits = self.objects[number].parent, RIGHTS
        listed = Need(parent, bits["LC"], ())
        if not self.lists_objects():
            return [[listed]]
        return [[listed, Need(parent, bits["LO"], ())], [listed, Need(number, bits["LO"], ())]]

    def requires(self, question: str, number: int) -> Optional[List[List[Need]]]:
        """The requirements of a question of intent on an object; None where it is none."""
        word, _, name = question.partition(":")
        bits, made = RIGHTS, self.sees(number)
        of_class = self.objects[number].of_class
        whole: Dict[str, List[List[Need]]] = {
            "see": [], "dacl": [[Need(number, bits["WD"], ())]], "owner": [[Need(number, bits["WO"], ())]]}
        if word in whole:
            return made + whole[word]
        if word == "delete":
            above = self.objects[number].parent
            either = [Need(number, bits["SD"], ()), Need(above, bits["DC"], (self.schema.class_guid(of_class),))]
            return [[]] if number == ROOT else made + [either]
        if word == "add":
            return made + [[Need(number, bits["CC"], (self.schema.class_guid(self.schema.of_class[lower(name)]),))]]
        wanted = {"write": lower(name), "reset": "unicodepwd", "join": "member"}.get(word)
        if wanted is not None and wanted not in map(lower, self.schema.allowed_names(of_class)):
            return [[]]
        if word in ("read", "write"):
            path = tuple(self.schema.attribute_path(of_class, lower(name)))
            if word == "write":
                return made + [[Need(number, bits["WP"], path)]]
            if lower(name) in NEVER_READ:
                return [[]]
            secret = [[Need(number, bits["CR"], path)]] if self.schema.is_confidential(lower(name)) else []
            return made + [[Need(number, bits["RP"], path)]] + secret
        if word == "reset":
            return made + [[Need(number, bits["CR"], (RESET or b"",))]]
        if word == "join":
            path = tuple(self.schema.attribute_path(of_class, "member"))
            return made + [[Need(number, bits["WP"], path), Need(number, bits["SW"], (MEMBERSHIP or b"",))]]
        return None

    def meets(self, token: Token, needs: Iterable[Iterable[Need]]) -> bool:
        return all(any(self.granting(token, one.number, one.path, one.bit) is not None for one in some)
                   for some in needs)

    def identities(self) -> FrozenSet[bytes]:
        """The identifiers of principals, and of those that stand in a list or own something."""
        named = {one.sid for number in self.objects for one in self.entries(number) if one.kind != AUDIT}
        owners = {self.owner(number) for number in self.objects}
        return frozenset({self.sids[one] for one in self.principals()} | ((named | owners) - NO_IDENTITY)
                         | {ANONYMOUS, EVERYONE, AUTHENTICATED})


def lower(text: str) -> str:
    """A text in lower case, of ASCII alone."""
    return "".join(chr(ord(one) + 32) if "A" <= one <= "Z" else one for one in text)
