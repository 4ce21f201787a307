"""What decides on a right: found by asking the proved library for the first entries of a list, one more each time. Where
the answer changes, the entry that came last decides. No rule of access stands here."""

from dataclasses import dataclass
from typing import Callable, Dict, List, Optional, Sequence, Tuple, Union

from adsd_tools.ask import words
from adsd_tools.forms.descriptor import ALLOW, DENY
from adsd_tools.forms.rights import RIGHTS
from adsd_tools.forms.sids import OWNER_RIGHTS, known_sid, text_of_sid

from . import normals
from .library import Calls
from .tokens import Token

# What decides: the place of an entry, or a word; and what a list grants, by how many of its first entries.
By = Union[int, str, None]
Fronts = Tuple[List[int], List[int]]
# Who has a right: an identifier, what decides, and whom a denial before it names.
Other = Tuple[Optional[bytes], By, Tuple[bytes, ...]]
SELF = known_sid("S-1-5-10")
ALL = 0x0FFFFFFF


@dataclass(frozen=True)
class Reason:
    """Whether a right is granted, and by what: the place of an entry from 0 on, "owner", "privilege", or None."""

    granted: bool
    by: By


@dataclass(frozen=True)
class Why:
    """The same for each holder of a token: the place of the entry that decides, counted from 1, "owner", or None where no
    entry decides; or the one word "privilege"."""

    granted: bool
    by: Tuple[By, ...]


def marker(aces: Sequence[normals.Ace]) -> Tuple[bytes, ...]:
    """What stands after the first entries of a list where some entry is for owner rights: one for them without rights,
    so that an owner has of the first entries what they have of all."""
    return tuple(normals.entry(0, OWNER_RIGHTS) for ace in aces if ace.sid == OWNER_RIGHTS and not ace.is_inherit_only)[:1]


def fronts(granted: Callable[[bytes], int], parts: normals.Parts, aces: Sequence[normals.Ace], sid: bytes) -> Fronts:
    """The rights that the first entries grant, from none to all of them; and those that they leave to an entry after them
    that allows the identifier everything. `granted` asks the library for a descriptor in normal bytes."""
    last, probe = marker(aces), (normals.entry(normals.ALLOW_ALL, sid),)
    has: List[int] = []
    may: List[int] = []
    for count in range(len(parts.dacl) + 1):
        first = parts.dacl[:count]
        has.append(granted(parts.normal(first + last)))
        may.append(granted(parts.normal(first + probe + last)))
    return has, may


def reason(has: Sequence[int], may: Sequence[int], bit: int) -> Reason:
    """What decides on one right."""
    if has[-1] & bit:
        lacking = [place for place, mask in enumerate(has) if not mask & bit]
        return Reason(True, lacking[-1] if lacking else "privilege" if bit == RIGHTS["WO"] else "owner")
    denying = [place for place in range(1, len(may)) if may[place - 1] & bit and not may[place] & bit]
    return Reason(False, denying[0] - 1 if denying else None)


class Deciding:
    """Asks about descriptors in normal bytes, and keeps what was said."""

    def __init__(self, calls: Calls) -> None:
        self.calls, self.known = calls, normals.Known()
        self.kept: Dict[Tuple[bytes, Optional[bytes], Tuple[bytes, bytes], bytes], Fronts] = {}
        self.alone: Dict[Tuple[bytes, Optional[bytes], bytes, bytes], Fronts] = {}
        self.held: Dict[Tuple[bytes, Optional[bytes], Tuple[bytes, bytes], bytes, bool], bool] = {}

    def path_in(self, normal: bytes, path: Sequence[bytes]) -> bytes:
        """Of a path what the list names: what else stands on it the list says nothing of."""
        named = {ace.object for ace in self.known.list_of(normal)}
        return b"".join(guid for guid in path if guid in named)

    def of_holder(self, normal: bytes, own: Optional[bytes], holder: Tuple[bytes, bytes], path: Sequence[bytes],
                  bit: int) -> Reason:
        """What decides for one holder: a pair of the identifier of its user, and a token's bytes."""
        key = normal, own, holder, self.path_in(normal, path)
        if key not in self.kept:
            sid, data = holder
            self.kept[key] = fronts(lambda one: self.calls.granted(one, data, own or b"", key[3], ALL),
                                    self.known.of(normal), self.known.list_of(normal), sid)
        return reason(*self.kept[key], bit)

    def of_one(self, normal: bytes, own: Optional[bytes], sid: bytes, path: Sequence[bytes], bit: int) -> Reason:
        """What decides for somebody with this identifier and no other, by the entries that name it."""
        parts, aces, key = self.known.of(normal), self.known.list_of(normal), (normal, own, sid, self.path_in(normal, path))
        places = [place for place, ace in enumerate(aces) if self.whom(ace, parts.owner, own) == sid]
        if key not in self.alone:
            data, of_it = words.token(text_of_sid(sid)), parts.only(places)
            self.alone[key] = fronts(lambda one: self.calls.granted(one, data, own or b"", key[3], ALL), of_it, aces, sid)
        found = reason(*self.alone[key], bit)
        return Reason(found.granted, places[found.by]) if isinstance(found.by, int) else found

    def counts(self, normal: bytes, own: Optional[bytes], holder: Tuple[bytes, bytes], ace: normals.Ace) -> bool:
        """Whether an entry for everything in the place of another counts for a holder. Reading properties is asked for,
        which nobody has without an entry."""
        key = normal, own, holder, ace.sid, ace.is_denial
        if key not in self.held:
            sid, data = holder
            one = normals.entry(normals.ALLOW_ALL, ace.sid, DENY if ace.is_denial else ALLOW)
            probe = self.known.of(normal).normal((one, normals.entry(normals.ALLOW_ALL, sid)) if ace.is_denial else (one,))
            self.held[key] = bool(self.calls.granted(probe, data, own or b"", b"", RIGHTS["RP"])) != ace.is_denial
        return self.held[key]

    @staticmethod
    def whom(ace: normals.Ace, owner: bytes, own: Optional[bytes]) -> Optional[bytes]:
        """The identifier that an entry is for; None for the object itself where it has none."""
        return own if ace.sid == SELF else owner if ace.sid == OWNER_RIGHTS else ace.sid


class Checked:
    """What decides on the rights on one object: its descriptor in normal bytes, and its own identifier or None."""

    def __init__(self, deciding: Deciding, normal: bytes, own: Optional[bytes]) -> None:
        self.deciding, self.normal, self.own = deciding, normal, own
        self.owner = deciding.known.of(normal).owner

    def of_token(self, token: Token, path: Sequence[bytes], bit: int) -> Why:
        """Whether a right is granted to a token, and why."""
        found = [self.deciding.of_holder(self.normal, self.own, holder, path, bit) for holder in token.holders]
        refusing = [one for one in found if not one.granted]
        by: Tuple[By, ...] = tuple(one.by + 1 if isinstance(one.by, int) else one.by for one in refusing or found)
        return Why(not refusing, ("privilege",) if "privilege" in by else by)

    def held(self, place: int, token: Token) -> List[bool]:
        """For each holder of a token whether it holds whom an entry is for: by the library's answer to a list with an entry
        for the same alone, which allows one right or denies it. It counts where the right comes or goes."""
        ace = self.deciding.known.list_of(self.normal)[place]
        return [self.deciding.counts(self.normal, self.own, holder, ace) for holder in token.holders]

    def others(self, path: Sequence[bytes], bit: int) -> List[Other]:
        """Who has a right: for each identifier that the list allows it, the place of the entry, and the identifiers
        that a denial before it names, which take the right from who also holds one of them. The object itself
        stays S-1-5-10, and doesn't stand there where it has no identifier. To write the owner, last come those with the
        privilege, with None for an identifier."""
        aces = self.deciding.known.list_of(self.normal)
        owned: List[Other] = []
        found: List[Tuple[int, bool, bytes]] = []
        denied: List[bytes] = []
        made: List[Other] = []
        sids = dict.fromkeys([self.owner, *(self.deciding.whom(ace, self.owner, self.own) for ace in aces)])
        for sid in sids:
            if sid is None:
                continue
            one = self.deciding.of_one(self.normal, self.own, sid, path, bit)
            if one.by == "owner":
                owned.append((sid, "owner", ()))
            elif isinstance(one.by, int):
                found.append((one.by, one.granted, SELF if aces[one.by].sid == SELF else sid))
        for place, granted, sid in sorted(found):
            if granted:
                made.append((sid, place + 1, tuple(denied)))
            else:
                denied.append(sid)
        last: List[Other] = [(None, "privilege", ())] if bit == RIGHTS["WO"] else []
        return owned + made + last
