"""Why a right is granted or not, worked out entry by entry, and who else has it: what the answers of the proved library are
compared with in the tests of adsd-report and adsd-explore."""

from dataclasses import dataclass, field
from typing import List, Optional, Tuple

from adsd_tools.forms.descriptor import ALLOW, DENY, INHERIT_ONLY
from adsd_tools.importing.rights import mapped
from adsd_tools.forms.rights import RIGHTS
from adsd_tools.forms.sids import OWNER_RIGHTS, sid_of_text

SELF = sid_of_text("S-1-5-10")
OF_OWNER = RIGHTS["RC"] | RIGHTS["WD"]
TAKE_OWNERSHIP = 2


@dataclass(frozen=True)
class Token:
    """A token as words gave it: bytes of identifiers, and the privileges as a sum."""

    user: bytes
    groups: Tuple[bytes, ...] = ()
    deny: Tuple[bytes, ...] = ()
    restricting: Tuple[bytes, ...] = ()
    privileges: int = 0

    def holders(self):
        """The identifiers of each holder: those by which it is allowed, and those by which it is denied."""
        held = frozenset((self.user, *self.groups))
        made = [(held, held | frozenset(self.deny))]
        return made + ([(frozenset(self.restricting),) * 2] if self.restricting else [])

    def holds(self, sid):
        return sid == self.user or sid in self.groups


@dataclass(frozen=True)
class Why:
    """Whether a right is granted, and by what: for each holder the place of the entry that decides, counted from 1,
    "owner", or None where no entry decides; or the one word "privilege"."""

    granted: bool
    by: Tuple


@dataclass
class Checked:
    """What an access check looks at beside token and path: entries, the owner, and the object's own identifier."""

    entries: List
    owner: bytes
    own: Optional[bytes]
    masks: List[int] = field(default_factory=list)
    sets_owner_rights: bool = False

    def __post_init__(self):
        self.masks = [mapped(entry.mask) for entry in self.entries]
        self.sets_owner_rights = any(entry.sid == OWNER_RIGHTS and not entry.flags & INHERIT_ONLY
                                     for entry in self.entries)

    def whom(self, entry):
        """The identifier that an entry is for on this object; None for the principal itself where there is none."""
        if entry.sid == SELF:
            return self.own
        return self.owner if entry.sid == OWNER_RIGHTS else entry.sid

    def speaks(self, entry, path):
        """Whether an entry speaks of a path, which is a list of GUIDs."""
        return entry.kind in (ALLOW, DENY) and not entry.flags & INHERIT_ONLY and (
            entry.object is None or entry.object in path)

    def matches(self, entry, holder):
        whom = self.whom(entry)
        return whom is not None and whom in holder[1 if entry.kind == DENY else 0]

    def of_holder(self, holder, path, bit):
        """Whether a right is granted to one holder, and by what."""
        if bit & OF_OWNER and self.owner in holder[0] and not self.sets_owner_rights:
            return True, "owner"
        for place, entry in enumerate(self.entries):
            if self.masks[place] & bit and self.speaks(entry, path) and self.matches(entry, holder):
                return entry.kind == ALLOW, place + 1
        return False, None

    def of_token(self, token, path, bit):
        """Whether a right is granted to a token, and why."""
        if bit == RIGHTS["WO"] and token.privileges & TAKE_OWNERSHIP:
            return Why(True, ("privilege",))
        found = [self.of_holder(holder, path, bit) for holder in token.holders()]
        refusing = [by for granted, by in found if not granted]
        return Why(not refusing, tuple(refusing or [by for _, by in found]))

    def others(self, path, bit):
        """Who has a right: for each identifier that the list allows it, the place of the entry, and the identifiers
        that a denial in front of it names, which take the right from who also holds one of them. The object itself
        stays S-1-5-10, and doesn't stand there where it has no identifier. To write the owner, last come those with the
        privilege, with None for an identifier."""
        made, denied, known = [], [], set()
        if bit & OF_OWNER and not self.sets_owner_rights:
            made.append((self.owner, "owner", ()))
            known.add(self.owner)
        for place, entry in enumerate(self.entries):
            whom = self.whom(entry)
            whom = SELF if entry.sid == SELF and whom is not None else whom
            if whom is None or whom in known or not self.masks[place] & bit or not self.speaks(entry, path):
                continue
            known.add(whom)
            if entry.kind == DENY:
                denied.append(whom)
            else:
                made.append((whom, place + 1, tuple(denied)))
        return made + ([(None, "privilege", ())] if bit == RIGHTS["WO"] else [])


def token_of(token):
    """The same of a token of adsd-report."""
    return Token(token.user, token.groups, token.deny, token.restricting, token.privileges)
