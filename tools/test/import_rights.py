"""Random lists, and what they grant before an import and after loading: the same, for each token and type."""

import random

from adsd_tools.forms.descriptor import ALLOW, DENY, INHERITED, INHERIT_ONLY, Acl, Descriptor, Entry
from adsd_tools.importing.loading import Loading, plain, proved, whole
from adsd_tools.importing.report import Report
from adsd_tools.importing.rights import Rights, mapped
from adsd_tools.forms.sids import OWNER_RIGHTS, sid_of_text
from adsd_tools.importing.text import Line

HOLDERS = [sid_of_text(f"S-1-5-{number}") for number in ("11", "32-544", "10", "21-1-2-3-1000", "21-1-2-3-1001")]
OTHERS = [sid_of_text(text) for text in ("S-1-3-0", "S-1-3-1", "S-1-3-4")]
TYPES = [None, bytes([1] * 16), bytes([2] * 16)]
CLASSES = [bytes([7] * 16), bytes([8] * 16)]
MASKS = (0x1, 0x2, 0x3, 0x20000, 0x40000, 0x60000, 0x10000000, 0x80000000)
OF_OWNER = 0x60000


class Kept:
    """An object as far as its list is concerned."""

    def __init__(self, key, of_class, is_head):
        self.key, self.of_class, self.is_head = key, of_class, is_head

    def words(self):
        return "an object"


class Classes:
    """A schema whose classes are their GUIDs."""

    def guid(self, of_class):
        return of_class


def entry(chance, inherited):
    flags = chance.choice((0, 2, 2, 2, 10, 6, 14)) | (INHERITED if inherited else 0)
    kind, limit = chance.choice((ALLOW, ALLOW, ALLOW, DENY)), chance.choice([None, None, *CLASSES])
    return Entry(kind, flags, chance.choice(MASKS), chance.choice(TYPES), limit, chance.choice(HOLDERS + OTHERS))


def changed(chance, entries):
    """Entries of which some are gone, some are new, or the order is another."""
    entries = list(entries)
    for _ in range(chance.randint(0, 2)):
        what = chance.random()
        if what < 0.4 and entries:
            entries.pop(chance.randrange(len(entries)))
        elif what < 0.8:
            entries.insert(chance.randint(0, len(entries)), entry(chance, chance.random() < 0.7))
        else:
            chance.shuffle(entries)
    return entries


def granted(entries, owner, holder, of_type):
    """The rights that a list grants a token with these identifiers, for one type of attribute."""
    rights = refused = 0
    telling = [one for one in entries if not one.flags & INHERIT_ONLY]
    for one in telling:
        if one.object in (None, of_type) and (one.sid in holder or (one.sid == OWNER_RIGHTS and owner in holder)):
            if one.kind == ALLOW:
                rights |= mapped(one.mask) & ~refused
            else:
                refused |= mapped(one.mask) & ~rights
    if owner in holder and all(one.sid != OWNER_RIGHTS for one in telling):
        rights |= OF_OWNER
    return rights


def differs(chance):
    """Whether one random list, below one of a parent, grants something else after loading."""
    rights = Rights(Classes(), None, False, Report())
    one = Kept(("child", "parent"), chance.choice(CLASSES), chance.random() < 0.1)
    owner, group = chance.choice(HOLDERS[3:]), chance.choice(HOLDERS[3:])
    parent = [entry(chance, chance.random() < 0.3) for _ in range(chance.randint(0, 4))]
    rights.lists[one.key[1:]] = parent
    own = Acl([entry(chance, False) for _ in range(chance.randint(0, 2))], chance.random() < 0.1)
    before = changed(chance, whole(own, parent, one.of_class, owner, group))
    given = Descriptor(owner, group, Acl(list(before), chance.random() < 0.15), None)
    made = rights.fitted(one, given, Line("test:1", "nTSecurityDescriptor", b""))
    after = rights.whole(one, made, parent)
    tokens = [{sid for place, sid in enumerate(HOLDERS) if number >> place & 1} for number in range(1, 32)]
    return any(granted(before, owner, holder, of_type) != granted(after, owner, holder, of_type)
               for holder in tokens for of_type in TYPES)


def differences(count):
    """How many of so many random lists grant something else after loading."""
    chance = random.Random(1)
    return sum(differs(chance) for _ in range(count))


def unlike_proved(count):
    """How many of so many random lists the proved library makes otherwise than Python; None where it isn't there."""
    calls, chance, found = Loading.library(), random.Random(2), 0
    for _ in range(count if calls else 0):
        given = [Acl([entry(chance, chance.random() < 0.3) for _ in range(chance.randint(0, 3))], chance.random() < 0.1),
                 [entry(chance, chance.random() < 0.3) for _ in range(chance.randint(0, 4))], chance.choice(CLASSES),
                 chance.choice(HOLDERS[3:]), chance.choice(HOLDERS[3:])]
        found += proved(calls, *given) != plain(*given)
    return found if calls else None
