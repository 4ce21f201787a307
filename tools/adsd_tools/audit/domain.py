"""What there is in a store: objects, what they are, and the entries of their lists as they stand in the rows."""

from typing import Iterator, Optional

from adsd_tools.forms.descriptor import ALLOW, INHERITED, Descriptor, Entry, Unreadable
from adsd_tools.forms.known import WELL_KNOWN
from adsd_tools.forms.names import NoName, read as name_of
from adsd_tools.forms.sids import below, sid_of_text, text_of_sid
from adsd_tools.importing import sddl
from adsd_tools.rows import store
from adsd_tools.rows.accounts import Accounts
from adsd_tools.shown import BYTES, brief, shown, text_of

ROOT, DISABLED, CONTAINER_INHERIT = 1, 2, 0x02
# A year has so many of the ticks of Windows' times; and after how many days without a logon an account is stale.
TICKS_A_DAY, STALE_DAYS = 864_000_000_000, 180


class Domain:
    """The objects of a store by their numbers."""

    def __init__(self, accounts: Accounts) -> None:
        self.accounts, self.schema, self.objects = accounts, accounts.schema, accounts.directory.objects
        self.names = accounts.names()
        self.by_name = {name.casefold(): number for number, name in self.names.items()}
        self.parsed: dict[bytes, Descriptor] = {}
        self.chains: dict[int, frozenset[str]] = {}
        self.defaults: dict[int, list[Entry]] = {}
        self.domain = accounts.sids.get(ROOT)
        self.children: dict[int, list[int]] = {}
        for number, one in self.objects.items():
            self.children.setdefault(one.parent, []).append(number)
        logons = [one for one in (self.whole(number, "lastLogonTimestamp") for number in accounts.sids) if one]
        self.last_logon = max(logons, default=0)

    # ---- values

    def value(self, number: int, name: str) -> Optional[bytes]:
        return next(iter(self.accounts.values(number, name)), None)

    def whole(self, number: int, name: str) -> Optional[int]:
        """The whole number of an attribute's first value."""
        value = self.value(number, name)
        try:
            return None if value is None else int(value)
        except ValueError:
            return None

    def has_flag(self, number: int, bit: int) -> bool:
        return bool((self.whole(number, "userAccountControl") or 0) & bit)

    def linked(self, number: int, name: str) -> list[int]:
        """The objects that the values of a link name."""
        found = [int.from_bytes(value, "big") for value in self.accounts.values(number, name)]
        return [one for one in found if one in self.objects]

    # ---- what an object is

    def classes(self, number: int) -> frozenset[str]:
        """The names of an object's class and those above it, in lower case."""
        of_class = self.objects[number].of_class
        if of_class not in self.chains:
            names = [self.schema.class_names[one].lower() for one in self.schema.chain(of_class)]
            self.chains[of_class] = frozenset(names)
        return self.chains[of_class]

    def is_a(self, number: int, *names: str) -> bool:
        return any(name in self.classes(number) for name in names)

    def is_account(self, number: int) -> bool:
        """Whether somebody can sign in as it: a user, a computer, a managed account; or somebody of elsewhere."""
        return self.is_a(number, "user", "computer", "foreignsecurityprincipal")

    def is_disabled(self, number: int) -> bool:
        return self.is_a(number, "user") and self.has_flag(number, DISABLED)

    def is_stale(self, number: int) -> bool:
        """Whether the last logon was long before the last one of all."""
        last = self.whole(number, "lastLogonTimestamp")
        return last is not None and self.last_logon - last > STALE_DAYS * TICKS_A_DAY

    def above(self, number: int) -> Iterator[int]:
        """The objects above one, from its parent to the root."""
        parent = self.objects[number].parent
        while parent:
            yield parent
            parent = self.objects[parent].parent

    def found(self, name: str) -> Optional[int]:
        """The number of the object of a name, in whatever spelling; None where nothing has it."""
        number = self.by_name.get(name.casefold())
        if number is not None:
            return number
        try:
            return self.by_name.get(text_of(name_of(name.encode("utf-8", BYTES)).text()).casefold())
        except NoName:
            return None

    # ---- what it is called

    def sid(self, number: int) -> Optional[str]:
        own = self.accounts.sids.get(number)
        return None if own is None else text_of_sid(own)

    def number(self, sid: str) -> Optional[int]:
        return self.accounts.of_sid.get(sid_of_text(sid) or b"")

    def label(self, number: int) -> str:
        """What an object is called: its account, a policy's shown name, else the first part of its name."""
        if self.is_a(number, "grouppolicycontainer"):
            value = self.value(number, "displayName")
            return brief(value, 80) if value else shown(self.accounts.names_of(number)[-1])
        return self.names[number] if number == ROOT else shown(self.accounts.names_of(number)[0])

    def called(self, sid: str) -> str:
        """What an identifier is called; its text where it is nothing else."""
        number = self.number(sid)
        if number is not None and sid not in WELL_KNOWN:
            return self.label(number)
        return self.accounts.name(sid_of_text(sid) or b"") or sid

    def own(self, rid: int) -> str:
        """The identifier of a number below the domain's; the empty text where there is none."""
        made = below(self.domain, rid)
        return text_of_sid(made) if made else ""

    # ---- lists

    def descriptor(self, number: int) -> Descriptor:
        normal = self.objects[number].normal
        if normal not in self.parsed:
            self.parsed[normal] = store.descriptor_of(normal)
        return self.parsed[normal]

    def entries(self, number: int) -> list[Entry]:
        dacl = self.descriptor(number).dacl
        return dacl.entries if dacl else []

    def owner(self, number: int) -> str:
        owner = self.descriptor(number).owner
        return text_of_sid(owner) if owner else ""

    def is_protected(self, number: int) -> bool:
        """Whether an object's list takes nothing from above."""
        dacl = self.descriptor(number).dacl
        return bool(dacl and dacl.protected)

    def source(self, number: int, entry: Entry) -> tuple[int, Entry]:
        """Where an entry stands that an object has: there itself, or at the next object above that hands it down; with
        the entry as it stands there."""
        if not entry.flags & INHERITED:
            return number, entry
        for up in self.above(number):
            for one in self.entries(up):
                if one.flags & CONTAINER_INHERIT and not one.flags & INHERITED and alike(one, entry):
                    return up, one
            if self.is_protected(up):
                break
        return number, entry

    def default(self, number: int) -> list[Entry]:
        """The entries that an object's class gives to a new one."""
        of_class = self.objects[number].of_class
        if of_class not in self.defaults:
            text = self.schema.classes[of_class].text("defaultSecurityDescriptor")
            try:
                made = sddl.read(text, self.domain)[0].dacl if text else None
            except Unreadable:
                made = None
            self.defaults[of_class] = made.entries if made else []
        return self.defaults[of_class]

    def is_default(self, number: int, entry: Entry) -> bool:
        """Whether an entry gives no more than one that the object's class gives to the same."""
        return any(entry.kind == ALLOW and (one.kind, one.sid, one.object, one.inherited) == key(entry)
                   and not entry.mask & ~mapped(one.mask) for one in self.default(number))


def key(entry: Entry) -> tuple[int, bytes, Optional[bytes], Optional[bytes]]:
    return entry.kind, entry.sid, entry.object, entry.inherited


def mapped(mask: int) -> int:
    """The rights of a mask, those of all rights too."""
    return mask | (0xF01FF if mask & 0x10000000 else 0)


def alike(one: Entry, other: Entry) -> bool:
    """Whether two entries say the same, wherever they apply."""
    return key(one) == key(other) and mapped(one.mask) == mapped(other.mask)
