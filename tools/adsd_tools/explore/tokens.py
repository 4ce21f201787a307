"""The accounts of a store and their tokens: those that the bridge `adsd-ldap` gives them, by the directory's groups."""

from functools import cached_property

from adsd_tools.forms.sids import sid_of_text
from adsd_tools.ldap import accounts as bridge

# What isn't an account though it has an identifier.
NO_ACCOUNTS = {"group", "domaindns", "domain", "builtindomain"}
# How the identifiers of somebody go on behind their number of parts: S-1-5-21.
OF_A_DOMAIN = bytes([0, 0, 0, 0, 0, 5, 21, 0, 0, 0])
SYSTEM, ADMINISTRATORS = sid_of_text("S-1-5-18"), bridge.ADMINISTRATORS
AUTHENTICATED, USERS = sid_of_text("S-1-5-11"), 513
# Who makes changes, where nobody else is named.
OPERATOR_PRIVILEGES = 7


class Token:
    """A token's bytes, and the identifiers that it holds."""

    def __init__(self, data, sid):
        self.data, self.sid, self.privileges = data, sid, data[1]
        self.held = frozenset([sid, *groups_of(data)])


def users_of(world):
    """The identifier of the domain's group of users, or None where the domain has none."""
    return bridge.below(world.own_sid(1), USERS) if world.own(1) else None


def size_at(data, at):
    return 8 + 4 * data[at + 1]


def groups_of(data):
    """The identifiers of the enabled groups of a token's bytes."""
    at, made = 2, []
    for _ in range(3):
        at += size_at(data, at)
    count, at = int.from_bytes(data[at : at + 2], "big"), at + 2
    for _ in range(count):
        size = size_at(data, at + 1)
        made.append(data[at + 1 : at + 1 + size])
        at += 1 + size
    return made


class OfRows(bridge.Accounts):
    """The bridge's computation of a token, over what was read of the rows in place of searches."""

    def __init__(self, world, memberships):
        super().__init__(None, b"")
        self.domain, self.memberships = world.own_sid(1), memberships

    async def above(self, sids):
        found = set()
        for sid in sids:
            found |= self.memberships.groups_of.get(sid, set())
        return found

    def made(self, sid, primary):
        """The token of an account, by the bridge's words for one."""
        asked = self.token(bridge.Account(b"", sid, "", "", primary, 0, 0))
        try:
            asked.send(None)
        except StopIteration as done:
            return done.value
        raise RuntimeError("the bridge waits for something")


class Memberships:
    """Who is in which group: of each identifier those of the security groups that have it as a member."""

    def __init__(self, world):
        self.world, self.groups_of, self.members = world, {}, {}
        for number in world.objects:
            links, sid = world.values(number, "member"), world.own(number)
            if not links or not sid or not self.is_security(number):
                continue
            for link in links:
                member = int.from_bytes(link, "big")
                own = world.own(member) if member in world.objects else b""
                if own:
                    self.groups_of.setdefault(own, set()).add(sid)
                    self.members.setdefault(sid, []).append(own)

    def is_security(self, number):
        kind = bridge.number_of(self.world.values(number, "groupType"), bridge.SECURITY)
        return bool(kind & bridge.SECURITY)


def bits_of(places):
    """The bits of some places."""
    row = bytearray(max(places, default=0) // 8 + 1)
    for place in places:
        row[place >> 3] |= 1 << (place & 7)
    return int.from_bytes(row, "little")


class Accounts:
    """All accounts by rising number of their objects, and of each identifier a mask of the accounts that hold it."""

    def __init__(self, world):
        self.world, self.memberships = world, Memberships(world)
        self.maker, self.kinds = OfRows(world, self.memberships), {}
        self.numbers = [number for number in world.objects if self.is_account(number)]
        self.sids = [world.own(number) for number in self.numbers]
        self.place = {sid: place for place, sid in enumerate(self.sids)}
        self.known = {}

    def is_account(self, number):
        sid = self.world.own(number)
        if sid[2:12] != OF_A_DOMAIN:
            return False
        return not self.kinds_of(self.world.objects[number].of_class) & NO_ACCOUNTS

    def kinds_of(self, of_class):
        if of_class not in self.kinds:
            names = self.world.schema.class_names
            self.kinds[of_class] = {names[one].lower() for one in self.world.schema.chain(of_class)}
        return self.kinds[of_class]

    def primary(self, sid):
        """The primaryGroupID of the object of an identifier, or None."""
        number = self.world.who.of_sid.get(sid)
        return None if number is None else bridge.number_of(self.world.values(number, "primaryGroupID"))

    def token(self, sid):
        """The token of whoever has an identifier; of a group, of somebody who is in it and in no other."""
        sid = bytes(sid)
        if sid not in self.known:
            self.known[sid] = Token(self.maker.made(sid, self.primary(sid)), sid)
        return self.known[sid]

    def at(self, place):
        return self.token(self.sids[place])

    @cached_property
    def holders(self):
        """Of each identifier the accounts whose tokens hold it, as bits by their places."""
        bits = {}
        for place in range(len(self.sids)):
            for sid in self.at(place).held:
                bits.setdefault(sid, []).append(place)
        return {sid: bits_of(places) for sid, places in bits.items()}

    @cached_property
    def everyone(self):
        return (1 << len(self.sids)) - 1

    def places_of(self, mask):
        """The places of the accounts of some bits."""
        made, data = [], mask.to_bytes(mask.bit_length() // 8 + 1, "little")
        for at, byte in enumerate(data):
            while byte:
                low = byte & -byte
                made.append(8 * at + low.bit_length() - 1)
                byte ^= low
        return made

    def chain(self, sid, target):
        """How whoever has an identifier comes to hold another one: the steps from group to group, each the identifier
        and the word for the step; None where it doesn't."""
        primary = self.primary(sid)
        first = [(one, "member") for one in self.memberships.groups_of.get(sid, ())]
        of_domain = bridge.below(self.maker.domain, primary) if self.maker.is_primary(primary) else None
        first += [(of_domain or bridge.USERS, "primary")] + [(one, "everyone") for one in bridge.EVERYBODY]
        before, todo = {sid: None}, [sid]
        while todo:
            one = todo.pop(0)
            if one == target:
                return self.way(before, one)
            further = first if one == sid else [(up, "member") for up in self.memberships.groups_of.get(one, ())]
            for up, how in sorted(further, key=lambda pair: pair[1] == "everyone"):
                if up not in before:
                    before[up] = one, how
                    todo.append(up)
        return None

    def way(self, before, one):
        made = []
        while before[one] is not None:
            below, how = before[one]
            made.append((one, how))
            one = below
        return made[::-1]


def operator():
    """The token of whoever makes the changes of a what-if: the system and the administrators, with all privileges."""
    groups = [ADMINISTRATORS, *bridge.EVERYBODY]
    made = bytearray(bridge.token_of(SYSTEM, SYSTEM, {SYSTEM, *groups}))
    made[1] = OPERATOR_PRIVILEGES
    return Token(bytes(made), SYSTEM)
