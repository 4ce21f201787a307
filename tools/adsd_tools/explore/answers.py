"""The one seam where rights are asked: every answer is made of calls of the proved library on a descriptor as it stands
in the store, or as the program made it of a copy, for a token as the bridge makes it of the directory.

Tokens that hold the same of the identifiers that a list names are granted the same of it, so the library is asked for
one of them: the test asks it for each, and compares."""

from dataclasses import dataclass

from adsd_tools.forms.sids import sid_of_text
from adsd_tools.report import deciding
from adsd_tools.report.harms import HARMS, RANK

from .questions import CODES, OF_ATTRIBUTE, WHOLE, Questions, triples

SELF = sid_of_text("S-1-5-10")
# By these a token has more than its list gives; who holds them has other privileges.
ADMINISTRATORS = sid_of_text("S-1-5-32-544")
RANK_BIT = {harm.key: 1 << place for place, harm in enumerate(HARMS)}
MEMBERS, GROUPS = RANK_BIT["members"], RANK_BIT["groups"]


@dataclass(frozen=True)
class Object:
    """What a check looks at on an object: its class, its descriptor in normal bytes, and its own identifier."""

    of_class: int
    normal: bytes
    own: bytes


class Answers:
    """Asks the library, and keeps what it said."""

    def __init__(self, world, calls):
        self.world, self.calls, self.questions = world, calls, Questions(world.schema, calls)
        self.full, self.harm, self.named_in, self.fronts = {}, {}, {}, {}

    def object(self, number, moment):
        one = self.world.objects[number]
        return Object(one.of_class, moment.normal(number), self.world.own(number))

    def named(self, normal):
        """The identifiers that a descriptor names, its owner among them, and whether the object itself is one."""
        if normal not in self.named_in:
            parts = self.world.known.of(normal)
            sids = {one.sid for one in self.world.known.list_of(normal)} | {parts.owner, ADMINISTRATORS}
            self.named_in[normal] = frozenset(sids), SELF in sids
        return self.named_in[normal]

    def mark(self, on, token):
        """What of a token counts on an object: which of the named identifiers it holds, its privileges, and whether it
        holds the object's own."""
        sids, names_self = self.named(on.normal)
        itself = names_self and bool(on.own) and on.own in token.held
        return sids & token.held, token.privileges, itself, bool(on.own) and names_self

    def rights(self, on, token):
        """All that is granted, as a tuple of pairs: the place of a question of the class, and a mask."""
        key = (on.of_class, on.normal, self.mark(on, token))
        if key not in self.full:
            self.full[key] = self.asked(on, token)
        return self.full[key]

    def asked(self, on, token):
        """Asks every question of the class."""
        of, made = self.questions.of(on.of_class), []
        leaves = self.calls.granted_tree(self.world.sd(on.normal), token.data, on.own, of.nodes, OF_ATTRIBUTE)
        for place, one in enumerate(of.lines):
            if one.leaves:
                mask = one.bits
                for leaf in one.leaves:
                    mask &= leaves[leaf]
            else:
                mask = self.calls.granted(on.normal, token.data, on.own, one.path, one.bits) & one.bits
            if mask:
                made.append((place, mask))
        return tuple(made)

    def lines(self, on, token):
        """The same as `adsd effective` tells it, line by line."""
        of, made = self.questions.of(on.of_class).lines, []
        for place, mask in self.rights(on, token):
            said = "".join(code for code, bit in CODES if mask & bit)
            made.append(" ".join(word for word in (of[place].kind, of[place].name, said) if word))
        return made

    def triples(self, on, token):
        """The same as triples of kind, name and code."""
        of = self.questions.of(on.of_class).lines
        return frozenset(one for place, mask in self.rights(on, token) for one in triples(of[place], mask))

    def granted(self, on, token, path, want):
        return self.calls.granted(on.normal, token.data, on.own, path, want)

    def dangers(self, on, token):
        """The dangerous rights of a token on an object: by the keys of the ranks the questions with their bits."""
        key = (on.of_class, on.normal, self.mark(on, token))
        if key not in self.harm:
            self.harm[key] = self.found_dangers(on, token)
        return self.harm[key]

    def found_dangers(self, on, token):
        of, made = self.questions.of(on.of_class), {}
        whole = self.granted(on, token, b"", WHOLE) & WHOLE
        for one, bits, word in of.dangers:
            got = whole & bits if one.kind == "object" else self.granted(on, token, one.path, bits) & bits
            if got == bits:
                made.setdefault(word, []).append((one, bits))
        if "list" in made and self.world.known.of(on.normal).owner in token.held:
            made["owner"] = made["list"]
        if whole == WHOLE:
            made["all"] = [(of.lines[0], WHOLE)]
        return made

    def ranks(self, on, token, protected):
        """The dangerous rights as bits, by rank."""
        made = 0
        for word in self.dangers(on, token):
            made |= RANK_BIT[word]
        return made ^ MEMBERS | GROUPS if made & MEMBERS and not protected else made

    # ---- why

    def why(self, on, token, path, bit):
        """What decides on one right: found by asking the library for the first entries of the list, one more each time,
        without and with an entry behind them that allows everything."""
        key = (on.normal, path, self.mark(on, token))
        if key not in self.fronts:
            self.fronts[key] = self.asked_fronts(on, token, path)
        return deciding.reason(*self.fronts[key], bit)

    def asked_fronts(self, on, token, path):
        return deciding.fronts(lambda normal: self.calls.granted(normal, token.data, on.own, path, deciding.ALL),
                               self.world.known.of(on.normal), self.world.known.list_of(on.normal), token.sid)

    # ---- who

    def split(self, on, accounts, others=()):
        """The accounts in parts that are granted the same: pairs of bits and one account's token. `others` are further
        objects with the same own identifier, which are to be asked for the same parts."""
        sids, own = set(), False
        for one in (on, *others):
            named, names_self = self.named(one.normal)
            sids |= named
            own = own or names_self
        masks = [accounts.holders[sid] for sid in sids if sid in accounts.holders]
        if own and on.own in accounts.holders:
            masks.append(accounts.holders[on.own])
        parts = [accounts.everyone] if accounts.everyone else []
        for mask in masks:
            parts = [piece for part in parts for piece in (part & mask, part & ~mask) if piece]
        return [(part, accounts.at((part & -part).bit_length() - 1)) for part in parts]

    def who(self, on, accounts, question, bits):
        """Who is granted all of some bits of a question: pairs of the bits of accounts and one's token."""
        return [(part, token) for part, token in self.split(on, accounts)
                if self.has(on, token, question, bits)]

    def has(self, on, token, question, bits):
        """Whether all of some bits of a question are granted."""
        if question.kind == "set" and question.leaves:
            return dict(self.rights(on, token)).get(self.place_of(on, question), 0) & bits == bits
        return self.granted(on, token, question.path, bits) & bits == bits

    def place_of(self, on, question):
        return self.questions.of(on.of_class).lines.index(question)


def worst(ranks):
    """The place of the worst rank of some bits; behind the last where there is none."""
    return (ranks & -ranks).bit_length() - 1 if ranks else len(RANK)
