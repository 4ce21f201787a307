"""What the page is told of objects and principals, as JSON."""

from adsd_tools.forms.rights import RIGHTS
from adsd_tools.forms.sids import text_of_guid
from adsd_tools.report.harms import HARMS, RANK, harm_of
from adsd_tools.report.names import CODES

from .answers import RANK_BIT, SELF
from .describing import Describing
from .questions import WHOLE, codes
from .texts import told
from .trying import Wrong

MOST_CHILDREN, MOST_NAMES, MOST_ROWS, MOST_ACCOUNTS = 200, 6, 12, 50
# Members of a group that isn't protected are the same rights as those of one that is.
KEYS = {"groups": "members"}
ON = {"object": "the object as a whole", "attribute": "attribute", "set": "property set", "right": "extended right",
      "validated": "validated write", "child": "children of class"}


class NotThere(Exception):
    """A word of a request that names nothing."""


def on_words(question):
    return ON[question.kind] + (f" {told(question.name, 200)}" if question.name else "")


class Views:
    """Answers about one moment."""

    def __init__(self, world, answers, protected):
        self.world, self.answers, self.protected = world, answers, protected
        self.describing, self.accounts = Describing(world), world.accounts

    # ---- objects

    def brief(self, number, moment):
        """An object as the tree has it."""
        made = {"n": number, "name": self.world.first_part(number), "class": self.world.class_name(number),
                "many": len(self.world.children[number])}
        marks = [word for word, has in (("protected", number in self.protected), ("stale", number in moment.stale),
                                        ("pending", number in moment.places)) if has]
        return {**made, "marks": marks} if marks else made

    def children(self, number, after, moment):
        """Some of the objects below one, and how many further ones there are."""
        below = self.world.children[number]
        shown = below[after : after + MOST_CHILDREN]
        return {"below": [self.brief(one, moment) for one in shown], "more": max(0, len(below) - after - len(shown))}

    def whole(self, number, moment):
        """Everything that is told of an object."""
        made = self.brief(number, moment)
        made.update(self.describing.descriptor(number, moment))
        made.update(dn=self.world.dn(number), sid=self.sid_of(number), dangers=self.dangers(number, moment),
                    above=[self.brief(one, moment) for one in self.world.above(number)],
                    members=self.members(number), account=self.world.own(number) in self.accounts.place)
        if number in moment.places:
            made["place"], made["left"] = moment.places[number]
        return made

    def sid_of(self, number):
        own = self.world.own(number)
        return self.world.principal(own)["sid"] if own else None

    def members(self, number):
        found = self.world.who.direct(number) if self.world.own(number) else set()
        return {"count": len(found), "first": [self.brief_name(one) for one in sorted(found)[:MOST_ACCOUNTS]]}

    def brief_name(self, number):
        return {"n": number, "name": self.world.label(number), "sid": self.sid_of(number)}

    def dangers(self, number, moment):
        """Which dangerous rights there are on an object, the worst first, with how many accounts have each."""
        on, found, asked = self.answers.object(number, moment), {}, {}
        for mask, token in self.answers.split(on, self.accounts):
            ranks = self.answers.ranks(on, token, number in self.protected)
            for place in range(len(HARMS)):
                if ranks >> place & 1:
                    found[place] = found.get(place, 0) | mask
                    rights = self.answers.dangers(on, token).get(KEYS.get(HARMS[place].key, HARMS[place].key), [])
                    asked.setdefault(place, {}).update((self.asked_by(place, *one), None) for one in rights)
        return [{**self.rank(place), "count": count_of(mask), "first": self.few(mask),
                 "rights": [[kind, told(name), code] for kind, name, code in asked[place]]} for place, mask in sorted(found.items())]

    def asked_by(self, place, question, bits):
        """The words by which a dangerous right is asked for."""
        code = "all" if HARMS[place].key == "all" else codes(bits & ~RIGHTS["CR"] if question.kind == "attribute" and
                                                             bits & ~RIGHTS["CR"] else bits)[0]
        return question.kind, question.name, code

    def rank(self, place):
        harm = HARMS[place]
        return {"rank": place, "key": harm.key, "title": harm.title, "means": harm.means}

    def few(self, mask, most=MOST_NAMES):
        """The first accounts of some bits, the lowest ones."""
        made = []
        while mask and len(made) < most:
            low = mask & -mask
            made.append(self.world.principal(self.accounts.sids[low.bit_length() - 1]))
            mask ^= low
        return made

    # ---- who can

    def askable(self, of_class):
        """What may be asked of an object of a class: first the dangerous rights, then all, as kind, name and code."""
        of = self.answers.questions.of(of_class)
        ranks = {}
        for question, _, word in of.dangers:
            for code in codes(question.bits):
                if RANK_BIT.get(word) and self.is_danger(question, code, word):
                    ranks[(question.kind, question.name, code)] = RANK[word]
        rights = [((question.kind, question.name, code), question) for question in of.lines
                  for code in codes(question.bits)]
        first = sorted((one for one in rights if one[0] in ranks), key=lambda one: ranks[one[0]])
        return {"class": told(self.world.schema.class_names[of_class]),
                "first": [self.said(right, question, ranks) for right, question in first],
                "all": [self.said(right, question, {}) for right, question in rights]}

    def classes(self):
        """The structural classes, with their GUIDs."""
        schema = self.world.schema
        return [{"name": told(name), "guid": text_of_guid(schema.class_guid(place))}
                for place, name in enumerate(schema.class_names)
                if schema.classes[place].number("objectClassCategory") in (0, 1)]

    def is_danger(self, question, code, word):
        return harm_of((question.kind, question.name, code), self.world.schema) == word

    def said(self, right, question, ranks):
        kind, name, code = right
        place = ranks.get(right)
        called = told(name, 200)
        words = f"{CODES[code]}: {ON[kind]}" + (f" {called}" if name else "")
        if place is not None:
            words = f"{HARMS[place].title}" + (f": {called}" if name and kind != "right" else "")
        return {"right": [kind, told(name), code], "words": words,
                "guid": text_of_guid(question.path[-16:]) if question.path else ""}

    def question(self, number, kind, name, code):
        of = self.answers.questions.of(self.world.objects[number].of_class)
        found = only([(one.name, one) for one in of.lines if one.kind == kind and told(one.name) == name],
                     "the object's class has no such right")
        bits = WHOLE if (kind, code) == ("object", "all") else RIGHTS.get(code, 0)
        if not found.bits & bits:
            raise NotThere("the object's class has no such right")
        if kind == "attribute" and code == "RP" and self.world.schema.reads_by_control(found.name):
            bits |= RIGHTS["CR"]
        return found, bits

    def class_called(self, name):
        """The place of the class that is called so."""
        names = enumerate(self.world.schema.class_names)
        return only([(one, place) for place, one in names if told(one).lower() == name.lower()], "no such class")

    def path_of(self, number, question):
        """The path on which a right is explained; of a property set that of its first attribute."""
        if question.kind != "set" or not question.leaves:
            return question.path
        of = self.answers.questions.of(self.world.objects[number].of_class)
        return next(one.path for one in of.lines if one.kind == "attribute" and one.leaves[0] == question.leaves[0])

    def who(self, number, right, moment, after=0):
        """Who has a right on an object: by the entry that decides, with the groups that lead to it."""
        question, bits = self.question(number, *right)
        on, path, found = self.answers.object(number, moment), self.path_of(number, question), {}
        for mask, token in self.answers.who(on, self.accounts, question, bits):
            by = tuple(dict.fromkeys(self.answers.why(on, token, path, bit).by for bit in each(bits)))
            found[by] = found.get(by, 0) | mask
        groups = [self.group(on, by, mask, after) for by, mask in sorted(found.items(), key=most_first)]
        return {"n": number, "name": self.world.label(number), "on": on_words(question), "right": list(right),
                "both": len(list(each(bits))) > 1, "count": sum(map(count_of, found.values())), "groups": groups,
                "others": self.others(on, question, bits, path)}

    def group(self, on, by, mask, after):
        """The accounts to whom the same entries give something, and how they come to hold their identifiers."""
        entries = self.world.known.list_of(on.normal)
        made = {"by": [self.deciding(on, one) for one in by], "count": count_of(mask), "accounts": []}
        named = [entries[one].sid for one in by if isinstance(one, int)]
        for place in self.accounts.places_of(mask)[after : after + MOST_ACCOUNTS]:
            sid = self.accounts.sids[place]
            chains = [self.chain(on, sid, target) for target in named] if named else [self.owner_chain(on, sid)]
            made["accounts"].append({**self.world.principal(sid), "chains": chains})
        return made

    def deciding(self, on, by):
        """What decides, in words; the place of an entry with what it says."""
        if not isinstance(by, int):
            return {"word": by or "nothing"}
        one = self.world.known.list_of(on.normal)[by]
        return self.describing.entry(by, one, self.describing.lists.dacl(on.normal)[by])

    def chain(self, on, sid, target):
        if target == SELF:
            target = on.own
        steps = self.accounts.chain(sid, target) or []
        return [{**self.world.principal(one), "how": how} for one, how in steps]

    def owner_chain(self, on, sid):
        return self.chain(on, sid, self.world.known.of(on.normal).owner)

    def others(self, on, question, bits, path):
        """The identifiers of the list that no account here holds, and that have the right by themselves."""
        made = []
        for sid in sorted(self.answers.named(on.normal)[0] - self.accounts.holders.keys()):
            token = self.accounts.token(sid)
            if not self.answers.has(on, token, question, bits):
                continue
            by = [self.answers.why(on, token, path, bit).by for bit in each(bits)]
            entries = self.world.known.list_of(on.normal)
            if any(one == "owner" or isinstance(one, int) and entries[one].sid == sid for one in by):
                made.append(self.world.principal(sid))
        return made


def only(pairs, why):
    """What has a name, of pairs of names that are told alike: none answers a question that may be about another."""
    if not pairs:
        raise NotThere(why)
    if len({name for name, _ in pairs}) > 1:
        raise Wrong("several classes, attributes or rights of the schema have the same name")
    return pairs[0][1]


def each(bits):
    while bits:
        yield bits & -bits
        bits &= bits - 1


def count_of(mask):
    return bin(mask).count("1")


def most_first(item):
    """The order of pairs of what decides and the accounts: by how many these are, then by the places of entries."""
    by, mask = item
    return -count_of(mask), [one if isinstance(one, int) else -1 for one in by]
