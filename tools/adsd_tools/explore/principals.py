"""What somebody may do and where: ranked by harm, with the entry that decides and the chain of groups; and what stands
out in the whole directory."""

from functools import cached_property

from adsd_tools.report.harms import HARMS

from .answers import worst
from .many import many
from .ruling import rulers, ruling
from .texts import told
from .views import MOST_ROWS, count_of, each, on_words

MOST_OBJECTS, MOST_FINDINGS, MOST_WAYS = 8, 40, 3
PRIVILEGES = ((1, "security"), (2, "take ownership"), (4, "restore"))


class Principals:
    """Answers about one principal over all objects."""

    def __init__(self, views):
        self.views, self.world, self.answers = views, views.world, views.answers
        self.kinds = {}

    @cached_property
    def titles(self):
        """What rules the domain, the root and AdminSDHolder first, and what each of it is."""
        return ruling(self.world, self.views.accounts)

    def ruled(self):
        """What rules the domain, with its place in the order in which it is looked at."""
        return {number: place for place, number in enumerate(self.titles)}

    def kinds_of(self, moment):
        """The objects by class, descriptor, whether they have an identifier and whether they are protected."""
        key = (id(moment), moment.step)
        if key not in self.kinds:
            made, protected = {}, self.views.protected
            for number, one in self.world.objects.items():
                own = bool(self.world.own(number))
                made.setdefault((one.of_class, moment.normal(number), own, number in protected), []).append(number)
            self.kinds = {key: made}
        return self.kinds[key]

    def found(self, token, moment):
        """Pairs of some objects that are alike for a token and its dangerous rights there, by rank."""
        held = {self.world.who.of_sid.get(sid) for sid in token.held} - {None}
        for (_, normal, own, protected), numbers in self.kinds_of(moment).items():
            apart = held if own and self.answers.named(normal)[1] else ()
            usual = [number for number in numbers if number not in apart] if apart else numbers
            for some in [usual, *([number] for number in numbers if apart and number in apart)]:
                if some:
                    on = self.answers.object(some[0], moment)
                    yield some, on, self.answers.ranks(on, token, protected), self.answers.dangers(on, token)

    def ranked(self, sid, moment):
        """What somebody may do, the worst first."""
        token, rows, heads = self.views.accounts.token(sid), [[] for _ in HARMS], self.ruled()
        for numbers, on, ranks, dangers in self.found(token, moment):
            for place in range(len(HARMS)):
                if ranks >> place & 1:
                    rows[place].append((numbers, on, dangers))
        made = []
        for place, found in enumerate(rows):
            if found:
                found.sort(key=lambda row: (heads.get(row[0][0], len(heads)), row[0][0] not in self.views.protected,
                                            -len(row[0]), row[0][0]))
                told = [self.row(token, place, *one) for one in found[:MOST_ROWS]]
                made.append({**self.views.rank(place), "count": sum(len(row[0]) for row in found), "rows": told,
                             "more": sum(len(row[0]) for row in found[MOST_ROWS:])})
        return made

    def row(self, token, place, numbers, on, dangers):
        """Objects that are alike for a token, its rights of one rank there, and what decides."""
        key = "members" if HARMS[place].key == "groups" else HARMS[place].key
        rights = dangers[key]
        by = dict.fromkeys(self.answers.why(on, token, question.path, bit).by for question, bits in rights
                           for bit in (list(each(bits))[:1] if key == "all" else each(bits)))
        chains = []
        entries = self.world.known.list_of(on.normal)
        for one in by:
            target = entries[one].sid if isinstance(one, int) else self.world.known.of(on.normal).owner
            chains.append([] if one == "privilege" else self.views.chain(on, token.sid, target))
        names = dict.fromkeys(on_words(question) for question, _ in rights)
        return {"objects": [self.views.brief_name(number) for number in numbers[:MOST_OBJECTS]], "count": len(numbers),
                "class": self.world.class_name(numbers[0]), "protected": numbers[0] in self.views.protected,
                "on": [] if key in ("owner", "list", "take", "all") else list(names),
                "by": [self.views.deciding(on, one) for one in by], "chains": chains}

    def principal(self, sid, moment):
        """A principal with its groups and what it may do."""
        token, accounts = self.views.accounts.token(sid), self.views.accounts
        groups = []
        for one in sorted(token.held - {sid}, key=lambda one: self.world.who.name(one).casefold()):
            chain = accounts.chain(sid, one) or []
            groups.append({**self.world.principal(one), "chain": [{**self.world.principal(up), "how": how}
                                                                 for up, how in chain]})
        words = [name for bit, name in PRIVILEGES if token.privileges & bit]
        number = self.world.who.of_sid.get(sid)
        ranked = self.ranked(sid, moment)
        return {**self.world.principal(sid), "groups": groups, "privileges": words, "ranks": ranked,
                "class": self.world.class_name(number) if number else None, "account": sid in accounts.place,
                "protected": number in self.views.protected, "objects": len(self.world.objects),
                "none": [harm.title for place, harm in enumerate(HARMS) if all(row["rank"] != place for row in ranked)]}

    def can(self, sid, number, moment):
        """All rights of somebody on an object, each with what decides; rights that the same decides stand together."""
        token, on, found = self.views.accounts.token(sid), self.answers.object(number, moment), {}
        of = self.answers.questions.of(on.of_class).lines
        for place, mask in self.answers.rights(on, token):
            question = of[place]
            path = self.views.path_of(number, question)
            for bit in each(mask):
                by = self.answers.why(on, token, path, bit).by
                found.setdefault((question.kind, bit, by), []).append(question.name)
        merged = {}
        for (kind, bit, by), names in found.items():
            merged.setdefault((kind, by, tuple(names)), []).append(bit)
        rows = []
        for (kind, by, names), bits in merged.items():
            entries = self.world.known.list_of(on.normal)
            target = entries[by].sid if isinstance(by, int) else self.world.known.of(on.normal).owner
            rows.append({"kind": kind, "names": [told(name, 200) for name in names if name],
                         "by": [self.views.deciding(on, by)], "rights": self.views.describing.rights(sum(bits)),
                         "chains": [[] if by == "privilege" else self.views.chain(on, sid, target)]})
        ranks = self.answers.ranks(on, token, number in self.views.protected)
        return {"who": self.world.principal(sid), "n": number, "name": self.world.label(number), "rows": rows,
                "ranks": [self.views.rank(place) for place in range(len(HARMS)) if ranks >> place & 1]}

    def exposed(self, moment):
        """Who besides those who are meant to rule has dangerous rights on what is protected or rules the domain, the
        worst first; and who has dangerous rights on many objects."""
        accounts, made = self.views.accounts, []
        inside, heads = rulers(self.world, accounts), self.titles
        for number in sorted(self.views.protected | heads.keys()):
            on = self.answers.object(number, moment)
            by_rank, names, itself = {}, {}, 1 << accounts.place[on.own] if on.own in accounts.place else 0
            for mask, token in self.answers.split(on, accounts):
                first, mask = worst(self.answers.ranks(on, token, True)), mask & ~inside & ~itself
                if first < len(HARMS) and mask:
                    by_rank[first] = by_rank.get(first, 0) | mask
                    names.setdefault(first, {}).update(self.names(on, token, first))
            made += [(place, number, mask, list(names[place])) for place, mask in by_rank.items()]
        made.sort(key=lambda row: (row[0], -count_of(row[2]), row[1]))
        return {"count": len(made), "heads": len(heads), "many": many(self, moment, inside), "rows": [
            {**self.views.rank(place), **self.views.brief_name(number), "class": self.world.class_name(number),
             "is": heads.get(number), "accounts": count_of(mask), "first": self.views.few(mask),
             "names": names[:MOST_WAYS], "more": len(names) > MOST_WAYS}
            for place, number, mask, names in made[:MOST_FINDINGS]]}

    def names(self, on, token, place):
        """The attributes by which somebody has a right of a rank on an object, in a dictionary's keys."""
        rights = self.answers.dangers(on, token).get(HARMS[place].key, [])
        return {told(question.name, 200): None for question, _ in rights if question.kind == "attribute"}
