"""Chains of control in words: who comes to control an object, what a principal comes to control, and which chains a
what-if cuts and makes. The chains are the program's; the library says by which right and which entry a step goes."""

from functools import cached_property

from adsd_tools.audit.ruling import EVERYWHERE, OF_DOMAIN
from adsd_tools.audit.told import command
from adsd_tools.control import MEMBER, WORD, does
from adsd_tools.forms.rights import RIGHTS
from adsd_tools.forms.sids import sid_of_text, text_of_sid
from adsd_tools.ldap.accounts import below
from adsd_tools.shown import shown, text_of

from .ruling import called
from .texts import told as brief

MOST_CHAINS, MOST_MEMBERS, MOST_OTHERS = 60, 6, 12
ACT = "msDS-AllowedToActOnBehalfOfOtherIdentity"
# The questions of each kind, as the program takes them, with kind, name and code of the right that each is about.
ASKS = {
    "descriptor": (("WD", "object", "", "WD"), ("WO", "object", "", "WO")),
    "reset": (("reset", "right", "User-Force-Change-Password", "CR"),),
    "join": (("write:member", "attribute", "member", "WP"), ("join", "validated", "Self-Membership", "SW")),
    "key": (("write:msDS-KeyCredentialLink", "attribute", "msDS-KeyCredentialLink", "WP"),
            ("write:altSecurityIdentities", "attribute", "altSecurityIdentities", "WP")),
    "act": ((f"write:{ACT}", "attribute", ACT, "WP"),),
    "secret": tuple((f"read:{name}", "attribute", name, "RP")
                    for name in ("ms-Mcs-AdmPwd", "msLAPS-Password", "msLAPS-EncryptedPassword")),
    "replicate": (("CR:DS-Replication-Get-Changes-All", "right", "DS-Replication-Get-Changes-All", "CR"),),
    "link": (("write:gPLink", "attribute", "gPLink", "WP"),),
}


class Chains:
    """Answers about chains, by what the program tells."""

    def __init__(self, principals, asking, source, now):
        self.principals, self.asking, self.source, self.now = principals, asking, source, now
        self.views, self.world, self.answers = principals.views, principals.world, principals.answers

    @cached_property
    def by_name(self):
        return {shown(text_of(name)): number for number, name in self.world.names.items()}

    @cached_property
    def heads(self):
        """The identifiers of those who are meant to rule."""
        domain = [below(self.world.own_sid(1), rid) for rid in OF_DOMAIN] if self.world.own(1) else []
        return {bytes(sid) for sid in (*map(sid_of_text, EVERYWHERE), *domain) if sid}

    def is_inside(self, sid):
        return bool(self.views.accounts.token(sid).held & self.heads)

    # ---- what is asked

    def name_of(self, number):
        return self.world.names[number]

    def control_of(self, number, frames=()):
        return self.asking.told(WORD[False], self.name_of(number), frames)

    def line(self, *words):
        return command(list(words), self.source)

    # ---- steps

    def node(self, told, place):
        """A node as the page has it."""
        one = told.nodes[place]
        number, sid = self.by_name.get(one.name) if one.name else None, one.sid
        if number is None:
            return {"n": None, "sid": sid, "name": self.world.who.name(sid_of_text(sid)) if sid else one.name}
        name = self.world.first_part(1) if number == 1 else self.world.label(number)
        if self.world.class_name(number) == "groupPolicyContainer":
            name = called(self.world, number)
        return {"n": number, "sid": sid or None, "name": name}

    def is_group(self, number):
        return number is not None and self.world.class_name(number).lower() == "group"

    def steps(self, told, links):
        return [self.step(told, one) for one in links]

    def whole(self, told, place):
        """The steps of the chain from a place; none where there is no place."""
        return [] if place is None else self.steps(told, told.chain(place))

    def step(self, told, one):
        """A step: what it does in words, the right by which, what decides, and the line that asks it again."""
        begin, end = self.node(told, one.begin), self.node(told, one.end)
        made = {"kind": one.kind, "does": does(one.kind, self.is_group(end["n"])), "from": begin, "to": end}
        found = self.right_of(one.kind, begin["sid"], end["n"]) if begin["sid"] and end["n"] else None
        if found:
            number, asks, right = found
            made.update(n=number, right=right, ask=self.line("who", asks, shown(text_of(self.name_of(number)))))
        elif one.kind == MEMBER:
            made["ask"] = self.line("token", begin["sid"])
        place = one.decides
        if place.isdigit() or place in ("owner", "privilege"):
            on = self.answers.object(end["n"], self.now)
            made["by"] = self.views.deciding(on, int(place) - 1 if place.isdigit() else place)
        return made

    def right_of(self, kind, sid, number):
        """The first right of a kind that somebody has on an object, or for a policy's link on one above it: the object,
        the question, and the right as the page asks for it."""
        token = self.views.accounts.token(sid_of_text(sid))
        for one in self.world.above(number)[::-1] if kind == "link" else [number]:
            on = self.answers.object(one, self.now)
            lines = self.answers.questions.of(on.of_class).lines
            for asks, of, name, code in ASKS.get(kind, ()):
                question = next((line for line in lines if (line.kind, line.name.lower()) == (of, name.lower())), None)
                bits = RIGHTS[code]
                if question is not None and question.bits & bits and self.answers.has(on, token, question, bits):
                    return one, asks, [of, brief(question.name), code]
        return None

    def add_rights(self, targets):
        """Says of the steps to some targets by which right each goes."""
        steps = [step for target in targets for one in target["control"] for step in one["steps"]]
        for step in steps:
            if "right" not in step:
                begin, end = step["from"], step["to"]
                found = self.right_of(step["kind"], begin["sid"], end["n"]) if begin["sid"] and end["n"] else None
                step["n"], step["right"] = (found[0], found[2]) if found else (None, None)

    # ---- who comes to control an object

    def of_object(self, number):
        """Who comes to control an object, by chains: those that begin alike stand together, with who is in the group
        that begins."""
        told = self.control_of(number)
        if not hasattr(told, "steps"):
            return {"ready": told is not None, "why": told}
        rows, inside, count = self.rows(told)
        accounts = sum(sid_of_text(told.nodes[place].sid) in self.views.accounts.place
                       for row in rows for place in (row[0], *row[2]) if place != told.asked)
        return {"ready": True, "identities": count, "accounts": accounts, "inside": inside, "group": self.is_group(number),
                "rows": [self.row(told, *row) for row in rows[:MOST_CHAINS]], "more": len(rows[MOST_CHAINS:]),
                "ask": self.line(WORD[False], shown(text_of(self.name_of(number))))}

    def rows(self, told):
        """Who takes the same first step, with its length: first whom the entry names that decides, and then who has it
        by him. Those who are meant to rule are counted alone. And how many there are without them."""
        found, inside = {}, 0
        for place in told.identities():
            if self.is_inside(sid_of_text(told.nodes[place].sid)):
                inside += 1
                continue
            lead = place
            while lead in told.steps and told.steps[lead].kind == MEMBER:
                lead = told.steps[lead].end
            step = told.steps.get(lead)
            key = (step.kind, step.end, step.decides) if step and step.decides != "-" else lead
            found.setdefault(key, {})[place] = lead
        made = [self.led(told, leads) for leads in found.values()]
        made.sort(key=lambda row: (row[1], -len(row[2]), row[0]))
        return made, inside, sum(map(len, found.values()))

    def led(self, told, leads):
        """Of some that take the same first step: who is told as taking it, the length, and the others."""
        first = next(iter(leads.values()))
        named = self.named_by(told, told.steps[first]) if first in told.steps else None
        lead = next((place for place in leads.values() if told.nodes[place].sid == named), first)
        return lead, told.lengths.get(lead, 0), [place for place in leads if place != lead]

    def named_by(self, told, step):
        """The identifier for which a step's entry is, or which owns the object."""
        number = self.by_name.get(told.nodes[step.end].name)
        if number is None:
            return None
        normal, decides = self.now.normal(number), step.decides
        if decides.isdigit():
            return text_of_sid(self.world.known.list_of(normal)[int(decides) - 1].sid)
        return text_of_sid(self.world.known.of(normal).owner) if decides == "owner" else None

    def row(self, told, lead, length, members):
        """A chain as the page has it; of who is meant by a group the first ones."""
        return {"who": self.node(told, lead), "length": length, "steps": self.steps(told, told.chain(lead)),
                "members": [self.node(told, place) for place in members[:MOST_MEMBERS]], "count": len(members)}

    # ---- what a principal comes to control

    def of_principal(self, sid):
        """What somebody comes to control: first what rules the domain and is protected, each with its chain; then the
        nearest of what else. What is come to by way of the root alone is counted."""
        number = self.world.who.of_sid.get(bytes(sid))
        name = text_of_sid(sid).encode() if number is None else self.name_of(number)
        told = self.asking.told(WORD[True], name)
        if not hasattr(told, "steps"):
            return {"ready": told is not None, "why": told}
        heads, protected = self.principals.ruled(), self.views.protected
        found = [(self.by_name.get(told.nodes[place].name), place) for place in told.steps]
        root = next((place for one, place in found if one == 1), None)
        direct = [(one, place) for one, place in found if one is not None
                  and (place == root or all(step.begin != root for step in told.chain(place)))]
        rank = {one: (heads.get(one, len(heads)), one not in protected) for one, _ in direct}
        direct.sort(key=lambda pair: (rank[pair[0]], told.lengths[pair[1]], pair[0]))
        first = [pair for pair in direct if pair[0] in heads or pair[0] in protected]
        others = [pair for pair in direct if pair not in set(first)]
        others.sort(key=lambda pair: (told.lengths[pair[1]], not self.world.own(pair[0]), pair[0]))
        return {"ready": True, "targets": [self.reached(told, *pair) for pair in first[:MOST_CHAINS]],
                "more": len(first[MOST_CHAINS:]),
                "others": [self.reached(told, *pair) for pair in others[:MOST_OTHERS]],
                "count": len(others), "all": len(found) if root is not None else 0,
                "ask": self.line(WORD[True], shown(text_of(name)))}

    def reached(self, told, number, place):
        titles = self.principals.titles
        return {"to": self.node(told, place), "is": titles.get(number, self.world.class_name(number)),
                "length": told.lengths[place], "steps": self.steps(told, told.chain(place))}

    # ---- what a what-if cuts and makes

    def targets_of(self, plan):
        """The objects of which a what-if tells who comes to control them: the root, AdminSDHolder, controllers, and the
        accounts and groups that it changes."""
        changed = [change["n"] for change in plan.changes if "n" in change]
        of = [*list(self.principals.ruled())[:4], *(one for one in changed if self.world.own(one))]
        return list(dict.fromkeys(of))[:8]

    def cuts(self, plan, number):
        """Who comes to control an object before a what-if and at its end, and which chains differ."""
        sides = [self.control_of(number), self.control_of(number, plan.settled)]
        why = next((side for side in sides if isinstance(side, str)), None)
        if why is not None or None in sides:
            return {"ready": why is not None, "why": why}
        before, after = sides
        ends = [{told.nodes[place].sid: place for place in told.identities()
                 if not self.is_inside(sid_of_text(told.nodes[place].sid))} for told in sides]
        rows = []
        for sid in dict.fromkeys([*ends[0], *ends[1]]):
            had, has = (of.get(sid) for of in ends)
            lengths = before.lengths.get(had), after.lengths.get(has)
            if lengths[0] != lengths[1]:
                rows.append({"who": self.node(after, has) if had is None else self.node(before, had),
                             "before": lengths[0], "after": lengths[1], "cut": self.whole(before, had),
                             "made": self.whole(after, has)})
        rows.sort(key=lambda row: (row["after"] is not None, row["before"] is None))
        node = self.node(before, before.asked)
        return {"ready": True, "to": node, "before": len(ends[0]), "after": len(ends[1]), "rows": rows[:MOST_CHAINS],
                "more": len(rows[MOST_CHAINS:])}
